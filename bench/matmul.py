#!/usr/bin/env python3
"""Measures `matmul` on a job of two square matrices, or holds its answers against a model.

usage: bench/matmul.py [--side N] [--check] [--repeats N] [--beside-rust] PROGRAM [PROGRAM ..]
       bench/matmul.py --compare COUNT [--seed N] PROGRAM
       bench/matmul.py --ready

The job has matrices of N rows and columns over "65537" and a script of draws. With --check the rounds that the first program
builds are handed in. Each PROGRAM is a command line, to which the word `matmul` is appended; what is shown is as in
`bench/audit.py`. With --beside-rust the plain loops of bench/matmul.rs are compiled, and run beside the first program on a
build: the answers have to be the same. Shown are instructions, counted by valgrind where it is there, else processor time; the work is the
whole run less a run on the same job at a difficulty that is refused, which reads the job and does no more.

With --compare, COUNT random jobs over all fields are answered by the program and by bench/matrices.py, which sums over all
bits: sides of 1 to 8, true and false entries, built and checked, under both challengers, with tests and without; points and
rounds that are lucky on purpose, broken proofs, sides that do not fit, and members that are not of their form
(tools/forms.py). Status and text have to be the same. --ready holds the texts of the ready jobs against the model.
"""
import copy, os, random, sys

sys.path.insert(0, os.path.join(os.path.dirname(os.path.abspath(__file__)), "..", "tools"))
import fields, matrices
from modelled import Modelled, element


# ---- random jobs

def lucky_error(rng, base, point, count):
    """A list that is not zero, of numbers of the base field, and vanishes at a point as coefficients; none where there is no such list."""
    size, scale = base.size, rng.randrange(1, base.size)
    a, b = point % size, point // size
    pattern = [base.sub(0, a), 1] if b == 0 else [base.sub(base.mul(a, a), base.mul(3, base.mul(b, b))), base.sub(0, base.add(a, a)), 1]
    if count < len(pattern):
        return None
    start = rng.randrange(count - len(pattern) + 1)
    error = [0] * count
    error[start:start + len(pattern)] = [base.mul(scale, x) for x in pattern]
    return error


def falsified(rng, job, field, base):
    """The job with false entries, some of them of which the drawn point makes nothing."""
    rows, cols = len(job["claimed"]), len(job["claimed"][0])
    error = None
    if job["challenger"] != "hash" and rng.random() < 0.3:
        error = lucky_error(rng, base, matrices.Play(job, field, base).point, rows * cols)
    if error is None:
        error = [rng.randrange(base.size) if rng.random() < 0.3 else 0 for _ in range(rows * cols)]
    added = [error[i * cols:(i + 1) * cols] for i in range(rows)]
    return job | {"claimed": [list(map(base.add, *them)) for them in zip(job["claimed"], added)]}


def turning(rng, field, true, claim, r):
    """Two values of a polynomial that is that of a false claim, and the true one at the challenge; or none."""
    double = field.sub(1, field.add(r, r))
    excess = field.sub(claim, field.add(true[0], fields.total(field, true)))
    if double == 0:
        slope, lead = rng.randrange(field.size), field.mul(excess, fields.inverse(field, field.sub(1, r)))
    else:
        lead = rng.choice([0, rng.randrange(field.size)])
        slope = field.mul(field.sub(excess, field.mul(lead, field.sub(1, r))), fields.inverse(field, double))
    return [field.sub(true[0], field.mul(r, slope)), field.add(true[2], lead)]


def next_draw(play, pair):
    """The challenge of a round that sends this pair, where no test stands before it."""
    ahead = copy.deepcopy(play.transcript)
    for x in pair:
        ahead.observe(x)
    return ahead.draw()


def chosen(rng, play, number, true, claim):
    """What a round sends: the true pair, one that turns the claim, or any."""
    field, honest = play.field, [true[0], true[2]]
    kind = rng.random()
    if kind < 0.4:
        return honest
    if kind < 0.5:
        return [element(rng, field.size), element(rng, field.size)] if rng.random() < 0.3 else [honest[0], field.add(honest[1], 1)]
    if play.job["challenger"] != "hash":
        return turning(rng, field, true, claim, next_draw(play, honest))
    for _ in range(40 if field.size == 16 and not play.bits else 0):
        pair = [rng.randrange(16), rng.randrange(16)]
        if pair == turning(rng, field, true, claim, next_draw(play, pair)):
            return pair
    return honest


def proof_for(rng, job, field, base):
    """A proof of the job: honest or with false rounds, and some with too many or too few of something."""
    play = matrices.Play(job, field, base)
    fair = rng.random() < 0.5
    play.play(None if fair else lambda i, true, claim: chosen(rng, play, i, true, claim))
    proof = {"rounds": play.rounds, "witnesses": play.witnesses}
    kind = rng.random()
    if kind < 0.03:
        proof["rounds"] = proof["rounds"] + [[1, 2]] if rng.random() < 0.5 else proof["rounds"][1:]
    elif kind < 0.06:
        proof["witnesses"] = proof["witnesses"] + [1] if rng.random() < 0.5 else proof["witnesses"][1:]
    elif kind < 0.15 and proof["witnesses"]:
        proof["witnesses"][rng.randrange(len(proof["witnesses"]))] = element(rng, base.size)
    return {"check": proof}


def odd_sides(rng, job):
    """The job with one matrix of other sides."""
    name, base = rng.choice(matrices.MATRICES), matrices.fields_of(job)[1]
    rows, cols = (rng.choice([1, 2, 3, 4, 5, 8, 130 if rng.random() < 0.2 else 6, 256 if rng.random() < 0.2 else 7]) for _ in range(2))
    return job | {name: [[rng.randrange(base.size) for _ in range(cols)] for _ in range(rows)]}


def random_job(rng):
    """A job that is of its form."""
    name = rng.choices(["65537", "257x2", "16"], [40, 30, 30])[0]
    field, base = matrices.fields_of({"field": name})
    rows, inner, cols = (rng.choices([1, 2, 4, 8], [25, 40, 25, 10])[0] for _ in range(3))
    left, right = ([[element(rng, base.size) for _ in range(n)] for _ in range(m)] for m, n in ((rows, inner), (inner, cols)))
    rounds = inner.bit_length() - 1
    script = {"draws": [element(rng, base.size) for _ in range(rng.choice([2 * rounds + 2, rng.randint(0, 2 * rounds + 2)]))],
              "witnesses": [[element(rng, base.size) for _ in range(rng.choice([0, 1, 1, 2, 2, 3, 3, 3]))] for _ in range(rng.choice([rounds, rounds, rng.randint(0, rounds + 1)]))]}
    if name == "257x2" and rng.random() < 0.5:
        script["draws"][1:2] = [0]
    job = {"field": name, "challenger": "hash" if rng.random() < 0.35 else script,
           "bits": rng.choice([0, 0, 0, 1, 2, 5, 8, 17 if rng.random() < 0.1 else 0]), "left": left, "right": right,
           "claimed": matrices.product_of(base, left, right), "mode": "build"}
    if job["bits"] == 17:
        return job
    if rng.random() < 0.6:
        job = falsified(rng, job, field, base)
    if rng.random() < 0.75:
        job["mode"] = proof_for(rng, job, field, base)
    return odd_sides(rng, job) if rng.random() < 0.08 else job


# ---- figures

def measured_job(side):
    rng, base = random.Random(side), fields.FIELDS["65537"]
    left, right = ([[rng.randrange(base.size) for _ in range(side)] for _ in range(side)] for _ in range(2))
    claimed = [[sum(map(int.__mul__, row, column)) % base.size for column in zip(*right)] for row in left]
    return f"matrices of {side} rows and columns", {
        "field": "65537", "challenger": {"draws": [rng.randrange(base.size) for _ in range(8)], "witnesses": []}, "bits": 0,
        "left": left, "right": right, "claimed": claimed, "mode": "build"}


if __name__ == "__main__":
    Modelled("matmul", matrices.answer, random_job).main(__doc__, {"side": 128}, measured_job)
