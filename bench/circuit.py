#!/usr/bin/env python3
"""Measures `circuit` on a job of one or more layers, or holds its answers against a model.

usage: bench/circuit.py [--gates N] [--layers D] [--check] [--repeats N] [--beside-rust] PROGRAM [PROGRAM ..]
       bench/circuit.py --compare COUNT [--seed N] PROGRAM
       bench/circuit.py --ready

The job has D layers of N gates, half of them products, over N inputs of "65537", and a script of draws. With --check the
proof that the first program builds is handed in. Each PROGRAM is a command line, to which the word `circuit` is appended;
what is shown is as in `bench/audit.py`. With --beside-rust the plain loops of bench/circuit.rs are compiled, and run beside
the first program on a build, as in `bench/matmul.py`.

With --compare, COUNT random jobs over all fields are answered by the program and by bench/layered.py, which sums over all
bits: 1 to 4 layers of 1 to 8 gates, true and false outputs, built and checked, under both challengers, with tests and
without; merges and rounds that are lucky on purpose, broken proofs, circuits that do not fit, and members that are not of
their form (tools/forms.py). Status and text have to be the same. --ready holds the texts of the ready jobs against the model.
"""
import copy, json, os, random, sys

sys.path.insert(0, os.path.join(os.path.dirname(os.path.abspath(__file__)), "..", "tools"))
import fields, layered
from masked import polynomial
from matmul import lucky_error
from modelled import Modelled, element


# ---- provers of false outputs

def ahead(play, numbers):
    """The draw that comes after these elements, where no test stands before it."""
    transcript = copy.deepcopy(play.transcript)
    for x in numbers:
        transcript.observe(x)
    return transcript.draw()


def turning(rng, field, true, claim, r):
    """Two values of a polynomial that is that of a false claim, and the true one at the challenge."""
    double = field.sub(1, field.add(r, r))
    excess = field.sub(claim, field.add(polynomial(field, true, 0), polynomial(field, true, 1)))
    if double == 0:
        slope, lead = rng.randrange(field.size), field.mul(excess, fields.inverse(field, field.sub(1, r)))
    else:
        lead = rng.choice([0, rng.randrange(field.size)])
        slope = field.mul(field.sub(excess, field.mul(lead, field.sub(1, r))), fields.inverse(field, double))
    added = [field.sub(0, field.mul(r, slope)), field.sub(slope, field.mul(r, lead)), lead]
    return [polynomial(field, list(map(field.add, true, added)), x) for x in (0, 2)]


class Crafty(layered.Honest):
    """A prover that sends true rounds and values, wrong ones, and such that turn a false claim into the true one."""
    def __init__(self, rng):
        self.rng = rng

    def values(self, play, layer, number, true, claim):
        rng, field, honest = self.rng, play.field, super().values(play, layer, number, true, claim)
        kind = rng.random()
        if kind < 0.5:
            return honest
        if kind < 0.6:
            return [element(rng, field.size) for _ in honest] if rng.random() < 0.3 else [honest[0], field.add(honest[1], 1)]
        if play.job["challenger"] != "hash":
            return turning(rng, field, true, claim, ahead(play, honest))
        for _ in range(40 if field.size == 16 and not play.bits else 0):
            sent = [rng.randrange(16), rng.randrange(16)]
            r = ahead(play, sent)
            if polynomial(field, layered.sent_polynomial(field, claim, sent), r) == polynomial(field, true, r):
                return sent
        return honest

    def ends(self, play, layer, over, points, claim, true):
        rng, field, (sums, products) = self.rng, play.field, over.gates_at(points)
        if claim == over.at(points, *true):
            if rng.random() < 0.85:
                return true
            return self.agreeing(field, sums, products, claim, element(rng, field.size)) or true
        kind = rng.random()
        if kind < 0.15:
            return true if rng.random() < 0.5 else (element(rng, field.size), element(rng, field.size))
        found = self.lucky(play, sums, products, claim, true) if kind < 0.6 else None
        return found or self.agreeing(field, sums, products, claim, rng.choice([true[0], element(rng, field.size)])) or true

    @staticmethod
    def agreeing(field, sums, products, claim, left):
        """A pair with this left value that agrees with the rounds, if there is one."""
        slope = field.add(sums, field.mul(products, left))
        if slope == 0:
            return None
        return left, field.mul(field.sub(claim, field.mul(sums, left)), fields.inverse(field, slope))

    def lucky(self, play, sums, products, claim, true):
        """A pair that agrees with the rounds and is merged to the true claim, where it is found."""
        field, (left, right) = play.field, true
        if play.job["challenger"] == "hash":
            for start in range(16 if field.size == 16 else 0):
                pair = self.agreeing(field, sums, products, claim, start)
                if pair and field.add(pair[0], field.mul(ahead(play, pair), pair[1])) == field.add(left, field.mul(ahead(play, pair), right)):
                    return pair
            return None
        merge = ahead(play, true)
        mul, add, sub = field.mul, field.add, field.sub
        poly = [sub(add(mul(sums, add(left, right)), mul(products, mul(left, right))), claim),
                add(mul(sums, sub(1, merge)), mul(products, sub(left, mul(merge, right)))), sub(0, mul(products, merge))]
        if poly[2] == 0:
            roots = [sub(0, mul(poly[0], fields.inverse(field, poly[1])))] if poly[1] else []
        else:
            roots = (x for x in range(field.size if field.size == 16 or self.rng.random() < 0.3 else 0) if polynomial(field, poly, x) == 0)
        return next(((sub(left, mul(merge, x)), add(right, x)) for x in roots), None)


# ---- random jobs

def proof_for(rng, job):
    """A proof of the job: honest or crafty, and some with too many or too few of something."""
    layers = layered.Play(job, layered.Honest() if rng.random() < 0.4 else Crafty(rng)).play().layers
    layers += [{"rounds": [], "witnesses": []}] * (len(job["layers"]) - len(layers))
    layers = [{"left": 0, "right": 0} | it for it in json.loads(json.dumps(layers))]
    kind, some = rng.random(), rng.choice(layers)
    size = fields.FIELDS[job["field"]].base_size
    if kind < 0.02:
        layers = layers + layers[:1] if rng.random() < 0.5 else layers[1:]
    elif kind < 0.05:
        some["rounds"] = some["rounds"] + [[1, 2]] if rng.random() < 0.5 else some["rounds"][1:]
    elif kind < 0.08:
        some["witnesses"] = some["witnesses"] + [1] if rng.random() < 0.5 else some["witnesses"][1:]
    elif kind < 0.11 and some["rounds"]:
        some["rounds"][rng.randrange(len(some["rounds"]))] = [1] * rng.choice([0, 1, 3])
    elif kind < 0.2 and some["witnesses"]:
        some["witnesses"][rng.randrange(len(some["witnesses"]))] = element(rng, size)
    elif kind < 0.24:
        some[rng.choice(["left", "right"])] = element(rng, size)
    return {"check": {"layers": layers}}


def misfitting(rng, job):
    """The job with a circuit, or outputs, that do not fit."""
    layers = json.loads(json.dumps(job["layers"]))
    some = rng.choice(layers)
    kind = rng.randrange(6)
    if kind == 0:
        layers = [] if rng.random() < 0.5 else [[[1, 0, 0]]] * rng.choice([31, 32, 33, 34])
    elif kind == 1:
        some.append([0, 0, 0])
    elif kind == 2:
        some[rng.randrange(len(some))][rng.choice([1, 2])] = rng.choice([2, 8, 65535])
    elif kind == 3:
        return job | {"inputs": job["inputs"] + [1] * rng.choice([1, 2, 3, 512 if rng.random() < 0.2 else 1])}
    elif kind == 4:
        return job | {"outputs": job["outputs"][1:] if rng.random() < 0.5 else job["outputs"] * 2}
    else:
        some.clear()
    return job | {"layers": layers}


def falsified(rng, job, base):
    """The job with false outputs, some of them of which the first draw makes nothing."""
    outputs, error = job["outputs"], None
    if job["challenger"] != "hash" and rng.random() < 0.3:
        error = lucky_error(rng, base, layered.Play(job).drawn, len(outputs))
    if error is None:
        error = [rng.randrange(base.size) if rng.random() < 0.5 else 0 for _ in outputs]
    return job | {"outputs": list(map(base.add, outputs, error))}


def random_job(rng):
    """A job that is of its form."""
    name = rng.choices(["65537", "257x2", "16"], [40, 30, 30])[0]
    field, base = layered.fields_of({"field": name})
    sizes = [rng.choices([1, 2, 4, 8], [25, 40, 30, 5])[0] for _ in range(rng.choices([2, 3, 4, 5], [40, 35, 15, 10])[0])]
    share = rng.choice([0, 0.5, 0.5, 1])
    layers = [[[int(rng.random() < share), rng.randrange(below), rng.randrange(below)] for _ in range(size)] for size, below in zip(sizes, sizes[1:])]
    inputs = [element(rng, base.size) for _ in range(sizes[-1])]
    rounds = sum(2 * (size.bit_length() - 1) for size in sizes[1:])
    draws = field.size // base.size * (rounds + len(layers) + 1) if name != "257x2" else 2 * (rounds + len(layers) + 1)
    script = {"draws": [element(rng, base.size) for _ in range(rng.choice([draws, draws, rng.randint(0, draws)]))],
              "witnesses": [[element(rng, base.size) for _ in range(rng.choice([0, 1, 2, 2, 3, 3, 3, 3]))] for _ in range(rng.choice([rounds, rounds, rng.randint(0, rounds + 1)]))]}
    job = {"field": name, "challenger": "hash" if rng.random() < 0.35 else script, "bits": rng.choice([0, 0, 0, 0, 1, 2, 5, 17 if rng.random() < 0.1 else 0]),
           "inputs": inputs, "layers": layers, "outputs": layered.values_of(base, layers, inputs)[0], "mode": "build"}
    if job["bits"] == 17:
        return job
    if rng.random() < 0.65:
        job = falsified(rng, job, base)
    if rng.random() < 0.8:
        job["mode"] = proof_for(rng, job)
    return misfitting(rng, job) if rng.random() < 0.08 else job


# ---- figures

def measured_job(gates, depth):
    rng, base = random.Random(gates), fields.FIELDS["65537"]
    layers = [[[i % 2, rng.randrange(gates), rng.randrange(gates)] for i in range(gates)] for _ in range(depth)]
    inputs = [rng.randrange(base.size) for _ in range(gates)]
    draws = [rng.randrange(base.size) for _ in range(depth * (2 * gates.bit_length() + 1))]
    return f"{depth} layers of {gates} gates", {
        "field": "65537", "challenger": {"draws": draws, "witnesses": []}, "bits": 0, "inputs": inputs, "layers": layers,
        "outputs": layered.values_of(base, layers, inputs)[0], "mode": "build"}


if __name__ == "__main__":
    Modelled("circuit", layered.answer, random_job).main(__doc__, {"gates": 256, "layers": 1}, measured_job)
