#!/usr/bin/env python3
"""Runs the program on odd inputs, and holds every answer against docs/FORMATS.md and against itself.

usage: bench/fuzz.py [--mutations N] [--proofs N] [--seed S] [--library LIBRARY] PROGRAM      (Python 3.11, and nothing else)

Mutations: a ready job of jobs/ is changed byte by byte, and value by value, and answered. Each answer has to be one of the texts of
docs/FORMATS.md, with its status, and nothing else may be written; it is `bad-json` or names a member exactly where the readers of
tools/ find that the text is no JSON, or no job; and what a report tells has to agree with itself (bench/certified.py).

Proofs: a ready build is made anew from random numbers, and what it prints is handed in, which has to be accepted with the same lines.
Then one number is changed, in the proof or in what is claimed, and at last a round is made by hand that lets the false claim
through at a challenge which is known: the program has to name that round, and show the difference of the two polynomials.

With a LIBRARY, which is libsumcheck_c.a, each of these jobs is answered by `tunaprow_reply` too, by the same status and text.

The seed is printed. Every finding is shown with its input, and the status is then 1.
"""
import argparse, collections, glob, json, os, random, shlex, subprocess, sys, tempfile

sys.path.insert(0, os.path.join(os.path.dirname(os.path.abspath(__file__)), "..", "tools"))
import answers, certified, fields, forms, program, proof_of, scan
from library import Library
from modelled import mutated, places
from measured import wants

JOBS = os.path.join(os.path.dirname(os.path.abspath(__file__)), "..", "jobs")
STATUSES = {"refused": 3, "proof-refused": 4, "no-witness": 5}
SECONDS = 60


class Finding(Exception):
    """An answer that is not what it has to be."""


def command_of(path):
    """The command of a ready job: its name begins with the word, if that is not `audit`."""
    name = os.path.basename(path)
    return next((word for word in program.COMMANDS if name.startswith(word)), "audit")


def ready():
    """The ready jobs."""
    return [path for path in sorted(glob.glob(os.path.join(JOBS, "*.json"))) if not path.endswith("schema.json")]


class Answers:
    """The answers of a program, each held against the table of statuses and texts, and against the library's where there is one."""

    def __init__(self, command_line, library):
        self.command_line, self.library, self.kinds = command_line, library, collections.Counter()

    def to(self, command, data):
        """The status, the text and what it tells."""
        try:
            ran = subprocess.run(self.command_line + [command], input=data, capture_output=True, timeout=SECONDS)
        except subprocess.TimeoutExpired:
            raise Finding(f"no answer in {SECONDS} seconds") from None
        if ran.stderr:
            raise Finding(f"standard error: {ran.stderr[:200]}")
        if self.library and self.library.reply(command, data) != (ran.returncode, ran.stdout):
            raise Finding(f"the library answers otherwise: {self.library.reply(command, data)} beside {ran.returncode, ran.stdout}")
        text = ran.stdout.decode("ascii", errors="replace")
        try:
            told = answers.read(text)
        except answers.Unknown as line:
            raise Finding(f"no line of a report: {line}") from None
        wanted = STATUSES.get(told["outcome"], 0 if told.get("verdict", "holds") == "holds" else 1)
        if ran.returncode != wanted or told["outcome"] in ("usage", "nothing"):
            raise Finding(f"status {ran.returncode} with this text: {text[:200]}")
        self.kinds[" ".join([command, told["outcome"], *(str(told[name]) for name in ("cause", "fault", "verdict") if name in told)])] += 1
        return ran.returncode, text, told


# ---- mutations

def number(rng):
    return rng.choice([b"0", b"1", b"-1", b"-0", b"1.0", b"1e2", b"1e999", b"65537", b"66049", b"18446744073709551616", b"00", b"1" * 400])


def other_bytes(rng, data):
    """Some bytes with one change."""
    at, end = sorted(rng.randrange(len(data) + 1) for _ in range(2))
    end = min(end, at + rng.choice([1, 4, 40]))
    change = rng.randrange(7)
    if change == 0:
        return data[:at]
    if change == 1:
        return data[:at] + data[end:]
    if change == 2:
        return data[:at] + data[at:end] * 2 + data[end:]
    if change == 3:
        return data[:at] + bytes([rng.randrange(256)]) + data[at + 1:]
    if change == 4:
        return data[:at] + rng.choice([b"[", b"]", b"{", b"}", b",", b":", b'"', b"\\u12", b"\\ud800", b"\xef\xbb\xbf", b"\x00", b" ", b"null"]) + data[at:]
    if change == 5:
        return data[:at] + number(rng) + data[end:]
    return data[:at] + b"[" * rng.choice([1, 100, 130, 5000]) + data[at:]


def other_number(rng, job):
    """A job with another number in the place of one."""
    job = json.loads(json.dumps(job))
    ways = [way for way in places(job)]
    rng.shuffle(ways)
    for *way, last in ways:
        owner = job
        for it in way:
            owner = owner[it]
        if isinstance(owner[last], int) and not isinstance(owner[last], bool):
            owner[last] = rng.choice([0, 1, owner[last] + 1, max(0, owner[last] - 1), rng.randrange(16), rng.randrange(65537)])
            break
    return job


def other_length(rng, job):
    """A job with a list that has lost an item, or has one twice."""
    job = json.loads(json.dumps(job))
    lists = [way for way in places(job)]
    rng.shuffle(lists)
    for way in lists:
        it = job
        for name in way:
            it = it[name]
        if isinstance(it, list) and it:
            at = rng.randrange(len(it))
            it[at:at + 1] = rng.choice([[], [it[at], it[at]]])
            break
    return job


def mutation(rng, data):
    """The bytes of a job after a few changes."""
    for _ in range(rng.choice([1, 1, 1, 2, 3])):
        change = rng.random()
        try:
            job = json.loads(data)
        except (ValueError, RecursionError):
            job = None
        if change < 0.4 or not isinstance(job, dict) or not job:
            data = other_bytes(rng, data) if data else b"{}"
        else:
            data = json.dumps(rng.choice([mutated, other_number, other_length])(rng, job)).encode()
    return data


def misread(command, data):
    """What the readers of tools/ say of some bytes before a job is answered: the line of a refusal, or none."""
    try:
        value = scan.read(data)
    except scan.Fault:
        return "refused bad-json\n"
    found = forms.misfit(value, command)
    return f"refused bad-job {found[0]}\n" if found else None


def hold_mutation(told_by, command, data):
    status, text, told = told_by.to(command, data)
    wanted = misread(command, data)
    read = text if text.startswith(("refused bad-json", "refused bad-job")) else None
    if read != wanted:
        raise Finding(f"the readers say {wanted!r}, the program {text[:200]!r}")
    if told["outcome"] == "report" and "masks" not in told:
        certified.verify(command, json.loads(data), told)


def mutations(told_by, rng, count):
    texts = [(command_of(path), open(path, "rb").read()) for path in ready()]
    for _ in range(count):
        command, data = rng.choice(texts)
        data = mutation(rng, data)
        yield command, data, lambda: hold_mutation(told_by, command, data)


# ---- proofs

def renewed(rng, job):
    """The job with random numbers in the place of most."""
    field = fields.FIELDS[job["field"]]
    job = json.loads(json.dumps(job))
    base = lambda: rng.randrange(field.base_size)
    for name in ("table", "inputs"):
        if name in job:
            job[name] = [base() for _ in job[name]]
    for name in ("tables", "left", "right"):
        if name in job:
            job[name] = [[base() for _ in row] for row in job[name]]
    if job["challenger"] != "hash" and not job["bits"]:
        job["challenger"] = {"draws": [base() for _ in range(80)], "witnesses": []}
    if "batching" in job:
        job["batching"] = rng.randrange(field.size)
    return job


def slots(job):
    """Where the values stand that a job claims, each as a list or an object with the key, by the numbers that a refusal names them by."""
    if "groups" in job:
        claims = [claim for group in job["groups"] for claim in group.get("claims") or group.get("scalars") or group.get("points") or []]
        return {(i,): (claim, "value") for i, claim in enumerate(claims)}
    if "outputs" in job:
        return {(i,): (job["outputs"], i) for i in range(len(job["outputs"]))}
    if "claimed" in job:
        return {(i, j): (row, j) for i, row in enumerate(job["claimed"]) for j in range(len(row))}
    return {(i,): (claim, "value") for i, claim in enumerate(job.get("claims", []))}


def with_true_values(told_by, command, job):
    """The report on a build with true claims, which it names as it refuses false ones."""
    for _ in range(len(slots(job)) + 1):
        told = told_by.to(command, json.dumps(job).encode())[2]
        if told["outcome"] != "refused" or not told["cause"].startswith("false-"):
            return told
        names = [told[it] for it in ("statement", "row", "column", "output") if it in told]
        owner, key = slots(job)[tuple(names)]
        owner[key] = told["true"]
    raise Finding("a build that refuses the values which it named")


def sent_lists(mode):
    """The lists of numbers that a proof sends, and what holds a single one, as owners with their keys."""
    check = mode["check"]
    for part in check.get("layers", [check]):
        yield from ((values, i) for values in part["rounds"] for i in range(len(values)))
        yield from ((part, name) for name in ("left", "right", "claimed") if name in part)
        yield from ((part["openings"], i) for i in range(len(part.get("openings", []))))


def verified(told_by, command, job):
    told = told_by.to(command, json.dumps(job).encode())[2]
    if told["outcome"] == "report":
        certified.verify(command, job, told)
    return told


def accepted(told_by, command, job, built):
    """What a build prints is accepted, with the same lines."""
    told = verified(told_by, command, job)
    if told != {name: value for name, value in built.items() if name != "grids"}:
        raise Finding("what a build printed is answered otherwise")


def changed_proof(told_by, rng, command, job):
    """One number of the proof is another one: it is no lucky challenge, since every claim is true, unless the claimed sum is it."""
    other = json.loads(json.dumps(job))
    lists = list(sent_lists(other["mode"]))
    if not lists:
        return
    owner, key = rng.choice(lists)
    owner[key] = (owner[key] + rng.randrange(1, fields.FIELDS[job["field"]].size)) % fields.FIELDS[job["field"]].size
    told = verified(told_by, command, other)
    if told["outcome"] == "report" and told["verdict"].startswith("lucky") and key != "claimed":
        raise Finding("a lucky challenge of true claims")


def with_false_claim(rng, command, job):
    """The job with one value that is false."""
    other = json.loads(json.dumps(job))
    if command == "product":
        owner, key = other["mode"]["check"], "claimed"
    elif slots(other):
        owner, key = rng.choice(list(slots(other).values()))
    else:
        return None
    size = fields.FIELDS[job["field"]].base_size
    owner[key] = (owner[key] + rng.randrange(1, size)) % size
    return other


def false_claim(told_by, command, job):
    told = verified(told_by, command, job)
    if told["outcome"] == "report" and told["verdict"] == "holds":
        raise Finding("a false claim that holds")
    return told


def steered(field, basis, width, excess, challenge, rng):
    """The values by which a round that is lucky at a challenge differs from the true one under a claim that is false by `excess`, and
    the polynomial that they make, if there are any."""
    unit = lambda k, x: fields.through(field, [int(i == k) for i in range(width + 1)], x)
    others = [rng.randrange(field.size) for _ in range(width - 1)]
    if width > 2 or basis == "nodes":
        # by the values at the elements 0 and 1, which have the excess as their sum, and at 2 and on
        rest = fields.total(field, [field.mul(excess, unit(1, challenge))] + [field.mul(x, unit(k + 2, challenge)) for k, x in enumerate(others)])
        slope = field.sub(unit(0, challenge), unit(1, challenge))
        if slope == 0:
            return None
        first = field.mul(field.sub(0, rest), fields.inverse(field, slope))
        return [first, *others], None
    (leading,) = others
    square = field.mul(leading, field.mul(challenge, challenge))
    if basis == "projective":
        if challenge == 0:
            return None
        rest = field.add(field.sub(field.sub(excess, leading), field.mul(excess, challenge)), square)
        value = field.mul(field.sub(0, rest), fields.inverse(field, challenge))
        return [value, leading], [field.sub(excess, leading), field.sub(value, excess), leading]
    double = field.add(challenge, challenge)
    if field.sub(1, double) == 0:
        return None
    rest = field.add(field.mul(field.sub(excess, leading), challenge), square)
    value = field.mul(field.sub(0, rest), fields.inverse(field, field.sub(1, double)))
    return [value, leading], [value, field.sub(field.sub(excess, field.add(value, value)), leading), leading]


def lucky_round(told_by, rng, command, job, built, told):
    """The first round of a proof is such that its challenge lets the false claim through: just that is told."""
    field = fields.FIELDS[job["field"]]
    rounds = (built["layers"][0] if "layers" in built else built).get("rounds", [])
    if not rounds or told["outcome"] != "report" or job["challenger"] == "hash":
        return
    excess = field.sub(told["claim"], built["claim"])
    if not excess:
        return
    width = len(rounds[0]["values"])
    basis = "nodes" if command in ("product", "circuit") else job.get("basis", "evaluation")
    made = steered(field, basis, width, excess, rounds[0]["challenge"], rng)
    if made is None:
        return
    values, poly = made
    check = job["mode"]["check"]
    sent = (check["layers"][0] if "layers" in check else check)["rounds"][0]
    sent[:] = map(field.add, rounds[0]["values"], values)
    found = verified(told_by, command, job)
    lucky = found.get("lucky", {})
    if found.get("verdict") != "lucky-round" or lucky["round"] or lucky.get("layer") or poly not in (None, lucky["poly"]):
        raise Finding("a round that was made lucky, and is told otherwise")


def hold_proof(told_by, rng, command, job):
    """A build made anew: what it prints is accepted, and each change of it is told."""
    job = renewed(rng, job)
    built = with_true_values(told_by, command, job)
    if built["outcome"] != "report":
        return
    certified.verify(command, job, built)
    if built["verdict"] != "holds":
        raise Finding("a build that does not hold")
    job["mode"] = proof_of.proof_of(job, built)
    accepted(told_by, command, job, built)
    changed_proof(told_by, rng, command, job)
    other = with_false_claim(rng, command, job)
    if other:
        told = false_claim(told_by, command, other)
        lucky_round(told_by, rng, command, other, built, told)


def proofs(told_by, rng, count):
    builds = []
    for path in ready():
        command = command_of(path)
        if command in certified.MATCHES and not os.path.exists(path.removesuffix(".json") + ".status"):
            job = json.load(open(path))
            if "check" not in job["mode"]:
                builds.append((command, job))
    for _ in range(count):
        command, job = rng.choice(builds)
        yield command, json.dumps(job).encode(), lambda: hold_proof(told_by, rng, command, job)


# ---- the runs

def held(name, runs, told_by):
    """Runs each of them; the findings are shown, and counted."""
    findings = count = 0
    for command, data, run in runs:
        count += 1
        try:
            run()
        except (Finding, certified.Wrong) as what:
            findings += 1
            print(f"{name} {count}, {command}: {what}\n  {data[:1000]!r}", flush=True)
    for kind, number in sorted(told_by.kinds.items()):
        print(f"{number:8} {kind}")
    print(f"{count} {name}, {findings} findings")
    return findings


def main():
    arguments = argparse.ArgumentParser(description=__doc__, formatter_class=argparse.RawDescriptionHelpFormatter)
    arguments.add_argument("--mutations", type=int, default=2000)
    arguments.add_argument("--proofs", type=int, default=200)
    arguments.add_argument("--seed", type=int, default=None)
    arguments.add_argument("--library", default=None)
    arguments.add_argument("program", help="a command line, to which the word of a command is appended")
    given = arguments.parse_args()
    wants([given.program])
    seed = random.randrange(1 << 32) if given.seed is None else given.seed
    print(f"seed {seed}", flush=True)
    found = 0
    with tempfile.TemporaryDirectory() as folder:
        library = given.library and Library(given.library, folder)
        for name, make, count in (("mutations", mutations, given.mutations), ("proofs", proofs, given.proofs)):
            told_by = Answers(shlex.split(given.program), library)
            found += held(name, make(told_by, random.Random(f"{name} {seed}"), count), told_by)
    sys.exit(1 if found else 0)


if __name__ == "__main__":
    main()
