#!/usr/bin/env python3
"""Measures `audit` on a job with one equality claim, for one program or for several side by side.

usage: bench/audit.py [--variables N] [--repeats N] [--field NAME] [--represented | --small-value L] [--kinds] [--suffix | --projective] [--hash] [--bits N] [--seed N] [--check] PROGRAM [PROGRAM ..]

The field is "65537", or by --field "257x2" or "16"; with --represented the build is so, and with --small-value its first L rounds are from grids. With --kinds the job has one claim of each kind: an equality, a successor in the slot of a selector of one coordinate, a
scalar and a direct point. The job is built in prefix order, or with --suffix in suffix order, under a script of draws, or with --hash under the hash challenger; with --bits each
round has a test of N bits, which is for the hash challenger alone. With --check the rounds and witnesses that the first program builds are handed in as
a proof. With --seed the claim's point is drawn from another seed: at 16 bits a round finds no witness in 37 of 100 cases, which ends a build, and 18
rounds have one each in 3 of 10,000; with 18 variables they do for --seed 3179.

Each PROGRAM is a command line, to which the word `audit` is appended; the job comes on standard input. The programs run
one after the other in each repeat, and the medians of wall time, processor time and peak memory are shown, with their
ratio to the last program's. Status and output of all are compared byte for byte.
The peak is what the program `time` tells; without it, at least this script's own size of some 15 MB.
"""
import argparse, json, os, random, shlex, sys, tempfile

sys.path.insert(0, os.path.join(os.path.dirname(os.path.abspath(__file__)), "..", "tools"))
from fields import FIELDS, equality_weights, powers, products, successor_weights, total, value_at
from measured import compare, run, wants


def groups(field, table, point, rng, given):
    equality = {"kind": "eq", "claims": [{"point": point, "value": value_at(field, table, point)}]}
    if not given.kinds:
        return [equality]

    def drawn(count, size):
        return [rng.randrange(size) for _ in range(count)]

    def value(weights):
        return total(field, (field.mul(w, x) for w, x in zip(weights, table)))

    selector, rest = drawn(1, field.size), drawn(len(point) - 1, field.size)
    scalar, direct = rng.randrange(field.base_size), drawn(len(point), field.base_size)
    slots = [field.mul(s, w) for s in equality_weights(field, selector) for w in successor_weights(field, rest)]
    return [
        equality,
        {"kind": "next", "claims": [{"selector": selector, "point": rest, "order": "prefix", "value": value(slots)}]},
        {"kind": "select", "scalars": [{"at": scalar, "value": value(powers(field, scalar, len(table)))}]},
        {"kind": "select", "points": [{"at": direct, "value": value(products(field, direct))}]},
    ]


def job(given, mode):
    variables, field = given.variables, FIELDS[given.field]
    rng = random.Random(variables)
    table = [rng.randrange(10000 if given.field == "65537" else 0, field.base_size) for _ in range(1 << variables)]
    if given.seed is not None:
        rng.seed(given.seed)
    point = [rng.randrange(field.size) for _ in range(variables)]
    script = {"draws": [rng.randrange(field.base_size) for _ in range(2 * variables)], "witnesses": []}
    return json.dumps({
        "field": given.field,
        "challenger": "hash" if given.hash else script,
        "order": "suffix" if given.suffix else "prefix",
        "bits": given.bits, "table": table, "variables": variables,
        "groups": groups(field, table, point, rng, given),
        "batching": 40503 % field.size, "mode": mode,
    } | ({"basis": "projective"} if given.projective else {}), separators=(",", ":"))


def proof(command, given, folder):
    path, out = os.path.join(folder, "build.json"), os.path.join(folder, "built")
    with open(path, "w") as f:
        f.write(job(given, {"build": given.build}))
    status = run(command + ["audit"], path, out)[3]
    with open(out) as f:
        lines = [line.split() for line in f if line.startswith("round ")]
    if status != 0 or len(lines) != given.variables:
        sys.exit(f"the first program builds no proof: status {status}")
    witnesses = [int(words[words.index("witness") + 1]) for words in lines if "witness" in words]
    return {"check": {"rounds": [[int(x) for x in words[2:4]] for words in lines], "witnesses": witnesses}}


def main():
    arguments = argparse.ArgumentParser(description=__doc__, formatter_class=argparse.RawDescriptionHelpFormatter)
    arguments.add_argument("--variables", type=int, default=20)
    arguments.add_argument("--repeats", type=int, default=7)
    arguments.add_argument("--field", choices=sorted(FIELDS), default="65537")
    arguments.add_argument("--represented", dest="build", action="store_const", const="represented", default="plain")
    arguments.add_argument("--small-value", dest="build", type=lambda rounds: {"small-value": int(rounds)}, metavar="L")
    arguments.add_argument("--kinds", action="store_true")
    arguments.add_argument("--suffix", action="store_true")
    arguments.add_argument("--projective", action="store_true")
    arguments.add_argument("--hash", action="store_true")
    arguments.add_argument("--bits", type=int, default=0)
    arguments.add_argument("--seed", type=int)
    arguments.add_argument("--check", action="store_true")
    arguments.add_argument("programs", nargs="+")
    given = arguments.parse_args()
    if given.bits != 0 and not given.hash:
        sys.exit("no element passes a test under a script of draws: --bits needs --hash")
    wants(given.programs)
    with tempfile.TemporaryDirectory() as folder:
        path = os.path.join(folder, "job.json")
        mode = {"build": given.build}
        if given.check:
            mode = proof(shlex.split(given.programs[0]), given, folder)
        with open(path, "w") as f:
            f.write(job(given, mode))
        print(f"2^{given.variables} entries, {os.path.getsize(path)} bytes, {given.repeats} repeats, load {os.getloadavg()[0]:.2f}")
        compare(given.programs, "audit", path, given.repeats, folder)


main()
