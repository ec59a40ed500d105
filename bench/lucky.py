#!/usr/bin/env python3
"""Measures `audit` on a proof of false statements whose batch is true, for one program or for several side by side.

usage: bench/lucky.py [--variables N] [--statements N] [--repeats N] PROGRAM [PROGRAM ..]

Each statement claims the table's value at a point, and another one than the true one; the last claim is such that the
batch is true under the batching challenge. So the rounds of true statements at these points are accepted, which the
first program builds under the hash challenger, and the report's verdict is `lucky-batch`: a polynomial of one
coefficient for each statement, whose roots are counted. Each PROGRAM is a command line, to which the word `audit` is
appended; what is shown is as in `bench/audit.py`.
"""
import argparse, json, os, random, shlex, sys, tempfile

from measured import compare, run, wants

SIZE = 65537


def value(table, point):
    """The value of a table's multilinear polynomial at a point, whose first coordinate stands for the highest bit."""
    for z in point:
        half = len(table) // 2
        table = [(a + z * (b - a)) % SIZE for a, b in zip(table[:half], table[half:])]
    return table[0]


def job(table, variables, points, values, batching, mode):
    claims = [{"point": point, "value": v} for point, v in zip(points, values)]
    return json.dumps({"field": "65537", "challenger": "hash", "order": "prefix", "bits": 0, "table": table, "variables": variables,
                       "groups": [{"kind": "eq", "claims": claims}], "batching": batching, "mode": mode}, separators=(",", ":"))


def rounds(command, text, folder):
    path, out = os.path.join(folder, "build.json"), os.path.join(folder, "built")
    with open(path, "w") as f:
        f.write(text)
    status = run(command + ["audit"], path, out)[3]
    with open(out) as f:
        lines = [line.split() for line in f]
    if status != 0:
        sys.exit(f"the first program builds no proof: status {status}")
    return [[int(words[2]), int(words[3])] for words in lines if words[0] == "round"]


def main():
    arguments = argparse.ArgumentParser(description=__doc__, formatter_class=argparse.RawDescriptionHelpFormatter)
    arguments.add_argument("--variables", type=int, default=4)
    arguments.add_argument("--statements", type=int, default=4096)
    arguments.add_argument("--repeats", type=int, default=7)
    arguments.add_argument("programs", nargs="+")
    given = arguments.parse_args()
    wants(given.programs)
    rng = random.Random(2000 + given.statements)
    table = [rng.randrange(SIZE) for _ in range(1 << given.variables)]
    points = [[rng.randrange(SIZE) for _ in range(given.variables)] for _ in range(given.statements)]
    batching = rng.randrange(2, SIZE)
    true = [value(table, point) for point in points]
    excess = [rng.randrange(1, SIZE) for _ in points[1:]]
    batched = sum(e * pow(batching, i, SIZE) for i, e in enumerate(excess)) % SIZE
    excess.append(-batched * pow(batching, -len(excess), SIZE) % SIZE)
    claimed = [(v + e) % SIZE for v, e in zip(true, excess)]
    with tempfile.TemporaryDirectory() as folder:
        path = os.path.join(folder, "job.json")
        built = rounds(shlex.split(given.programs[0]), job(table, given.variables, points, true, batching, {"build": "plain"}), folder)
        with open(path, "w") as f:
            f.write(job(table, given.variables, points, claimed, batching, {"check": {"rounds": built, "witnesses": []}}))
        print(f"{given.statements} false statements on 2^{given.variables} entries, {os.path.getsize(path)} bytes, "
              f"{given.repeats} repeats, load {os.getloadavg()[0]:.2f}")
        compare(given.programs, "audit", path, given.repeats, folder)


main()
