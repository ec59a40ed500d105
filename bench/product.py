#!/usr/bin/env python3
"""Measures `product` on a job of several tables, for one program or for several side by side.

usage: bench/product.py [--variables N] [--tables D] [--repeats N] [--field NAME] [--bits N] [--check] PROGRAM [PROGRAM ..]

The job is built under the hash challenger. With --check the rounds and witnesses that the first program builds are
handed in as a proof. Each PROGRAM is a command line, to which the word `product` is appended; what is shown is as in
`bench/audit.py`.
"""
import argparse, json, os, random, shlex, sys, tempfile

from measured import compare, run, wants

SIZES = {"65537": 65537, "257x2": 257, "16": 16}


def job(given, mode):
    rng = random.Random(1000 + given.variables)
    size = SIZES[given.field]
    tables = [[rng.randrange(size) for _ in range(1 << given.variables)] for _ in range(given.tables)]
    return json.dumps({"field": given.field, "challenger": "hash", "bits": given.bits, "tables": tables, "mode": mode},
                      separators=(",", ":"))


def proof(command, given, folder):
    path, out = os.path.join(folder, "build.json"), os.path.join(folder, "built")
    with open(path, "w") as f:
        f.write(job(given, "build"))
    status = run(command + ["product"], path, out)[3]
    with open(out) as f:
        lines = [line.split() for line in f]
    rounds = [words for words in lines if words[0] == "round"]
    if status != 0 or len(rounds) != given.variables:
        sys.exit(f"the first program builds no proof: status {status}")
    witnesses = [int(words[words.index("witness") + 1]) for words in rounds if "witness" in words]
    values = [[int(word) for word in words[2:2 + given.tables]] for words in rounds]
    return {"check": {"claimed": int(lines[0][1]), "rounds": values, "witnesses": witnesses}}


def main():
    arguments = argparse.ArgumentParser(description=__doc__, formatter_class=argparse.RawDescriptionHelpFormatter)
    arguments.add_argument("--variables", type=int, default=14)
    arguments.add_argument("--tables", type=int, default=3)
    arguments.add_argument("--repeats", type=int, default=7)
    arguments.add_argument("--field", choices=sorted(SIZES), default="65537")
    arguments.add_argument("--bits", type=int, default=0)
    arguments.add_argument("--check", action="store_true")
    arguments.add_argument("programs", nargs="+")
    given = arguments.parse_args()
    wants(given.programs)
    with tempfile.TemporaryDirectory() as folder:
        path = os.path.join(folder, "job.json")
        mode = proof(shlex.split(given.programs[0]), given, folder) if given.check else "build"
        with open(path, "w") as f:
            f.write(job(given, mode))
        print(f"{given.tables} tables of 2^{given.variables} entries, {os.path.getsize(path)} bytes, {given.repeats} repeats, load {os.getloadavg()[0]:.2f}")
        compare(given.programs, "product", path, given.repeats, folder)


main()
