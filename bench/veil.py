#!/usr/bin/env python3
"""Measures `veil` beside a plain build by `audit` of the same table and claim, or holds its answers against a model.

usage: bench/veil.py [--variables N] [--rounds K] [--length L] [--suffix] [--repeats N] PROGRAM
       bench/veil.py --compare COUNT [--seed N] PROGRAM

The job has one equality claim over "65537", under the hash challenger, and masks of L coefficients from a seed. The two
commands run one after the other in each repeat; medians of processor time and peak memory are shown, with the ratio.

With --compare, COUNT random jobs over "65537", "257x2" and a few over "16" are answered by the program and by
bench/masked.py, which sums over all bits: 1 to 5 variables, claims of every kind, some of them false, up to one round for
each variable or more, masks of 1 to 6 coefficients, written out or from a seed, both challengers, with tests and without.
Status and text have to be the same.
"""
import argparse, collections, json, os, random, shlex, statistics, subprocess, sys, tempfile

sys.path.insert(0, os.path.join(os.path.dirname(os.path.abspath(__file__)), "..", "tools"))
import masked
from fields import FIELDS, value_at
from measured import run, wants
from picture import claim_weights, inner
from truth import list_name


# ---- random jobs

def claims(rng, variables, base, extension):
    """A group of up to two claims of a kind, without their values."""
    def point(count, draw=extension):
        return [draw() for _ in range(count)]

    kind, count = rng.choice(["eq", "next", "scalars", "points"]), rng.randint(0, 2)
    if kind == "eq":
        return {"kind": "eq", "claims": [{"point": point(variables)} for _ in range(count)]}
    if kind == "next":
        cut = rng.randint(0, variables)
        return {"kind": "next", "claims": [{"selector": point(cut), "point": point(variables - cut),
                                            "order": rng.choice(["prefix", "suffix"])} for _ in range(count)]}
    return {"kind": "select", kind: [{"at": base() if kind == "scalars" else point(variables, base)} for _ in range(count)]}


def random_job(rng):
    name = rng.choices(["65537", "257x2", "16"], [48, 48, 4])[0]
    field, variables = FIELDS[name], rng.randint(1, 5)

    def element(size):
        return rng.choice([0, 1, size - 1]) if rng.random() < 0.1 else rng.randrange(size)

    def base():
        return element(field.base_size)

    def extension():
        return element(field.size)

    table = [base() for _ in range(1 << variables)]
    groups = [claims(rng, variables, base, extension) for _ in range(rng.randint(0, 3))]
    for group in groups:
        for it in group[list_name(group)]:
            true = inner(field, table, claim_weights(field, group["kind"], it, len(table)))
            it["value"] = extension() if rng.random() < 0.03 else true
    rounds, length = rng.randint(0, variables + (rng.random() < 0.05)), rng.choice([1, 2, 3, 3, 4, 5, 6])
    written = {"messages": [[extension() for _ in range(length)] for _ in range(rounds)], "randomness": [[extension(), extension()] for _ in range(rounds)]}
    script = {"draws": [base() for _ in range(rng.randint(0, 2 * variables + 3))],
              "witnesses": [[base() for _ in range(rng.randint(0, 3))] for _ in range(variables)]}
    return {
        "field": name, "challenger": rng.choice(["hash", script]), "order": rng.choice(["prefix", "suffix"]),
        "bits": rng.choice([0, 0, 0, 1, 2, 5, 8, 17 if rng.random() < 0.1 else 0]), "table": table,
        "variables": variables + (rng.random() < 0.1 and not any(list_name(group) != "scalars" for group in groups)), "groups": groups, "batching": extension(), "rounds": rounds,
        "masks": rng.choice([written, {"seed": rng.choice([0, 1, 2**64 - 1, rng.randrange(2**64)]), "length": length}]),
        "aux": extension(),
    }


def compared(program, count, seed):
    rng, kinds = random.Random(seed), collections.Counter()
    for _ in range(count):
        job = random_job(rng)
        wanted = masked.answer(job)
        told = subprocess.run(shlex.split(program) + ["veil"], input=json.dumps(job).encode(), stdout=subprocess.PIPE)
        if (told.returncode, told.stdout.decode()) != wanted:
            sys.exit(f"the answers differ: {json.dumps(job)}\n{wanted[1]}{told.stdout.decode()}")
        kinds["report" if wanted[0] == 0 else " ".join(it for it in wanted[1].split() if not it.isdigit())] += 1
    print("\n".join(f"{number:7} {kind}" for kind, number in kinds.most_common()))


# ---- figures

def measured(given, program):
    rng, field = random.Random(given.variables), FIELDS["65537"]
    table = [rng.randrange(10000, field.size) for _ in range(1 << given.variables)]
    point = [rng.randrange(field.size) for _ in range(given.variables)]
    job = {"field": "65537", "challenger": "hash", "order": "suffix" if given.suffix else "prefix", "bits": 0, "table": table,
           "variables": given.variables, "batching": 7,
           "groups": [{"kind": "eq", "claims": [{"point": point, "value": value_at(field, table, point)}]}]}
    asked = {"veil": {"rounds": given.rounds, "masks": {"seed": 1, "length": given.length}, "aux": 3}, "audit": {"mode": {"build": "plain"}}}
    samples = {word: [] for word in asked}
    with tempfile.TemporaryDirectory() as folder:
        for word, more in asked.items():
            with open(os.path.join(folder, word), "w") as f:
                json.dump(job | more, f, separators=(",", ":"))
        for _ in range(given.repeats):
            for word in asked:
                sample = run(shlex.split(program) + [word], os.path.join(folder, word), os.path.join(folder, "out"))
                if sample[3] != 0:
                    sys.exit(f"{word} ended with status {sample[3]}")
                samples[word].append(sample)
    medians = {word: [statistics.median(it[k] for it in taken) for k in (1, 2)] for word, taken in samples.items()}
    for word, (time, peak) in medians.items():
        print(f"{word:6}{time * 1e3:10.1f} ms{peak:10.1f} MB")
    print("ratio " + "  ".join(f"{a / b:.2f}" for a, b in zip(*medians.values())))


def main():
    arguments = argparse.ArgumentParser(description=__doc__, formatter_class=argparse.RawDescriptionHelpFormatter)
    arguments.add_argument("--variables", type=int, default=20)
    arguments.add_argument("--rounds", type=int, default=8)
    arguments.add_argument("--length", type=int, default=3)
    arguments.add_argument("--suffix", action="store_true")
    arguments.add_argument("--repeats", type=int, default=9)
    arguments.add_argument("--compare", type=int, metavar="COUNT")
    arguments.add_argument("--seed", type=int, default=1)
    arguments.add_argument("program")
    given = arguments.parse_args()
    wants([given.program])
    if given.compare is None:
        measured(given, given.program)
    else:
        compared(given.program, given.compare, given.seed)


main()
