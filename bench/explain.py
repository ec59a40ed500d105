#!/usr/bin/env python3
"""Holds the answers of `explain` against masks of which the view was made, by sums over all bits.

usage: bench/explain.py [--seed N] COUNT PROGRAM

COUNT random jobs over "65537" and "257x2", with a few over "16", are made of 1 to 6 masks of 3 to 8 coefficients and of
random challenges and plain pieces: the masks are the ones that the program has to find, whatever they mask.
"""
import argparse, json, os, random, shlex, subprocess, sys

sys.path.insert(0, os.path.join(os.path.dirname(os.path.abspath(__file__)), "..", "tools"))
import masked
from fields import FIELDS
from measured import wants


def random_case(rng):
    """A job, and the masks that it is made of."""
    name = rng.choices(["65537", "257x2", "16"], [48, 48, 4])[0]
    field, rounds, length = FIELDS[name], rng.randint(1, 6), rng.randint(3, 8)

    def element():
        return rng.choice([0, 1, field.size - 1]) if rng.random() < 0.1 else rng.randrange(field.size)

    masks = [[element() for _ in range(length)] for _ in range(rounds)]
    plain = [[element(), element()] for _ in range(rounds)]
    challenges, eps = [element() for _ in range(rounds)], element()
    job = {"field": name, "eps": eps, "plain": plain, "challenges": challenges}
    if name == "16":
        return job | {"mu": element(), "wires": [mask[1:] for mask in masks], "endpoints": challenges[1:]}, masks
    return job | {
        "mu": masked.total_of(field, masks),
        "wires": [masked.wire_of(field, masks, challenges[:i], eps, plain[i]) for i in range(rounds)],
        "endpoints": [field.add(masked.polynomial(field, mask, 0), masked.polynomial(field, mask, 1)) for mask in masks[1:]],
    }, masks


def answer(job, masks):
    """The status and the text."""
    if job["field"] == "16":
        return 3, "refused explain even-characteristic\n"
    return 0, "".join(f"mask {i}: {' '.join(map(str, mask))}\n" for i, mask in enumerate(masks))


def main():
    arguments = argparse.ArgumentParser(description=__doc__, formatter_class=argparse.RawDescriptionHelpFormatter)
    arguments.add_argument("--seed", type=int, default=1)
    arguments.add_argument("count", type=int)
    arguments.add_argument("program")
    given = arguments.parse_args()
    wants([given.program])
    rng = random.Random(given.seed)
    for _ in range(given.count):
        job, masks = random_case(rng)
        told = subprocess.run(shlex.split(given.program) + ["explain"], input=json.dumps(job).encode(), stdout=subprocess.PIPE)
        wanted = answer(job, masks)
        if (told.returncode, told.stdout.decode()) != wanted:
            sys.exit(f"the answers differ: {json.dumps(job)}\n{wanted[1]}{told.stdout.decode()}")
    print(f"{given.count} jobs, none answered otherwise")


if __name__ == "__main__":
    main()
