"""What a change of a crate costs, by crates.txt and the table of the gate in docs/BENCHMARKS.md.

usage: python3 bench/reproved.py [CRATE..]

For each crate, or for those that are named: its own proof in processor seconds, how many crates stand on it, and what
the proofs of it and of all these take together. Tests and refused edits are left out."""
import re, sys

def stands_on(path="crates.txt"):
    """The crates, each with those that its line names."""
    lines = [it for it in open(path, encoding="utf-8") if it.strip() and not it.startswith("#")]
    return {it.split(":")[0].split()[0]: it.split(":")[1].split() for it in lines}

def proofs(path="docs/BENCHMARKS.md"):
    """The processor seconds of each crate's own proof."""
    rows = re.findall(r"^\| `(\w+)` \| (\d+) \|", open(path, encoding="utf-8").read(), re.M)
    return {name: int(seconds) for name, seconds in rows}

def above(name, crates):
    """The crates that stand on this one, over however many others."""
    found = {name}
    while True:
        more = {it for it, below in crates.items() if it not in found and found & set(below)}
        if not more:
            return found - {name}
        found |= more

if __name__ == "__main__":
    crates, seconds = stands_on(), proofs()
    for name in sys.argv[1:] or [it for it in crates if it in seconds]:
        on_it = above(name, crates)
        whole = sum(seconds.get(it, 0) for it in on_it | {name})
        print(f"{name}: {seconds.get(name, 0)} s itself, {len(on_it)} crates on it, {whole} s with those of the table")
