#!/usr/bin/env python3
"""Makes jobs that take the program long, or much memory, for their size, and measures them.

usage: bench/worst.py write NAME                 writes the job of that name to standard output
       bench/worst.py measure PROGRAM [NAME ..]  runs PROGRAM on all jobs, or on those named, one after the other

PROGRAM is a command line, to which the command is appended: the job's name begins with it, or it is `audit`. Shown are the
job's bytes, wall and processor time, the peak of memory, the status and the last line of the answer. No job is longer than
an input may be, 64 MiB.
"""
import os, random, shlex, sys, tempfile

from measured import run

LIMIT = 1 << 26
SCRIPT = '{"draws":[3,4],"witnesses":[[0],[0]]}'
TWO_ROUNDS = ('"order":"prefix","bits":1,"table":[1,2,3,4],"variables":2,'
              '"groups":[{"kind":"eq","claims":[{"point":[0,1],"value":2}]}]')


def listed(items):
    return "[" + ",".join(items) + "]"


def repeated(item, room=600):
    """As many of an item as an input holds beside so many other bytes."""
    return listed([item] * ((LIMIT - room) // (len(item) + 1)))


# ---- Two rounds, each with a test

def played(challenger=SCRIPT, mode='{"build":"plain"}', more=""):
    return f'{{"field":"65537","challenger":{challenger},{TWO_ROUNDS},"batching":1,"mode":{mode}{more}}}'


def ignored(text):
    """A member without a meaning stands beside those of the job."""
    return played(more=f',"x":{text}')


def scripted(lists):
    return played(f'{{"draws":[3,4],"witnesses":{listed(lists)}}}')


def witnesses(arranged, count=5592380):
    """Two lists of five-digit witnesses: below the least of them, each element is looked for in vain."""
    numbers = [10000 + i % 55537 for i in range(count)]
    return scripted([listed(map(str, arranged(numbers)))] * 2)


def last(numbers):
    return [65536] * len(numbers)


def shuffled(items):
    random.Random(1).shuffle(items)
    return items


def organ_pipe(numbers):
    numbers.sort()
    return numbers[::2] + numbers[1::2][::-1]


def members(keys):
    return ignored("{" + ",".join(f'"{key}":0' for key in keys) + "}")


# ---- A table of zeros, of which each claim of the value 0 is true

def tabled(variables, groups, bits=0, challenger='{"draws":[],"witnesses":[]}', field="65537"):
    table = "[" + "0," * ((1 << variables) - 1) + "0]"
    return (f'{{"field":"{field}","challenger":{challenger},"order":"prefix","bits":{bits},"table":{table},'
            f'"variables":{variables},"groups":{groups},"batching":1,"mode":{{"build":"plain"}}}}')


def claims(kind, variables, count):
    """So many claims of a kind; where it is a number, successor claims with so many coordinates in the selector."""
    if isinstance(kind, int):
        selector, rest = listed(["2"] * kind), listed(["2"] * (variables - kind))
        claim = f'{{"selector":{selector},"point":{rest},"order":"prefix","value":0}}'
        return f'[{{"kind":"next","claims":{listed([claim] * count)}}}]'
    head = {"eq": '"eq","claims"', "scalars": '"select","scalars"', "points": '"select","points"'}[kind]
    name = "point" if kind == "eq" else "at"
    at = "2" if kind == "scalars" else listed(["2"] * variables)
    claim = f'{{"{name}":{at},"value":0}}'
    return f'[{{"kind":{head}:{listed([claim] * count)}}}]'


# ---- Lucky challenges: the table and the rounds' values are zeros, the draws are 3, and some claims are false

def lucky(kind, variables, count, values, rounds, batching=2, field="65537"):
    """So many claims of a kind on a table of zeros, all 0 but the last ones, with these rounds and zeros after them handed in."""
    groups = claims(kind, variables, count)
    for value in reversed(values):
        at = groups.rindex('"value":0}')
        groups = groups[:at] + f'"value":{value}' + groups[at + len('"value":0'):]
    pairs = listed(rounds + ["[0,0]"] * (variables - len(rounds)))
    job = tabled(variables, groups, challenger=f'{{"draws":{listed(["3"] * 2 * variables)},"witnesses":[]}}', field=field)
    return job.replace('"batching":1', f'"batching":{batching}').replace('{"build":"plain"}', f'{{"check":{{"rounds":{pairs},"witnesses":[]}}}}')


def lucky_batch(kind, variables, count, field="65537"):
    """The last two claims are false by -2 and 1, of which the powers of 2 make nothing."""
    return lucky(kind, variables, count, [65535 if field == "65537" else 255, 1], [], field=field)


def lucky_round(kind, variables, count):
    """Of the last claim the batch is 1, and the first round sends a line that is 0 at its challenge."""
    least = (3 * pow(5, -1, 65537)) % 65537  # a + (1 - 2 a) 3 = 0
    return lucky(kind, variables, count, [1], [f"[{least},0]"], batching=1)


# ---- Rounds under masks

def veiled(variables, rounds, length, count=1):
    masks = f'"rounds":{rounds},"masks":{{"seed":7,"length":{length}}},"aux":4}}'
    return tabled(variables, claims("eq", variables, count), challenger='"hash"').replace('"mode":{"build":"plain"}}', masks)


def explained(rounds, width):
    lists = listed([listed(["0"] * width)] * rounds)
    return (f'{{"field":"65537","eps":31,"plain":{listed(["[0,0]"] * rounds)},"challenges":{listed(["2"] * rounds)},"mu":0,'
            f'"wires":{lists},"endpoints":{listed(["0"] * (rounds - 1))}}}')


JOBS = {
    # a script's witnesses
    "million": lambda: witnesses(last, 1000000),
    "witnesses-equal": lambda: witnesses(last),
    "witnesses-rising": lambda: witnesses(sorted),
    "witnesses-falling": lambda: witnesses(lambda numbers: sorted(numbers, reverse=True)),
    "witnesses-shuffled": lambda: witnesses(shuffled),
    "witnesses-organ-pipe": lambda: witnesses(organ_pipe),
    "witnesses-no-members": lambda: scripted(["[]"] * 22369000),
    "draws": lambda: played(f'{{"draws":{repeated("0")},"witnesses":[[0],[0]]}}'),
    # JSON that no member of a job reads
    "members-rising": lambda: members(f"{i:07}" for i in range(5592000)),
    "members-shuffled": lambda: members(shuffled([f"{i:07}" for i in range(5592000)])),
    "members-equal": lambda: members(["k"] * 9580000),
    "members-long": lambda: members("k" * 8000 + f"{i:04}" for i in range(8300)),
    "objects": lambda: ignored(repeated('{"":0}')),
    "objects-nested": lambda: ignored(repeated('{"":' * 120 + "0" + "}" * 120)),
    "arrays": lambda: ignored(repeated("[]")),
    "arrays-nested": lambda: ignored(repeated("[" * 120 + "]" * 120)),
    "numbers": lambda: ignored(repeated("0")),
    "floats": lambda: ignored(repeated("9007199254740993e22")),
    "floats-small": lambda: ignored(repeated("2.4703282292062327208299e-324")),
    "floats-long": lambda: ignored(repeated("9007199254740993." + "0" * 760 + "1e-290")),
    "digits": lambda: ignored("0." + "1" * (LIMIT - 600)),
    "exponent": lambda: ignored("1" + "0" * 33000000 + "e-" + "0" * 33000000 + "33000000"),
    "text": lambda: ignored('"' + "a" * (LIMIT - 600) + '"'),
    "escapes": lambda: ignored('"' + "\\u0061" * ((LIMIT - 600) // 6) + '"'),
    # lists that are read and refused
    "table-refused": lambda: played(more=f',"table":{repeated("0")}'),
    "rounds-refused": lambda: played(mode=f'{{"check":{{"rounds":{repeated("[0,0]")},"witnesses":[]}}}}'),
    "claims-refused": lambda: tabled(1, claims("scalars", 1, 3195000)),
    # large tables, groups without claims, and claims
    "table": lambda: tabled(24, claims("eq", 24, 1)),
    "table-witnesses": lambda: tabled(24, claims("eq", 24, 1), 13, '"hash"'),
    "groups": lambda: tabled(20, repeated('{"kind":"eq","claims":[]}', (1 << 21) + 500)),
    "claims-eq": lambda: tabled(20, claims("eq", 20, 64)),
    "claims-scalars": lambda: tabled(20, claims("scalars", 20, 64)),
    "claims-points": lambda: tabled(20, claims("points", 20, 64)),
    "claims-next-0": lambda: tabled(20, claims(0, 20, 64)),
    "claims-next-10": lambda: tabled(20, claims(10, 20, 64)),
    "claims-next-20": lambda: tabled(20, claims(20, 20, 64)),
    "claims-next-20-257x2": lambda: tabled(20, claims(20, 20, 64), field="257x2"),
    "claims-next-24": lambda: tabled(24, claims(24, 24, 16)),
    # lucky challenges
    "lucky-batch-eq": lambda: lucky_batch("eq", 18, 4096),
    "lucky-batch-next": lambda: lucky_batch(18, 18, 1024),
    "lucky-batch-257x2": lambda: lucky_batch("eq", 18, 1024, "257x2"),
    "lucky-round": lambda: lucky_round("eq", 18, 4096),
    # small-value rounds of many claims
    "small-value": lambda: tabled(12, claims(0, 12, 4096)).replace('"plain"', '{"small-value":12}'),
    "small-value-one": lambda: tabled(20, claims("eq", 20, 1)).replace('"plain"', '{"small-value":12}'),
    # masks
    "veil-table": lambda: veiled(24, 24, 64),
    "veil-claims": lambda: veiled(18, 18, 64, 4096),
    "explain-longest": lambda: explained(64, 63),
    "explain-ignored": lambda: explained(64, 63)[:-1] + f',"x":{repeated("0", 20000)}}}',
}


def command(name):
    """The command that a job is for."""
    word = name.split("-")[0]
    return word if word in ("veil", "explain") else "audit"


def measure(program, names):
    print(f"{'job':22}{'bytes':>10}{'wall s':>9}{'cpu s':>9}{'peak MB':>9}  answer")
    with tempfile.TemporaryDirectory() as folder:
        path, out = os.path.join(folder, "job.json"), os.path.join(folder, "out")
        for name in names or JOBS:
            with open(path, "w") as f:
                f.write(JOBS[name]())
            size = os.path.getsize(path)
            if size > LIMIT:
                sys.exit(f"{name}: {size} bytes are too many")
            wall, processor, peak, status = run(shlex.split(program) + [command(name)], path, out)
            with open(out) as f:
                said = "".join(f.read().splitlines()[-1:])
            print(f"{name:22}{size:>10}{wall:>9.2f}{processor:>9.2f}{peak:>9.0f}  {status} {said[:60]}", flush=True)


def main():
    match sys.argv[1:]:
        case ["write", name] if name in JOBS:
            sys.stdout.write(JOBS[name]())
        case ["measure", program, *names] if all(name in JOBS for name in names):
            measure(program, names)
        case _:
            sys.exit(f"{__doc__}\nA NAME is one of {' '.join(JOBS)}")


main()
