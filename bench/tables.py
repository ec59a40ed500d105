#!/usr/bin/env python3
"""Holds the typed calls of the static library, on tables in memory, against the same jobs as text, or measures them.

usage: bench/tables.py [--cases N] [--seed S] LIBRARY
       bench/tables.py --beside-rust [--variables N] [--claims N] [--suffix] [--repeats N] LIBRARY PROGRAM
       bench/tables.py --ready

LIBRARY is libsumcheck_c.a, and PROGRAM a command line of the program. N random cases over "65537" are answered by the typed call, by
`tunaprow_reply` to the job with these numbers, and by bench/audited.py, which sums over all rows: tables of 0 to 10 variables with
claims at points, true and false, in both orders and bases, under both challengers, with tests and without, built and checked;
batches and rounds that are lucky on purpose, rounds with one value changed, wrong numbers of rounds and witnesses, witnesses that
fail, numbers of no element, and tables, points and terms that do not fit. Status, figures, challenges, rounds, witnesses, verdict
and certificate have to be the same, and nothing else may be written, whatever room there is. The seed is printed.

With --beside-rust a check of a table of 2^N rows by the typed call is measured beside `audit` of the job, and beside the plain loops of
bench/tables.rs: processor time and, where valgrind is there, instructions, in one run. The reports have to be the same. --ready holds
the texts of the ready jobs of `audit` against the model.
"""
import argparse, array, collections, json, os, random, shlex, statistics, subprocess, sys, tempfile

sys.path.insert(0, os.path.join(os.path.dirname(os.path.abspath(__file__)), "..", "tools"))
import answers, audited, fields, fuzz
from library import Found, Library, Overwritten, counts_of, enough, told_of
from matmul import next_draw
from measured import instructions, run, wants
from modelled import Modelled, any_error, element, kind_of, vanishing

TOP = os.path.join(os.path.dirname(os.path.abspath(__file__)), "..")
FIELD = fields.FIELDS["65537"]
CALLS = 20  # in a run whose time is measured
NO_ELEMENTS = [65537, 65538, 1 << 17, 1 << 31, (1 << 32) - 1]


class Audits(Modelled):
    def files(self):
        """The ready jobs, but for builds on small values, of which the model has no grids."""
        return [path for path in fuzz.ready() if fuzz.command_of(path) == "audit" and b"small-value" not in open(path, "rb").read()]


MODEL = Audits("audit", audited.answer, None)


class Differs(Exception):
    """Where a typed call and a text are answered otherwise."""


# ---- a case, and the job with its numbers

def job_of(case):
    """The job for `audit`. Where the points are not one for each value it is not of its form."""
    size, points = case["variables"], case["points"]
    claims = [{"point": points[i * size:(i + 1) * size], "value": value} for i, value in enumerate(case["values"])]
    rest = points[len(claims) * size:]
    job = {"field": "65537", "challenger": "hash" if case["hash"] else {"draws": case["draws"], "witnesses": []},
           "order": "suffix" if case["suffix"] else "prefix", "bits": case["bits"], "table": case["table"], "variables": size,
           "groups": [{"kind": "eq", "claims": claims + ([{"point": rest}] if rest else [])}], "batching": case["batching"],
           "mode": {"check": case["proof"]} if case["proof"] else {"build": "plain"}}
    return job | ({"basis": "projective"} if case["coefficients"] else {})


# ---- random cases

def elements(rng, count):
    return [element(rng, FIELD.size) for _ in range(count)]


def true_case(rng):
    """A build of true claims."""
    variables = rng.choices(range(11), [6, 12, 16, 18, 16, 12, 8, 6, 3, 2, 1])[0]
    count = rng.choices([0, 1, 2, 3, 4, 6, 40], [4, 30, 22, 18, 12, 10, 4])[0]
    table, points, hashed = elements(rng, 1 << variables), elements(rng, count * variables), rng.random() < 0.4
    values = [fields.value_at(FIELD, table, points[i * variables:(i + 1) * variables]) for i in range(count)]
    coefficients = rng.random() < 0.3
    return {"variables": variables, "bits": rng.choice([0, 0, 0, 1, 2, 3, 5, 8]) if hashed or rng.random() < 0.05 else 0,
            "batching": element(rng, FIELD.size), "suffix": not coefficients and rng.random() < 0.5, "coefficients": coefficients, "hash": hashed,
            "table": table, "points": points, "values": values,
            "draws": elements(rng, rng.choice([variables, variables, variables + 1, rng.randint(0, variables)])), "proof": None}


def falsify(rng, case):
    """Adds to the values, often such that the batching challenge makes nothing of what is added."""
    count = len(case["values"])
    if count > 1 and rng.random() < 0.4:
        added = vanishing(rng, FIELD, case["batching"], count)
    else:
        added = any_error(rng, FIELD, count)
    case["values"] = list(map(FIELD.add, case["values"], added))


def chosen(rng, play, true):
    """What a round sends: the true values, one or both of them changed, or such that they turn a false claim at their challenge."""
    honest, kind = play.pair_of(true), rng.random()
    if kind < 0.55:
        return honest
    if kind < 0.65:
        return [element(rng, FIELD.size) if rng.random() < 0.6 else x for x in honest]
    excess = FIELD.sub(play.claim, play.claim_at(play.challenges))
    made = None if play.job["challenger"] == "hash" else fuzz.steered(FIELD, play.basis, 2, excess, next_draw(play, honest), rng)
    return list(map(FIELD.add, honest, made[0])) if made else honest


def hand_in(rng, case):
    """Makes the case a check of rounds, true and false ones, some with too many or too few, or with a witness that fails."""
    play, variables, tested = audited.Play(job_of(case), FIELD), case["variables"], bool(case["bits"])
    choose = None if rng.random() < 0.4 else lambda i, true, claim: chosen(rng, play, true)
    play.play(choose, None if case["hash"] else lambda i: element(rng, FIELD.size))
    rounds, witnesses = play.rounds, play.witnesses
    while len(rounds) < variables:
        rounds.append(elements(rng, 2))
    while tested and len(witnesses) < variables:
        witnesses.append(element(rng, FIELD.size))
    kind = rng.random()
    if kind < 0.15 and rounds:
        rng.choice(rounds)[rng.randrange(2)] = element(rng, FIELD.size)
    elif kind < 0.2:
        rounds = rounds[1:] if rng.random() < 0.5 else rounds + [[1, 2]]
    elif kind < 0.25:
        witnesses = witnesses[1:] if witnesses and rng.random() < 0.5 else witnesses + [1]
    elif kind < 0.4 and witnesses:
        witnesses[rng.randrange(len(witnesses))] = element(rng, FIELD.size)
    case["proof"] = {"rounds": rounds, "witnesses": witnesses}


def with_no_element(rng, case):
    """A number that is that of no element stands in one of the lists, or is the batching challenge."""
    lists = [case[name] for name in ("table", "points", "values", "draws")]
    lists += [*case["proof"]["rounds"], case["proof"]["witnesses"]] if case["proof"] else []
    them = rng.choice([it for it in lists if it])
    if rng.random() < 0.1:
        case["batching"] = rng.choice(NO_ELEMENTS)
    else:
        them[rng.randrange(len(them))] = rng.choice(NO_ELEMENTS)


def misfit(rng, case):
    """Makes something of the case not fit."""
    kind, table, points, values = rng.randrange(7), case["table"], case["points"], case["values"]
    if kind < 2:
        with_no_element(rng, case)
    elif kind == 2:
        case["table"] = rng.choice([[], table[1:], table + [1], table + table, table[:len(table) // 2]])
    elif kind == 3:
        case["variables"] = rng.choice([0, 1, 2, 3, 24, 25, 64, 65, 1 << 32, 1 << 63, (1 << 64) - 1])
    elif kind == 4:
        case["points"] = rng.choice([points[1:], points + [1], points + points])
    elif kind == 5:
        case["values"] = rng.choice([values[1:], values + [0]])
    elif rng.random() < 0.5:
        case["bits"] = rng.choice([9, 17, 65535, 65536, 1 << 32, 1 << 63] + ([16] if case["proof"] else []))
    else:
        case["suffix"] = case["coefficients"] = True


def random_case(rng):
    case = true_case(rng)
    if rng.random() < 0.6:
        falsify(rng, case)
    if rng.random() < 0.75:
        hand_in(rng, case)
    if rng.random() < 0.12:
        misfit(rng, case)
    return case


# ---- one case, three answers

def same(what, one, other):
    if one != other:
        raise Differs(f"{what}: {one} beside {other}")


def in_other_rooms(rng, library, case, status, left):
    """A call with more room or less leaves the same figures, and as much of each list as there is room for."""
    counts = counts_of(case, left.figures.found if status < 2 else Found())
    other_status, other = library.table(case, {name: rng.randint(0, min(count, 40) + 1) for name, count in counts.items()})
    same("the status with another room", other_status, status)
    if status > 1:
        other.wants_untouched()
        return
    same("the figures with another room", other.numbers(), left.numbers())
    for name, count in counts.items():
        same(f"{name} with another room", other.front(name, count), left.front(name, count)[:len(other.lists[name])])


def held(rng, library, case):
    """The kind of the answer to a case, which is the same three times."""
    text = json.dumps(job_of(case)).encode()
    wanted = MODEL.wanted(text)
    status, told = library.reply("audit", text)
    same("the text and the model", (status, told.decode()), wanted)
    typed, left = library.table(case, enough(case))
    same("the status of the typed call and of the text", typed, status)
    if status > 1:
        left.wants_untouched()
    else:
        same("the typed call and the text", told_of(case, left), answers.read(told.decode()))
    in_other_rooms(rng, library, case, status, left)
    return ("check: " if case["proof"] else "build: ") + kind_of(wanted)


def compared(archive, count, seed):
    print(f"seed {seed}", flush=True)
    kinds = collections.Counter()
    with tempfile.TemporaryDirectory() as folder:
        library = Library(archive, folder)
        for number in range(count):
            rng = random.Random(f"{seed} {number}")
            case = random_case(rng)
            try:
                kinds[held(rng, library, case)] += 1
            except (Differs, Overwritten) as what:
                sys.exit(f"case {number} of the seed {seed}: {what}\n{json.dumps(case)}")
    print("\n".join(f"{number:7} {kind}" for kind, number in kinds.most_common()))
    print(f"{count} cases, none otherwise")



# ---- figures

def measured_case(variables, count, suffix):
    """A build of true claims, of five digits each."""
    rng = random.Random(variables)
    drawn = lambda number: [rng.randrange(10000, FIELD.size) for _ in range(number)]
    table, points = drawn(1 << variables), drawn(count * variables)
    values = [fields.value_at(FIELD, table, points[i * variables:(i + 1) * variables]) for i in range(count)]
    return {"variables": variables, "bits": 0, "batching": 40503, "suffix": suffix, "coefficients": False, "hash": False,
            "table": table, "points": points, "values": values, "draws": drawn(variables), "proof": None}


def written(case, folder):
    """The files of a check: the job, and the case as bench/tables.rs reads it."""
    job, numbers = (os.path.join(folder, name) for name in ("job.json", "case"))
    with open(job, "w") as f:
        json.dump(job_of(case), f, separators=(",", ":"))
    lists = [case[name] for name in ("table", "points", "values", "draws")] + [sum(case["proof"]["rounds"], [])]
    words = array.array("I", [case["variables"], case["batching"], case["suffix"]])
    for it in lists:
        words.extend([len(it), *it])
    if sys.byteorder == "big":
        words.byteswap()
    with open(numbers, "wb") as f:
        words.tofile(f)
    return job, numbers


def compiled(archive, folder):
    loops = os.path.join(folder, "tables")
    subprocess.run(["rustc", "-O", "--edition", "2021", "--cfg", 'feature="heap"', "-C", f"link-arg={os.path.abspath(archive)}", "-o", loops,
                    os.path.join(TOP, "bench", "tables.rs")], check=True)
    return loops


def milliseconds(commands, repeats, folder):
    """The medians of processor time of commands on files, one after the other in each repeat."""
    samples = [[run(command, path, os.path.join(folder, "out"))[1] * 1e3 for command, path in commands] for _ in range(repeats)]
    return [statistics.median(them) for them in zip(*samples)]


def shown(unit, audit, typed, loops):
    print(f"{unit:28}{audit:12.2f}{typed:12.3f}{loops:12.3f}{typed / audit:12.3f}{typed / loops:12.2f}", flush=True)


def measured(given, archive, program):
    """Shows what a check takes by the typed call, less what it takes to read the case, beside a whole run of `audit` and beside plain loops."""
    case = measured_case(given.variables, given.claims, given.suffix)
    with tempfile.TemporaryDirectory() as folder:
        library = Library(archive, folder)
        status, left = library.table(case, enough(case))
        if status != 0:
            sys.exit(f"the build ends with status {status}")
        case["proof"] = {"rounds": left.front("rounds", given.variables), "witnesses": []}
        job, numbers = written(case, folder)
        tables, audit = compiled(archive, folder), (shlex.split(program) + ["audit"], job)
        print(f"2^{given.variables} rows, {given.claims} claims, {'suffix' if given.suffix else 'prefix'}, {given.repeats} repeats, load {os.getloadavg()[0]:.2f}")
        print(f"{'':28}{'audit':>12}{'typed':>12}{'loops':>12}{'typed/audit':>12}{'typed/loops':>12}")
        calls = lambda word, count: ([tables, word, str(count)], numbers)
        times = milliseconds([audit] + [calls(word, count) for word in ("typed", "loops") for count in (0, CALLS)], given.repeats, folder)
        shown("ms of processor time", times[0], (times[2] - times[1]) / CALLS, (times[4] - times[3]) / CALLS)
        counted = [instructions(*it, folder) for it in (audit, *(calls(word, count) for word in ("typed", "loops") for count in (0, 1)))]
        counts = [count for count, _ in counted]
        if counts[0] is not None:
            shown("million instructions", counts[0] / 1e6, (counts[2] - counts[1]) / 1e6, (counts[4] - counts[3]) / 1e6)
        texts = {text for number, (_, text) in enumerate(counted) if number % 2 == 0}
        if len(texts) != 1:
            sys.exit("the texts differ")
        print("one text: " + texts.pop().decode().splitlines()[-1])


def main():
    arguments = argparse.ArgumentParser(description=__doc__, formatter_class=argparse.RawDescriptionHelpFormatter)
    for name, size in (("cases", 10000), ("variables", 20), ("claims", 1), ("repeats", 9), ("seed", None)):
        arguments.add_argument(f"--{name}", type=int, default=size)
    for name in ("beside-rust", "suffix", "ready"):
        arguments.add_argument(f"--{name}", action="store_true")
    arguments.add_argument("library", nargs="?")
    arguments.add_argument("program", nargs="?")
    given = arguments.parse_args()
    if given.ready:
        return MODEL.ready()
    if not given.library or given.beside_rust and not given.program:
        arguments.error("a library is wanted, and with --beside-rust a program")
    if given.beside_rust:
        wants([given.program])
        return measured(given, given.library, given.program)
    compared(given.library, given.cases, random.randrange(1 << 32) if given.seed is None else given.seed)


if __name__ == "__main__":
    main()
