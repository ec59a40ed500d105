"""Checks of the readers in tools/ on many jobs in one process, for .ci/tools.

usage: .ci/readers.py text < JSON      the text of a report or a refusal from its JSON: what --json has read is written back
       .ci/readers.py texts JOB..      what the program says of each job is read, and gives the same text again
       .ci/readers.py strange          texts that are none of the program's are read as none
       .ci/readers.py places           texts that are no JSON, each with the place where they stop being so, on which the program agrees
       .ci/readers.py slips            proofs with a slip, each with what its first wrong round looks like
       .ci/readers.py why JOB..        of each job that does not hold more is told than the program's own line, and of others no more
"""
import json, os, sys, tempfile

sys.path.insert(0, os.path.join(os.path.dirname(os.path.abspath(__file__)), "..", "tools"))
import answers, program, scan, why

STRANGE = ["claim 2\n", "claim 2\nround 1: 2 3 challenge 4\nverdict holds\n", "claim 2\nverdict perhaps\n", "verdict holds\nclaim 2\n",
           "refused bad-jso\n", "claim 2\nverdict holds", "claim 2\nclaim 2\nverdict holds\n", "claim -2\nverdict holds\n",
           "claim 2\nverdict lucky-round vanishing 1 poly 1\n", "claim 2\ngrid 0 infinity 1\nverdict holds\n",
           "mask 1: 2 3 4\n", "mask 0:\n", "mask 0: 2 3 4", "mask 0: 2 3 4\nmask 0: 2 3 4\n", "mask 0: 2 3 4\nverdict holds\n",
           "claim 2\nmask 0: 2 3 4\nverdict holds\n", "point 2\nverdict holds\n", "point 2\nclaim 3\nleft 4\nleft 4\nverdict holds\n",
           "point 2\nclaim 3\nverdict lucky-point 0 vanishing 1 poly 1\n", "refused matmul side middle 2 3\n", "refused matmul inner 4\n",
           "claim 2\nlayer 1 round 0: 2 3 challenge 4\nverdict holds\n", "claim 2\nlayer 0 left 1 right 2 merge 3\nlayer 0 round 0: 2 3 challenge 4\nverdict holds\n",
           "claim 2\nlayer 0 round 0: 2 3 challenge 4\nlayer 1 left 1 right 2 merge 3\nverdict holds\n", "claim 2\nverdict holds layer 0\n",
           "claim 2\nverdict lucky-merge layer 0 round 1 vanishing 1 poly 1\n", "proof refused layer 0 layers expected 1 actual 2\n",
           "claim 2\nopen 0: 3\nverdict holds\n", "claim 2\nopen 1: 3\nweight 1: 4\nverdict holds\n", "claim 2\nweight 0: 3\nopen 0: 4\nverdict holds\n",
           "refused openings claim 1 length 2\n", "refused openings table 1\n", "proof refused openings expected 1\n"]

PLACES = [(b"\xef\xbb\xbf{}", 1, 1), (b'{"a":1,\n"b":01}', 2, 5), (b"[1,\n 1e400]", 2, 2), (b'["\\ud800"]', 1, 3), (b'["a\x01"]', 1, 4),
          (b'["\xff"]', 1, 3), (b"[1.]", 1, 3), (b'{"a" 1}', 1, 6), (b"[1] 2", 1, 5), (b"[tru]", 1, 2), (b"[" * 128, 1, 128), (b"", 1, 1),
          (b'{"a":1', 1, 1), (b"[1.]", 1, 3), (b'"\\x"', 1, 2), (b"{1:2}", 1, 2), (b"\n\n [1 2]", 3, 5), (b"[-]", 1, 3)]

SLIPS = [([[65535, 2], [65535, 0]], "the same two values in the other order"),
         ([[2, 0], [0, 65519]], "the value at 1 in the place of the leading coefficient"),
         ([[2, 65531], [0, 0]], "the value at 2 in the place of the leading coefficient"),
         ([[0, 65535], [0, 65535]], "the value at 1 in the place of that at 0"),
         ([[0, 1], [12, 65531]], 'the round of a build in the order "suffix"'),
         ([[6, 0], [24, 14]], 'the round of a build in the basis "projective"')]

REFUSALS = {
    "too-long": "", "bad-json": "", "bad-job": " {member}", "false-claim": " {statement} claimed {claimed} true {true}",
    "job-shape table-length": " {length}", "job-shape difficulty": " {difficulty} bound {bound}",
    "job-shape variables": " {variables} expected {expected}", "strategy-unfit variables": " {variables} bound {bound}",
    "job-shape rounds": " {rounds} bound {bound}", "job-shape projective-suffix": "", "strategy-unfit projective": "",
    "veil even-characteristic": "", "veil mask-too-short": " {length}", "veil no-rounds": "", "explain even-characteristic": "",
    "matmul side": " {matrix} {rows} {columns}", "matmul inner": " {left} {right}", "matmul outer": " {rows} {columns}",
    "circuit depth": " {layers}", "circuit width": " layer {layer} len {length}", "circuit wire": " layer {layer} gate {gate}",
    "circuit outputs": " expected {expected} actual {actual}", "false-output": " {output} claimed {claimed} true {true}",
    "openings table": " {table} length {length}", "openings claim": " {claim}",
    "false-entry": " {row} {column} claimed {claimed} true {true}",
    "strategy-unfit select": " {statement}", "strategy-unfit selector": " {statement}",
}
PROOFS = {
    "missing": " {variables}", "layers": " expected {expected} actual {actual}", "openings": " expected {expected} actual {actual}",
    "rounds": " expected {expected} actual {actual}", "witnesses": " expected {expected} actual {actual}",
    "width": " round {round} expected {expected} actual {actual}", "witness": " round {round} bits {bits}",
}


def words(numbers):
    return " ".join(map(str, numbers))


def round_line(it, layer=""):
    witness = f" witness {it['witness']}" if "witness" in it else ""
    return f"{layer}round {it['round']}: {words(it['values'])}{witness} challenge {it['challenge']}"


def verdict(told):
    """The last line of a report."""
    layer = f" layer {told['layer']}" if "layer" in told else ""
    if "lucky" not in told:
        return f"verdict {told['verdict']}{layer}"
    lucky = told["lucky"]
    number = f" {lucky['round']}" if "round" in lucky else ""
    if "layer" in lucky:
        number = f" layer {lucky['layer']}" + (f" round{number}" if number else "")
    return f"verdict {told['verdict']}{number} vanishing {lucky['vanishing']} poly {words(lucky['poly'])}"


def report(told):
    """The lines of a report."""
    if "masks" in told:
        yield from (f"mask {number}: {words(mask)}" for number, mask in enumerate(told["masks"]))
        return
    yield from (f"{name} {told[name]}" for name in ("rows", "statements", "point", "claim", "mu", "eps", "pairs") if name in told)
    yield from map(round_line, told.get("rounds", []))
    for it in told.get("layers", []):
        layer = f"layer {it['layer']} "
        yield from (round_line(number, layer) for number in it["rounds"])
        yield f"{layer}left {it['left']} right {it['right']} merge {it['merge']}"
    yield from (f"{name} {told[name]}" for name in ("input", "residual", "eval", "weight", "product", "left", "right", "scaled", "carried", "mask-residual")
               if name in told)
    yield from (f"{name} {number}: {value}" for name, all in (("open", "openings"), ("weight", "weights")) for number, value in enumerate(told.get(all, [])))
    for it in told.get("grids", []):
        yield from (f"grid {it['grid']} {part} {words(it[part])}" for part in ("zero", "infinity"))
    yield verdict(told)


def lines(told):
    cause = f"{told.get('cause')} {told['fault']}" if "fault" in told else told.get("cause")
    if told["outcome"] == "refused":
        more = "" if cause != "openings claim" else " table {table}" if "table" in told else " variables {variables}"
        return ["refused " + (cause + REFUSALS[cause] + more).format(**told)]
    if told["outcome"] == "proof-refused":
        return ["proof refused " + ("layer {layer} " if "layer" in told else "").format(**told) + (cause + PROOFS[cause]).format(**told)]
    if told["outcome"] == "report":
        return list(report(told))
    return ["usage"] if told["outcome"] == "usage" else ["no witness " + (f"layer {told['layer']} " if "layer" in told else "") + f"round {told['round']}"]


def text(told):
    return "\n".join(lines(told)) + "\n"


def wanted(job):
    """The text and the status that stand beside a ready job."""
    name = job.removesuffix(".json")
    status = int(open(name + ".status").read()) if os.path.exists(name + ".status") else 0
    return open(name + ".stdout").read(), status


def command_of(job):
    """The command of a ready job: its name begins with the word, if that is not `audit`."""
    return next((word for word in program.COMMANDS[1:] if f"/{word}" in job), "audit")


def reads_back(job):
    with open(job, "rb") as it:
        status, said = program.run([command_of(job)], it.read())
    return (said, status) == wanted(job) and text(json.loads(json.dumps(answers.read(said)))) == said


def tells_why(job):
    case = why.Case([job])
    told, (said, status) = why.explained(case), wanted(job)
    line = said.removesuffix("\n") if "masks" in case.told else said.splitlines()[-1]
    return case.line == line and (told, bool(case.notes)) == ((1, True) if status else (0, False))


def is_strange(said):
    try:
        return answers.read(said) is None
    except answers.Unknown:
        return True


def is_placed(it):
    data, *wanted = it
    try:
        return scan.read(data) is None
    except scan.Fault as fault:
        return list(scan.place(scan.text_of(data), fault.offset)) == wanted and program.run(["audit"], data) == (3, "refused bad-json\n")


def is_slip(it):
    with open("jobs/proof.json", "rb") as file, tempfile.NamedTemporaryFile() as out:
        rounds, name = it
        out.write(json.dumps(json.load(file) | {"mode": {"check": {"rounds": rounds, "witnesses": []}}}).encode())
        out.flush()
        case = why.Case([out.name])
        return why.explained(case) == 1 and f"That would be {name}." in case.notes


def all_of(test, cases):
    wrong = [case for case in cases if not test(case)]
    print("\n".join(map(str, wrong)), end="\n" if wrong else "", file=sys.stderr)
    return 0 if cases and not wrong else 1


if __name__ == "__main__":
    if sys.argv[1] == "text":
        print(text(json.load(sys.stdin)), end="")
    else:
        own = {"strange": (is_strange, STRANGE), "places": (is_placed, PLACES), "slips": (is_slip, SLIPS)}
        jobs = {"texts": reads_back, "why": tells_why}
        sys.exit(all_of(*own[sys.argv[1]]) if sys.argv[1] in own else all_of(jobs[sys.argv[1]], sys.argv[2:]))
