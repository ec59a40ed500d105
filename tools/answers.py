"""What the program writes, read line by line into values: every kind of line of docs/FORMATS.md. Unproved.

`read(text)` gives a dictionary with the member `outcome`: "report", "refused", "proof-refused", "no-witness", "usage", or
"nothing" where nothing was written. A report has the members that its lines name, `rounds` and `grids` as lists; a lucky
verdict has what it names in `lucky`. A report on a circuit has `layers` in the place of `rounds`, each with its rounds, and one
on several tables `openings` and `weights`. A refusal has a `cause`, where there are several a `fault`, and the numbers of its
line under their names. What `explain` finds is a report with `masks` alone, a list of coefficients for each.
"""
import re

NUMBER = r"(\d+)"
NUMBERS = r"(\d+(?: \d+)*)"

# Lines with one number, or none, in a report.
FIGURES = ("rows", "statements", "point", "claim", "mu", "eps", "pairs", "input", "residual", "eval", "weight", "product", "left", "right", "scaled", "carried",
           "mask-residual")
ROUND = re.compile(rf"(?:layer {NUMBER} )?round {NUMBER}: {NUMBERS}(?: witness {NUMBER})? challenge {NUMBER}")
GRID = re.compile(rf"grid {NUMBER} (zero|infinity) {NUMBERS}")
ENDS = re.compile(rf"layer {NUMBER} left {NUMBER} right {NUMBER} merge {NUMBER}")
OPENED = re.compile(rf"(open|weight) {NUMBER}: {NUMBER}")
MASK = re.compile(rf"mask {NUMBER}: {NUMBERS}")
VERDICT = re.compile(rf"verdict (holds|refuted)(?: layer {NUMBER})?")
LUCKY = re.compile(rf"verdict (lucky-batch|lucky-point|lucky-round)(?: {NUMBER})? vanishing {NUMBER} poly {NUMBERS}")
LUCKY_LAYER = re.compile(rf"verdict (lucky-merge|lucky-round) layer {NUMBER}(?: round {NUMBER})? vanishing {NUMBER} poly {NUMBERS}")

# A text of one line that is no report: its outcome and cause, and the names of what it tells.
SINGLE = [(re.compile(line.replace("N", NUMBER)), outcome, cause, names) for line, outcome, cause, *names in [
    ("usage", "usage", None),
    ("refused too-long", "refused", "too-long"),
    ("refused bad-json", "refused", "bad-json"),
    ("refused bad-job (.*)", "refused", "bad-job", "member"),
    ("refused job-shape (table-length) N", "refused", "job-shape", "fault", "length"),
    ("refused job-shape (difficulty) N bound N", "refused", "job-shape", "fault", "difficulty", "bound"),
    ("refused job-shape (variables) N expected N", "refused", "job-shape", "fault", "variables", "expected"),
    ("refused job-shape (projective-suffix)", "refused", "job-shape", "fault"),
    ("refused job-shape (rounds) N bound N", "refused", "job-shape", "fault", "rounds", "bound"),
    ("refused veil (even-characteristic|no-rounds)", "refused", "veil", "fault"),
    ("refused veil (mask-too-short) N", "refused", "veil", "fault", "length"),
    ("refused explain (even-characteristic)", "refused", "explain", "fault"),
    ("refused matmul (side) (left|right|claimed) N N", "refused", "matmul", "fault", "matrix", "rows", "columns"),
    ("refused matmul (inner) N N", "refused", "matmul", "fault", "left", "right"),
    ("refused matmul (outer) N N", "refused", "matmul", "fault", "rows", "columns"),
    ("refused circuit (depth) N", "refused", "circuit", "fault", "layers"),
    ("refused circuit (width) layer N len N", "refused", "circuit", "fault", "layer", "length"),
    ("refused circuit (wire) layer N gate N", "refused", "circuit", "fault", "layer", "gate"),
    ("refused circuit (outputs) expected N actual N", "refused", "circuit", "fault", "expected", "actual"),
    ("refused openings (table) N length N", "refused", "openings", "fault", "table", "length"),
    ("refused openings (claim) N table N", "refused", "openings", "fault", "claim", "table"),
    ("refused openings (claim) N variables N", "refused", "openings", "fault", "claim", "variables"),
    ("refused strategy-unfit (projective)", "refused", "strategy-unfit", "fault"),
    ("refused strategy-unfit (variables) N bound N", "refused", "strategy-unfit", "fault", "variables", "bound"),
    ("refused strategy-unfit (select|selector) N", "refused", "strategy-unfit", "fault", "statement"),
    ("refused false-claim N claimed N true N", "refused", "false-claim", "statement", "claimed", "true"),
    ("refused false-entry N N claimed N true N", "refused", "false-entry", "row", "column", "claimed", "true"),
    ("refused false-output N claimed N true N", "refused", "false-output", "output", "claimed", "true"),
    ("proof refused missing N", "proof-refused", "missing", "variables"),
    ("proof refused openings expected N actual N", "proof-refused", "openings", "expected", "actual"),
    ("proof refused rounds expected N actual N", "proof-refused", "rounds", "expected", "actual"),
    ("proof refused witnesses expected N actual N", "proof-refused", "witnesses", "expected", "actual"),
    ("proof refused width round N expected N actual N", "proof-refused", "width", "round", "expected", "actual"),
    ("proof refused witness round N bits N", "proof-refused", "witness", "round", "bits"),
    ("proof refused layers expected N actual N", "proof-refused", "layers", "expected", "actual"),
    ("proof refused layer N rounds expected N actual N", "proof-refused", "rounds", "layer", "expected", "actual"),
    ("proof refused layer N witnesses expected N actual N", "proof-refused", "witnesses", "layer", "expected", "actual"),
    ("proof refused layer N width round N expected N actual N", "proof-refused", "width", "layer", "round", "expected", "actual"),
    ("proof refused layer N witness round N bits N", "proof-refused", "witness", "layer", "round", "bits"),
    ("no witness round N", "no-witness", None, "round"),
    ("no witness layer N round N", "no-witness", None, "layer", "round"),
]]


class Unknown(Exception):
    """A line that is none of docs/FORMATS.md, or stands where it does not belong."""


def number_of(word):
    return int(word) if word.isdigit() else word


def numbers_of(words):
    return [int(word) for word in words.split()]


def single(line):
    """What a text of one line says that is no report, or None."""
    for form, outcome, cause, names in SINGLE:
        found = form.fullmatch(line)
        if found:
            told = {"outcome": outcome} if cause is None else {"outcome": outcome, "cause": cause}
            return told | dict(zip(names, map(number_of, found.groups())))
    return None


def open_layer(report, number, found):
    """The layer of this number, which is the last one that is not closed, or a new one."""
    layers = report.setdefault("layers", [])
    if number == len(layers) and not (layers and "merge" not in layers[-1]):
        layers.append({"layer": number, "rounds": []})
    if number != len(layers) - 1 or "merge" in layers[number]:
        raise Unknown(found.group())
    return layers[number]


def add_round(report, found):
    layer, number, values, witness, challenge = found.groups()
    rounds = (report if layer is None else open_layer(report, int(layer), found)).setdefault("rounds", [])
    if int(number) != len(rounds):
        raise Unknown(found.group())
    it = {"round": int(number), "values": numbers_of(values)}
    rounds.append(it | ({} if witness is None else {"witness": int(witness)}) | {"challenge": int(challenge)})


def add_ends(report, found):
    layer, *ends = map(int, found.groups())
    open_layer(report, layer, found).update(zip(("left", "right", "merge"), ends))


def add_grid(report, found):
    number, part, values = found.groups()
    grids = report.setdefault("grids", [])
    if part == "zero":
        grids.append({"grid": int(number)})
    if not grids or grids[-1]["grid"] != int(number) or part in grids[-1]:
        raise Unknown(found.group())
    grids[-1][part] = numbers_of(values)


def add_opened(report, found):
    name, number, value = found.groups()
    values = report.setdefault({"open": "openings", "weight": "weights"}[name], [])
    if int(number) != len(values) or name == "open" and "weights" in report:
        raise Unknown(found.group())
    values.append(int(value))


def add_lucky(report, found):
    kind, number, vanishing, poly = found.groups()
    if (number is None) != (kind != "lucky-round"):
        raise Unknown(found.group())
    report["verdict"] = kind
    named = {} if number is None else {"round": int(number)}
    report["lucky"] = named | {"vanishing": int(vanishing), "poly": numbers_of(poly)}


def add_lucky_layer(report, found):
    kind, layer, number, vanishing, poly = found.groups()
    if (number is None) != (kind == "lucky-merge"):
        raise Unknown(found.group())
    report["verdict"] = kind
    named = {"layer": int(layer)} | ({} if number is None else {"round": int(number)})
    report["lucky"] = named | {"vanishing": int(vanishing), "poly": numbers_of(poly)}


def add_verdict(report, found):
    verdict, layer = found.groups()
    if layer is not None and verdict != "refuted":
        raise Unknown(found.group())
    report["verdict"] = verdict
    report.update({} if layer is None else {"layer": int(layer)})


def add_line(report, line):
    word, _, rest = line.partition(" ")
    if "verdict" in report:
        raise Unknown(line)
    if word in FIGURES and rest.isdigit() and word not in report:
        report[word] = int(rest)
    elif found := ROUND.fullmatch(line):
        add_round(report, found)
    elif found := GRID.fullmatch(line):
        add_grid(report, found)
    elif found := ENDS.fullmatch(line):
        add_ends(report, found)
    elif found := OPENED.fullmatch(line):
        add_opened(report, found)
    elif found := VERDICT.fullmatch(line):
        add_verdict(report, found)
    elif found := LUCKY.fullmatch(line):
        add_lucky(report, found)
    elif found := LUCKY_LAYER.fullmatch(line):
        add_lucky_layer(report, found)
    else:
        raise Unknown(line)


def masks_of(lines):
    """The masks that a text of such lines alone tells."""
    masks = []
    for line in lines:
        found = MASK.fullmatch(line)
        if not found or int(found.group(1)) != len(masks):
            raise Unknown(line)
        masks.append(numbers_of(found.group(2)))
    return masks


def read(text):
    """The values of a whole text of the program."""
    if not text:
        return {"outcome": "nothing"}
    lines = text.split("\n")
    told = single(lines[0]) if len(lines) == 2 else None
    if lines.pop() != "":
        raise Unknown(lines[-1] if lines else text)
    if told:
        return told
    if lines[0].startswith("mask "):
        return {"outcome": "report", "masks": masks_of(lines)}
    report = {"outcome": "report"}
    for line in lines:
        add_line(report, line)
    if "verdict" not in report or "claim" not in report or len(report.get("openings", [])) != len(report.get("weights", [])):
        raise Unknown(lines[-1])
    if "rows" not in report and "layers" not in report:  # the report in short has no rounds, and a circuit has them in its layers
        report.setdefault("rounds", [])
    return report
