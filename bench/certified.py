"""A report held against its own figures, without the program: what the rounds leave of the claim, what the verdict says of it, and
the polynomial of a lucky verdict, which is put into every element of the field. For the fuzzer beside this file.
"""
import functools, os, sys

sys.path.insert(0, os.path.join(os.path.dirname(os.path.abspath(__file__)), "..", "tools"))
import fields


class Wrong(Exception):
    """What a report says that its own figures deny."""


def wants(holds, what):
    if not holds:
        raise Wrong(what)


# ---- polynomials

def value_of(field, poly, x):
    """The value of a polynomial, the constant coefficient first."""
    value = 0
    for coefficient in reversed(poly):
        value = field.add(field.mul(value, x), coefficient)
    return value


@functools.lru_cache(maxsize=4096)
def root_count(name, poly):
    return len(fields.roots(fields.FIELDS[name], poly))


def certified(name, poly, challenge, vanishing):
    """The polynomial is not zero, vanishes at the challenge, if that is known, and has as many roots as are counted, which are fewer
    than its coefficients."""
    wants(any(poly), "a polynomial that is zero")
    wants(challenge is None or value_of(fields.FIELDS[name], poly, challenge) == 0, "a polynomial that does not vanish at its challenge")
    wants(1 <= vanishing < len(poly), "a count of roots that no such polynomial has")
    wants(root_count(name, tuple(poly)) == vanishing, "another number of roots than is counted")


# ---- rounds

def sent_at(field, claim, values, x):
    """The value at x of the polynomial that a round sends by its values at the elements number 0 and 2 and on, under a claim."""
    return fields.through(field, [values[0], field.sub(claim, values[0]), *values[1:]], x)


def leaves(field, claim, rounds, after):
    """What rounds leave of a claim; `after` answers it for one round, of the claim, the values and the challenge."""
    for it in rounds:
        claim = after(field, claim, it["values"], it["challenge"])
    return claim


def pairs_leave(field, job, report):
    basis = job.get("basis", "evaluation")
    return leaves(field, report["claim"], report["rounds"], lambda *it: fields.left(*it, basis))


# ---- the reports of the commands: what is left of the claim, and what it has to be

def audit_match(field, job, report):
    wants(pairs_leave(field, job, report) == report["residual"], "a residual that the rounds do not leave")
    return report["residual"] == field.mul(report["eval"], report["weight"])


def product_match(field, job, report):
    wants(leaves(field, report["claim"], report["rounds"], sent_at) == report["residual"], "a residual that the rounds do not leave")
    return report["residual"] == report["product"]


def matmul_match(field, job, report):
    wants(pairs_leave(field, job, report) == report["residual"], "a residual that the rounds do not leave")
    return report["residual"] == field.mul(report["left"], report["right"])


def openings_match(field, job, report):
    wants(pairs_leave(field, job, report) == report["residual"], "a residual that the rounds do not leave")
    return report["residual"] == fields.total(field, map(field.mul, report["openings"], report["weights"]))


def circuit_match(field, job, report):
    """Only the merged claims are told; what the gates make of two values is not reckoned here."""
    last = report["layers"][-1]
    merged = field.add(last["left"], field.mul(last["merge"], last["right"]))
    wants(merged == report["input"], "a claim on the inputs that the last layer does not merge")
    return report["verdict"] != "refuted"


MATCHES = {"audit": audit_match, "product": product_match, "matmul": matmul_match, "openings": openings_match, "circuit": circuit_match}


def statement_count(job):
    """How many coefficients the polynomial of a lucky challenge before the rounds has."""
    if "groups" in job:
        return sum(len(group.get("claims") or group.get("scalars") or group.get("points") or []) for group in job["groups"])
    if "outputs" in job:
        return len(job["outputs"])
    return len(job["claims"]) if "claims" in job else sum(map(len, job["claimed"]))


def first_draw(job):
    """The element that a script answers to the first draw, or none where there is no script."""
    if job["challenger"] == "hash":
        return None
    size, base = fields.FIELDS[job["field"]].size, fields.FIELDS[job["field"]].base_size
    parts = 1 if size == base else 2
    draws = (job["challenger"]["draws"] + [0] * parts)[:parts]
    return sum(draw * base ** i for i, draw in enumerate(draws))


def lucky_challenge(command, job, report):
    """The challenge that a lucky verdict names, or none where only a digest tells it, and how many coefficients its polynomial has."""
    lucky = report["lucky"]
    if "layer" in lucky and "round" in lucky:
        return report["layers"][lucky["layer"]]["rounds"][lucky["round"]]["challenge"], 3
    if "round" in lucky:
        return report["rounds"][lucky["round"]]["challenge"], len(job["tables"]) + 1 if command == "product" else 3
    if "layer" in lucky and lucky["layer"]:
        return report["layers"][lucky["layer"] - 1]["merge"], 2
    if command == "audit":
        return job["batching"], statement_count(job)
    return report.get("point", first_draw(job)), statement_count(job)


def verify(command, job, report):
    """Raises what the report says that its own figures deny."""
    if command not in MATCHES:
        return
    field, verdict = fields.FIELDS[job["field"]], report["verdict"]
    match = MATCHES[command](field, job, report)
    if verdict == "refuted":
        wants(not match or command == "openings", "a verdict that refutes what matches")
        return
    wants(match, "a verdict that does not refute what does not match")
    if verdict == "holds":
        return
    challenge, width = lucky_challenge(command, job, report)
    poly = report["lucky"]["poly"]
    wants(len(poly) == width, "a polynomial of another number of coefficients")
    certified(job["field"], poly, challenge, report["lucky"]["vanishing"])
