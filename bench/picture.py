#!/usr/bin/env python3
"""Draws the rounds of a job, built or checked, from left to right: the claim that runs through them, and the true one.

usage: bench/picture.py JOB OUT.svg

Below runs the true claim. The other one is above it where both differ, and on it where they are the same, so that the
picture shows where they part, and at which challenge they meet again. Height says nothing else. The true claims are sums
over the table and its weights, or over the product of tables, computed here and not by the program; from the program's
report come the rounds and challenges, and the verdict in the title. The command is `product` where the job has `tables`.
"""
import json, os, sys

sys.path.insert(0, os.path.join(os.path.dirname(os.path.abspath(__file__)), "..", "tools"))
import answers, program
from fields import FIELDS, equality_weights, left, powers, products, successor_weights, through, total
from fill import named_command
from truth import list_name

STEP, LEFT, HIGH, LOW, HEIGHT = 132, 104, 96, 162, 240
TRUE, FALSE, LUCKY = "#2f7d46", "#b3341f", "#c77d00"


# ---- Claims, by sums over the table

def claim_weights(field, kind, claim, rows):
    """What a statement weighs each row by."""
    if kind == "eq":
        return equality_weights(field, claim["point"])
    if kind == "next":
        slot, local = equality_weights(field, claim["selector"]), successor_weights(field, claim["point"])
        pairs = ((s, w) for s in slot for w in local) if claim["order"] == "prefix" else ((s, w) for w in local for s in slot)
        return [field.mul(s, w) for s, w in pairs]
    return products(field, claim["at"]) if isinstance(claim["at"], list) else powers(field, claim["at"], rows)


def inner(field, table, weights):
    return total(field, map(field.mul, table, weights))


def bound(field, table, challenge, order, basis="evaluation"):
    """A table with its first variable, or its last one, at a challenge."""
    half = len(table) // 2
    if basis == "projective":
        return [field.add(a, field.mul(b, challenge)) for a, b in zip(table[:half], table[half:])]
    pairs = zip(table[:half], table[half:]) if order == "prefix" else zip(table[::2], table[1::2])
    return [field.add(a, field.mul(field.sub(b, a), challenge)) for a, b in pairs]


def batched(field, job):
    """The batched weights, the batched claim, and how many statements are there and are false."""
    table, weights, claim, false, count, power = job["table"], [0] * len(job["table"]), 0, 0, 0, 1
    for group in job["groups"]:
        for it in group[list_name(group)]:
            own = claim_weights(field, group["kind"], it, len(table))
            false += inner(field, table, own) != it["value"]
            weights = [field.add(w, field.mul(power, o)) for w, o in zip(weights, own)]
            claim, power, count = field.add(claim, field.mul(power, it["value"])), field.mul(power, job["batching"]), count + 1
    return weights, claim, false, count


def audit_courses(job, report):
    """Of a job for `audit`: the claim that runs through the rounds and the true one, before the first round and after each; what is false at the start."""
    field, basis = FIELDS[job["field"]], job.get("basis", "evaluation")
    weights, claim, false, count = batched(field, job)
    table, claims, true = job["table"], [claim], [inner(field, job["table"], weights)]
    for it in report["rounds"]:
        claims.append(left(field, claims[-1], it["values"], it["challenge"], basis))
        table, weights = (bound(field, part, it["challenge"], job["order"], basis) for part in (table, weights))
        true.append(inner(field, table, weights))
    agree = (table, weights) == ([report["eval"]], [report["weight"]])
    return claims, true, false and f"{false} of {count} false", agree


def product_courses(job, report):
    """The same of a job for `product`."""
    field, tables = FIELDS[job["field"]], job["tables"]

    def summed():
        rows = tables[0]
        for other in tables[1:]:
            rows = list(map(field.mul, rows, other))
        return total(field, rows)

    true = [summed()]
    claims = [job["mode"]["check"]["claimed"] if isinstance(job["mode"], dict) else true[0]]
    for it in report["rounds"]:
        first, *rest = it["values"]
        claims.append(through(field, [first, field.sub(claims[-1], first), *rest], it["challenge"]))
        tables = [bound(field, table, it["challenge"], "prefix") for table in tables]
        true.append(summed())
    return claims, true, claims[0] != true[0] and "a false sum", true[-1] == report["product"]


def courses(job, report):
    """Both courses and what is false at the start, where the program's report agrees with these sums."""
    claims, true, false, agree = (product_courses if "product" in report else audit_courses)(job, report)
    if not agree or (claims[0], claims[-1]) != (report["claim"], report["residual"]):
        raise program.Unable("the report is not that of these sums")
    return claims, true, false


# ---- The picture

def text(x, y, words, color="#222", more=""):
    return f'<text x="{x}" y="{y}" fill="{color}" text-anchor="middle"{more}>{words}</text>'


def line(x1, y1, x2, y2, color, more=""):
    return f'<line x1="{x1}" y1="{y1}" x2="{x2}" y2="{y2}" stroke="{color}" stroke-width="2.5"{more}/>'


def marks(columns):
    """The points of both courses, with their numbers. A column has its place, both numbers as words, and whether they are the same."""
    for x, claimed, true, same in columns:
        yield f'<circle cx="{x}" cy="{LOW}" r="5" fill="{TRUE}"/>' + text(x, LOW + 22, true, TRUE)
        if not same:
            yield f'<circle cx="{x}" cy="{HIGH}" r="5" fill="{FALSE}"/>' + text(x, HIGH - 12, claimed, FALSE)


def ways(columns):
    """The lines between the points, and a ring where the courses meet again."""
    for (x1, _, _, same1), (x2, _, _, same2) in zip(columns, columns[1:]):
        yield line(x1, LOW, x2, LOW, TRUE)
        if not (same1 and same2):
            yield line(x1, LOW if same1 else HIGH, x2, LOW if same2 else HIGH, LUCKY if same2 else FALSE, "" if same2 else ' stroke-dasharray="6 4"')
        if same2 and not same1:
            yield f'<circle cx="{x2}" cy="{LOW}" r="11" fill="none" stroke="{LUCKY}" stroke-width="2.5"/>' + text(x2, LOW - 28, "they meet", LUCKY)
        if same1 and not same2:
            yield text(x2, HIGH - 30, "they part", FALSE)


def steps(report, columns, batching):
    """What stands between the columns: the batching challenge, and each round's values and challenge."""
    names = [("batch", f"at {batching}") if batching is not None else ("sum", "claimed")]
    names += [(f"round {it['round']}: {' '.join(map(str, it['values']))}", f"challenge {it['challenge']}") for it in report["rounds"]]
    for (x1, *_), (x2, *_), (above, below) in zip(columns, columns[1:], names):
        middle = (x1 + x2) // 2
        yield text(middle, HEIGHT - 30, above, "#444", ' font-size="11"') + text(middle, HEIGHT - 14, below, "#444", ' font-size="11"')


def title(report):
    """The verdict, and of a lucky one which challenge it was."""
    lucky = report.get("lucky")
    if not lucky:
        return f"verdict {report['verdict']}", ""
    challenge = f"of round {lucky['round']}" if "round" in lucky else "of the batch"
    return f"verdict {report['verdict']}", f"the challenge {challenge} is one of {lucky['vanishing']} at which the claim turns true"


def picture(job, report):
    claims, true, false = courses(job, report)
    step = max(STEP, max([6 * len(" ".join(map(str, it["values"]))) + 66 for it in report["rounds"]], default=0))
    columns = [(LEFT, false, "true values" if false else "all true", not false)]
    columns += [(LEFT + step * (i + 1), c, t, c == t) for i, (c, t) in enumerate(zip(claims, true))]
    verdict, why = title(report)
    width = max(LEFT + step * len(claims) + LEFT, 32 + 6 * len(why))
    yield (f'<svg xmlns="http://www.w3.org/2000/svg" width="{width}" height="{HEIGHT}" viewBox="0 0 {width} {HEIGHT}" role="img" '
           'font-family="sans-serif" font-size="13">')
    yield f"<title>{verdict}{': ' if why else ''}{why}</title>"
    yield f'<rect width="{width}" height="{HEIGHT}" fill="white"/>'
    yield f'<text x="16" y="22" font-weight="bold">{verdict}</text>' + (f'<text x="16" y="40" font-size="11">{why}</text>' if why else "")
    yield f'<text x="16" y="{LOW + 4}" fill="{TRUE}">true</text>'
    if any(not same for *_, same in columns):
        yield f'<text x="16" y="{HIGH + 4}" fill="{FALSE}">claimed</text>'
    yield from ways(columns)
    yield from marks(columns)
    yield from steps(report, columns, job.get("batching") if "product" not in report else None)
    yield "</svg>"


def main(words):
    if len(words) != 2:
        raise program.WrongWords
    data = program.bytes_of(words[0])
    try:
        job = json.loads(data)
    except ValueError as why:
        raise program.Unable(f"{words[0]} is no JSON: {why}") from None
    report = answers.read(program.run([named_command(job)], data)[1])
    if report["outcome"] != "report":
        raise program.Unable(f"{words[0]} has no report: {report}")
    with open(words[1], "w", encoding="utf-8") as out:
        out.write("\n".join(picture(job, report)) + "\n")
    return 0


if __name__ == "__main__":
    program.ended(main, sys.argv[1:], __doc__)
