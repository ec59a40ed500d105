"""The true values of a job's claims, by builds of the program itself, so that nothing is invented here. Unproved.

The product of two matrices, the outputs of a circuit and the values of several tables alone are reckoned here, since a build
names one false value at a time.

A build refuses the first statement that is false and tells its true value. So the statements after it are built next,
until none is refused: one run for each false statement, and one more. The runs have no test and a script without draws,
on which the truth of a statement does not depend.
"""
import json

import answers, fields, program

LISTS = ("claims", "scalars", "points")


def list_name(group):
    """The member of a group that has its claims."""
    return "claims" if group["kind"] != "select" else "scalars" if "scalars" in group else "points"


def statements(job):
    """The claims of a job in order, each as (group, place in it)."""
    return [(g, c) for g, group in enumerate(job["groups"]) for c in range(len(group[list_name(group)]))]


def groups_from(job, start):
    """The groups with the statements from number `start` on alone."""
    groups, number = [], 0
    for group in job["groups"]:
        name = list_name(group)
        rest = group[name][max(0, start - number):]
        number += len(group[name])
        groups += [group | {name: rest}] if rest else []
    return groups


def built(command, job):
    """What the program answers to a job: its status, and what its text tells."""
    status, text = program.run([command], json.dumps(job).encode())
    return status, answers.read(text)


def plain(job):
    """A job with a build and no test, under a script without draws."""
    return job | {"challenger": {"draws": [], "witnesses": []}, "bits": 0, "mode": {"build": "plain"}}


def false_statements(job):
    """The false statements of a job that is not refused otherwise: by number, each with its claimed and its true value."""
    found, start, count = {}, 0, len(statements(job))
    while start < count:
        status, told = built("audit", plain(job) | {"groups": groups_from(job, start)})
        if told.get("cause") == "false-claim":
            number = start + told["statement"]
            found[number] = (told["claimed"], told["true"])
            start = number + 1
        elif status == 0:
            return found
        else:
            raise program.Unable(f"a build ended with status {status}: {told}")
    return found


def true_sum(job):
    """The true sum of a job of `product`."""
    status, told = built("product", job | {"challenger": {"draws": [], "witnesses": []}, "bits": 0, "mode": "build"})
    if status != 0:
        raise program.Unable(f"a build ended with status {status}: {told}")
    return told["claim"]


def base_field(job):
    return fields.Prime(257) if job["field"] == "257x2" else fields.FIELDS[job["field"]]


def true_product(job):
    """The product of the two matrices of a job of `matmul`, multiplied here."""
    field = base_field(job)
    return [[fields.total(field, map(field.mul, row, column)) for column in zip(*job["right"])] for row in job["left"]]


def false_entries(job):
    """The false entries of a job of `matmul` whose sides fit, row by row: row, column, claimed and true value."""
    both = zip(job["claimed"], true_product(job))
    return [(i, j, said, true) for i, rows in enumerate(both) for j, (said, true) in enumerate(zip(*rows)) if said != true]


def true_outputs(job):
    """The outputs of a job of `circuit` that fits, reckoned here."""
    field, values = base_field(job), job["inputs"]
    for gates in reversed(job["layers"]):
        values = [(field.mul if product else field.add)(values[left], values[right]) for product, left, right in gates]
    return values


def false_table_claims(job):
    """The false claims of a job of `openings` that fits, by number, each with its claimed and its true value, reckoned here."""
    field, found = fields.FIELDS[job["field"]], {}
    for number, claim in enumerate(job["claims"]):
        table = job["tables"][claim["table"]]
        true = fields.value_at(field, table[1:] + table[-1:] if claim["successor"] else table, claim["point"])
        if true != claim["value"]:
            found[number] = claim["value"], true
    return found


def true_table_claims(job):
    """The claims of a job of `openings` that fits, with their true values."""
    false = false_table_claims(job)
    return [claim | ({"value": false[number][1]} if number in false else {}) for number, claim in enumerate(job["claims"])]


def filled(job):
    """A job with the true values in its claims."""
    places, groups = statements(job), json.loads(json.dumps(job["groups"]))
    for number, (_, true) in false_statements(job).items():
        group, place = places[number]
        groups[group][list_name(groups[group])][place]["value"] = true
    return job | {"groups": groups}
