"""What `audit` has to write, by sums over all rows and with a challenger of its own; of builds on small values it has no grids.

Nothing here comes from the program, so that its answers can be held against it: for bench/tables.py.
"""
import os, sys

sys.path.insert(0, os.path.join(os.path.dirname(os.path.abspath(__file__)), "..", "tools"))
import fields
from matrices import MOST_BITS, Rounds, proof_refusal
from picture import bound, claim_weights, inner
from truth import list_name

MOST_VARIABLES = 24


# ---- statements

def claims_of(job):
    """The claims of all groups, each with the kind of its group."""
    return [(group["kind"], claim) for group in job["groups"] for claim in group[list_name(group)]]


def true_values(field, job):
    """What is true of the table, claim by claim."""
    rows = len(job["table"])
    return [inner(field, job["table"], claim_weights(field, kind, claim, rows)) for kind, claim in claims_of(job)]


# ---- the answer

def shape_refusal(job):
    """What is refused of a job whatever is done with it, or None."""
    rows, variables = len(job["table"]), len(job["table"]).bit_length() - 1
    if rows != 1 << max(variables, 0) or variables > MOST_VARIABLES:
        return f"refused job-shape table-length {rows}\n"
    if job["bits"] > MOST_BITS:
        return f"refused job-shape difficulty {job['bits']} bound {MOST_BITS}\n"
    if variables != job["variables"]:
        return f"refused job-shape variables {job['variables']} expected {variables}\n"
    if job.get("basis") == "projective" and job["order"] == "suffix":
        return "refused job-shape projective-suffix\n"
    return None


def build_refusal(field, job):
    """What is refused of a build, or None."""
    if job.get("basis") == "projective" and job["mode"]["build"] != "plain":
        return 3, "refused strategy-unfit projective\n"
    for number, ((_, claim), true) in enumerate(zip(claims_of(job), true_values(field, job))):
        if claim["value"] != true:
            return 3, f"refused false-claim {number} claimed {claim['value']} true {true}\n"
    return None


def refusal(field, job):
    """The status and the text of a refusal before any event, if there is one, in its order."""
    shape = shape_refusal(job)
    if shape:
        return 3, shape
    if "build" in job["mode"]:
        return build_refusal(field, job)
    proof = job["mode"]["check"]
    if proof is None:
        return (4, f"proof refused missing {job['variables']}\n") if job["variables"] else None
    return proof_refusal(proof, job["variables"], job["bits"])


class Play(Rounds):
    """One play of a job that is not refused before it."""

    def __init__(self, job, field):
        self.basis, self.kept = job.get("basis", "evaluation"), {}
        super().__init__(job, field, job["variables"])

    def begin(self):
        field, job = self.field, self.job
        claims, rows = claims_of(job), len(job["table"])
        powers = fields.powers(field, job["batching"], len(claims))[:len(claims)]
        self.claim = fields.total(field, (field.mul(power, claim["value"]) for power, (_, claim) in zip(powers, claims)))
        self.weights = [0] * rows
        for power, (kind, claim) in zip(powers, claims):
            own = claim_weights(field, kind, claim, rows)
            self.weights = [field.add(sum_so_far, field.mul(power, weight)) for sum_so_far, weight in zip(self.weights, own)]
        self.excess = [field.sub(claim["value"], true) for (_, claim), true in zip(claims, true_values(field, job))]
        self.lines = [f"claim {self.claim}"]
        if any(self.excess) and self.claim == self.claim_at([]):
            self.lucky = "lucky-batch", self.excess

    def tables_at(self, before):
        """The table and the weights, once these are the challenges before."""
        if not before:
            return self.job["table"], self.weights
        key = tuple(before)
        if key not in self.kept:
            self.kept[key] = [bound(self.field, it, before[-1], self.job["order"], self.basis) for it in self.tables_at(before[:-1])]
        return self.kept[key]

    def claim_at(self, before):
        return inner(self.field, *self.tables_at(before))

    def answer(self):
        """The status and the text."""
        if self.refused:
            return self.refused
        (value,), (weight,) = self.tables_at(self.challenges)
        verdict = self.verdict(self.claim == self.field.mul(value, weight), not any(self.excess))
        return self.report([f"eval {value}", f"weight {weight}"], verdict)


def answer(job):
    """The status and the text of a job that is of its form."""
    field = fields.FIELDS[job["field"]]
    refused = refusal(field, job)
    if refused:
        return refused
    play = Play(job, field)
    if "build" in job["mode"]:
        return play.play().answer()
    return play.replay(job["mode"]["check"] or {"rounds": [], "witnesses": []}).answer()
