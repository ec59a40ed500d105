"""What `openings` has to write, by sums over all rows and with a challenger of its own.

Nothing here comes from the program, so that its answers can be held against it: for bench/openings.py.
"""
import itertools, os, sys

sys.path.insert(0, os.path.join(os.path.dirname(os.path.abspath(__file__)), "..", "tools"))
import fields
from matrices import MOST_BITS, Rounds, proof_refusal

MOST_VARIABLES = 16


# ---- tables and weights

def value(field, table, point):
    """The value of a table at a point: the sum over all rows of entry times weight."""
    return fields.total(field, map(field.mul, table, fields.equality_weights(field, point)))


def next_rows(table):
    """The table of next rows: the last row is its own next one."""
    return table[1:] + table[-1:]


def true_value(field, tables, claim):
    table = tables[claim["table"]]
    return value(field, next_rows(table) if claim["successor"] else table, claim["point"])


def claim_weights(field, claim):
    """What a claim weighs each row by: by its point, and a claim on next rows by the sum over all rows whose next one it is."""
    weights = fields.equality_weights(field, claim["point"])
    if not claim["successor"]:
        return weights
    return [fields.total(field, (w for b, w in enumerate(weights) if min(b + 1, len(weights) - 1) == row)) for row in range(len(weights))]


# ---- the answer

def refusal(job, field):
    """The status and the text of a refusal before any event, if there is one, in its order."""
    tables, claims, variables = job["tables"], job["claims"], job["variables"]
    for number, table in enumerate(tables):
        if variables > MOST_VARIABLES or len(table) != 1 << variables:
            return 3, f"refused openings table {number} length {len(table)}\n"
    for number, claim in enumerate(claims):
        if claim["table"] >= len(tables):
            return 3, f"refused openings claim {number} table {claim['table']}\n"
    for number, claim in enumerate(claims):
        if len(claim["point"]) != variables:
            return 3, f"refused openings claim {number} variables {len(claim['point'])}\n"
    if job["bits"] > MOST_BITS:
        return 3, f"refused job-shape difficulty {job['bits']} bound {MOST_BITS}\n"
    if job["mode"] != "build":
        proof = job["mode"]["check"]
        if len(proof["openings"]) != len(tables):
            return 4, f"proof refused openings expected {len(tables)} actual {len(proof['openings'])}\n"
        return proof_refusal(proof, variables, job["bits"])
    for number, claim in enumerate(claims):
        true = true_value(field, tables, claim)
        if claim["value"] != true:
            return 3, f"refused false-claim {number} claimed {claim['value']} true {true}\n"
    return None


class Play(Rounds):
    """One play of a job whose tables and claims fit."""

    def __init__(self, job, field):
        super().__init__(job, field, job["variables"])

    def begin(self):
        field, tables, claims = self.field, self.job["tables"], self.job["claims"]
        for claim in claims:
            self.transcript.observe(claim["value"])
        self.merging = self.transcript.draw()
        self.claim, self.weights = 0, [[0] * len(table) for table in tables]
        for claim, power in zip(claims, fields.powers(field, self.merging, len(claims))):
            self.claim = field.add(self.claim, field.mul(power, claim["value"]))
            added = [field.mul(power, w) for w in claim_weights(field, claim)]
            self.weights[claim["table"]] = list(map(field.add, self.weights[claim["table"]], added))
        self.excess = [field.sub(claim["value"], true_value(field, tables, claim)) for claim in claims]
        self.lines = [f"claim {self.claim}"]
        if any(self.excess) and self.claim == self.claim_at([]):
            self.lucky = "lucky-batch", self.excess

    def claim_at(self, before):
        """The sum over all bits for the variables that are left, and over all tables, once these are the challenges before."""
        field, rest = self.field, itertools.product((0, 1), repeat=self.count - len(before))
        points = [before + list(bits) for bits in rest]
        return fields.total(field, (field.mul(value(field, table, point), value(field, weights, point))
                                    for table, weights in zip(self.job["tables"], self.weights) for point in points))

    def at_challenges(self, tables):
        return [value(self.field, table, self.challenges) for table in tables]

    def answer(self, openings=None):
        """The status and the text, with the openings of a proof, or with the true ones."""
        if self.refused:
            return self.refused
        true, weights = self.at_challenges(self.job["tables"]), self.at_challenges(self.weights)
        openings = true if openings is None else openings
        agrees = openings == true and self.claim == fields.total(self.field, map(self.field.mul, openings, weights))
        figures = [f"{name} {j}: {x}" for name, them in (("open", openings), ("weight", weights)) for j, x in enumerate(them)]
        return self.report(figures, self.verdict(agrees, not any(self.excess)))


def answer(job):
    """The status and the text of a job that is of its form."""
    field = fields.FIELDS[job["field"]]
    refused = refusal(job, field)
    if refused:
        return refused
    play = Play(job, field)
    if job["mode"] == "build":
        return play.play().answer()
    proof = job["mode"]["check"]
    return play.replay(proof).answer(proof["openings"])
