"""What a round that differs from the true one looks like, for `why.py`: the slips that are made when a proof is carried over. Unproved.

Each guess is compared with what the proof sends in the first round that differs; only what is equal is told.
"""
from fields import FIELDS, left


def forms_of(field, claim, values, basis):
    """Other ways to send a round whose two values and claim are known, each with its name."""
    first, b = values
    zero, one, two = (left(field, claim, values, x, basis) for x in (0, 1, 2))
    slope = field.sub(field.sub(one, zero), b)
    other = {"the value at 1 in the place of that at 0": [one, b]} if basis == "evaluation" else {"the value at 0 in the place of that at 1": [zero, b]}
    return {
        "the same two values in the other order": [b, first],
        "the value at 1 in the place of the leading coefficient": [first, one],
        "the value at 2 in the place of the leading coefficient": [first, two],
        "the linear coefficient in the place of the leading one": [first, slope],
        "the negated leading coefficient": [first, field.sub(0, b)],
    } | other


def claim_before(field, built, number, basis):
    """The true claim before a round of a build."""
    claim = built["claim"]
    for it in built["rounds"][:number]:
        claim = left(field, claim, it["values"], it["challenge"], basis)
    return claim


def guesses(job, built, number, sent, others):
    """What is likely of a round of a proof for `audit`, beside a build at the same challenges, and other ones, each with its name."""
    field, basis = FIELDS[job["field"]], job.get("basis", "evaluation")
    claim = claim_before(field, built, number, basis)
    found = [f"That would be {name}." for name, values in forms_of(field, claim, built["rounds"][number]["values"], basis).items() if values == sent]
    return found + [f"That would be the round of a build in the {name}." for name, rounds in others.items()
                    if number < len(rounds) and rounds[number]["values"] == sent]
