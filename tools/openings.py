"""What `why.py` says of a job of `openings`: its tables and claims, and the openings beside the tables' values. Unproved."""
import fields, truth
from phrases import counted

MOST_VARIABLES = 16


def place(case, name, number):
    """An item of a member that is a list."""
    return next(it for n, it in enumerate(case.value.member(name).items()) if n == number)


# ---- Tables and claims

def misfit(case):
    told, variables = case.told, case.value.member("variables")
    count = variables.unsigned()
    if told["fault"] == "table" and count > MOST_VARIABLES:
        case.say(f"At {case.at(variables.start)}, variables is {count}, and at most {MOST_VARIABLES} are taken, whatever the tables are.")
    elif told["fault"] == "table":
        table = place(case, "tables", told["table"])
        case.say(f"At {case.at(table.start)}, table {told['table']} has {told['length']} {'entry' if told['length'] == 1 else 'entries'}. Each table has "
                 f"2^{count}, which are {1 << count}: variables, at {case.at(variables.start)}, is {count}.")
    elif "table" in told:
        named = place(case, "claims", told["claim"]).member("table")
        tables = case.value.member("tables").count()
        case.say(f"At {case.at(named.start)}, claim {told['claim']} is on table {told['table']}. There {'is' if tables == 1 else 'are'} {counted(tables, 'table')}, "
                 "numbered from 0.")
    else:
        point = place(case, "claims", told["claim"]).member("point")
        case.say(f"At {case.at(point.start)}, the point of claim {told['claim']} has {counted(told['variables'], 'coordinate')}; variables, at "
                 f"{case.at(variables.start)}, is {count}, and wanted are as many.")


def say_claims(case, most=20):
    """A line for each false claim, of many the first ones; whether all are true."""
    false = truth.false_table_claims(case.job())
    for number, (claimed, true) in list(false.items())[:most]:
        claim = case.job()["claims"][number]
        rows = f"the table of next rows of table {claim['table']}" if claim["successor"] else f"table {claim['table']}"
        case.say(f"Claim {number}, at {case.at(place(case, 'claims', number).start)}, is false: it claims {claimed}, and {true} is the value of {rows} at its point.")
    if len(false) > most:
        case.say(f"{len(false) - most} more claims are false.")
    if false:
        case.say("./sumcheck --fill writes the job with true values.")
    return not false


# ---- Openings beside the tables' values

def say_openings(case):
    """Which openings are not the values of their tables at the challenges, and what their weighted sum is beside what is left of the claim."""
    field, told = fields.FIELDS[case.job()["field"]], case.told
    point = [it["challenge"] for it in told["rounds"]]
    places = list(case.value.member("mode").member("check").member("openings").items())
    for number, (table, said) in enumerate(zip(case.job()["tables"], told["openings"])):
        true = fields.value_at(field, table, point)
        if said != true:
            case.say(f"Opening {number}, at {case.at(places[number].start)}, is {said}, and the value of table {number} at the challenges is {true}.")
    total = fields.total(field, map(field.mul, told["openings"], told["weights"]))
    case.say(f"The sum of the openings, each times its weight, is {total}, which is what the rounds leave of the claim." if total == told["residual"] else
             f"The rounds leave {told['residual']} of the claim; the sum of the openings, each times its weight, is {total}.")


# ---- Proofs

PROOFS = {
    "openings": "A proof of this job has {expected} openings, one for each table, and here are {actual}.",
    "witness": "The witness of round {round} does not pass the test of {bits} bits at what was shown before it: the claimed values, the seed, and the rounds so far.",
}


def is_comparable(case, true_claims):
    """Whether a build of the true claims has the same draws; says so where it has not."""
    if case.job()["challenger"] != "hash" or true_claims:
        return True
    case.say("Under \"hash\" the draws go by the claimed values, so that rounds of the true ones are others, and nothing is compared.")
    return False
