#!/usr/bin/env python3
"""Says why a job or a proof is refused or refuted: `./sumcheck --why FILE`. This reader is not proved.

usage: tools/why.py [audit|product|veil|explain|matmul|circuit|openings] FILE      (FILE `-`: standard input)

The first line is the program's own: its refusal, or its verdict, or all lines of masks. After it stand the line and the
column of what is meant, both counted from 1, and what is wanted there; which statements are false, and the first round
that differs from those of a build, both by further runs of the program. The command is `explain` where the job has the
member `wires`, `matmul` where it has `left`, `circuit` where it has `layers`, `openings` where it has `claims`, `product`
where it has `tables` and no `table`, and `veil` where it has `masks` and no `mode`. The status is 0 where the verdict holds
or masks are told, 1 where something else was told, 2 where the words are none of these, and 11 where the file cannot be
read, the program cannot be run, or this reader does not find what the program refuses.
"""
import difflib, json, sys, textwrap

import answers, circuits, fields, forms, likely, openings, program, scan, truth
from fill import command_of
from phrases import counted, words


MOST_BYTES = 1 << 26
MOST_DEGREE = 8  # of a polynomial whose roots are looked for here, at every element


class Case:
    """A file, and what the program says of it."""

    def __init__(self, words):
        self.file, self.data = words[-1], program.bytes_of(words[-1])
        self.text = scan.text_of(self.data)
        self.value = self.fault = None
        try:
            if len(self.data) <= MOST_BYTES:
                self.value = scan.read(self.data)
        except scan.Fault as fault:
            self.fault = fault
        self.command = command_of(words[:-1], self.value) if self.value else (words[:-1] or ["audit"])[0]
        self.status, said = program.run([self.command], self.data)
        self.told = answers.read(said)
        self.line = said.removesuffix("\n") if "masks" in self.told else said.splitlines()[-1] if said else ""
        self.notes = []

    def say(self, *lines):
        self.notes += lines

    def at(self, offset):
        line, column = scan.place(self.text, offset)
        return f"line {line}, column {column}"

    def job(self):
        return json.loads(self.data)

    def fail(self, why):
        raise program.Unable(f"{self.line}: {why}")


# ---- Texts, and members of a job

def too_long(case):
    case.say(f"The input has {len(case.data)} bytes; at most {MOST_BYTES} are read.")


def bad_json(case):
    if case.fault is None:
        case.fail("this reader finds no place where the text stops being JSON")
    rest = case.text[case.fault.offset:case.fault.offset + 30].split("\n")[0]
    stands = f"`{rest}`" if rest.strip() else "the end" if case.fault.offset >= len(case.text) else "white space, or the end of a line"
    case.say(f"At {case.at(case.fault.offset)}, {stands} stands where the text stops being JSON: {case.fault.what}.")


def near(owner, name):
    """What a missing member may have been meant by, or nothing."""
    keys = [key for key, _ in owner.content]
    found = [key for key in keys if key.lower() == name.lower()] or difflib.get_close_matches(name, keys, 1)
    return f" The object has a member \"{found[0]}\"." if found else ""


def why_no_number(value):
    """What keeps a number from being one of the wanted form, in a word."""
    source = value.source()
    if value.kind == "string":
        return "; this is a string" if source.strip('"').isdigit() else ""
    if value.kind != "number" or source.isdigit():
        return ""
    return "; this has " + " and ".join(what for sign, what in [("-", "a sign"), (".", "a fraction"), ("e", "an exponent")] if sign in source.lower())


def bad_job(case):
    found = forms.misfit(case.value, case.command)
    if not found or found[0] != case.told["member"]:
        case.fail("this reader does not find the member that is meant")
    misfit = found[1]
    if misfit.value is None:
        name = misfit.path.split(", ")[-1].replace("member ", "")
        place = "" if misfit.path == name else f", and missing is {misfit.path}"
        case.say(f"At {case.at(misfit.owner.start)} an object begins that has no member {name}{place}." + near(misfit.owner, name))
        return
    number = why_no_number(misfit.value) if "number" in misfit.wanted or "digits" in misfit.wanted else ""
    case.say(f"At {case.at(misfit.value.start)}, `{misfit.value.shown()}` stands in {misfit.path}.", f"Wanted is {misfit.wanted}{number}.")
    twice(case, found[0])


def twice(case, name):
    """A member that stands twice may be the one that was meant."""
    places = case.value.members(name) if case.value.kind == "object" else []
    if len(places) > 1:
        case.say(f"The member {name} stands {len(places)} times, and the last one counts; the first is that at {case.at(places[0].start)}.")


# ---- Shapes and strategies

def table_length(case):
    length = case.told["length"]
    tables = list(case.value.member("tables").items()) if case.command == "product" else [case.value.member("table")]
    number, table = next((n, it) for n, it in enumerate(tables) if it.count() == length and (n > 0 or not is_table(length)))
    below, above = 1 << max(length.bit_length() - 1, 0), 1 << length.bit_length()
    what = f"table {number}" if case.command == "product" else "the table"
    case.say(f"At {case.at(table.start)}, {what} has {length} {'entry' if length == 1 else 'entries'}.")
    if is_table(length):
        case.say(f"Each table has as many entries as the first one, which has {tables[0].count()}.")
    elif length > 1 << 24:
        case.say("A table has 2^n entries, n at most 24, which are 16777216.")
    else:
        case.say("A table has 2^n entries" + (f": the nearest are {below} and {above}." if length else ", at least one."))


def is_table(length):
    return 0 < length <= 1 << 24 and length & length - 1 == 0


def difficulty(case):
    value = case.value.member("bits")
    case.say(f"At {case.at(value.start)}, each round has a test of {case.told['difficulty']} bits, and at most {case.told['bound']} may be asked for.")


def variables(case):
    value = case.value.member("variables")
    case.say(f"At {case.at(value.start)}, variables is {case.told['variables']}; the table has 2^{case.told['expected']} entries, which is "
             f"{case.told['expected']} variables.")


def projective_suffix(case):
    case.say(f'At {case.at(case.value.member("order").start)}, the order is "suffix", and the basis is "projective", at '
             f'{case.at(case.value.member("basis").start)}: a table of coefficients has rounds in the order "prefix" alone.')


def rounds_bound(case):
    value = case.value.member("rounds")
    case.say(f"At {case.at(value.start)}, rounds is {case.told['rounds']}; the table has {case.told['bound']} variables, and each round binds one.")


def job_shape(case):
    {"table-length": table_length, "difficulty": difficulty, "variables": variables, "projective-suffix": projective_suffix,
     "rounds": rounds_bound}[case.told["fault"]](case)


def veil(case):
    if case.told["fault"] == "even-characteristic":
        case.say(f"At {case.at(case.value.member('field').start)}, the field is one in which 1 + 1 is 0. Rounds under masks need one half.")
    elif case.told["fault"] == "mask-too-short":
        case.say(f"At {case.at(case.value.member('masks').start)}, a mask has {case.told['length']} coefficients. A round's polynomial has 3, and so each mask "
                 "has at least as many.")
    else:
        case.say(f"At {case.at(case.value.member('rounds').start)}, rounds is 0. At least one round is played under masks.")


def explain(case):
    place = case.at(case.value.member("field").start)
    case.say(f"At {place}, the field is one in which 1 + 1 is 0. Masks are found with one half.")


def matmul(case):
    told, matrices = case.told, {name: case.value.member(name) for name in ("left", "right", "claimed")}
    places = {name: case.at(value.start) for name, value in matrices.items()}
    if told["fault"] == "side":
        case.say(f"At {places[told['matrix']]}, the matrix {told['matrix']} has {counted(told['rows'], 'row')} and {counted(told['columns'], 'column')}. "
                 "Each side is 1, 2, 4 and so on up to 128.")
    elif told["fault"] == "inner":
        case.say(f"At {places['left']}, the matrix left has {counted(told['left'], 'column')}; right, at {places['right']}, has "
                 f"{counted(told['right'], 'row')}, and wanted are as many.")
    else:
        left, right = case.job()["left"], case.job()["right"]
        case.say(f"At {places['claimed']}, the matrix claimed has {counted(told['rows'], 'row')} and {counted(told['columns'], 'column')}; the product has "
                 f"{counted(len(left), 'row')}, as left has, and {counted(len(right[0]), 'column')}, as right has.")


def strategy_unfit(case):
    if case.told["fault"] == "variables":
        value = case.value.member("mode").member("build").member("small-value")
        case.say(f"At {case.at(value.start)}, grids are asked for in {case.told['variables']} rounds, and can be made in 1 to {case.told['bound']}: "
                 "at most as many as there are variables, and at most 12.")
        return
    if case.told["fault"] == "projective":
        case.say(f'At {case.at(case.value.member("mode").member("build").start)}, the build is not "plain", and the basis is "projective", at '
                 f'{case.at(case.value.member("basis").start)}: a table of coefficients has a "plain" build alone.')
        return
    what = 'is of the kind "select"' if case.told["fault"] == "select" else "has a selector"
    case.say(f"Statement {case.told['statement']} {what}: {statement_at(case, case.told['statement'])}.",
             'A small-value build is for statements of the kind "eq", or "next" without a selector; "plain" is for all.')


# ---- Statements

def statement_at(case, number):
    """A statement by its group, its place there, and its line and column."""
    group, place, kind, claim = next(it for n, it in enumerate(forms.statements(case.value)) if n == number)
    return f'claim {place} of group {group}, "{kind}", at {case.at(claim.start)}'


def say_false(case, false, most=20):
    """A line for each false statement, of many the first ones."""
    for number, (claimed, true) in list(false.items())[:most]:
        case.say(f"Statement {number} is false: it claims {claimed}, and {true} is true of the table. It is {statement_at(case, number)}.")
    if len(false) > most:
        case.say(f"{len(false) - most} more statements are false.")
    if false:
        case.say("./sumcheck --fill writes the job with true values.")


def false_claim(case):
    if case.command == "openings":
        openings.say_claims(case)
        return
    say_false(case, truth.false_statements(case.job()))


def false_entry(case):
    say_entries(case, truth.false_entries(case.job()))


def say_entries(case, false, most=20):
    """A line for each false entry, of many the first ones."""
    rows = [list(row.items()) for row in case.value.member("claimed").items()] if false else []
    for row, column, claimed, true in false[:most]:
        case.say(f"The entry in row {row} and column {column}, at {case.at(rows[row][column].start)}, is false: it claims {claimed}, and {true} is true "
                 "of the product.")
    if len(false) > most:
        case.say(f"{len(false) - most} more entries are false.")
    if false:
        case.say("./sumcheck --fill writes the job with true values.")


# ---- Rounds beside those of a build

def rounds_of(case):
    """The rounds and witnesses of the proof in a job, or none."""
    check = (case.job()["mode"].get("check") if case.command == "audit" else case.job()["mode"]["check"]) or {}
    return check.get("rounds", []), check.get("witnesses", [])


def parts(case, challenge):
    return [challenge % 257, challenge // 257] if case.job()["field"] == "257x2" else [challenge]


def true_build(case, challenges, changed=None):
    """A build of the same job with true claims: under the challenges that were drawn, or else the job's own challenger."""
    job = case.job() | (changed or {})
    if challenges is not None:
        draws = [part for it in challenges for part in parts(case, it)]
        job |= {"challenger": {"draws": draws, "witnesses": []}, "bits": 0}
    if case.command == "product":
        return truth.built("product", job | {"mode": "build"})
    if case.command == "matmul":
        return truth.built("matmul", job | {"claimed": truth.true_product(job), "mode": "build"})
    if case.command == "openings":  # under a script no draw goes by what is sent
        return truth.built("openings", (job if job["challenger"] == "hash" else job | {"bits": 0}) | {"claims": truth.true_table_claims(job), "mode": "build"})
    return truth.built("audit", truth.filled(job) | {"mode": {"build": "plain"}})


def other_jobs(job):
    """What a job may have been meant to say: the other order, where its basis has it, and the other basis, where its order has it."""
    projective = job.get("basis") == "projective"
    if not projective:
        yield "order", "suffix" if job["order"] == "prefix" else "prefix"
    if job["order"] == "prefix":
        yield "basis", "evaluation" if projective else "projective"


def say_likely(case, built, number, challenges):
    """What the first round that differs looks like, where it is one of two values."""
    if case.command in ("audit", "matmul", "openings") and len(rounds_of(case)[0][number]) == 2:
        others = {f'{member} "{word}"': true_build(case, challenges, {member: word})[1].get("rounds", [])
                  for member, word in (other_jobs(case.job()) if case.command == "audit" else ())}
        case.say(*likely.guesses(case.job(), built, number, rounds_of(case)[0][number], others))


def compare(case, built, whose):
    """Names the first round of the proof that differs from a build's, in its values or in its witness: its number, where values do."""
    rounds, witnesses = rounds_of(case)
    for number, (sent, true) in enumerate(zip(rounds, built)):
        if sent != true["values"]:
            place = round_value(case, number)
            case.say(f"Round {number} is the first that differs: it sends {words(sent)}, at {case.at(place.start)}, and {whose} sends "
                     f"{words(true['values'])}.")
            return number
        witness = witnesses[number] if number < len(witnesses) else None
        if "witness" in true and witness is not None and witness != true["witness"]:
            case.say(f"Up to round {number} the values are those of {whose}; the witness there is {witness}, and {true['witness']} is the least "
                     "number that passes. After another witness the challenges are others too, so later rounds are not compared.")
            return None
    common = min(len(rounds), len(built))
    case.say(f"The values of the {common} rounds that can be compared are those of {whose}." if common else "There are no rounds to compare.")
    return None


def round_value(case, number):
    check = case.value.member("mode").member("check")
    return next(it for n, it in enumerate(check.member("rounds").items()) if n == number)


def say_claims(case):
    """Which claims are false, by the program's own answers; whether all are true."""
    if case.command == "product":
        claimed, true = case.job()["mode"]["check"]["claimed"], truth.true_sum(case.job())
        place = case.value.member("mode").member("check").member("claimed")
        if claimed != true:
            case.say(f"The claimed sum {claimed}, at {case.at(place.start)}, is false, and {true} is true of the tables.")
        return claimed == true
    if case.command == "matmul":
        false = truth.false_entries(case.job())
        say_entries(case, false)
        return not false
    if case.command == "openings":
        return openings.say_claims(case)
    false = truth.false_statements(case.job())
    say_false(case, false)
    return not false


def say_rounds(case, challenges):
    """Compares with a build; where it finds no witness, with one without a test, as far as no challenge comes in."""
    status, told = true_build(case, challenges)
    whose = "a build of the true claims" + (" under the same draws" if case.command == "openings" else "" if challenges is None else " at the same challenges")
    if status == 0:
        number = compare(case, told["rounds"], whose)
        if number is not None:
            say_likely(case, told, number, challenges)
    elif told["outcome"] == "no-witness" and case.command in ("matmul", "openings"):  # their first round goes by a draw
        case.say(f"A build of this job finds no witness for round {told['round']}, so nothing is compared.")
    elif told["outcome"] == "no-witness":
        case.say(f"A build of this job finds no witness for round {told['round']}, so only the first round is compared.")
        compare(case, true_build(case, [])[1].get("rounds", [])[:1], whose)
    else:
        raise program.Unable(f"a build ended with status {status}: {told}")


def refuted(case):
    if case.command == "circuit":
        circuits.refuted(case)
        return
    if case.command == "openings":
        openings.say_openings(case)
    true_claims = say_claims(case)
    if true_claims:
        case.say({"product": "The claimed sum is the true one.", "matmul": "Every entry is true."}.get(case.command, "Every claim is true."))
    else:
        case.say("So a proof is refuted unless a challenge is lucky, whatever rounds it sends.")
    if case.command == "openings":
        if openings.is_comparable(case, true_claims):
            say_rounds(case, None)
        return
    first = [case.told["point"]] if case.command == "matmul" else []
    say_rounds(case, first + [it["challenge"] for it in case.told["rounds"]])


def lucky(case):
    told = case.told["lucky"]
    (circuits.say_outputs if case.command == "circuit" else say_claims)(case)
    degree = len(told["poly"]) - 1
    if case.command == "circuit":
        where = circuits.lucky_draw(case)
    elif "round" in told:
        where = f"the challenge of round {told['round']}, which is {case.told['rounds'][told['round']]['challenge']},"
    else:
        where = {"matmul": f"the point, which is {case.told.get('point')},", "openings": "the challenge that merges the claims"}.get(case.command, "the batching challenge")
    case.say(f"The rounds are right all the same, since {where} is one of {told['vanishing']} at which the polynomial above vanishes, of degree "
             f"at most {degree}; at any other the claim would have stayed false.")
    if degree <= MOST_DEGREE:
        case.say(f"It vanishes at {words(fields.roots(fields.FIELDS[case.job()['field']], told['poly']))}.")


PROOFS = {
    "missing": "The mode is a check of null, and the table has {variables} variables, so a proof has as many rounds.",
    "rounds": "A proof of this job has {expected} rounds, one for each variable, and here are {actual}.",
    "witnesses": "A proof of this job has {expected} witnesses, one for each round where bits is above 0, and here are {actual}.",
    "width": "Round {round} sends {actual} of {expected} values: as many are wanted as there are tables.",
    "witness": "The witness of round {round} does not pass the test of {bits} bits at what was shown before it: the rounds so far, and the seed.",
}


PROOFS_OF_MATRICES = {
    "rounds": "A proof of this job has {expected} rounds, one for each time that the columns of left can be halved, and here are {actual}.",
    "witness": "The witness of round {round} does not pass the test of {bits} bits at what was shown before it: the matrices, the seed, and the rounds so far.",
}


def proof_refused(case):
    if case.command == "circuit":
        circuits.proof_refused(case)
        return
    case.say((PROOFS | {"matmul": PROOFS_OF_MATRICES, "openings": openings.PROOFS}.get(case.command, {}))[case.told["cause"]].format(**case.told))
    if case.told["cause"] == "missing":
        return
    if case.told["cause"] == "width":
        case.say(f"Its values stand at {case.at(round_value(case, case.told['round']).start)}.")
        return
    true_claims = say_claims(case)
    if case.command == "audit" or (openings.is_comparable(case, true_claims) if case.command == "openings" else true_claims):
        say_rounds(case, None)  # what a job claims is shown to the challenger, but for a claim of audit


def no_witness(case):
    job = case.job()
    size = forms.SIZES[job["field"]][0]
    layer = f" of layer {case.told['layer']}" if "layer" in case.told else ""
    test = circuits.tests_before(case) if layer else case.told["round"]
    if job["challenger"] == "hash":
        case.say(f"None of the {size} base numbers passes the test of {job['bits']} bits in round {case.told['round']}{layer}; one in {1 << job['bits']} does, by "
                 "chance. A lower difficulty" + (", or another batching challenge, may have one." if "batching" in job else " may have one."))
    else:
        case.say(f"The script lists no number that passes test {test}, that of round {case.told['round']}{layer}: `witnesses` has {len(job['challenger']['witnesses'])} lists, the first for test 0.")


CAUSES = {
    "too-long": too_long, "bad-json": bad_json, "bad-job": bad_job, "job-shape": job_shape, "strategy-unfit": strategy_unfit,
    "false-claim": false_claim, "veil": veil, "explain": explain, "matmul": matmul, "false-entry": false_entry,
    "circuit": circuits.misfit, "false-output": circuits.say_outputs, "openings": openings.misfit,
}
VERDICTS = {"refuted": refuted, "lucky-batch": lucky, "lucky-point": lucky, "lucky-merge": lucky, "lucky-round": lucky}


def explained(case):
    """Puts down what is to be said, and gives the status."""
    outcome = case.told["outcome"]
    if outcome == "refused":
        CAUSES[case.told["cause"]](case)
    elif outcome == "proof-refused":
        proof_refused(case)
    elif outcome == "no-witness":
        no_witness(case)
    elif outcome == "report" and case.told.get("verdict", "holds") == "holds":  # masks have no verdict
        return 0
    elif outcome == "report":
        VERDICTS[case.told["verdict"]](case)
    else:
        case.fail(f"the program ended with status {case.status}")
    return 1


def main(words):
    if not words or len(words) > 2 or len(words) == 2 and words[0] not in program.COMMANDS:
        raise program.WrongWords
    try:
        case = Case(words)
        status = explained(case)
    except answers.Unknown as line:
        raise program.Unable(f"no line of a report: {line}") from None
    print("\n".join([case.line, *(textwrap.fill(it, 118, break_long_words=False, break_on_hyphens=False) for it in case.notes)]))
    return status


if __name__ == "__main__":
    program.ended(main, sys.argv[1:], __doc__)
