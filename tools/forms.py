"""Where a job is not of its form: the forms of docs/FORMATS.md over values with places (scan.py). Unproved.

A form is a function of a value and its path in the job, which raises a `Misfit` at the first value that does not fit.
"""

SIZES = {"65537": (65537, 65537), "257x2": (257, 66049), "16": (16, 16)}
MOST_CLAIMS, MOST_VARIABLES, MOST_BITS, MOST_TABLES, MOST_ROUNDS, MOST_LENGTH = 4096, 64, 65535, 8, 64, 64
MOST_MASKS, LEAST_WIDTH, MOST_WIDTH, MOST_PLACE, MOST_OPENED = 64, 2, 63, 65535, 64
DIGITS = "in digits alone, without sign, fraction and exponent"


class Misfit(Exception):
    """A value that is not of its form, or that is missing (None) in an object: its path, and what is wanted."""

    def __init__(self, path, value, wanted, owner=None):
        super().__init__(wanted)
        self.path, self.value, self.wanted, self.owner = path, value, wanted, owner


def below(bound, what="number"):
    def form(value, path):
        number = value.unsigned()
        if number is None or number >= bound:
            raise Misfit(path, value, f"{'an' if what[0] in 'aeiou' else 'a'} {what} below {bound}, {DIGITS}")
    form.bound = bound
    return form


def one_of(*words):
    def form(value, path):
        if value.string() not in words:
            raise Misfit(path, value, "one of " + ", ".join(f'"{word}"' for word in words) + ", as a string")
    return form


def list_of(item, length=None, named="item"):
    def form(value, path):
        if value.kind != "list":
            raise Misfit(path, value, "a list")
        number, bound = 0, getattr(item, "bound", 0)
        for part in value.content:
            fitting = value.fitting(part, bound)  # at once, since a table may have millions
            number += fitting
            for it in value.items_of(part) if not fitting else []:
                item(it, f"{path}, {named} {number}")
                number += 1
        if length is not None and value.count() != length:
            raise Misfit(path, value, f"a list of {length} {'item' if length == 1 else 'items'}, and here are {value.count()}")
    return form


def member(value, path, name, form):
    """The member of an object, of which the form is tested."""
    if value.kind != "object":
        raise Misfit(path, value, f"an object with the member {name}")
    found = value.member(name)
    if found is None:
        raise Misfit(f"{path}, member {name}" if path else name, None, f"the member {name}", value)
    form(found, f"{path}, {name}" if path else name)
    return found


def any_string(value, path):
    if value.kind != "string":
        raise Misfit(path, value, "a string")


def truth(value, path):
    if value.kind not in ("true", "false"):
        raise Misfit(path, value, "true or false, without quotes")


def an_object(members):
    def form(value, path):
        if value.kind != "object":
            raise Misfit(path, value, f"an object with {members}")
    return form


def exactly_one(value, path, first, second):
    """Of two members of an object that which stands there alone."""
    if value.kind != "object":
        raise Misfit(path, value, f"an object with exactly one of {first} and {second}")
    found = [name for name in (first, second) if value.member(name)]
    if len(found) != 1:
        raise Misfit(path, value, f"an object with exactly one of {first} and {second}, and here "
                     + ("are both (null counts as there, too)" if found else "is neither"))
    return found[0]


class Forms:
    """The forms of a job's members over the field that it names."""

    def __init__(self, job):
        field = job.member("field")
        base, extension = SIZES.get(field.string() if field else None, SIZES["65537"])
        self.base, self.extension = below(base, "base number"), below(extension, "extension number")
        variables = job.member("variables")
        self.variables = variables.unsigned() if variables else None
        rounds = job.member("rounds")
        self.rounds_asked = rounds.unsigned() if rounds else None
        plain = job.member("plain")
        self.masks_seen = plain.count() if plain and plain.kind == "list" else 0
        self.order = one_of("prefix", "suffix")

    def field(self, value, path):
        one_of(*SIZES)(value, path)

    def challenger(self, value, path):
        if value.string() == "hash":
            return
        if value.kind != "object":
            raise Misfit(path, value, 'an object with draws and witnesses, or the string "hash"')
        member(value, path, "draws", list_of(self.base, named="draw"))
        member(value, path, "witnesses", list_of(list_of(self.base, named="witness"), named="test"))

    def bits(self, value, path):
        below(MOST_BITS + 1)(value, path)

    def table(self, value, path):
        list_of(self.base, named="entry")(value, path)

    def count(self, value, path):
        below(MOST_VARIABLES + 1)(value, path)

    def groups(self, value, path):
        list_of(self.group, named="group")(value, path)
        claims = sum(claims_of(group).count() for group in value.items())
        if claims > MOST_CLAIMS:
            raise Misfit(path, value, f"groups of at most {MOST_CLAIMS} claims together, and here are {claims}")

    def group(self, value, path):
        kind = member(value, path, "kind", any_string).string()
        if kind == "eq" or kind == "next":
            member(value, path, "claims", list_of(self.equality if kind == "eq" else self.successor, named="claim"))
        elif kind == "select":
            name = exactly_one(value, path, "scalars", "points")
            member(value, path, name, list_of(self.scalar if name == "scalars" else self.product, named="claim"))
        else:
            raise Misfit(f"{path}, kind", value.member("kind"), 'one of "eq", "next", "select"')

    def equality(self, value, path):
        member(value, path, "point", list_of(self.extension, self.variables, "coordinate"))
        member(value, path, "value", self.extension)

    def successor(self, value, path):
        selector = member(value, path, "selector", list_of(self.extension, named="coordinate"))
        point = member(value, path, "point", list_of(self.extension, named="coordinate"))
        member(value, path, "order", self.order)
        member(value, path, "value", self.extension)
        count = selector.count() + point.count()
        if count != self.variables:
            raise Misfit(path, value, f"a selector and a point of together {self.variables} coordinates, and here are {count}")

    def scalar(self, value, path):
        member(value, path, "at", self.base)
        member(value, path, "value", self.extension)

    def product(self, value, path):
        member(value, path, "at", list_of(self.base, self.variables, "coordinate"))
        member(value, path, "value", self.extension)

    def batching(self, value, path):
        self.extension(value, path)

    def mode(self, value, path):
        name = exactly_one(value, path, "build", "check")
        member(value, path, name, self.strategy if name == "build" else self.check)

    def basis(self, value, path):
        one_of("evaluation", "projective")(value, path)

    def strategy(self, value, path):
        if value.kind == "string":
            one_of("plain", "represented")(value, path)
        elif value.kind == "object":
            member(value, path, "small-value", below(MOST_VARIABLES + 1))
        else:
            raise Misfit(path, value, '"plain", "represented", or an object with the member small-value')

    def check(self, value, path):
        if value.kind == "null":
            return
        if value.kind != "object":
            raise Misfit(path, value, "null, or an object with rounds and witnesses")
        self.pairs(value, path)

    def pairs(self, value, path):
        if value.kind != "object":
            raise Misfit(path, value, "an object with rounds and witnesses")
        member(value, path, "rounds", list_of(list_of(self.extension, 2, "value"), named="round"))
        member(value, path, "witnesses", list_of(self.base, named="witness"))

    def tables(self, value, path, most=MOST_TABLES):
        list_of(list_of(self.base, named="entry"), named="table")(value, path)
        if not 1 <= value.count() <= most:
            raise Misfit(path, value, f"a list of 1 to {most} tables, and here are {value.count()}")

    def opened_tables(self, value, path):
        self.tables(value, path, MOST_OPENED)

    def table_claims(self, value, path):
        list_of(self.table_claim, named="claim")(value, path)
        if value.count() > MOST_CLAIMS:
            raise Misfit(path, value, f"a list of at most {MOST_CLAIMS} claims, and here are {value.count()}")

    def table_claim(self, value, path):
        member(value, path, "table", below(MOST_PLACE + 1))
        member(value, path, "point", list_of(self.extension, named="coordinate"))
        member(value, path, "successor", truth)
        member(value, path, "value", self.extension)

    def build_or_check(self, value, path, check):
        if value.string() == "build":
            return
        if value.kind != "object":
            raise Misfit(path, value, 'the string "build", or an object with the member check')
        member(value, path, "check", check)

    def openings_mode(self, value, path):
        self.build_or_check(value, path, self.openings_check)

    def openings_check(self, value, path):
        an_object("rounds, witnesses and openings")(value, path)
        self.pairs(value, path)
        member(value, path, "openings", list_of(self.extension, named="opening"))

    def product_mode(self, value, path):
        self.build_or_check(value, path, self.product_check)

    def product_check(self, value, path):
        if value.kind != "object":
            raise Misfit(path, value, "an object with claimed, rounds and witnesses")
        member(value, path, "claimed", self.extension)
        member(value, path, "rounds", list_of(list_of(self.extension, named="value"), named="round"))
        member(value, path, "witnesses", list_of(self.base, named="witness"))

    def matrix(self, value, path):
        list_of(list_of(self.base, named="entry"), named="row")(value, path)
        lengths = [it.count() for it in value.items()]
        if not lengths:
            raise Misfit(path, value, "a list of one row or more, and here is none")
        other = next((n for n, it in enumerate(lengths) if it != lengths[0] or it == 0), None)
        if other is not None:
            raise Misfit(path, value, f"a list of rows of one length of at least 1, and here row {other} has {lengths[other]}"
                         + (f" and row 0 has {lengths[0]}" if other else ""))

    def gate(self, value, path):
        list_of(below(MOST_PLACE + 1), 3, "number")(value, path)
        kind = next(value.items())
        if kind.unsigned() > 1:
            raise Misfit(f"{path}, number 0", kind, "0 for a sum or 1 for a product")

    def layers(self, value, path):
        list_of(list_of(self.gate, named="gate"), named="layer")(value, path)

    def circuit_mode(self, value, path):
        self.build_or_check(value, path, self.circuit_check)

    def circuit_check(self, value, path):
        an_object("layers")(value, path)
        member(value, path, "layers", list_of(self.sent_layer, named="layer"))

    def sent_layer(self, value, path):
        an_object("rounds, witnesses, left and right")(value, path)
        member(value, path, "rounds", list_of(list_of(self.extension, named="value"), named="round"))
        member(value, path, "witnesses", list_of(self.base, named="witness"))
        member(value, path, "left", self.extension)
        member(value, path, "right", self.extension)

    def matrix_mode(self, value, path):
        self.build_or_check(value, path, self.pairs)

    def rounds(self, value, path):
        below(MOST_ROUNDS + 1)(value, path)

    def masks(self, value, path):
        if exactly_one(value, path, "messages", "seed") == "seed":
            member(value, path, "seed", below(1 << 64))
            member(value, path, "length", self.mask_length)
            return
        member(value, path, "messages", self.messages)
        member(value, path, "randomness", list_of(list_of(self.extension, 2, "element"), self.rounds_asked, "list"))

    def mask_length(self, value, path):
        below(MOST_LENGTH + 1)(value, path)
        if value.unsigned() == 0:
            raise Misfit(path, value, f"a number from 1 to {MOST_LENGTH}")

    def messages(self, value, path):
        list_of(list_of(self.extension, named="coefficient"), self.rounds_asked, "mask")(value, path)
        lengths = [it.count() for it in value.items()]
        if lengths and (len(set(lengths)) > 1 or not 1 <= lengths[0] <= MOST_LENGTH):
            raise Misfit(path, value, f"masks of one length, from 1 to {MOST_LENGTH}, and here are lengths " + ", ".join(map(str, lengths)))

    def aux(self, value, path):
        self.extension(value, path)

    def element(self, value, path):
        self.extension(value, path)

    def plain(self, value, path):
        list_of(list_of(self.extension, 2, "coefficient"), named="piece")(value, path)
        if not 1 <= value.count() <= MOST_MASKS:
            raise Misfit(path, value, f"a list of 1 to {MOST_MASKS} pieces, and here are {value.count()}")

    def challenges(self, value, path):
        list_of(self.extension, self.masks_seen, "challenge")(value, path)

    def wires(self, value, path):
        list_of(list_of(self.extension, named="value"), self.masks_seen, "wire")(value, path)
        lengths = [it.count() for it in value.items()]
        if len(set(lengths)) > 1 or not LEAST_WIDTH <= lengths[0] <= MOST_WIDTH:
            raise Misfit(path, value, f"wires of one length, from {LEAST_WIDTH} to {MOST_WIDTH}, and here are lengths "
                         + ", ".join(map(str, lengths)))

    def endpoints(self, value, path):
        list_of(self.extension, self.masks_seen - 1, "endpoint")(value, path)


# The members of a job in the order in which they are tested, each with its form; and those that may be missing.
AUDIT = {"field": Forms.field, "challenger": Forms.challenger, "order": lambda forms, *it: forms.order(*it), "bits": Forms.bits,
         "table": Forms.table, "variables": Forms.count, "groups": Forms.groups, "batching": Forms.batching, "mode": Forms.mode,
         "basis": Forms.basis}
PRODUCT = {"field": Forms.field, "challenger": Forms.challenger, "bits": Forms.bits, "tables": Forms.tables, "mode": Forms.product_mode}
MATMUL = {"field": Forms.field, "challenger": Forms.challenger, "bits": Forms.bits, "left": Forms.matrix, "right": Forms.matrix,
          "claimed": Forms.matrix, "mode": Forms.matrix_mode}
CIRCUIT = {"field": Forms.field, "challenger": Forms.challenger, "bits": Forms.bits, "inputs": Forms.table, "layers": Forms.layers,
           "outputs": Forms.table, "mode": Forms.circuit_mode}
OPENINGS = {"field": Forms.field, "challenger": Forms.challenger, "bits": Forms.bits, "tables": Forms.opened_tables, "variables": Forms.count,
            "claims": Forms.table_claims, "mode": Forms.openings_mode}
VEIL = {name: AUDIT[name] for name in ("field", "challenger", "order", "bits", "table", "variables", "groups", "batching")} \
    | {"rounds": Forms.rounds, "masks": Forms.masks, "aux": Forms.aux}
EXPLAIN = {"field": Forms.field, "eps": Forms.element, "plain": Forms.plain, "challenges": Forms.challenges, "mu": Forms.element,
           "wires": Forms.wires, "endpoints": Forms.endpoints}
OPTIONAL = {"basis"}


def members_of(command):
    return {"product": PRODUCT, "veil": VEIL, "explain": EXPLAIN, "matmul": MATMUL, "circuit": CIRCUIT, "openings": OPENINGS}.get(command, AUDIT)


def misfit(job, command):
    """The first misfit of a job, with the member that it is in; or None."""
    if job.kind != "object":
        return "job", Misfit("job", job, "an object")
    forms = Forms(job)
    for name, form in members_of(command).items():
        if name in OPTIONAL and job.member(name) is None:
            continue
        try:
            member(job, "", name, lambda value, path: form(forms, value, path))
        except Misfit as found:
            return name, found
    return None


def claims_of(group):
    """The list of a group's claims."""
    return group.member("claims") if group.member("kind").string() != "select" else group.member("scalars") or group.member("points")


def statements(job):
    """All claims of a job that is of its form, in order, each with the numbers of its group and of itself in it, and with the kind."""
    for number, group in enumerate(job.member("groups").items()):
        for place, claim in enumerate(claims_of(group).items()):
            yield number, place, group.member("kind").string(), claim
