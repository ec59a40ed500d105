"""What `matmul` has to write, by sums over all bits and with a challenger of its own.

Nothing here comes from the program, so that its answers can be held against it: for bench/matmul.py.
"""
import itertools, os, sys

sys.path.insert(0, os.path.join(os.path.dirname(os.path.abspath(__file__)), "..", "tools"))
import fields
from masked import Hash, Script, Transcript, coefficients_of, eight, polynomial, step

MOST_SIDE, MOST_BITS = 128, 16
MATRICES = ("left", "right", "claimed")


def is_side(length):
    return 0 < length <= MOST_SIDE and length & length - 1 == 0


def sides(matrix):
    return len(matrix), len(matrix[0])


def product_of(field, left, right):
    """The product of two matrices, in the base field."""
    return [[fields.total(field, map(field.mul, row, column)) for column in zip(*right)] for row in left]


# ---- the seed, and what a round sends

def quadratic_seed(parts, bits, rounds, basis):
    """The words of the seed of so many rounds of two values."""
    steps = []
    for _ in range(rounds):
        steps.append(step(1, parts, 2, b"round_poly"))
        steps += [step(3, 1, bits, b"round_pow")] if bits else []
        steps.append(step(2, parts, None, b"round_challenge"))
    name = b"p3-sumcheck-quadratic"
    text = bytes([1]) + eight(len(name)) + name + eight(len(steps)) + b"".join(steps) + eight(1) + bytes([basis == "projective"])
    return [half for byte in text for half in (byte >> 4, byte & 15)] if rounds else []


def sent_polynomial(field, claim, pair, basis):
    """The coefficients of what a round sends under a claim: its values are the constant, or with coefficients in the tables the value
    at 1, and the leading one."""
    first, leading = pair
    if basis == "projective":
        return [field.sub(claim, leading), field.sub(first, claim), leading]
    return [first, field.sub(field.sub(field.sub(claim, first), first), leading), leading]


class Tables:
    """The two tables whose rounds are played: the rows of the left matrix and the columns of the right one, weighed at a point."""
    def __init__(self, field, left, right, point):
        self.field, cols = field, len(right[0])
        weights = fields.powers(field, point, len(left) * cols)
        self.left = [fields.total(field, map(field.mul, weights[::cols], column)) for column in zip(*left)]
        self.right = [fields.total(field, map(field.mul, weights, row)) for row in right]

    def at(self, point):
        return fields.value_at(self.field, self.left, point), fields.value_at(self.field, self.right, point)

    def claim_at(self, before):
        """The sum over all bits for the variables that are left, once these are the challenges before."""
        rest = itertools.product((0, 1), repeat=(len(self.left) - 1).bit_length() - len(before))
        return fields.total(self.field, (self.field.mul(*self.at(before + list(bits))) for bits in rest))


# ---- the answer

def refusal(job, field):
    """The status and the text of a refusal before any event, if there is one, in its order; `field` is the base field."""
    left, right, claimed = (job[name] for name in MATRICES)
    for name in MATRICES:
        if not all(map(is_side, sides(job[name]))):
            return 3, "refused matmul side {} {} {}\n".format(name, *sides(job[name]))
    if len(left[0]) != len(right):
        return 3, f"refused matmul inner {len(left[0])} {len(right)}\n"
    if sides(claimed) != (len(left), len(right[0])):
        return 3, "refused matmul outer {} {}\n".format(*sides(claimed))
    if job["bits"] > MOST_BITS:
        return 3, f"refused job-shape difficulty {job['bits']} bound {MOST_BITS}\n"
    if job["mode"] == "build":
        for i, rows in enumerate(zip(claimed, product_of(field, left, right))):
            for j, (said, true) in enumerate(zip(*rows)):
                if said != true:
                    return 3, f"refused false-entry {i} {j} claimed {said} true {true}\n"
        return None
    return proof_refusal(job["mode"]["check"], (len(right) - 1).bit_length(), job["bits"])


def proof_refusal(proof, rounds, bits):
    if len(proof["rounds"]) != rounds:
        return 4, f"proof refused rounds expected {rounds} actual {len(proof['rounds'])}\n"
    wanted = rounds if bits else 0
    if len(proof["witnesses"]) != wanted:
        return 4, f"proof refused witnesses expected {wanted} actual {len(proof['witnesses'])}\n"


class Rounds:
    """Rounds of two values each on a sum over all bits: their lines, what they send, and the first lucky challenge of a false claim, if
    there is one. `claim_at` is the true claim after some challenges; `begin` observes what comes before them, and sets the claim, the
    lines above them, and the lucky challenge among what it draws."""
    basis = "evaluation"

    def __init__(self, job, field, count):
        self.job, self.field, self.count, self.bits = job, field, count, job["bits"]
        self.challenger = Hash(field.base_size) if job["challenger"] == "hash" else Script(job["challenger"])
        self.transcript = Transcript(field, self.challenger)
        self.rounds, self.witnesses, self.challenges, self.lucky, self.refused = [], [], [], None, None
        self.begin()
        for word in quadratic_seed(self.transcript.parts, self.bits, count, self.basis):
            self.challenger.observe(word)

    def play(self, choose=None, witness=None):
        """Plays the rounds. `choose` answers what one sends, of its number, its true polynomial and the claim before it; without
        it, the round is the true one. `witness` answers a round's witness; without it, it is the least that passes."""
        self.choose, self.witness = choose or (lambda i, true, claim: self.pair_of(true)), witness
        for i in range(self.count):
            if self.refused is None:
                self.round(i)
        return self

    def pair_of(self, true):
        """What a round sends of its true polynomial."""
        return [fields.total(self.field, true) if self.basis == "projective" else true[0], true[2]]

    def replay(self, proof):
        """Plays the rounds of a proof."""
        return self.play(lambda i, true, claim: proof["rounds"][i], lambda i: proof["witnesses"][i])

    def round(self, number):
        field = self.field
        true = coefficients_of(field, lambda x: self.claim_at(self.challenges + [x]), 3)
        pair = self.choose(number, true, self.claim)
        self.rounds.append(pair)
        for x in pair:
            self.transcript.observe(x)
        line = f"round {number}: {pair[0]} {pair[1]}"
        if self.bits:
            witness = self.tested(number)
            if witness is None:
                return
            line += f" witness {witness}"
        r = self.transcript.draw()
        sent = sent_polynomial(field, self.claim, pair, self.basis)
        after, true_after = polynomial(field, sent, r), polynomial(field, true, r)
        if self.lucky is None and self.claim != self.claim_at(self.challenges) and after == true_after:
            self.lucky = f"lucky-round {number}", list(map(field.sub, sent, true))
        self.claim = after
        self.challenges.append(r)
        self.lines.append(f"{line} challenge {r}")

    def tested(self, number):
        """The round's witness, shown to the challenger; none where it is refused, or where none passes."""
        if self.witness:
            witness = self.witness(number)
        else:
            witness = next((w for w in range(self.field.base_size) if self.challenger.passes(self.bits, w)), None)
        if witness is None:
            self.refused = 5, f"no witness round {number}\n"
            return None
        passes = self.challenger.passes(self.bits, witness)
        self.challenger.test(self.bits, witness)
        self.witnesses.append(witness)
        if not passes:
            self.refused = 4, f"proof refused witness round {number} bits {self.bits}\n"
        return witness if passes else None

    def verdict(self, agrees, is_true):
        """The verdict, where what is left of the claim is right or not, and what is claimed is true or not."""
        if not agrees:
            return "refuted"
        if is_true:
            return "holds"
        kind, poly = self.lucky
        return f"{kind} vanishing {root_count(self.field, poly)} poly {' '.join(map(str, poly))}"

    def report(self, figures, verdict):
        """The status and the text, with these lines after what is left of the claim."""
        lines = self.lines + [f"residual {self.claim}", *figures, f"verdict {verdict}"]
        return int(verdict != "holds"), "\n".join(lines) + "\n"


class Play(Rounds):
    """One play of a job whose sides fit."""

    def __init__(self, job, field, base):
        self.truth = product_of(base, job["left"], job["right"])
        super().__init__(job, field, (len(job["right"]) - 1).bit_length())

    def begin(self):
        field, job = self.field, self.job
        for x in (x for name in MATRICES for row in job[name] for x in row):
            self.challenger.observe(x)
        self.point = self.transcript.draw()
        self.tables = Tables(field, job["left"], job["right"], self.point)
        said, true = ([x for row in matrix for x in row] for matrix in (job["claimed"], self.truth))
        self.claim = fields.total(field, map(field.mul, fields.powers(field, self.point, len(said)), said))
        self.lines = [f"point {self.point}", f"claim {self.claim}"]
        if said != true and self.claim == self.claim_at([]):
            self.lucky = "lucky-point", list(map(field.sub, said, true))

    def claim_at(self, before):
        return self.tables.claim_at(before)

    def answer(self):
        """The status and the text."""
        if self.refused:
            return self.refused
        left, right = self.tables.at(self.challenges)
        verdict = self.verdict(self.claim == self.field.mul(left, right), self.job["claimed"] == self.truth)
        return self.report([f"left {left}", f"right {right}"], verdict)


def fields_of(job):
    """The extension, and the base field."""
    return fields.FIELDS[job["field"]], fields.Prime(257) if job["field"] == "257x2" else fields.FIELDS[job["field"]]


def answer(job):
    """The status and the text of a job that is of its form."""
    field, base = fields_of(job)
    refused = refusal(job, base)
    if refused:
        return refused
    play = Play(job, field, base)
    return (play.play() if job["mode"] == "build" else play.replay(job["mode"]["check"])).answer()


# ---- how many roots a polynomial has

def trimmed(poly):
    while poly and poly[-1] == 0:
        poly = poly[:-1]
    return poly


def remainder(field, poly, by):
    """The remainder of a division by a polynomial that is not 0."""
    poly, by = list(poly), trimmed(by)
    unit = fields.inverse(field, by[-1])
    while len(poly := trimmed(poly)) >= len(by):
        factor, start = field.mul(poly[-1], unit), len(poly) - len(by)
        poly = poly[:start] + [field.sub(a, field.mul(factor, b)) for a, b in zip(poly[start:], by)]
    return poly


def times(field, a, b):
    product = [0] * max(len(a) + len(b) - 1, 0)
    for i, x in enumerate(a):
        for j, y in enumerate(b):
            product[i + j] = field.add(product[i + j], field.mul(x, y))
    return product


def root_count(field, poly):
    """How many elements a polynomial that is not 0 vanishes at: the degree of what it has in common with x^size - x."""
    poly = trimmed(poly)
    power = [1] if len(poly) > 1 else []
    for digit in bin(field.size)[2:]:
        power = remainder(field, times(field, power, power), poly)
        power = remainder(field, [0] + power, poly) if digit == "1" else power
    power += [0] * (2 - len(power))
    power[1] = field.sub(power[1], 1)
    a, b = poly, remainder(field, power, poly)
    while b:
        a, b = b, remainder(field, a, b)
    return len(a) - 1
