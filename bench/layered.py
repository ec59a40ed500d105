"""What `circuit` has to write, by sums over all bits and with a challenger of its own.

Nothing here comes from the program, so that its answers can be held against it: for bench/circuit.py.
"""
import itertools, os, sys

sys.path.insert(0, os.path.join(os.path.dirname(os.path.abspath(__file__)), "..", "tools"))
import fields
from masked import Hash, Script, Transcript, coefficients_of, eight, polynomial, step
from matrices import fields_of, root_count

MOST_LAYERS, MOST_VARIABLES, MOST_BITS = 32, 8, 16


def variables_of(length):
    """How many variables a layer of so many values has, or none where no layer can have so many."""
    return next((k for k in range(MOST_VARIABLES + 1) if length == 1 << k), None)


# ---- the circuit

def values_of(field, layers, inputs):
    """The values of each layer, and then the inputs; `field` is the base field."""
    values = [inputs]
    for gates in reversed(layers):
        below = values[0]
        values.insert(0, [(field.mul if product else field.add)(below[left], below[right]) for product, left, right in gates])
    return values


def misfit(layers, inputs):
    """Why there is no such circuit, if there is none."""
    if not 1 <= len(layers) <= MOST_LAYERS:
        return f"depth {len(layers)}"
    rows = [*map(len, layers), len(inputs)]
    for layer, length in enumerate(rows):
        if variables_of(length) is None:
            return f"width layer {layer} len {length}"
    for layer, gates in enumerate(layers):
        for gate, (_, left, right) in enumerate(gates):
            if max(left, right) >= rows[layer + 1]:
                return f"wire layer {layer} gate {gate}"
    return None


# ---- the rounds over a layer

class Layer:
    """A layer's gates by their two places, with their weights, over the values below."""
    def __init__(self, field, gates, weights, below):
        self.field, self.below, self.half = field, below, variables_of(len(below))
        self.kinds = {0: [0] * len(below) ** 2, 1: [0] * len(below) ** 2}
        for (product, left, right), weight in zip(gates, weights):
            row, table = left * len(below) + right, self.kinds[product]
            table[row] = field.add(table[row], weight)

    def gates_at(self, point):
        """The weights of the sums and those of the products at a point."""
        return fields.value_at(self.field, self.kinds[0], point), fields.value_at(self.field, self.kinds[1], point)

    def at(self, point, left, right):
        """What the gates sum to at a point, where the values there are these."""
        f, (sums, products) = self.field, self.gates_at(point)
        return f.add(f.mul(sums, f.add(left, right)), f.mul(products, f.mul(left, right)))

    def values(self, point):
        return fields.value_at(self.field, self.below, point[:self.half]), fields.value_at(self.field, self.below, point[self.half:])

    def claim_at(self, before):
        """The sum over all bits for the variables that are left, once these are the challenges before."""
        rest = itertools.product((0, 1), repeat=2 * self.half - len(before))
        points = [before + list(bits) for bits in rest]
        return fields.total(self.field, (self.at(point, *self.values(point)) for point in points))


def degree_seed(parts, bits, rounds):
    """The words of the seed of so many rounds of degree 2."""
    steps = [step(1, parts, None, b"claimed_sum")]
    for _ in range(rounds):
        steps.append(step(1, parts, 2, b"round_poly"))
        steps += [step(3, 1, bits, b"round_pow")] if bits else []
        steps.append(step(2, parts, None, b"round_challenge"))
    name = b"p3-sumcheck-generic-degree"
    text = bytes([1]) + eight(len(name)) + name + eight(len(steps)) + b"".join(steps) + eight(0)
    return [half for byte in text for half in (byte >> 4, byte & 15)]


def sent_polynomial(field, claim, pair):
    """The coefficients of what a round sends: its values at 0 and at the element 2, under a claim."""
    at = {0: pair[0], 1: field.sub(claim, pair[0]), 2: pair[1]}
    return coefficients_of(field, lambda i: at[i], 3)


# ---- the answer

def refusal(job, values):
    """The refusal of a job whose circuit fits before any event, if there is one, in its order."""
    outputs, layers = job["outputs"], job["layers"]
    if len(outputs) != len(layers[0]):
        return 3, f"refused circuit outputs expected {len(layers[0])} actual {len(outputs)}\n"
    if job["bits"] > MOST_BITS:
        return 3, f"refused job-shape difficulty {job['bits']} bound {MOST_BITS}\n"
    if job["mode"] == "build":
        for gate, (claimed, true) in enumerate(zip(outputs, values[0])):
            if claimed != true:
                return 3, f"refused false-output {gate} claimed {claimed} true {true}\n"
    elif len(job["mode"]["check"]["layers"]) != len(layers):
        return 4, f"proof refused layers expected {len(layers)} actual {len(job['mode']['check']['layers'])}\n"
    return None


class Honest:
    """What an honest prover sends, asked by the play that is its owner. Other provers answer some of it otherwise."""
    def counts(self, layer, rounds):
        """The counts of a layer's rounds and witnesses, or none where there is nothing to count."""
        return None

    def values(self, play, layer, number, true, claim):
        """The values of a round, of its true polynomial and the claim before it."""
        return [polynomial(play.field, true, 0), polynomial(play.field, true, 2)]

    def witness(self, play, layer, number):
        return next((w for w in range(play.field.base_size) if play.challenger.passes(play.bits, w)), None)

    def ends(self, play, layer, over, points, claim, true):
        """The two values below that close a layer, of the true ones."""
        return true


class HandedIn(Honest):
    """A proof that is handed in."""
    def __init__(self, layers):
        self.layers = layers

    def counts(self, layer, rounds):
        return len(self.layers[layer]["rounds"]), len(self.layers[layer]["witnesses"])

    def values(self, play, layer, number, true, claim):
        return self.layers[layer]["rounds"][number]

    def witness(self, play, layer, number):
        return self.layers[layer]["witnesses"][number]

    def ends(self, play, layer, over, points, claim, true):
        return self.layers[layer]["left"], self.layers[layer]["right"]


class Play:
    """One play of a job whose circuit fits: its lines, its proof, what disagrees first, and the first lucky challenge of a false claim."""
    def __init__(self, job, prover=Honest()):
        self.job, self.bits, self.prover = job, job["bits"], prover
        self.field, base = fields_of(job)
        self.truth = values_of(base, job["layers"], job["inputs"])
        self.challenger = Hash(self.field.base_size) if job["challenger"] == "hash" else Script(job["challenger"])
        self.transcript = Transcript(self.field, self.challenger)
        self.lines, self.layers, self.disagrees, self.lucky, self.refused = [], [], None, None, None
        self.begin()

    def begin(self):
        for x in self.job["outputs"]:
            self.challenger.observe(x)
        self.drawn = self.transcript.draw()
        self.weights = fields.powers(self.field, self.drawn, len(self.job["outputs"]))
        self.claim = fields.total(self.field, map(self.field.mul, self.weights, self.job["outputs"]))
        self.excess = list(map(self.field.sub, self.job["outputs"], self.truth[0]))
        self.lines.append(f"claim {self.claim}")

    def play(self):
        for number, gates in enumerate(self.job["layers"]):
            self.merged(number)
            self.layer(number, Layer(self.field, gates, self.weights, self.truth[number + 1]))
            if self.refused:
                return self
        self.merged(len(self.job["layers"]))
        if self.claim != self.true_claim(len(self.job["layers"])):
            self.notes_of(len(self.job["layers"]))
        self.lines.append(f"input {self.claim}")
        return self

    def true_claim(self, number):
        return fields.total(self.field, map(self.field.mul, self.weights, self.truth[number]))

    def merged(self, number):
        """Notes where the claim of a layer is true although what it was made of is not."""
        if self.lucky is None and any(self.excess) and self.claim == self.true_claim(number):
            self.lucky = f"lucky-merge layer {number}", self.excess

    def notes_of(self, number):
        self.disagrees = number if self.disagrees is None else self.disagrees

    def layer(self, number, over):
        rounds, self.points, self.sent = 2 * over.half, [], {"rounds": [], "witnesses": []}
        self.layers.append(self.sent)
        if self.miscounted(number, rounds):
            return
        for word in degree_seed(self.transcript.parts, self.bits, rounds):
            self.challenger.observe(word)
        self.transcript.observe(self.claim)
        for i in range(rounds):
            self.round(number, i, over)
            if self.refused:
                return
        self.close(number, over)

    def miscounted(self, number, rounds):
        counts = self.prover.counts(number, rounds)
        for what, actual, wanted in zip(("rounds", "witnesses"), counts or (), (rounds, rounds if self.bits else 0)):
            if self.refused is None and actual != wanted:
                self.refused = 4, f"proof refused layer {number} {what} expected {wanted} actual {actual}\n"
        return self.refused is not None

    def round(self, number, i, over):
        field = self.field
        true = coefficients_of(field, lambda x: over.claim_at(self.points + [x]), 3)
        values = self.prover.values(self, number, i, true, self.claim)
        self.sent["rounds"].append(values)
        if len(values) != 2:
            self.refused = 4, f"proof refused layer {number} width round {i} expected 2 actual {len(values)}\n"
            return
        for x in values:
            self.transcript.observe(x)
        line = f"layer {number} round {i}: {values[0]} {values[1]}"
        if self.bits:
            witness = self.tested(number, i)
            if self.refused:
                return
            line += f" witness {witness}"
        r = self.transcript.draw()
        own = sent_polynomial(field, self.claim, values)
        after, true_after = polynomial(field, own, r), polynomial(field, true, r)
        if self.lucky is None and self.claim != over.claim_at(self.points) and after == true_after:
            self.lucky = f"lucky-round layer {number} round {i}", list(map(field.sub, own, true))
        self.claim = after
        self.points.append(r)
        self.lines.append(f"{line} challenge {r}")

    def tested(self, number, i):
        """The round's witness, shown to the challenger."""
        witness = self.prover.witness(self, number, i)
        if witness is None:
            self.refused = 5, f"no witness layer {number} round {i}\n"
            return None
        if not self.challenger.passes(self.bits, witness):
            self.refused = 4, f"proof refused layer {number} witness round {i} bits {self.bits}\n"
        self.challenger.test(self.bits, witness)
        self.sent["witnesses"].append(witness)
        return witness

    def close(self, number, over):
        """Closes a layer: its two values below, whether they agree with the rounds, and the claim on the next layer."""
        field, true = self.field, over.values(self.points)
        left, right = self.prover.ends(self, number, over, self.points, self.claim, true)
        self.sent |= {"left": left, "right": right}
        if self.claim != over.at(self.points, left, right):
            self.notes_of(number)
        self.transcript.observe(left)
        self.transcript.observe(right)
        merge = self.transcript.draw()
        self.lines.append(f"layer {number} left {left} right {right} merge {merge}")
        halves = [fields.equality_weights(field, it) for it in (self.points[:over.half], self.points[over.half:])]
        self.weights = [field.add(a, field.mul(merge, b)) for a, b in zip(*halves)]
        self.claim = field.add(left, field.mul(merge, right))
        self.excess = [field.sub(left, true[0]), field.sub(right, true[1])]

    def verdict(self):
        if self.disagrees is not None:
            return f"refuted layer {self.disagrees}"
        if self.job["outputs"] == self.truth[0]:
            return "holds"
        kind, poly = self.lucky
        return f"{kind} vanishing {root_count(self.field, poly)} poly {' '.join(map(str, poly))}"

    def answer(self):
        """The status and the text."""
        if self.refused:
            return self.refused
        verdict = self.verdict()
        return int(verdict != "holds"), "\n".join(self.lines + [f"verdict {verdict}"]) + "\n"


def answer(job):
    """The status and the text of a job that is of its form."""
    why = misfit(job["layers"], job["inputs"])
    if why:
        return 3, f"refused circuit {why}\n"
    refused = refusal(job, values_of(fields_of(job)[1], job["layers"], job["inputs"]))
    if refused:
        return refused
    return Play(job, Honest() if job["mode"] == "build" else HandedIn(job["mode"]["check"]["layers"])).play().answer()
