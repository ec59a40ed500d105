"""What `veil` has to write, by sums over all bits and with a challenger, a generator and a commitment of its own.

Nothing here comes from the program, so that its answers can be held against it: for bench/veil.py.
"""
import hashlib, itertools, os, struct, sys

sys.path.insert(0, os.path.join(os.path.dirname(os.path.abspath(__file__)), "..", "tools"))
import fields
from picture import bound, claim_weights, inner
from truth import list_name

WORD = 0xFFFFFFFF


def eight(number):
    return number.to_bytes(8, "big")


# ---- the seed

def step(kind, parts, length, label):
    """A step of one value (no length), or of a fixed number of them."""
    fixed = length is not None
    return bytes([kind]) + eight(parts) + bytes([fixed]) + eight(length if fixed else 1) + eight(len(label)) + label


def seed_words(parts, rounds, mask_length, bits):
    steps = [step(1, parts, None, b"joint_claim"), step(1, 0, None, b"mask_commitment"),
             step(1, parts, None, b"mu_tilde"), step(2, parts, None, b"mask_combination")]
    for _ in range(rounds):
        steps.append(step(1, parts, max(mask_length, 3) - 1, b"round_poly"))
        steps += [step(3, 1, bits, b"round_pow")] if bits else []
        steps.append(step(2, parts, None, b"round_challenge"))
    name = b"p3-sumcheck-hvzk"
    text = bytes([1]) + eight(len(name)) + name + eight(len(steps)) + b"".join(steps) + eight(8) + eight(mask_length)
    return [half for byte in text for half in (byte >> 4, byte & 15)]


# ---- challengers

class Hash:
    """SHA-256 of the state before an event, with the event."""
    def __init__(self, size):
        self.size, self.state = size, hashlib.sha256(b"").digest()

    def after(self, event):
        return hashlib.sha256(self.state + event).digest()

    def observe(self, number):
        self.state = self.after(b"\1" + eight(number))

    def draw(self):
        number = int.from_bytes(self.state[:8], "big") % self.size
        self.state = self.after(b"\2")
        return number

    def passes(self, bits, witness):
        return int.from_bytes(self.after(b"\1" + eight(witness)), "big") >> (256 - bits) == 0

    def test(self, bits, witness):
        self.observe(witness)
        self.state = self.after(b"\3" + eight(bits))


class Script:
    """Draws and witnesses that pass, in the order of their use; past their end zeros, and none."""
    def __init__(self, script):
        self.draws, self.witnesses = list(script["draws"]), list(script["witnesses"])

    def observe(self, number):
        pass

    def draw(self):
        return self.draws.pop(0) if self.draws else 0

    def passes(self, bits, witness):
        return bool(self.witnesses) and witness in self.witnesses[0]

    def test(self, bits, witness):
        del self.witnesses[:1]


class Transcript:
    """A challenger that elements of the extension are observed by and drawn from, part by part."""
    def __init__(self, field, challenger):
        self.parts = 1 if field.size == field.base_size else 2
        self.base, self.challenger = field.base_size, challenger

    def observe(self, element):
        for part in range(self.parts):
            self.challenger.observe(element // self.base ** part % self.base)

    def draw(self):
        return sum(self.challenger.draw() * self.base ** part for part in range(self.parts))


# ---- masks from a seed

def rotated(x, count):
    return (x << count | x >> (32 - count)) & WORD


def quarter(words, a, b, c, d):
    for x, y, z, count in ((a, b, d, 16), (c, d, b, 12), (a, b, d, 8), (c, d, b, 7)):
        words[x] = (words[x] + words[y]) & WORD
        words[z] = rotated(words[z] ^ words[x], count)


def generator(seed):
    """The 64 bit numbers of ChaCha of eight rounds, from a seed of 32 bytes."""
    for block in itertools.count():
        start = [0x61707865, 0x3320646E, 0x79622D32, 0x6B206574, *struct.unpack("<8I", seed), block & WORD, block >> 32, 0, 0]
        words = list(start)
        for _ in range(4):
            for a, b, c, d in ((0, 4, 8, 12), (1, 5, 9, 13), (2, 6, 10, 14), (3, 7, 11, 15),
                               (0, 5, 10, 15), (1, 6, 11, 12), (2, 7, 8, 13), (3, 4, 9, 14)):
                quarter(words, a, b, c, d)
        out = [(x + y) & WORD for x, y in zip(words, start)]
        yield from (out[i] | out[i + 1] << 32 for i in range(0, 16, 2))


def lists_of(field, job):
    """The masks of a job and their randomness."""
    masks = job["masks"]
    if "messages" in masks:
        return masks["messages"], masks["randomness"]
    numbers = generator(eight(masks["seed"]) + bytes(24))
    drawn = [[[next(numbers) % field.size for _ in range(length)] for _ in range(job["rounds"])] for length in (masks["length"], 2)]
    return drawn[0], drawn[1]


def mask_length(masks):
    return masks["length"] if "seed" in masks else len(masks["messages"][0]) if masks["messages"] else 0


def digest(field, masks, randomness):
    """The commitment: of the matrix of their values at the nodes, a row for each node."""
    nodes = 2 * (len(masks[0]) + 2)
    values = [polynomial(field, mask + more, node) for node in range(nodes) for mask, more in zip(masks, randomness)]
    return hashlib.sha256(eight(nodes) + eight(len(masks)) + b"".join(map(eight, values))).digest()


# ---- polynomials

def polynomial(field, coefficients, x):
    value = 0
    for c in reversed(coefficients):
        value = field.add(field.mul(value, x), c)
    return value


def coefficients_of(field, at, count):
    """The coefficients of a polynomial of so many, by its values at 0, 1, 2 and so on."""
    out = [0] * count
    for i in range(count):
        basis, below = [1], 1
        for j in range(count):
            if j != i:
                basis = [field.sub(a, field.mul(j, b)) for a, b in zip([0] + basis, basis + [0])]
                below = field.mul(below, field.sub(i, j))
        factor = field.mul(at(i), fields.inverse(field, below))
        out = [field.add(x, field.mul(factor, b)) for x, b in zip(out, basis)]
    return out


def masks_at(field, masks, points):
    return fields.total(field, (polynomial(field, mask, x) for mask, x in zip(masks, points)))


def over_bits(count):
    return itertools.product((0, 1), repeat=count)


def total_of(field, masks):
    """The sum of masks over all bits."""
    return fields.total(field, (masks_at(field, masks, bits) for bits in over_bits(len(masks))))


def wire_of(field, masks, points, eps, piece):
    """What a round sends once these are the challenges before it, over a piece of the constant and the leading one."""
    def at(x):
        later = [points + [x, *bits] for bits in over_bits(len(masks) - len(points) - 1)]
        own = field.add(piece[0], field.mul(piece[1], field.mul(x, x)))
        return field.add(fields.total(field, (masks_at(field, masks, them) for them in later)), field.mul(eps, own))
    constant, _, *higher = coefficients_of(field, at, len(masks[0]))
    return [constant] + higher


# ---- the answer

def refusal(field, job):
    """The refusal before the statements, if there is one."""
    rows, masks = len(job["table"]), job["masks"]
    variables, length = rows.bit_length() - 1, mask_length(masks)
    if rows == 0 or rows != 1 << variables:
        return f"job-shape table-length {rows}"
    if job["bits"] > 16:
        return f"job-shape difficulty {job['bits']} bound 16"
    if variables != job["variables"]:
        return f"job-shape variables {job['variables']} expected {variables}"
    if job["rounds"] > variables:
        return f"job-shape rounds {job['rounds']} bound {variables}"
    if field.add(1, 1) == 0:
        return "veil even-characteristic"
    if length < 3:
        return f"veil mask-too-short {length}"
    return "veil no-rounds" if job["rounds"] == 0 else None


def batch(field, job):
    """The batched weights and the batched claim, or the refusal of the first false statement."""
    rows = len(job["table"])
    weights, claim, power, number = [0] * rows, 0, 1, 0
    for group in job["groups"]:
        for it in group[list_name(group)]:
            own = claim_weights(field, group["kind"], it, rows)
            true = inner(field, job["table"], own)
            if true != it["value"]:
                return None, f"false-claim {number} claimed {it['value']} true {true}"
            weights = [field.add(w, field.mul(power, o)) for w, o in zip(weights, own)]
            claim, power, number = field.add(claim, field.mul(power, true)), field.mul(power, job["batching"]), number + 1
    return weights, claim


def answer(job):
    """The status and the text."""
    field = fields.FIELDS[job["field"]]
    why = refusal(field, job)
    weights, claim = (None, why) if why else batch(field, job)
    return (3, f"refused {claim}\n") if weights is None else played(field, job, weights, claim)


def played(field, job, weights, claim):
    masks, randomness = lists_of(field, job)
    challenger = Hash(field.base_size) if job["challenger"] == "hash" else Script(job["challenger"])
    transcript, rounds, bits = Transcript(field, challenger), job["rounds"], job["bits"]
    first = field.add(claim, job["aux"])
    mu = total_of(field, masks)
    for word in seed_words(transcript.parts, rounds, len(masks[0]), bits):
        challenger.observe(word % field.base_size)
    transcript.observe(first)
    for byte in digest(field, masks, randomness):
        challenger.observe(byte >> 4)
        challenger.observe(byte & 15)
    transcript.observe(mu)
    eps = transcript.draw()
    half, left, target, plain = fields.inverse(field, field.add(1, 1)), job["aux"], field.add(field.mul(eps, first), mu), claim
    pair, points, lines = (job["table"], weights), [], [f"claim {first}", f"mu {mu}", f"eps {eps}"]
    for number in range(rounds):
        left = field.mul(left, half)
        moved = lambda x: [bound(field, it, x, job["order"]) for it in pair]
        c0, _, leading = coefficients_of(field, lambda x: inner(field, *moved(x)), 3)

        constant, *higher = wire_of(field, masks, points, eps, (field.add(c0, left), leading))
        for value in [constant] + higher:
            transcript.observe(value)
        line = f"round {number}: " + " ".join(map(str, [constant] + higher))
        if bits:
            witness = next((w for w in range(field.base_size) if challenger.passes(bits, w)), None)
            if witness is None:
                return 5, f"no witness round {number}\n"
            challenger.test(bits, witness)
            line += f" witness {witness}"
        r = transcript.draw()
        linear = field.sub(field.sub(field.sub(target, constant), constant), fields.total(field, higher))
        target, plain = polynomial(field, [constant, linear] + higher, r), fields.left(field, plain, (c0, leading), r)
        pair = moved(r)
        points.append(r)
        lines.append(f"{line} challenge {r}")
    lines += [f"residual {target}", f"scaled {field.mul(eps, plain)}", f"carried {field.mul(eps, left)}",
              f"mask-residual {masks_at(field, masks, points)}", "verdict holds"]
    return 0, "\n".join(lines) + "\n"
