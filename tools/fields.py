"""The fields that jobs name, and what statements weigh the rows of a table by, by plain sums and products. Unproved.

Nothing here comes from the program, so that its answers can be held against it: for the scripts in bench/, and for what
the readers here say of a round beside the true one.
"""


class Prime:
    """The integers modulo a prime."""
    def __init__(self, prime):
        self.size = self.base_size = prime

    def add(self, a, b):
        return (a + b) % self.size

    def sub(self, a, b):
        return (a - b) % self.size

    def mul(self, a, b):
        return a * b % self.size


class Quadratic:
    """a + b u over the integers modulo a prime, by the numbers a + prime * b, where u^2 is `square`."""
    def __init__(self, prime, square):
        self.size, self.base_size, self.square = prime * prime, prime, square

    def join(self, a, b):
        return a % self.base_size + self.base_size * (b % self.base_size)

    def add(self, x, y):
        p = self.base_size
        return self.join(x % p + y % p, x // p + y // p)

    def sub(self, x, y):
        p = self.base_size
        return self.join(x % p - y % p, x // p - y // p)

    def mul(self, x, y):
        p = self.base_size
        a, b, c, d = x % p, x // p, y % p, y // p
        return self.join(a * c + self.square * b * d, a * d + b * c)


class Sixteen:
    """Numbers with bits of 1, w, y and wy, where w^2 = w + 1 and y^2 = y + w."""
    size = base_size = 16

    def __init__(self):
        self.table = [self.product(a, b) for a in range(16) for b in range(16)]

    @staticmethod
    def four(m, n):
        a, b, c, d = m & 1, m >> 1, n & 1, n >> 1
        return (a & c) ^ (b & d) | ((a & d) ^ (b & c) ^ (b & d)) << 1

    def product(self, m, n):
        a, b, c, d = m & 3, m >> 2, n & 3, n >> 2
        bd = self.four(b, d)
        return self.four(a, c) ^ self.four(2, bd) | (self.four(a, d) ^ self.four(b, c) ^ bd) << 2

    def add(self, a, b):
        return a ^ b

    sub = add

    def mul(self, a, b):
        return self.table[16 * a + b]


FIELDS = {"65537": Prime(65537), "257x2": Quadratic(257, 3), "16": Sixteen()}


def total(field, numbers):
    """The sum of numbers of a field."""
    result = 0
    for it in numbers:
        result = field.add(result, it)
    return result


def left(field, claim, values, challenge, basis="evaluation"):
    """What a round of two values leaves of a claim at its challenge."""
    a, b = values
    if basis == "projective":
        constant, slope = field.sub(claim, b), field.sub(a, claim)
    else:
        constant, slope = a, field.sub(field.sub(field.sub(claim, a), a), b)
    return field.add(constant, field.mul(challenge, field.add(slope, field.mul(b, challenge))))


def inverse(field, x):
    """The inverse of an element that is not 0, which is its power `size - 2`."""
    result, exponent = 1, field.size - 2
    while exponent:
        if exponent & 1:
            result = field.mul(result, x)
        x, exponent = field.mul(x, x), exponent >> 1
    return result


def through(field, values, x):
    """The value at x of the polynomial that has these values at the elements number 0, 1, 2 and so on."""
    terms = []
    for i, value in enumerate(values):
        for j in range(len(values)):
            if j != i:
                value = field.mul(value, field.mul(field.sub(x, j), inverse(field, field.sub(i, j))))
        terms.append(value)
    return total(field, terms)


def roots(field, poly):
    """The elements at which a polynomial vanishes, the constant coefficient first."""
    def at(x):
        value = 0
        for c in reversed(poly):
            value = field.add(field.mul(value, x), c)
        return value
    return [x for x in range(field.size) if at(x) == 0]


def value_at(field, table, point):
    for c in point:
        half = len(table) // 2
        table = [field.add(a, field.mul(field.sub(b, a), c)) for a, b in zip(table[:half], table[half:])]
    return table[0]


def equality_weights(field, point):
    weights = [1]
    for c in point:
        rest = field.sub(1, c)
        weights = [x for w in weights for x in (field.mul(w, rest), field.mul(w, c))]
    return weights


def successor_weights(field, point):
    weights = equality_weights(field, point)
    return [0] + weights[:-2] + [field.add(weights[-2], weights[-1])] if point else weights


def powers(field, scalar, count):
    weights = [1]
    while len(weights) < count:
        weights.append(field.mul(weights[-1], scalar))
    return weights


def products(field, point):
    weights = [1]
    for c in point:
        weights = [x for w in weights for x in (w, field.mul(w, c))]
    return weights
