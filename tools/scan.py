"""JSON read with the place of each value, by the rules of docs/FORMATS.md, "Reading". Unproved: the program is not asked.

`read(data)` gives the value of some bytes, or raises a `Fault` where they stop being JSON. A value knows where it stands;
of a list the items are made when they are asked for, so that a table of millions of numbers is read in seconds.
"""
import re

MOST_OPEN = 127
SPACE = r"[ \t\n\r]*+"
INTEGER = r"(?:0|[1-9][0-9]{0,18})"
SPACES = re.compile(SPACE)
RUN = re.compile(rf"(?:{INTEGER}{SPACE},{SPACE})++")  # of list items, each with the comma after it
ITEM = re.compile(INTEGER)
NUMBER = re.compile(r"-?(?:0|[1-9][0-9]*)(?:\.[0-9]+)?(?:[eE][+-]?[0-9]+)?")
PLAIN = re.compile(r'[^"\\\x00-\x1f]*+')
WORDS = {"t": "true", "f": "false", "n": "null"}
ESCAPES = {'"': '"', "\\": "\\", "/": "/", "b": "\b", "f": "\f", "n": "\n", "r": "\r", "t": "\t"}


class Fault(Exception):
    """Where a text stops being JSON, and what is wrong or wanted there."""

    def __init__(self, offset, what):
        super().__init__(what)
        self.offset, self.what = offset, what


class Value:
    """A value of a text: its kind, and the offsets of its first character and of the one after its last."""

    def __init__(self, text, kind, start, end, content=None):
        self.text, self.kind, self.start, self.end, self.content = text, kind, start, end, content

    def unsigned(self):
        """The number, where it counts as unsigned: digits alone, below 2^64. Else None."""
        if self.kind != "number" or not self.source().isdigit():
            return None
        number = int(self.source()[:21])
        return number if number < 1 << 64 and self.end - self.start <= 20 else None

    def string(self):
        """The string after its escapes, or None where this is none."""
        return self.content if self.kind == "string" else None

    def member(self, name):
        """The member of this name in an object, of several the last one, or None."""
        found = self.members(name)
        return found[-1] if found else None

    def members(self, name):
        """All members of this name in an object."""
        return [value for key, value in self.content if key == name] if self.kind == "object" else []

    def items(self):
        """The items of a list, one after the other."""
        for part in self.content if self.kind == "list" else []:
            yield from self.items_of(part)

    def items_of(self, part):
        """The items of a part of a list: of one value, or of a run of numbers in digits alone."""
        if isinstance(part, Value):
            yield part
        else:
            for it in ITEM.finditer(self.text, *part):
                yield Value(self.text, "number", it.start(), it.end())

    def fitting(self, part, bound):
        """How many numbers a run has, where all are below a bound, else 0."""
        if isinstance(part, Value):
            return 0
        numbers = list(map(int, ITEM.findall(self.text, *part)))
        return len(numbers) if max(numbers) < bound else 0

    def count(self):
        """How many items a list has."""
        return sum(1 if isinstance(part, Value) else self.text.count(",", *part) for part in self.content)

    def source(self):
        """The text of this value, as it stands."""
        return self.text[self.start:self.end]

    def shown(self, most=40):
        """The text of this value for a message: in one line, and cut where it is long."""
        start = " ".join(self.text[self.start:min(self.end, self.start + 4 * most)].split())
        return start if len(start) <= most and self.end - self.start <= 4 * most else start[:most] + ".."


class Scanner:
    """Reads one text from its start to its end."""

    def __init__(self, text):
        self.text, self.at, self.open = text, 0, 0

    def space(self):
        self.at = SPACES.match(self.text, self.at).end()

    def sign(self):
        return self.text[self.at:self.at + 1]

    def fail(self, what, offset=None):
        raise Fault(self.at if offset is None else offset, what)

    def whole(self):
        """The one value of the text."""
        if self.text.startswith("\ufeff"):
            self.fail("a byte order mark stands before the value")
        self.space()
        value = self.value()
        self.space()
        if self.at < len(self.text):
            self.fail("the value has ended, and more follows")
        return value

    def value(self):
        sign = self.sign()
        if sign == "{" or sign == "[":
            return self.nested(sign)
        if sign == '"':
            return self.string()
        if sign in WORDS and sign:
            return self.word(WORDS[sign])
        if sign == "-" or sign.isdigit() and sign.isascii():
            return self.number()
        self.fail("the text ends where a value is wanted" if not sign else "a value is wanted: an object, a list, a string, a number, true, false or null")

    def nested(self, sign):
        self.open += 1
        if self.open > MOST_OPEN:
            self.fail(f"more than {MOST_OPEN} lists and objects are open")
        value = self.object() if sign == "{" else self.list()
        self.open -= 1
        return value

    def word(self, word):
        if not self.text.startswith(word, self.at):
            self.fail(f"a value is wanted; does this stand for {word}?")
        self.at += len(word)
        return Value(self.text, word, self.at - len(word), self.at)

    def number(self):
        start, found = self.at, NUMBER.match(self.text, self.at)
        if not found:
            self.fail("a digit is wanted after the sign", start + 1)
        self.at = found.end()
        sign = self.sign()
        if sign and sign in "0123456789":
            self.fail("a number has a leading zero", start)
        if sign and sign in ".eE":
            self.fail("a number breaks off: a digit is wanted after its point or exponent")
        if float(found.group()) in (float("inf"), float("-inf")):
            self.fail("a number rounds to infinity", start)
        return Value(self.text, "number", start, self.at)

    def string(self):
        start, parts = self.at, []
        self.at += 1
        while True:
            plain = PLAIN.match(self.text, self.at)
            parts.append(plain.group())
            self.at = plain.end()
            sign = self.sign()
            if sign == '"':
                self.at += 1
                return Value(self.text, "string", start, self.at, "".join(parts))
            if sign == "\\":
                parts.append(self.escape())
            elif not sign:
                self.fail("the text ends in a string that was opened here", start)
            else:
                self.fail("a control byte stands in a string; is its closing quote missing?")

    def escape(self):
        sign = self.text[self.at + 1:self.at + 2]
        if sign == "u":
            return self.code_point()
        if sign not in ESCAPES or not sign:
            self.fail("this is no escape")
        self.at += 2
        return ESCAPES[sign]

    def code_point(self):
        start, first = self.at, self.unit()
        if 0xdc00 <= first < 0xe000:
            self.fail("a lone surrogate escape", start)
        if not 0xd800 <= first < 0xdc00:
            return chr(first)
        second = self.unit() if self.text.startswith("\\u", self.at) else 0
        if not 0xdc00 <= second < 0xe000:
            self.fail("a lone surrogate escape", start)
        return chr(0x10000 + (first - 0xd800 << 10) + second - 0xdc00)

    def unit(self):
        digits = self.text[self.at + 2:self.at + 6]
        if not re.fullmatch("[0-9a-fA-F]{4}", digits):
            self.fail("four hexadecimal digits are wanted after \\u")
        self.at += 6
        return int(digits, 16)

    def list(self):
        start, parts = self.at, []
        if not self.opened("]"):
            while True:
                run = RUN.match(self.text, self.at)
                if run:
                    parts.append(run.span())
                    self.at = run.end()
                parts.append(self.value())
                if self.closed("]", "list", start):
                    break
        return Value(self.text, "list", start, self.at, parts)

    def object(self):
        start, members = self.at, []
        if not self.opened("}"):
            while True:
                if self.sign() != '"':
                    self.fail("a key in quotes is wanted")
                key = self.string().content
                self.space()
                if self.sign() != ":":
                    self.fail("a colon is wanted after the key")
                self.at += 1
                self.space()
                members.append((key, self.value()))
                if self.closed("}", "object", start):
                    break
        return Value(self.text, "object", start, self.at, members)

    def opened(self, sign):
        """Goes past the opening sign, and past the closing one where it comes at once."""
        self.at += 1
        self.space()
        empty = self.sign() == sign
        self.at += empty
        return empty

    def closed(self, sign, what, start):
        """Goes past what stands after an item: the closing sign, or a comma."""
        self.space()
        found = self.sign()
        if not found:
            self.fail(f"the text ends in the {what} that was opened here", start)
        if found != sign and found != ",":
            self.fail(f"a comma or {sign} is wanted")
        self.at += 1
        self.space()
        return found == sign


def read(data):
    """The value of a text in UTF-8."""
    try:
        return Scanner(data.decode("utf-8")).whole()
    except UnicodeDecodeError as error:
        before = data[:error.start].decode("utf-8")
        try:
            Scanner(before + "\ufffd").whole()
        except Fault as fault:
            if fault.offset < len(before) and not fault.what.startswith("the text ends"):
                raise Fault(fault.offset, fault.what) from None
        raise Fault(len(before), "this byte is no UTF-8") from None


def text_of(data):
    """The text of some bytes for messages, up to the first byte that is no UTF-8."""
    return data.decode("utf-8", errors="replace")


def place(text, offset):
    """The line and the column of an offset, both counted from 1, the column in characters."""
    return text.count("\n", 0, offset) + 1, offset - text.rfind("\n", 0, offset)
