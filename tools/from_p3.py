#!/usr/bin/env python3
"""Makes a job of a proof of p3-sumcheck, on standard output: see docs/FROM_PLONKY3.md. This tool is not proved.

usage: tools/from_p3.py PROOF REST > JOB

PROOF has a `SumcheckData` or a `GenericDegreeProof`, as Rust prints it with {:?} or {:#?}, or as serde_json writes it. REST
is JSON with what a proof does not have: the field, the tables, the claims, and the challenges that were drawn. Elements
are numbers, or lists of their parts. The status is 0; 2 where the words are none of these; 3 where something cannot be
carried, which is named on standard error; 11 where a file cannot be read, or is none of these.
"""
import json, re, sys

import program
from forms import SIZES

MEMBERS = {
    "SumcheckData": {"field", "order", "basis", "bits", "table", "points", "claims", "groups", "batching", "challenges", "challenger"},
    "GenericDegreeProof": {"field", "bits", "tables", "challenges", "challenger"},
}
PARTS = {"65537": 1, "257x2": 2, "16": 1}
GENERIC = r"<(?:[^<>(){}]|<(?:[^<>(){}]|<[^<>(){}]*>)*>)*>"
TOKEN = re.compile(rf"\s*(?:(\d+)|([A-Za-z_]\w*(?:::\w+)*(?:{GENERIC})?)|([\[\](){{}},:]))")


class Refused(Exception):
    """What cannot be carried into a job."""


# ---- What Rust prints

class Printed:
    """Reads what `Debug` prints: numbers, lists, and structs with or without names of their fields."""

    def __init__(self, text):
        self.tokens = []
        text, at = text.strip(), 0
        while at < len(text):
            found = TOKEN.match(text, at)
            if not found:
                raise program.Unable(f"the proof is neither JSON nor what Rust prints, at `{text[at:at + 20]}`")
            self.tokens.append(found)
            at = found.end()
        self.at = 0

    def sign(self):
        return self.tokens[self.at].group(3) if self.at < len(self.tokens) else None

    def take(self, sign):
        if self.sign() != sign:
            raise program.Unable(f"the proof breaks off: {sign} is wanted after {self.at} words")
        self.at += 1

    def whole(self):
        value = self.value()
        if self.at < len(self.tokens):
            raise program.Unable("more follows after the proof")
        return value

    def value(self):
        if self.at >= len(self.tokens):
            raise program.Unable("the proof breaks off")
        number, name, sign = self.tokens[self.at].groups()
        if number:
            self.at += 1
            return int(number)
        if name:
            self.at += 1
            return self.struct(name)
        return self.several(sign, {"[": "]", "(": ")"}.get(sign, "a value"), self.value)

    def struct(self, name):
        if name.startswith("PhantomData"):
            return None
        if self.sign() == "(":
            return {"struct": name, "of": self.several("(", ")", self.value)}
        return {"struct": name} | dict(self.several("{", "}", self.field))

    def field(self):
        if self.at >= len(self.tokens):
            raise program.Unable("the proof breaks off")
        name = self.tokens[self.at].group(2) or ""
        self.at += 1
        self.take(":")
        return name, self.value()

    def several(self, first, last, read):
        self.take(first)
        found = []
        while self.sign() != last:
            found.append(read())
            if self.sign() != last:
                self.take(",")
        self.take(last)
        return found


def read_proof(text):
    """The name of the proof's struct, and its fields."""
    if re.match(r"\s*\{", text):
        try:
            fields = json.loads(text)
        except ValueError as why:
            raise program.Unable(f"the proof is no JSON: {why}") from None
        return "GenericDegreeProof" if "round_polys" in fields else "SumcheckData", fields
    fields = Printed(text).whole()
    if not isinstance(fields, dict):
        raise program.Unable("the proof is no struct")
    return fields["struct"].split("<")[0].split("::")[-1], fields


# ---- Elements as numbers

class Elements:
    """Numbers of the elements of a field that is offered, from numbers, lists of parts, and structs around these."""

    def __init__(self, field):
        if field not in SIZES:
            raise Refused(f"the field {field} is not offered: there are " + ", ".join(SIZES))
        self.field, (self.base_size, self.size) = field, SIZES[field]

    def bare(self, value):
        """A number or a list, without the structs around it: those with one field that is not null."""
        while isinstance(value, dict):
            fields = value.get("of") or [it for name, it in value.items() if name != "struct" and it is not None]
            if len(fields) != 1:
                raise Refused(f"an element of the form {value}")
            value = fields[0]
        return value

    def base(self, value, what):
        number = self.bare(value)
        number = number[0] if isinstance(number, list) and len(number) == 1 else number
        if not isinstance(number, int) or isinstance(number, bool) or not 0 <= number < self.base_size:
            raise Refused(f"{what}, {value}: a number below {self.base_size} is wanted over {self.field}")
        return number

    def extension(self, value, what):
        found = self.bare(value)
        if not isinstance(found, list):
            if not isinstance(found, int) or isinstance(found, bool) or not 0 <= found < self.size:
                raise Refused(f"{what}, {value}: a number below {self.size}, or a list of {PARTS[self.field]} parts, is wanted over {self.field}")
            return found
        if len(found) != PARTS[self.field]:
            raise Refused(f"{what}, {value}: an element over {self.field} has {PARTS[self.field]} parts")
        return sum(self.base(part, what) * self.base_size ** i for i, part in enumerate(found))

    def parts(self, number):
        return [number % self.base_size, number // self.base_size] if PARTS[self.field] == 2 else [number]

    def bases(self, values, what):
        return [self.base(it, f"{what} {i}") for i, it in enumerate(listed(values, what))]

    def extensions(self, values, what):
        return [self.extension(it, f"{what} {i}") for i, it in enumerate(listed(values, what))]


def listed(values, what):
    if not isinstance(values, list):
        raise Refused(f"{what}: a list is wanted")
    return values


# ---- The job

def checked(kind, rest):
    """Refuses by name what no job can say."""
    if kind not in MEMBERS:
        raise Refused(f"a proof of the struct {kind}; carried are SumcheckData and GenericDegreeProof")
    if "challenger" in rest:
        raise Refused(f"the challenger {rest['challenger']}: its transcript is not replayed here; hand in the challenges that it drew")
    unknown = sorted(set(rest) - MEMBERS[kind])
    if unknown:
        raise Refused(f"the member {unknown[0]} of the rest; known are " + ", ".join(sorted(MEMBERS[kind])))


def needed(owner, name, what="rest"):
    if name not in owner:
        raise Refused(f"the member {name} is missing in the {what}")
    return owner[name]


def challenger(elements, rest, rounds, witnesses):
    """The script of a challenger that draws what was drawn, and lets pass the witnesses that were taken."""
    challenges = elements.extensions(needed(rest, "challenges"), "challenge")
    if len(challenges) != len(rounds):
        raise Refused(f"{len(challenges)} challenges for {len(rounds)} rounds")
    if witnesses:
        print("from_p3: tests of witnesses are not made again: the script lets those of the proof pass", file=sys.stderr)
    return {"draws": [part for it in challenges for part in elements.parts(it)], "witnesses": [[it] for it in witnesses]}


def groups(elements, rest):
    """The groups as they are given, or one of claims at points."""
    if "groups" in rest:
        return rest["groups"]
    points, claims = listed(needed(rest, "points"), "points"), elements.extensions(needed(rest, "claims"), "claim")
    if len(points) != len(claims):
        raise Refused(f"{len(claims)} claims at {len(points)} points")
    return [{"kind": "eq", "claims": [{"point": elements.extensions(point, f"coordinate of point {i},"), "value": value}
                                      for i, (point, value) in enumerate(zip(points, claims))]}]


def batching(elements, rest):
    """The batching challenge, which a single claim does not need."""
    if "batching" not in rest and len(rest.get("claims", [])) == 1:
        return 1
    return elements.extension(needed(rest, "batching"), "batching")


def quadratic(elements, proof, rest):
    table = elements.bases(needed(rest, "table"), "table entry")
    rounds = [elements.extensions(it, f"round {i}, value") for i, it in enumerate(listed(needed(proof, "polynomial_evaluations", "proof"), "polynomial_evaluations"))]
    witnesses = elements.bases(needed(proof, "pow_witnesses", "proof"), "witness")
    basis = str(rest.get("basis", "evaluation")).lower()
    if basis not in ("evaluation", "projective"):
        raise Refused(f"rounds in the {rest['basis']} basis")
    return {
        "field": elements.field, "challenger": challenger(elements, rest, rounds, witnesses), "order": str(rest.get("order", "prefix")).lower(),
        "bits": rest.get("bits", 0), "table": table, "variables": max(len(table), 1).bit_length() - 1, "groups": groups(elements, rest),
        "batching": batching(elements, rest), "mode": {"check": {"rounds": rounds, "witnesses": witnesses}},
    } | ({"basis": basis} if basis == "projective" else {})


def product(elements, proof, rest):
    rounds = [elements.extensions(it, f"round {i}, value") for i, it in enumerate(listed(needed(proof, "round_polys", "proof"), "round_polys"))]
    witnesses = elements.bases(needed(proof, "pow_witnesses", "proof"), "witness")
    claimed = elements.extension(needed(proof, "claimed_sum", "proof"), "claimed_sum")
    return {
        "field": elements.field, "challenger": challenger(elements, rest, rounds, witnesses), "bits": rest.get("bits", 0),
        "tables": [elements.bases(table, f"entry of table {i},") for i, table in enumerate(listed(needed(rest, "tables"), "tables"))],
        "mode": {"check": {"claimed": claimed, "rounds": rounds, "witnesses": witnesses}},
    }


def main(words):
    if len(words) != 2:
        raise program.WrongWords
    text, data = (program.bytes_of(word).decode("utf-8", errors="replace") for word in words)
    try:
        rest = json.loads(data)
    except ValueError as why:
        raise program.Unable(f"{words[1]} is no JSON: {why}") from None
    kind, proof = read_proof(text)
    if not isinstance(rest, dict):
        raise program.Unable(f"{words[1]} is no object")
    try:
        checked(kind, rest)
        elements = Elements(needed(rest, "field"))
        job = (quadratic if kind == "SumcheckData" else product)(elements, proof, rest)
    except Refused as what:
        print(f"from_p3: this cannot be carried: {what}", file=sys.stderr)
        return 3
    print(json.dumps(job))
    return 0


if __name__ == "__main__":
    program.ended(main, sys.argv[1:], __doc__)
