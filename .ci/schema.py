"""Holds jobs/schema.json against jobs that it has to accept and to reject, for .ci/tools.

usage: .ci/schema.py accepts SCHEMA FILE..         each file fits the schema
       .ci/schema.py edits SCHEMA FOLDER EDITS     each edit of a ready job is refused by the program (SUMCHECK_PROGRAM) as bad-job, by
                                                   the first member of its path, and rejected by the schema, or after `*` accepted

A line of EDITS has a ready job, a path and a value, with tabs between them; `-` for the value takes the member away. Of
JSON Schema (2020-12) this has the keywords that the schema uses; another one is an error.
"""
import json, os, subprocess, sys

sys.path.insert(0, os.path.join(os.path.dirname(os.path.abspath(__file__)), "..", "tools"))
from fill import named_command

SILENT = {"$schema", "$comment", "$defs", "title", "then", "else"}
TYPES = {"object": dict, "array": list, "string": str, "null": type(None)}


def same(a, b):
    """Whether two values of JSON are equal: true is no number."""
    return a == b and isinstance(a, bool) == isinstance(b, bool)


def is_number(value):
    return isinstance(value, (int, float)) and not isinstance(value, bool)


def of_type(name, value):
    if name == "integer":  # 1.0 is an integer there
        return is_number(value) and value == int(value)
    return isinstance(value, TYPES[name])


class Schema:
    def __init__(self, root):
        self.root = root
        self.tests = {
            "$ref": lambda part, value, whole: self.fits(self.target(part), value),
            "type": lambda part, value, whole: of_type(part, value),
            "enum": lambda part, value, whole: any(same(it, value) for it in part),
            "const": lambda part, value, whole: same(part, value),
            "minimum": lambda part, value, whole: not is_number(value) or value >= part,
            "maximum": lambda part, value, whole: not is_number(value) or value <= part,
            "minItems": lambda part, value, whole: not isinstance(value, list) or len(value) >= part,
            "maxItems": lambda part, value, whole: not isinstance(value, list) or len(value) <= part,
            "prefixItems": lambda part, value, whole: not isinstance(value, list) or all(map(self.fits, part, value)),
            "items": lambda part, value, whole: not isinstance(value, list)
            or all(self.fits(part, it) for it in value[len(whole.get("prefixItems", [])):]),
            "required": lambda part, value, whole: not isinstance(value, dict) or all(it in value for it in part),
            "properties": lambda part, value, whole: not isinstance(value, dict)
            or all(self.fits(part[it], value[it]) for it in part if it in value),
            "allOf": lambda part, value, whole: all(self.fits(it, value) for it in part),
            "anyOf": lambda part, value, whole: any(self.fits(it, value) for it in part),
            "oneOf": lambda part, value, whole: sum(self.fits(it, value) for it in part) == 1,
            "not": lambda part, value, whole: not self.fits(part, value),
            "if": lambda part, value, whole: self.fits(whole.get("then" if self.fits(part, value) else "else", {}), value),
        }

    def target(self, path):
        """The schema that a reference into this file names."""
        part = self.root
        for name in path.removeprefix("#/").split("/"):
            part = part[name]
        return part

    def fits(self, schema, value):
        return all(word in SILENT or self.tests[word](part, value, schema) for word, part in schema.items())


def edited(job, path, value):
    """A job with another value at a path, or without what stands there."""
    *way, last = [int(it) if it.isdigit() else it for it in path.split("/")]
    owner = job
    for it in way:
        owner = owner[it]
    if value == "-":
        del owner[last]
    else:
        owner[last] = json.loads(value)
    return job


def answer(job):
    return subprocess.run([os.environ["SUMCHECK_PROGRAM"], named_command(job)], input=json.dumps(job).encode(), capture_output=True).stdout.decode()


def load(file):
    with open(file, encoding="utf-8") as it:
        return json.load(it)


def accepts(schema, *files):
    return [file for file in files if not schema.fits(schema.root, load(file))]


def edits(schema, folder, file):
    wrong = []
    for line in open(file, encoding="utf-8").read().splitlines():
        if not line.startswith("#"):
            name, path, value = line.split("\t")
            job = edited(load(os.path.join(folder, name.lstrip("*") + ".json")), path, value)
            refused = answer(job) == f"refused bad-job {path.split('/')[0]}\n"
            if not refused or schema.fits(schema.root, job) != name.startswith("*"):
                wrong.append(line)
    return wrong


if __name__ == "__main__":
    name, file, *words = sys.argv[1:]
    wrong = {"accepts": accepts, "edits": edits}[name](Schema(load(file)), *words)
    print("\n".join(wrong), end="\n" if wrong else "", file=sys.stderr)
    sys.exit(1 if wrong or not words else 0)
