#!/usr/bin/env python3
"""Writes a job with the true values in its claims: `./sumcheck --fill FILE`. This tool is not proved; the values are the program's.

usage: tools/fill.py [audit|product|veil|explain|matmul|circuit|openings] FILE      (FILE `-`: standard input)

The values come from builds of the program, one for each false statement and three more; of a job of `product` the value is
the sum that its proof claims, and a job of `explain` claims nothing. The entries that a job of `matmul` claims, the outputs
of one of `circuit`, and the values of one of `openings`, are reckoned here, and a build of the program confirms them. All
else in the file stays as it is, byte for byte, also the mode. The command is `explain` where the job has the member
`wires`, `matmul` where it has `left`, `circuit` where it has `layers`, `openings` where it has `claims`, `product` where it
has `tables` and no `table`, and `veil` where it has `masks` and no `mode`. Where the job is refused for another reason than
a false claim, the refusal goes to standard error, and the program's status is kept. Status 11 is this tool's own: the file
cannot be read, or the program cannot be run, or answers unlike docs/FORMATS.md.
"""
import json, sys

import answers, forms, program, scan, truth


def named_command(members):
    """The command that a job is for, by the names of its members."""
    if "wires" in members:
        return "explain"
    if "left" in members:
        return "matmul"
    if "layers" in members:
        return "circuit"
    if "claims" in members:
        return "openings"
    if "tables" in members and "table" not in members:
        return "product"
    return "veil" if "masks" in members and "mode" not in members else "audit"


def command_of(words, value):
    """The command that a job is for: the one that is named, or by the members."""
    return words[0] if words else named_command({name for name, _ in value.content} if value.kind == "object" else ())


def replaced(text, changes):
    """A text with new numbers in the place of some values."""
    parts, at = [], 0
    for value, number in sorted(changes, key=lambda it: it[0].start):
        parts += [text[at:value.start], str(number)]
        at = value.end
    return "".join(parts) + text[at:]


def built(job, command):
    """The status and the text of the job as a build, whatever its mode."""
    modes = {"veil": {}, "explain": {}, "audit": {"mode": {"build": "plain"}}}
    return program.run([command], json.dumps(job | modes.get(command, {"mode": "build"})).encode())


def changes_of(job, value, command):
    """The values that are to be replaced, each with its number."""
    if command == "explain":
        return []
    if command == "product":
        check = value.member("mode").member("check")
        return [(check.member("claimed"), truth.true_sum(job))] if check else []
    if command == "matmul":
        rows = [list(row.items()) for row in value.member("claimed").items()]
        return [(rows[row][column], true) for row, column, _, true in truth.false_entries(job)]
    if command == "circuit":
        return [(place, true) for place, true in zip(value.member("outputs").items(), truth.true_outputs(job)) if place.unsigned() != true]
    if command == "openings":
        claims = list(value.member("claims").items())
        return [(claims[number].member("value"), true) for number, (_, true) in truth.false_table_claims(job).items()]
    claims = list(forms.statements(value))
    return [(claims[number][3].member("value"), true) for number, (_, true) in truth.false_statements(job).items()]


def checked_read(data):
    """The value of the job, which the program has to be able to read as well."""
    try:
        return scan.read(data)
    except scan.Fault:
        return None


def main(words):
    if not words or len(words) > 2 or len(words) == 2 and words[0] not in program.COMMANDS:
        raise program.WrongWords
    data = program.bytes_of(words[-1])
    value = checked_read(data)
    command = command_of(words[:-1], value) if value else "audit"
    found = value and forms.misfit(value, command)
    if not value or found:  # the program's own word on it
        status, text = program.run([command], data)
        if status != 3:
            raise program.Unable("this tool finds no job, and the program does not refuse it")
        print(text, end="", file=sys.stderr)
        return status
    job = json.loads(data)
    status, text = built(job, command)
    if status not in (0, 5) and not text.startswith("refused false-"):
        print(text, end="", file=sys.stderr)
        return status
    result = replaced(data.decode(), changes_of(job, value, command))
    status, text = built(json.loads(result), command)
    if status not in (0, 5):  # holds, or finds no witness, which comes after all claims were tested
        raise program.Unable(f"the filled job is answered by {text}")
    print(result, end="")
    return 0


if __name__ == "__main__":
    try:
        program.ended(main, sys.argv[1:], __doc__)
    except answers.Unknown as line:
        print(f"sumcheck: no line of a report: {line}", file=sys.stderr)
        sys.exit(program.UNABLE)
