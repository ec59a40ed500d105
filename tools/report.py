#!/usr/bin/env python3
"""Writes what the program says as JSON: `./sumcheck --json WORD..`. This reader is not proved.

usage: tools/report.py audit|product|veil|explain|matmul|circuit|openings < JOB
       tools/report.py make N NUMBER HOW
       tools/report.py --text < REPORT     a text that the program wrote; the status is then 0

The program's status is kept, and stands in the member `status`. docs/FORMATS.md, "A report as JSON", has all members.
Status 11 is this tool's own: the program cannot be run, or wrote what is none of its texts.
"""
import json, sys

import answers, program


def told(text):
    try:
        return answers.read(text)
    except answers.Unknown as line:
        raise program.Unable(f"no line of a report: {line}") from None


def main(words):
    if words == ["--text"]:
        text = program.bytes_of("-").decode("ascii", errors="replace")
        print(json.dumps(told(text)))
        return 0
    if not words:
        raise program.WrongWords
    status, text = program.run(words)
    print(json.dumps({"command": words[0], "status": status} | told(text)))
    return status if status >= 0 else program.UNABLE


if __name__ == "__main__":
    program.ended(main, sys.argv[1:], __doc__)
