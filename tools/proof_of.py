#!/usr/bin/env python3
"""Puts the rounds of a report into a job as a proof to check, on standard output. This tool is not proved.

usage: tools/proof_of.py JOB REPORT      (REPORT: the text of a report, or its JSON by --json; `-`: standard input)

The mode of the job becomes a `check` of the rounds and the witnesses that stand in the report, with the claim of the
report as the claimed sum in a job of `product`, with the openings in one of `openings`, and layer by layer in one of
`circuit`. Nothing is computed: whether the proof passes, the program says. The status is 0, 2 where the words are none of
these, and 11 where a file cannot be read, or is no job or no report.
"""
import json, sys

import answers, program


def read_report(data):
    """What a report tells, from its text or from its JSON."""
    try:
        return json.loads(data) if data.lstrip().startswith(b"{") else answers.read(data.decode())
    except (ValueError, answers.Unknown) as why:
        raise program.Unable(f"this is no report: {why}") from None


def rounds_of(shown):
    return {"rounds": [it["values"] for it in shown["rounds"]], "witnesses": [it["witness"] for it in shown["rounds"] if "witness" in it]}


def proof_of(job, report):
    """The mode with the proof that a report shows."""
    if "layers" in report:
        return {"check": {"layers": [rounds_of(it) | {"left": it["left"], "right": it["right"]} for it in report["layers"]]}}
    proof = rounds_of(report)
    if "openings" in report:
        return {"check": proof | {"openings": report["openings"]}}
    return {"check": {"claimed": report["claim"]} | proof if "product" in report else proof}


def main(words):
    if len(words) != 2:
        raise program.WrongWords
    try:
        job = json.loads(program.bytes_of(words[0]))
    except ValueError as why:
        raise program.Unable(f"{words[0]} is no JSON: {why}") from None
    report = read_report(program.bytes_of(words[1]))
    if not isinstance(job, dict) or report.get("outcome") != "report" or "rounds" not in report and "layers" not in report:
        raise program.Unable("this is no job, or no report with rounds")
    print(json.dumps(job | {"mode": proof_of(job, report)}))
    return 0


if __name__ == "__main__":
    program.ended(main, sys.argv[1:], __doc__)
