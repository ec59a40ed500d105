#!/usr/bin/env python3
"""Measures `openings` on a job of some tables and claims, or holds its answers against a model.

usage: bench/openings.py [--variables N] [--tables N] [--claims N] [--check] [--repeats N] [--beside-rust] PROGRAM [PROGRAM ..]
       bench/openings.py --compare COUNT [--seed N] PROGRAM
       bench/openings.py --ready

The job has tables of 2^N entries of "65537", claims on each in turn, every third one on next rows, and a script of draws. With
--check the proof that the first program builds is handed in. Each PROGRAM is a command line, to which the word `openings` is
appended; what is shown is as in `bench/audit.py`. With --beside-rust the plain loops of bench/openings.rs are compiled, and
run beside the first program on a build, as in `bench/matmul.py`.

With --compare, COUNT random jobs over all fields are answered by the program and by bench/merged.py, which sums over all rows:
1 to 5 tables of 0 to 4 variables, or many small ones, claims on rows and on next rows, true and false, built and checked, under
both challengers, with tests and without; batches and rounds that are lucky on purpose, openings that are wrong and make the
right sum, broken proofs, tables and claims that do not fit, and members that are not of their form (tools/forms.py). Status and
text have to be the same. --ready holds the texts of the ready jobs against the model.
"""
import copy, json, os, random, sys

sys.path.insert(0, os.path.join(os.path.dirname(os.path.abspath(__file__)), "..", "tools"))
import fields, merged
from matmul import chosen
from modelled import Modelled, any_error, element, vanishing


# ---- provers of false claims

def with_values(field, job, added):
    """The job with these elements added to the values of its claims."""
    claims = [claim | {"value": field.add(claim["value"], x)} for claim, x in zip(job["claims"], added)]
    return job | {"claims": claims}


def falsified(rng, field, job):
    """The job with false claims, some of them such that the merging challenge makes nothing of what they are false by."""
    count = len(job["claims"])
    if not 2 <= count <= 100 or rng.random() < 0.5:
        return with_values(field, job, any_error(rng, field, count))
    if job["challenger"] != "hash":
        return with_values(field, job, vanishing(rng, field, merged.Play(job, field).merging, count))
    for _ in range(60 if field.size == 16 else 0):
        other = with_values(field, job, any_error(rng, field, count))
        if merged.Play(other, field).lucky:
            return other
    return with_values(field, job, any_error(rng, field, count))


def balanced(rng, field, openings, weights, claim):
    """Openings with others in the place of one or two, so that the sum of all, each times its weight, is the claim; where they can be."""
    found, heavy = list(openings), [j for j, weight in enumerate(weights) if weight]
    if not heavy:
        return found
    if len(found) > 1:
        found[rng.randrange(len(found))] = element(rng, field.size)
    j = rng.choice(heavy)
    left = field.sub(claim, fields.total(field, map(field.mul, found, weights)))
    found[j] = field.add(found[j], field.mul(left, fields.inverse(field, weights[j])))
    return found


def sent_openings(rng, field, play):
    """The openings of a proof: the true ones, such that match wrong ones, or any."""
    true, kind = play.at_challenges(play.job["tables"]), rng.random()
    if play.refused or kind < 0.6:
        return [element(rng, field.size) for _ in true] if play.refused else true
    if kind < 0.9:
        return balanced(rng, field, true, play.at_challenges(play.weights), play.claim)
    return [element(rng, field.size) if rng.random() < 0.5 else x for x in true]


def proof_for(rng, field, job):
    """A proof of the job: honest or with false rounds and openings, and some with too many or too few of something."""
    play = merged.Play(job, field)
    fair = rng.random() < 0.5
    play.play(None if fair else lambda i, true, claim: chosen(rng, play, i, true, claim))
    proof = {"rounds": play.rounds, "witnesses": play.witnesses, "openings": sent_openings(rng, field, play)}
    if rng.random() < 0.1:
        miscount(rng, proof)
    elif proof["witnesses"] and rng.random() < 0.15:
        proof["witnesses"][rng.randrange(len(proof["witnesses"]))] = element(rng, field.base_size)
    return {"check": proof}


def miscount(rng, proof):
    """Gives a proof too many or too few of some of its lists."""
    for name, more in (("openings", 1), ("rounds", [1, 2]), ("witnesses", 1)):
        if rng.random() < 0.4:
            proof[name] = proof[name] + [more] if rng.random() < 0.5 else proof[name][1:]


# ---- random jobs

def sizes_of(rng):
    """How many tables a random job has, of how many variables, and how many claims on them."""
    kind = rng.random()
    if kind < 0.01:
        return rng.choice([63, 64]), rng.choice([0, 1]), rng.randint(0, 70)
    if kind < 0.012:
        return rng.randint(1, 3), rng.choice([0, 1]), rng.choice([4095, 4096])
    return rng.choices([1, 2, 3, 4, 5], [20, 35, 25, 10, 10])[0], rng.choices([0, 1, 2, 3, 4], [8, 35, 30, 20, 7])[0], rng.choices(range(8), [5, 15, 20, 20, 15, 10, 10, 5])[0]


def random_script(rng, size, draws, tests):
    """A script with about so many draws and tests."""
    return {"draws": [element(rng, size) for _ in range(rng.choice([draws, draws, rng.randint(0, draws)]))],
            "witnesses": [[element(rng, size) for _ in range(rng.choice([0, 1, 1, 2, 2, 3, 3, 3]))] for _ in range(rng.choice([tests, tests, rng.randint(0, tests + 1)]))]}


def random_job(rng):
    """A job that is of its form, or that has one table or one claim too many."""
    name = rng.choices(["65537", "257x2", "16"], [40, 30, 30])[0]
    field, (count, variables, claims) = fields.FIELDS[name], sizes_of(rng)
    tables = [[element(rng, field.base_size) for _ in range(1 << variables)] for _ in range(count)]
    asked = [{"table": rng.randrange(count), "point": [element(rng, field.size) for _ in range(variables)], "successor": rng.random() < 0.4} for _ in range(claims)]
    script = random_script(rng, field.base_size, (1 + variables) * (2 if name == "257x2" else 1), variables)
    if name == "257x2" and rng.random() < 0.3:
        script["draws"][1:2] = [0]
    job = {"field": name, "challenger": "hash" if rng.random() < 0.35 else script, "bits": rng.choice([0, 0, 0, 1, 2, 5, 8, 17 if rng.random() < 0.1 else 0]),
           "tables": tables, "variables": variables, "claims": [it | {"value": merged.true_value(field, tables, it)} for it in asked], "mode": "build"}
    if job["bits"] == 17:
        return misfitting(rng, field, job) if rng.random() < 0.3 else job
    if rng.random() < 0.6:
        job = falsified(rng, field, job)
    if rng.random() < 0.75:
        job["mode"] = proof_for(rng, field, job)
    if claims >= 4095 and rng.random() < 0.3:
        return job | {"claims": job["claims"] + job["claims"][:1]}
    if count == 64 and rng.random() < 0.3:
        return job | {"tables": tables + tables[:1]}
    return misfitting(rng, field, job) if rng.random() < 0.1 else job


def misfitting(rng, field, job):
    """The job with tables, claims, or a number of variables that do not fit, one or more of them."""
    job = copy.deepcopy(job)
    for _ in range(rng.choice([1, 1, 2, 3])):
        kind, table = rng.randrange(4), rng.choice(job["tables"])
        if kind == 0:
            table += [element(rng, field.base_size) for _ in range(rng.choice([1, 1, 2, len(table)]))]
        elif kind == 1:
            del table[rng.randrange(len(table) + 1):]
        elif kind == 2:
            job["variables"] = rng.choice([0, 1, 2, 3, 5, 15, 16, 17, 63, 64])
        elif job["claims"]:
            claim = rng.choice(job["claims"])
            if rng.random() < 0.5:
                claim["table"] = rng.choice([len(job["tables"]), 64, 4096, 65535])
            else:
                claim["point"] = claim["point"][1:] if rng.random() < 0.5 else claim["point"] + [element(rng, field.size)]
    if job["bits"] == 0 and rng.random() < 0.2:
        job["bits"] = rng.choice([16, 17, 65535])
    return job


# ---- figures

def measured_job(variables, tables, claims):
    rng, field = random.Random(variables), fields.FIELDS["65537"]
    entries = [[rng.randrange(field.size) for _ in range(1 << variables)] for _ in range(tables)]
    asked = [{"table": i % tables, "point": [rng.randrange(field.size) for _ in range(variables)], "successor": i % 3 == 2} for i in range(claims)]
    return f"{tables} tables of 2^{variables} entries and {claims} claims", {
        "field": "65537", "challenger": {"draws": [rng.randrange(field.size) for _ in range(variables + 1)], "witnesses": []}, "bits": 0, "tables": entries,
        "variables": variables, "claims": [it | {"value": merged.true_value(field, entries, it)} for it in asked], "mode": "build"}


if __name__ == "__main__":
    Modelled("openings", merged.answer, random_job).main(__doc__, {"variables": 14, "tables": 3, "claims": 9}, measured_job)
