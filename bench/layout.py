#!/usr/bin/env python3
"""Measures masked rounds of a layout beside a small-value build of the same claims.

usage: bench/layout.py [--variables N] [--rounds K] [--suffix] [--repeats N]

A table of 2^N numbers below 65537 is opened at a drawn point, at it and through the successor map, and at another one, under
the hash challenger; K masked rounds of the three openings are then played, under masks of four coefficients. The other run
builds the rounds of two equality claims and a successor claim, which are given their true values, K of them from grids. No
command of the program does the former, so a program for both is written beside a copy of the crates that it stands on, and is
proved and built there: in a few minutes, where these crates are proved. The runs come one after the other in each repeat, and
with them one that only makes the table, whose time is taken off: medians of processor time and of the peak of memory are
shown, with the ratios.
"""
import argparse, os, shutil, statistics, subprocess, sys, tempfile

from measured import run, wants
from reproved import stands_on

TOP = os.path.realpath(os.path.join(os.path.dirname(os.path.abspath(__file__)), ".."))
CRATES = ("sc_definitions sc_field sc_small_fields sc_table sc_challenger sc_constraints sc_rounds sc_layout sc_zk sc_audit "
          "rand_core rand_chacha anyhow")

# What is measured, by the word that the program is run with; any other word only makes the table.
PROGRAM = """//! Rounds of a table, for bench/layout.py.
#![tactic(auto)]

ghost use Rattle.std.specs.Prelude.{◌≡◌, IfOk, length};
ghost use Rattle.sc_table.specs.Polys.{variables_of};

use rand_chacha::ChaCha8Rng;
use rand_core::SeedableRng;
use sc_audit::{Job, Mode, Strategy, audit_true};
use sc_challenger::HashChallenger;
use sc_field::{Field, NoMemory};
use sc_layout::{FIRST, TableProver};
use sc_small_fields::F65537 as F;
use sc_constraints::{Constraint, EqStatement, NextStatement, Statements};
use sc_table::{Basis, Point, Poly, VariableOrder};
use sc_zk::{NodeCode, OpeningRequest, Sha2Mmcs, ZkProver, ZkSumcheckData, ZkSumcheckShape};
use std::alloc::Global;
use std::env;

type Hash = HashChallenger<F>;

fn main(rt: HostRuntime) -> anyhow::Result<()> {
    let alloc = rt.alloc();
    let words = env::args(&rt)?.skip(1).collect::<Vec<String>>(alloc)?;
    match words.as_slice() {
        [how] if how.as_str() == "opened" => opened(alloc, table(alloc)?)?,
        [how] if how.as_str() == "built" => built(alloc, rows(alloc)?)?,
        _ => {
            let _table = table(alloc)?;
        }
    }
    Ok(())
}

// A table of numbers that look random.
fn table(alloc: Global) -> Result<Poly<F>, NoMemory>
    ensures { IfOk result (λ p. variables_of p ≡ VARIABLES) }
{
    let mut table = Poly::zero(alloc, VARIABLES)?;
    fill(table.as_mut_slice());
    Ok(table)
}

// The same as a list.
fn rows(alloc: Global) -> Result<Vec<F>, NoMemory> {
    let mut rows = Vec::new(alloc);
    rows.resize(1 << VARIABLES, F::ZERO)?;
    fill(rows.as_mut_slice());
    Ok(rows)
}

fn fill(rows: &mut [F]) {
    let (factor, step) = (F::element(75), F::element(74));
    let mut value = F::element(7);
    for i in 0..rows.len() {
        value = value.mul(factor).add(step);
        rows[i] = value;
    }
}

// Opens a table, and plays masked rounds of the openings.
fn opened(alloc: Global, table: Poly<F>) -> anyhow::Result<()>
    requires { variables_of table ≡ VARIABLES }
{
    let layout = TableProver::<F, F, FIRST>::new(alloc, table, ROUNDS);
    let mut challenger = Hash::new(alloc);
    let mut prover = ZkProver::new(layout, NodeCode::new(4, 2, 12), Sha2Mmcs::new());
    let asked = OpeningRequest::new(vec![in alloc; 0]?, vec![in alloc; 0]?);
    let _values = prover.eval(0, &asked, &mut challenger)?;
    let _value = prover.add_virtual_eval(&mut challenger)?;
    let mut data = ZkSumcheckData::<F, F>::new(alloc);
    ZkSumcheckShape::new_batching(prover.folding(), 4, 0).validate::<F>()?;
    let mut rng = ChaCha8Rng::from_seed([7; 32]);
    let _left = prover.into_sumcheck(alloc, &mut data, 0, &mut challenger, &mut rng)?;
    Ok(())
}

// A point that looks random.
fn point(alloc: Global, first: F) -> Result<Point<F>, NoMemory>
    ensures { IfOk result (λ p. length p ≡ VARIABLES) }
{
    let mut coordinates = Vec::new(alloc);
    coordinates.resize(VARIABLES, first)?;
    fill(coordinates.as_mut_slice());
    Ok(Point::new(coordinates))
}

// Builds rounds of two equality claims and a successor claim.
fn built(alloc: Global, table: Vec<F>) -> anyhow::Result<()> {
    let mut equalities = EqStatement::initialize(alloc, VARIABLES);
    equalities.add_evaluated_constraint(point(alloc, F::ONE)?, F::ZERO)?;
    equalities.add_evaluated_constraint(point(alloc, F::TWO)?, F::ZERO)?;
    let mut successor = NextStatement::initialize(alloc, VARIABLES);
    let none = Point::new(Vec::new(alloc));
    successor.add_evaluated_constraint(none, point(alloc, F::ONE)?, F::ZERO, VariableOrder::ORDER)?;
    let groups = vec![in alloc; Statements::Eq(equalities), Statements::Next(successor)]?;
    let mut job = Job {
        table,
        constraint: Constraint::new(F::element(10), VARIABLES, groups),
        order: VariableOrder::ORDER,
        basis: Basis::Evaluation,
        pow_bits: 0,
        mode: Mode::Build(Strategy::SmallValue { variables: ROUNDS }),
    };
    let _report = audit_true::<F, F, F, Hash>(alloc, &mut job, &mut Hash::new(alloc))?;
    Ok(())
}
"""


def source(variables, rounds, suffix):
    first, order = ("SuffixFirst", "Suffix") if suffix else ("PrefixFirst", "Prefix")
    words = {"VARIABLES": variables, "ROUNDS": rounds, "FIRST": first, "VariableOrder::ORDER": f"VariableOrder::{order}"}
    text = PROGRAM
    for word, value in words.items():
        text = text.replace(word, str(value))
    return text


def below(names):
    """The crates of the repository among these, with all that they stand on."""
    crates, found, left = stands_on(os.path.join(TOP, "crates.txt")), set(), list(names)
    while left:
        name = left.pop()
        if name in crates and name not in found:
            found.add(name)
            left += crates[name]
    return sorted(found)


def program(folder, text):
    """Writes the program beside copies of crates, proves and builds it: the path of what was built."""
    crate = os.path.join(folder, "crates", "measured_layout")
    os.makedirs(os.path.join(crate, "src"))
    names = below(CRATES.split())
    for name in names:
        shutil.copytree(os.path.join(TOP, "crates", name), os.path.join(folder, "crates", name),
                        ignore=shutil.ignore_patterns("incremental"))
    shutil.copy(os.path.join(TOP, "HANDLES"), folder)
    crates = stands_on(os.path.join(TOP, "crates.txt"))
    with open(os.path.join(folder, "crates.txt"), "w", encoding="utf-8") as f:
        f.writelines(f"{name}: {' '.join(crates[name])}\n" for name in names)
        f.write(f"measured_layout: {CRATES}\n")
    with open(os.path.join(crate, "src", "main.rt"), "w", encoding="utf-8") as f:
        f.write(text)
    said = subprocess.run(["rt", "run"], cwd=crate, stdout=subprocess.PIPE, stderr=subprocess.STDOUT, stdin=subprocess.DEVNULL)
    built = os.path.join(crate, "out", "measured_layout")
    if not os.path.exists(built):
        sys.exit(said.stdout.decode(errors="replace")[-4000:] + "\nthe program was not built")
    return built


def medians(built, repeats, folder):
    """The medians of processor time in seconds and peak in MB of each word's runs."""
    words = ["none", "opened", "built"]
    samples = {word: [] for word in words}
    for _ in range(repeats):
        for word in words:
            taken = run([built, word], os.devnull, os.path.join(folder, "written"))
            if taken[3]:
                sys.exit(f"{word} ended with {taken[3]}")
            samples[word].append(taken)
    return {word: [statistics.median(it[k] for it in samples[word]) for k in (1, 2)] for word in words}


def main():
    parser = argparse.ArgumentParser(usage=__doc__.split("usage: ")[1].split("\n\n")[0])
    parser.add_argument("--variables", type=int, default=20)
    parser.add_argument("--rounds", type=int, default=8)
    parser.add_argument("--suffix", action="store_true")
    parser.add_argument("--repeats", type=int, default=21)
    asked = parser.parse_args()
    wants(["rt"])
    with tempfile.TemporaryDirectory() as folder:
        built = program(folder, source(asked.variables, asked.rounds, asked.suffix))
        found = medians(built, asked.repeats, folder)
    table, opened, built = (found[word] for word in ("none", "opened", "built"))
    print(f"the table alone      {table[0] * 1e3:8.2f} ms {table[1]:8.2f} MB")
    for name, it in (("the layout's rounds", opened), ("the build", built)):
        print(f"{name:20} {(it[0] - table[0]) * 1e3:8.2f} ms {it[1]:8.2f} MB")
    print(f"ratios               {(opened[0] - table[0]) / (built[0] - table[0]):8.2f}    {opened[1] / built[1]:8.2f}")


if __name__ == "__main__":
    main()
