//! A check of a table in memory: by the typed call of the library, and by plain loops that do the same work, over the
//! integers modulo 65537, under a script of draws, by values at rows, without a test. Nothing is proved of the loops.
//!
//! usage: tables typed|loops COUNT < CASE
//!
//! The case is one that bench/tables.py has written. It is checked COUNT times, and the last report is written as the
//! program writes it. The calls of the package rust/tunaprow are compiled in from there.
#[allow(dead_code)]
#[path = "../rust/tunaprow/src/border.rs"]
mod border;
#[allow(dead_code)]
#[path = "../rust/tunaprow/src/reply.rs"]
mod reply;
#[allow(dead_code)]
#[path = "../rust/tunaprow/src/tables.rs"]
mod tables;

use std::hint::black_box;
use std::io::Read;
use tables::{Table, TableReport, TableRound, TableVerdict};

const P: u64 = 65537;

// ---- the check in plain loops

fn are_elements(numbers: &[u32]) -> bool {
    numbers.iter().all(|&number| u64::from(number) < P)
}

fn fits(table: &Table, draws: &[u32], rounds: &[TableRound]) -> bool {
    table.entries.len() == 1 << table.variables
        && table.points.len() == table.values.len() * table.variables
        && rounds.len() == table.variables
        && u64::from(table.batching) < P
        && [table.entries, table.points, table.values, draws].into_iter().all(are_elements)
        && rounds.iter().all(|round| are_elements(&[round.first, round.leading]))
}

/// The equality weights of a point, that of the first row first.
fn weights(point: &[u32]) -> Vec<u32> {
    let mut weights = vec![1];
    for z in point.iter().rev() {
        for i in 0..weights.len() {
            let high = (u64::from(weights[i]) * u64::from(*z) % P) as u32;
            weights[i] = ((u64::from(weights[i]) + P - u64::from(high)) % P) as u32;
            weights.push(high);
        }
    }
    weights
}

fn inner(entries: &[u32], weights: &[u32]) -> u64 {
    entries.iter().zip(weights).map(|(&a, &b)| u64::from(a) * u64::from(b)).sum::<u64>() % P
}

/// The value of a table at a point: the weight of a row is the product of those at the two halves of the point.
fn value_at(entries: &[u32], point: &[u32]) -> u64 {
    let (front, back) = point.split_at(point.len() / 2);
    let (front, back) = (weights(front), weights(back));
    let rows = entries.chunks_exact(back.len()).zip(front);
    rows.map(|(rows, weight)| u64::from(weight) * inner(rows, &back)).sum::<u64>() % P
}

/// The weight that one point has at another.
fn weight_at(point: &[u32], other: &[u32]) -> u64 {
    point.iter().zip(other).fold(1, |weight, (&a, &b)| {
        let (a, b) = (u64::from(a), u64::from(b));
        weight * ((a * b + (P + 1 - a) * (P + 1 - b)) % P) % P
    })
}

/// What a round leaves of a claim at its challenge.
fn left(claim: u64, round: &TableRound, challenge: u32) -> u64 {
    let (first, leading, r) = (u64::from(round.first), u64::from(round.leading), u64::from(challenge));
    let slope = (claim + 3 * P - 2 * first - leading) % P;
    (first + slope * r + leading * r % P * r) % P
}

/// The values of a table, each with the point at which it is claimed.
fn claims<'a>(table: &Table<'a>) -> impl Iterator<Item = (u64, &'a [u32])> {
    let points = table.points.chunks_exact(table.variables);
    table.values.iter().map(|&value| u64::from(value)).zip(points)
}

/// The report on rounds, or none where something does not fit. A lucky challenge is not looked for.
fn check_by_loops(table: &Table, draws: &[u32], rounds: &[TableRound]) -> Option<TableReport> {
    if !fits(table, draws, rounds) {
        return None;
    }
    let challenges: Vec<u32> = (0..table.variables).map(|d| draws.get(d).copied().unwrap_or(0)).collect();
    let mut point = challenges.clone();
    if table.suffix {
        point.reverse();
    }
    let (mut claim, mut weight, mut power) = (0, 0, 1);
    for (value, at) in claims(table) {
        claim = (claim + power * value) % P;
        weight = (weight + power * weight_at(at, &point)) % P;
        power = power * u64::from(table.batching) % P;
    }
    let residual = rounds.iter().zip(&challenges).fold(claim, |claim, (round, &r)| left(claim, round, r));
    let eval = value_at(table.entries, &point);
    let verdict = if residual != eval * weight % P {
        TableVerdict::Refuted
    } else if claims(table).all(|(value, at)| value_at(table.entries, at) == value) {
        TableVerdict::Holds
    } else {
        return None;
    };
    let [claim, residual, eval, weight] = [claim, residual, eval, weight].map(|number| number as u32);
    Some(TableReport { claim, challenges, residual, eval, weight, verdict })
}

// ---- the case, and the report

/// The next list of a case, after its length.
fn list(numbers: &mut impl Iterator<Item = u32>) -> Vec<u32> {
    let length = numbers.next().expect("a list has a length") as usize;
    numbers.take(length).collect()
}

fn show(report: &TableReport, rounds: &[TableRound]) {
    println!("claim {}", report.claim);
    for (i, (round, challenge)) in rounds.iter().zip(&report.challenges).enumerate() {
        println!("round {i}: {} {} challenge {challenge}", round.first, round.leading);
    }
    println!("residual {}\neval {}\nweight {}", report.residual, report.eval, report.weight);
    match report.verdict {
        TableVerdict::Holds => println!("verdict holds"),
        TableVerdict::Refuted => println!("verdict refuted"),
        _ => println!("verdict lucky"),
    }
}

fn main() {
    let words: Vec<String> = std::env::args().collect();
    let count: u32 = words[2].parse().expect("a count");
    let mut bytes = Vec::new();
    std::io::stdin().read_to_end(&mut bytes).expect("a case");
    let mut numbers = bytes.chunks_exact(4).map(|word| u32::from_le_bytes([word[0], word[1], word[2], word[3]]));
    let [variables, batching, suffix] = [(); 3].map(|()| numbers.next().expect("the terms"));
    let [entries, points, values, draws, pairs] = [(); 5].map(|()| list(&mut numbers));
    let rounds: Vec<TableRound> =
        pairs.chunks_exact(2).map(|pair| TableRound { first: pair[0], leading: pair[1] }).collect();
    let table = Table {
        entries: &entries,
        variables: variables as usize,
        points: &points,
        values: &values,
        batching,
        suffix: suffix != 0,
        coefficients: false,
        bits: 0,
        draws: Some(&draws),
    };
    let check = || match words[1].as_str() {
        "typed" => tables::check_65537(black_box(&table), &rounds, &[]).ok(),
        _ => check_by_loops(black_box(&table), &draws, &rounds),
    };
    if let Some(report) = (0..count).map(|_| black_box(check())).last() {
        show(&report.expect("a report"), &rounds);
    }
}
