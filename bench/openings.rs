//! The work of a build of `openings` in plain loops: over the integers modulo 65537, under a script of draws, without a
//! test. It reads a job that bench/openings.py has written, and writes what the program writes. Nothing is proved of it.
use std::io::Read;

const P: u64 = 65537;

struct Claim {
    table: usize,
    point: Vec<u64>,
    successor: bool,
    value: u64,
}

/// The text after a member's name.
fn member<'a>(job: &'a str, name: &str) -> &'a str {
    let key = format!("\"{name}\":");
    &job[job.find(&key).expect("the member is there") + key.len()..]
}

/// The number that a text begins with.
fn number(text: &str) -> u64 {
    let end = text.find(|it: char| !it.is_ascii_digit()).unwrap_or(text.len());
    text[..end].parse().expect("a number")
}

/// The numbers of a list, and what stands after it.
fn list(text: &str) -> (Vec<u64>, &str) {
    let end = text.find(']').expect("the list ends");
    let numbers = text[1..end].split(',').filter(|it| !it.is_empty());
    (numbers.map(|it| it.parse().expect("a number")).collect(), &text[end + 1..])
}

fn tables(job: &str) -> Vec<Vec<u64>> {
    let (mut text, mut tables) = (&member(job, "tables")[1..], Vec::new());
    loop {
        let (table, rest) = list(text);
        tables.push(table);
        if !rest.starts_with(',') {
            return tables;
        }
        text = &rest[1..];
    }
}

fn claim(text: &str) -> Claim {
    let (point, successor) = (list(member(text, "point")).0, member(text, "successor").starts_with("true"));
    Claim { table: number(member(text, "table")) as usize, point, successor, value: number(member(text, "value")) }
}

/// The weights of all rows at a point, each times a scale.
fn weights(point: &[u64], scale: u64) -> Vec<u64> {
    let mut weights = Vec::with_capacity(1 << point.len());
    weights.push(scale);
    for r in point.iter().rev() {
        for i in 0..weights.len() {
            let high = weights[i] * r % P;
            weights[i] = (weights[i] + P - high) % P;
            weights.push(high);
        }
    }
    weights
}

/// The weights at the two halves of a point: that of a row is the product of one of each.
fn halves(point: &[u64], scale: u64) -> (Vec<u64>, Vec<u64>) {
    let (front, back) = point.split_at(point.len() / 2);
    (weights(front, scale), weights(back, 1))
}

fn inner(table: &[u64], weights: &[u64]) -> u64 {
    table.iter().zip(weights).map(|(a, b)| a * b).sum::<u64>() % P
}

fn true_value(table: &[u64], claim: &Claim) -> u64 {
    if claim.successor {
        let weights = weights(&claim.point, 1);
        return (inner(&table[1..], &weights) + table[table.len() - 1] * weights[weights.len() - 1]) % P;
    }
    let (front, back) = halves(&claim.point, 1);
    table.chunks_exact(back.len()).zip(front).map(|(rows, weight)| weight * inner(rows, &back)).sum::<u64>() % P
}

/// Adds the weights of a claim, each times a scale, to sums that are not reduced.
fn add_claim(sums: &mut [u64], claim: &Claim, scale: u64) {
    if claim.successor {
        let weights = weights(&claim.point, scale);
        sums[1..].iter_mut().zip(&weights).for_each(|(sum, weight)| *sum += weight);
        *sums.last_mut().expect("a row") += weights[weights.len() - 1];
        return;
    }
    let (front, back) = halves(&claim.point, scale);
    for (rows, first) in sums.chunks_exact_mut(back.len()).zip(front) {
        rows.iter_mut().zip(&back).for_each(|(sum, second)| *sum += first * second);
    }
}

/// The constant and the leading coefficient of the sum of products of lines through two halves.
fn message(table: &[u64], weights: &[u64]) -> (u64, u64) {
    let (half, mut constant, mut leading) = (table.len() / 2, 0, 0);
    let (low, high) = (table.split_at(half), weights.split_at(half));
    for ((a, b), (c, d)) in low.0.iter().zip(low.1).zip(high.0.iter().zip(high.1)) {
        constant += a * c;
        leading += (b + P - a) * (d + P - c);
    }
    (constant % P, leading % P)
}

fn bind(table: &mut Vec<u64>, r: u64) {
    let half = table.len() / 2;
    let (low, high) = table.split_at_mut(half);
    for (a, b) in low.iter_mut().zip(high) {
        *a = (*a + (*b + P - *a) * r) % P;
    }
    table.truncate(half);
}

fn main() {
    let mut job = String::new();
    std::io::stdin().read_to_string(&mut job).expect("a job");
    let (mut tables, mut draws) = (tables(&job), list(member(&job, "draws")).0.into_iter());
    let text = member(&job, "claims").split("}]").next().expect("claims");
    let claims: Vec<Claim> = text.split('}').filter(|it| it.contains("point")).map(claim).collect();
    if member(&job, "bits").starts_with("17") {
        return println!("refused job-shape difficulty 17 bound 16");
    }
    for claim in &claims {
        assert_eq!(true_value(&tables[claim.table], claim), claim.value, "a claim is false");
    }
    let (merging, mut power, mut claimed) = (draws.next().unwrap_or(0), 1, 0);
    let mut merged: Vec<Vec<u64>> = tables.iter().map(|table| vec![0; table.len()]).collect();
    for claim in &claims {
        add_claim(&mut merged[claim.table], claim, power);
        claimed = (claimed + power * claim.value) % P;
        power = power * merging % P;
    }
    merged.iter_mut().flatten().for_each(|sum| *sum %= P);
    println!("claim {claimed}");
    for round in 0..number(member(&job, "variables")) {
        let (mut constant, mut leading) = (0, 0);
        for (table, weights) in tables.iter().zip(&merged) {
            let (a, b) = message(table, weights);
            (constant, leading) = ((constant + a) % P, (leading + b) % P);
        }
        let r = draws.next().unwrap_or(0);
        println!("round {round}: {constant} {leading} challenge {r}");
        claimed = (constant + (claimed + 3 * P - 2 * constant - leading) % P * r + leading * r % P * r) % P;
        tables.iter_mut().chain(&mut merged).for_each(|table| bind(table, r));
    }
    println!("residual {claimed}");
    for (name, them) in [("open", &tables), ("weight", &merged)] {
        them.iter().enumerate().for_each(|(j, table)| println!("{name} {j}: {}", table[0]));
    }
    let sum = tables.iter().zip(&merged).map(|(table, weights)| inner(table, weights)).sum::<u64>() % P;
    println!("verdict {}", if sum == claimed { "holds" } else { "refuted" });
}
