//! The work of a build of `matmul` in plain loops: over the integers modulo 65537, under a script of draws, without a
//! test. It reads a job that bench/matmul.py has written, and writes what the program writes. Nothing is proved of it.
use std::io::Read;

const P: u64 = 65537;

struct Matrix {
    rows: usize,
    cols: usize,
    values: Vec<u32>,
}

/// The text after a member's name.
fn member<'a>(job: &'a str, name: &str) -> &'a str {
    let key = format!("\"{name}\":");
    &job[job.find(&key).expect("the member is there") + key.len()..]
}

/// The numbers of a list, and what stands after it.
fn list(text: &str) -> (Vec<u64>, &str) {
    let end = text.find(']').expect("the list ends");
    let numbers = text[1..end].split(',').filter(|it| !it.is_empty());
    (numbers.map(|it| it.parse().expect("a number")).collect(), &text[end + 1..])
}

fn matrix(job: &str, name: &str) -> Matrix {
    let (mut text, mut rows, mut values) = (&member(job, name)[1..], 0, Vec::new());
    loop {
        let (row, rest) = list(text);
        values.extend(row.iter().map(|&it| it as u32));
        rows += 1;
        if !rest.starts_with(',') {
            return Matrix { rows, cols: values.len() / rows, values };
        }
        text = &rest[1..];
    }
}

fn product(left: &Matrix, right: &Matrix) -> Vec<u32> {
    let (mut values, mut sums) = (Vec::with_capacity(left.rows * right.cols), vec![0; right.cols]);
    for row in left.values.chunks_exact(left.cols) {
        sums.fill(0);
        for (&x, across) in row.iter().zip(right.values.chunks_exact(right.cols)) {
            for (sum, &y) in sums.iter_mut().zip(across) {
                *sum += u64::from(x) * u64::from(y);
            }
        }
        values.extend(sums.iter().map(|&it| (it % P) as u32));
    }
    values
}

fn weighed(values: &[u32], weights: &[u64]) -> u64 {
    values.iter().zip(weights).map(|(&a, b)| u64::from(a) * b).sum::<u64>() % P
}

fn powers(x: u64, count: usize) -> Vec<u64> {
    std::iter::successors(Some(1), |it| Some(it * x % P)).take(count).collect()
}

/// The rows of the left matrix, weighed together.
fn left_table(left: &Matrix, weights: &[u64]) -> Vec<u64> {
    let mut table = vec![0; left.cols];
    for (row, weight) in left.values.chunks_exact(left.cols).zip(weights) {
        for (sum, value) in table.iter_mut().zip(row) {
            *sum += weight * u64::from(*value);
        }
    }
    table.iter().map(|it| it % P).collect()
}

/// The constant and the leading coefficient of the sum of products of lines through two halves.
fn message(a: &[u64], b: &[u64]) -> (u64, u64) {
    let (half, mut constant, mut leading) = (a.len() / 2, 0, 0);
    for i in 0..half {
        constant += a[i] * b[i];
        leading += (a[i + half] + P - a[i]) % P * ((b[i + half] + P - b[i]) % P);
    }
    (constant % P, leading % P)
}

fn bind(table: &mut Vec<u64>, r: u64) {
    let half = table.len() / 2;
    for i in 0..half {
        table[i] = (table[i] + (table[i + half] + P - table[i]) * r) % P;
    }
    table.truncate(half);
}

fn main() {
    let mut job = String::new();
    std::io::stdin().read_to_string(&mut job).expect("a job");
    let [left, right, claimed] = ["left", "right", "claimed"].map(|name| matrix(&job, name));
    let mut draws = list(member(&job, "draws")).0.into_iter();
    if member(&job, "bits").starts_with("17") {
        return println!("refused job-shape difficulty 17 bound 16");
    }
    assert_eq!(product(&left, &right), claimed.values, "an entry is false");
    let point = draws.next().unwrap_or(0);
    let weights = powers(point, claimed.values.len());
    let mut claim = weighed(&claimed.values, &weights);
    println!("point {point}\nclaim {claim}");
    let firsts: Vec<u64> = weights.iter().copied().step_by(claimed.cols).collect();
    let mut a = left_table(&left, &firsts);
    let mut b: Vec<u64> = right.values.chunks_exact(right.cols).map(|row| weighed(row, &weights)).collect();
    let mut number = 0;
    while a.len() > 1 {
        let (constant, leading) = message(&a, &b);
        let r = draws.next().unwrap_or(0);
        println!("round {number}: {constant} {leading} challenge {r}");
        claim = (constant + (claim + 3 * P - 2 * constant - leading) * r % P + leading * r % P * r) % P;
        bind(&mut a, r);
        bind(&mut b, r);
        number += 1;
    }
    let verdict = if claim == a[0] * b[0] % P { "holds" } else { "refuted" };
    println!("residual {claim}\nleft {}\nright {}\nverdict {verdict}", a[0], b[0]);
}
