//! The work of a build of `circuit` in plain loops: over the integers modulo 65537, under a script of draws, without a
//! test. A layer goes in two phases, over the places on the left and then over those on the right, with tables made of
//! its gates. It reads a job that bench/circuit.py has written, and writes what the program writes. Nothing is proved.
use std::io::Read;

const P: u64 = 65537;

/// Whether a gate is a product, and its places on the left and on the right.
type Gate = (bool, usize, usize);

/// The text after a member's name.
fn member<'a>(job: &'a str, name: &str) -> &'a str {
    let key = format!("\"{name}\":");
    &job[job.find(&key).expect("the member is there") + key.len()..]
}

fn numbers(text: &str) -> Vec<u64> {
    let inside = text.split(']').next().expect("a list").trim_start_matches('[');
    inside.split(',').filter(|it| !it.is_empty()).map(|it| it.parse().expect("a number")).collect()
}

fn gate(text: &str) -> Gate {
    let it = numbers(text);
    (it[0] == 1, it[1] as usize, it[2] as usize)
}

fn layers(job: &str) -> Vec<Vec<Gate>> {
    let all = member(job, "layers").split("]]]").next().expect("layers");
    all.split("]],[[").map(|layer| layer.split("],[").map(gate).collect()).collect()
}

fn value(&(product, left, right): &Gate, below: &[u64]) -> u64 {
    let (a, b) = (below[left], below[right]);
    if product { a * b % P } else { (a + b) % P }
}

/// The weights of all places at a point.
fn equality(point: &[u64]) -> Vec<u64> {
    point.iter().fold(vec![1], |weights, r| weights.iter().flat_map(|w| [w * (P + 1 - r) % P, w * r % P]).collect())
}

/// The tables of a phase, by which the sum over all gates is that of factor times value, and addend: of each gate its
/// place, whether it is a product, its weight, and the value at its other place.
fn tables(places: usize, gates: impl Iterator<Item = (usize, bool, u64, u64)>) -> [Vec<u64>; 2] {
    let [mut factors, mut addends] = [vec![0; places], vec![0; places]];
    for (place, product, weight, other) in gates {
        let both = weight * other % P;
        factors[place] = (factors[place] + if product { both } else { weight }) % P;
        addends[place] = (addends[place] + if product { 0 } else { both }) % P;
    }
    [factors, addends]
}

fn bind(table: &mut Vec<u64>, r: u64) {
    let half = table.len() / 2;
    for i in 0..half {
        table[i] = (table[i] + (table[i + half] + P - table[i]) * r) % P;
    }
    table.truncate(half);
}

/// The sum of factor times value, and addend, at the elements 0 and 2 of the next variable.
fn message([factors, addends]: &[Vec<u64>; 2], values: &[u64]) -> (u64, u64) {
    let (half, mut zero, mut two) = (values.len() / 2, 0, 0);
    let at_two = |table: &[u64], i: usize| (2 * table[i + half] + P - table[i]) % P;
    for i in 0..half {
        zero += factors[i] * values[i] + addends[i];
        two += at_two(factors, i) * at_two(values, i) + at_two(addends, i);
    }
    (zero % P, two % P)
}

fn main() {
    let mut job = String::new();
    std::io::stdin().read_to_string(&mut job).expect("a job");
    let [draws, inputs, outputs] = ["draws", "inputs", "outputs"].map(|name| numbers(member(&job, name)));
    let (layers, mut draws, mut values) = (layers(&job), draws.into_iter().chain(std::iter::repeat(0)), vec![inputs]);
    let mut draw = || draws.next().expect("a draw");
    if member(&job, "bits").starts_with("17") {
        return println!("refused job-shape difficulty 17 bound 16");
    }
    for gates in layers.iter().rev() {
        values.insert(0, gates.iter().map(|gate| value(gate, &values[0])).collect());
    }
    assert_eq!(values[0], outputs, "an output is false");
    let gamma = draw();
    let mut weights: Vec<u64> = std::iter::successors(Some(1), |it| Some(it * gamma % P)).take(outputs.len()).collect();
    let (mut claim, mut agrees) = (weights.iter().zip(&outputs).map(|(a, b)| a * b).sum::<u64>() % P, true);
    println!("claim {claim}");
    for (number, gates) in layers.iter().enumerate() {
        let (below, mut points, mut ends, mut halves) = (&values[number + 1], Vec::new(), [0; 2], [vec![], vec![]]);
        for phase in 0..2 {
            let weighed = gates.iter().zip(&weights);
            let mut made = if phase == 0 {
                tables(below.len(), weighed.map(|(&(product, x, y), w)| (x, product, *w, below[y])))
            } else {
                tables(below.len(), weighed.map(|(&(product, x, y), w)| (y, product, w * halves[0][x] % P, ends[0])))
            };
            let (mut values, start) = (below.clone(), points.len());
            while values.len() > 1 {
                let ((zero, two), r) = (message(&made, &values), draw());
                println!("layer {number} round {}: {zero} {two} challenge {r}", points.len());
                let one = (claim + P - zero) % P;
                let lead = (zero + two + 2 * (P - one)) % P * (P / 2 + 1) % P; // half of the second difference
                claim = (zero + (one + 2 * P - zero - lead) % P * r + lead * r % P * r) % P;
                made.iter_mut().chain([&mut values]).for_each(|table| bind(table, r));
                points.push(r);
            }
            agrees &= claim == (made[0][0] * values[0] + made[1][0]) % P;
            (ends[phase], halves[phase]) = (values[0], equality(&points[start..]));
        }
        let ([left, right], merge) = (ends, draw());
        println!("layer {number} left {left} right {right} merge {merge}");
        weights = halves[0].iter().zip(&halves[1]).map(|(a, b)| (a + merge * b) % P).collect();
        claim = (left + merge * right) % P;
    }
    agrees &= claim == weights.iter().zip(&values[layers.len()]).map(|(a, b)| a * b).sum::<u64>() % P;
    println!("input {claim}\nverdict {}", if agrees { "holds" } else { "refuted" });
}
