//! A prover of one's own over the integers modulo 65537, whose rounds are audited: as they should be, and with a bug.

use tunaprow::{audit, Challenger, Field, Job, Mode, Proof, Report, Statement, Verdict};

const P: u64 = 65_537;

/// Both halves of a table, bound at a challenge: low + (high - low) r.
fn bind(table: &[u64], r: u64) -> Vec<u64> {
    let (low, high) = table.split_at(table.len() / 2);
    low.iter().zip(high).map(|(a, b)| (a + (b + P - a) * r) % P).collect()
}

/// The same with a slip: the halves are exchanged.
fn bind_wrongly(table: &[u64], r: u64) -> Vec<u64> {
    let (low, high) = table.split_at(table.len() / 2);
    high.iter().zip(low).map(|(a, b)| (a + (b + P - a) * r) % P).collect()
}

/// What a round sends: the constant and the leading coefficient of its polynomial.
fn message(f: &[u64], w: &[u64]) -> [u64; 2] {
    let half = f.len() / 2;
    let constant = (0..half).map(|i| f[i] * w[i]).sum::<u64>() % P;
    let step = |t: &[u64], i: usize| (t[half + i] + P - t[i]) % P;
    [constant, (0..half).map(|i| step(f, i) * step(w, i)).sum::<u64>() % P]
}

/// The challenge after a message, of a transcript of one's own.
fn challenge(state: &mut u64, [a, b]: [u64; 2]) -> u64 {
    *state = (*state * 75 + a * 31 + b * 17 + 74) % P;
    *state
}

/// The prover: its rounds and its challenges.
fn prove(table: &[u64], weights: &[u64], bind: fn(&[u64], u64) -> Vec<u64>) -> (Proof, Vec<u64>) {
    let (mut f, mut w, mut state) = (table.to_vec(), weights.to_vec(), 1);
    let (mut proof, mut challenges) = (Proof::default(), Vec::new());
    while f.len() > 1 {
        proof.rounds.push(message(&f, &w));
        let r = challenge(&mut state, *proof.rounds.last().expect("one was pushed"));
        (f, w) = (bind(&f, r), bind(&w, r));
        challenges.push(r);
    }
    (proof, challenges)
}

/// The equality weights of a point, that of the highest digit first.
fn weights_at(point: &[u64]) -> Vec<u64> {
    point.iter().fold(vec![1], |weights, z| weights.iter().flat_map(|w| [w * (P + 1 - z) % P, w * z % P]).collect())
}

/// The table 3, 1, 4, 1, 5, 9, 2, 6 and the claim on its value at (2, 3, 5), which is the sum of entries times weights.
fn job_under(challenges: Vec<u64>) -> Job {
    let table = vec![3, 1, 4, 1, 5, 9, 2, 6];
    let point = vec![2, 3, 5];
    let value = table.iter().zip(weights_at(&point)).map(|(f, w)| f * w).sum::<u64>() % P;
    let mut job = Job::new(Field::Modulo65537, table);
    job.challenger = Challenger::Script { draws: challenges, witnesses: Vec::new() };
    job.statements.push(Statement::Value { point, value });
    job
}

/// The audits of what a prover sends, and of a build under its challenges.
fn audited(bind: fn(&[u64], u64) -> Vec<u64>) -> (Report, Report) {
    let job = job_under(Vec::new());
    let (proof, challenges) = prove(&job.table, &weights_at(&[2, 3, 5]), bind);
    let mut job = job_under(challenges);
    let built = audit(&job).expect("the claim is true");
    job.mode = Mode::Check(Some(proof));
    (audit(&job).expect("the proof has a round for each variable"), built)
}

#[test]
fn a_right_prover_is_told_that_its_rounds_hold() {
    let (checked, built) = audited(bind);
    assert_eq!(checked.verdict, Verdict::Holds);
    assert_eq!(checked, built);
}

#[test]
fn a_prover_that_exchanges_the_halves_is_told_the_first_wrong_round() {
    let (checked, built) = audited(bind_wrongly);
    assert_eq!(checked.verdict, Verdict::Refuted);
    // round 0 was sent before the first halves were bound
    assert_eq!(checked.first_other_round(&built), Some(1));
    assert_eq!(checked.claim, built.claim);
    assert_eq!(checked.rounds[0], built.rounds[0]);
}

#[test]
fn the_value_that_is_claimed_is_the_table_s() {
    let mut job = job_under(vec![7, 8, 9]);
    if let Statement::Value { value, .. } = &mut job.statements[0] {
        *value = (*value + 1) % P;
    }
    let told = audit(&job).expect_err("the claim is false").to_string();
    let truth = job_under(Vec::new());
    let Statement::Value { value, .. } = &truth.statements[0] else { unreachable!() };
    assert_eq!(told, format!("refused false-claim 0 claimed {} true {value}", (value + 1) % P));
}
