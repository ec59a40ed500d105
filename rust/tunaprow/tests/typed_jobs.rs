//! Jobs that are made of types: their text is that of the ready jobs, and each refusal comes by its cause.

use std::fs;
use tunaprow::{
    audit, Basis, Certificate, Challenger, Field, Job, Mode, Order, Proof, Refusal, Statement, Strategy, Verdict,
};

fn script(draws: &[u64]) -> Challenger {
    Challenger::Script { draws: draws.to_vec(), witnesses: Vec::new() }
}

/// The table 1, 2, 3, 4 with the claim that its value at (0, 1) is 2.
fn first() -> Job {
    let mut job = Job::new(Field::Modulo65537, vec![1, 2, 3, 4]);
    job.challenger = script(&[3, 4]);
    job.statements.push(Statement::Value { point: vec![0, 1], value: 2 });
    job
}

fn with(change: impl FnOnce(&mut Job)) -> Job {
    let mut job = first();
    change(&mut job);
    job
}

fn check(rounds: &[[u64; 2]], witnesses: &[u64]) -> Mode {
    Mode::Check(Some(Proof { rounds: rounds.to_vec(), witnesses: witnesses.to_vec() }))
}

/// Statements of each kind, with rounds that bind the last variable.
fn every_kind() -> Job {
    let mut job = Job::new(Field::Modulo65537, vec![3, 1, 4, 1, 5, 9, 2, 6]);
    job.challenger = script(&[10, 20, 65_536]);
    job.order = Order::Suffix;
    job.statements = vec![
        Statement::Value { point: vec![2, 0, 65_536], value: 65_534 },
        Statement::Successor { selector: vec![3], point: vec![1, 2], order: Order::Suffix, value: 14 },
        Statement::Powers { of: 3, value: 17_241 },
        Statement::Products { of: vec![1, 2, 3], value: 92 },
    ];
    job.batching = 11;
    job
}

/// Rounds over the extension that are handed in, with their witnesses.
fn extension_proof() -> Job {
    let mut job = Job::new(Field::Modulo257Squared, vec![5, 250, 0, 17]);
    job.order = Order::Suffix;
    job.bits = 4;
    job.statements = vec![
        Statement::Successor { selector: vec![300], point: vec![4000], order: Order::Suffix, value: 4586 },
        Statement::Powers { of: 100, value: 40 },
    ];
    job.batching = 65_000;
    job.mode = check(&[[59_776, 22_536], [55_811, 63_608]], &[68, 29]);
    job
}

fn lucky_batch() -> Job {
    let mut job = Job::new(Field::Modulo65537, vec![1, 2]);
    job.challenger = script(&[5]);
    job.statements = vec![Statement::Value { point: vec![0], value: 4 }, Statement::Value { point: vec![1], value: 1 }];
    job.batching = 3;
    job.mode = check(&[[1, 2]], &[]);
    job
}

#[test]
fn their_text_is_that_of_the_ready_jobs() {
    let jobs = [
        ("first", first()),
        ("every-kind", every_kind()),
        ("extension-proof", extension_proof()),
        ("lucky-batch", lucky_batch()),
        ("projective", with(|job| job.basis = Basis::Projective)),
        ("small-value", with(|job| job.mode = Mode::Build(Strategy::SmallValue(2)))),
        ("proof", with(|job| job.mode = check(&[[2, 65_535], [0, 65_535]], &[]))),
    ];
    for (name, job) in jobs {
        let file = format!("{}/../../jobs/{name}", env!("CARGO_MANIFEST_DIR"));
        let text = fs::read_to_string(format!("{file}.json")).expect("a ready job");
        assert_eq!(job.to_json(), text.trim_end(), "{name}");
        let report = audit(&job).expect("a report").to_string();
        assert_eq!(report, fs::read_to_string(format!("{file}.stdout")).expect("its text"), "{name}");
    }
}

#[test]
fn lucky_challenges_are_certified() {
    let certificate = Certificate { roots: 1, coefficients: vec![3, 65_536] };
    assert_eq!(audit(&lucky_batch()).expect("a report").verdict, Verdict::LuckyBatch(certificate));
    let job = with(|job| {
        job.statements = vec![Statement::Value { point: vec![0, 1], value: 7 }];
        job.mode = check(&[[5, 65_535], [0, 65_535]], &[]);
    });
    let certificate = Certificate { roots: 1, coefficients: vec![3, 65_536, 0] };
    assert_eq!(audit(&job).expect("a report").verdict, Verdict::LuckyRound { round: 0, certificate });
}

#[test]
fn each_refusal_comes_by_its_cause() {
    let value = |value| vec![Statement::Value { point: vec![0, 1], value }];
    let refused = [
        (with(|job| job.table = vec![0; 1 << 25]), Refusal::TooLong),
        (with(|job| job.table = vec![1, 65_537]), Refusal::BadMember("table".to_owned())),
        (with(|job| job.batching = 65_537), Refusal::BadMember("batching".to_owned())),
        (with(|job| job.table = vec![1, 2, 3]), Refusal::TableLength(3)),
        (Job::new(Field::Sixteen, Vec::new()), Refusal::TableLength(0)),
        (with(|job| job.table = vec![1, 2, 3, 4, 5]), Refusal::BadMember("groups".to_owned())),
        (with(|job| job.bits = 17), Refusal::Difficulty { bits: 17, bound: 16 }),
        (
            with(|job| {
                job.basis = Basis::Projective;
                job.order = Order::Suffix;
            }),
            Refusal::ProjectiveSuffix,
        ),
        (
            with(|job| {
                job.basis = Basis::Projective;
                job.mode = Mode::Build(Strategy::Represented);
            }),
            Refusal::ProjectiveStrategy,
        ),
        (
            with(|job| job.mode = Mode::Build(Strategy::SmallValue(3))),
            Refusal::SmallValueRounds { rounds: 3, bound: 2 },
        ),
        (
            with(|job| {
                job.statements.push(Statement::Powers { of: 1, value: 10 });
                job.mode = Mode::Build(Strategy::SmallValue(1));
            }),
            Refusal::SmallValueSelect(1),
        ),
        (
            with(|job| {
                let (selector, point) = (vec![1], vec![0]);
                job.statements = vec![Statement::Successor { selector, point, order: Order::Prefix, value: 4 }];
                job.mode = Mode::Build(Strategy::SmallValue(1));
            }),
            Refusal::SmallValueSelector(0),
        ),
        (with(|job| job.statements = value(5)), Refusal::FalseClaim { statement: 0, claimed: 5, actual: 2 }),
        (with(|job| job.mode = Mode::Check(None)), Refusal::MissingProof(2)),
        (with(|job| job.mode = check(&[[2, 65_535]], &[])), Refusal::RoundCount { expected: 2, actual: 1 }),
        (
            with(|job| job.mode = check(&[[2, 65_535], [0, 65_535]], &[7])),
            Refusal::WitnessCount { expected: 0, actual: 1 },
        ),
        (
            with(|job| {
                job.bits = 1;
                job.mode = check(&[[2, 65_535], [0, 65_535]], &[7, 7]);
            }),
            Refusal::Witness { round: 0, bits: 1 },
        ),
        (with(|job| job.bits = 1), Refusal::NoWitness(0)),
    ];
    for (job, refusal) in refused {
        assert_eq!(audit(&job), Err(refusal));
    }
}
