//! Tables by their numbers are answered as the jobs with the same numbers are: the typed calls beside the text.

use tunaprow::{
    audit, build_65537, check_65537, Basis, Challenger, Field, Job, Mode, Order, Proof, Refusal, Report, Statement,
    Status, Strategy, Table, TableCertificate, TableProof, TableReport, TableRound, TableVerdict, Verdict,
};

const P: u64 = 65_537;

/// The table 1, 2, 3, 4 with the claim that its value at (0, 1) is 2, under the challenges 3 and 4.
const FIRST: Table = Table {
    entries: &[1, 2, 3, 4],
    variables: 2,
    points: &[0, 1],
    values: &[2],
    batching: 1,
    suffix: false,
    coefficients: false,
    bits: 0,
    draws: Some(&[3, 4]),
};

fn widened(numbers: &[u32]) -> Vec<u64> {
    numbers.iter().map(|&number| u64::from(number)).collect()
}

/// The job with the numbers of a table, to be built. Its points have to be one for each value.
fn job_of(table: &Table) -> Job {
    let mut job = Job::new(Field::Modulo65537, widened(table.entries));
    if let Some(draws) = table.draws {
        job.challenger = Challenger::Script { draws: widened(draws), witnesses: Vec::new() };
    }
    job.order = if table.suffix { Order::Suffix } else { Order::Prefix };
    job.basis = if table.coefficients { Basis::Projective } else { Basis::Evaluation };
    job.bits = u32::try_from(table.bits).expect("a difficulty of few bits");
    job.batching = u64::from(table.batching);
    for (i, &value) in table.values.iter().enumerate() {
        let point = widened(&table.points[i * table.variables..(i + 1) * table.variables]);
        job.statements.push(Statement::Value { point, value: u64::from(value) });
    }
    job
}

fn with_proof(table: &Table, proof: &TableProof) -> Job {
    let rounds = proof.rounds.iter().map(|round| [u64::from(round.first), u64::from(round.leading)]).collect();
    let mut job = job_of(table);
    job.mode = Mode::Check(Some(Proof { rounds, witnesses: widened(&proof.witnesses) }));
    job
}

fn certificate(roots: u64, coefficients: &[u32]) -> TableCertificate {
    TableCertificate { roots, coefficients: coefficients.to_vec() }
}

fn narrowed(verdict: &Verdict) -> TableVerdict {
    let narrow = |found: &tunaprow::Certificate| TableCertificate {
        roots: found.roots,
        coefficients: found.coefficients.iter().map(|&number| number as u32).collect(),
    };
    match verdict {
        Verdict::Holds => TableVerdict::Holds,
        Verdict::Refuted => TableVerdict::Refuted,
        Verdict::LuckyBatch(found) => TableVerdict::LuckyBatch(narrow(found)),
        Verdict::LuckyRound { round, certificate } => {
            TableVerdict::LuckyRound { round: *round, certificate: narrow(certificate) }
        }
    }
}

/// What the text's report has of a table's.
fn report_of(report: &Report) -> TableReport {
    TableReport {
        claim: report.claim as u32,
        challenges: report.rounds.iter().map(|round| round.challenge as u32).collect(),
        residual: report.residual as u32,
        eval: report.eval as u32,
        weight: report.weight as u32,
        verdict: narrowed(&report.verdict),
    }
}

/// The text's answer to a job, as a table's.
fn answer_to(job: &Job) -> Result<TableReport, Status> {
    audit(job).map(|report| report_of(&report)).map_err(|refusal: Refusal| refusal.status().expect("a status"))
}

/// Both answers to a check are the same; it is the answer.
fn checked(table: &Table, proof: &TableProof) -> Result<TableReport, Status> {
    let told = check_65537(table, &proof.rounds, &proof.witnesses);
    assert_eq!(told, answer_to(&with_proof(table, proof)), "{table:?} {proof:?}");
    told
}

/// Both answers to a build are the same; it is the answer.
fn built(table: &Table) -> Result<(TableProof, TableReport), Status> {
    let told = build_65537(table);
    let mut job = job_of(table);
    job.mode = Mode::Build(Strategy::Plain);
    match (&told, audit(&job)) {
        (Ok((proof, report)), Ok(wanted)) => {
            assert_eq!(*report, report_of(&wanted), "{table:?}");
            assert_eq!(with_proof(table, proof).mode, Mode::Check(Some(wanted.proof())), "{table:?}");
        }
        (Err(status), Err(refusal)) => assert_eq!(Some(*status), refusal.status(), "{table:?}"),
        (told, wanted) => panic!("{table:?}: {told:?} beside {wanted:?}"),
    }
    told
}

// ---- by hand

fn rounds(numbers: &[(u32, u32)]) -> TableProof {
    let rounds = numbers.iter().map(|&(first, leading)| TableRound { first, leading }).collect();
    TableProof { rounds, witnesses: Vec::new() }
}

#[test]
fn the_first_table_holds() {
    let (proof, report) = built(&FIRST).expect("the claim is true");
    assert_eq!(report.verdict, TableVerdict::Holds);
    assert_eq!((report.claim, &report.challenges[..]), (2, &[3, 4][..]));
    // at (3, 4) the table is 1 + 2 * 3 + 4, and the weight (1 - 3) * 4
    assert_eq!((report.eval, report.weight), (11, 65_529));
    assert_eq!(u64::from(report.residual), 11 * 65_529 % P);
    assert_eq!(checked(&FIRST, &proof), Ok(report));
}

#[test]
fn a_claim_that_a_challenge_lets_through_is_certified() {
    // 7 in place of 2, under the challenge 0: what the rounds send is 5 X off, which vanishes there
    let honest = Table { draws: Some(&[0, 4]), ..FIRST };
    let (proof, _) = built(&honest).expect("the claim is true");
    let lucky = checked(&Table { values: &[7], ..honest }, &proof).expect("a report");
    let certificate = certificate(1, &[0, 5, 0]);
    assert_eq!(lucky.verdict, TableVerdict::LuckyRound { round: 0, certificate });
}

#[test]
fn false_claims_that_the_batch_lets_through_are_certified() {
    // 3 in place of 2 and 0 in place of 1, batched by 1: 1 - X vanishes there
    let honest = Table { points: &[0, 1, 0, 0], values: &[2, 1], ..FIRST };
    let (proof, _) = built(&honest).expect("the claims are true");
    let lucky = checked(&Table { values: &[3, 0], ..honest }, &proof).expect("a report");
    assert_eq!(lucky.verdict, TableVerdict::LuckyBatch(certificate(1, &[1, 65_536])));
}

#[test]
fn what_does_not_fit_is_refused() {
    let proof = rounds(&[(0, 0), (0, 0)]);
    let refused = |table: &Table| check_65537(table, &proof.rounds, &proof.witnesses).expect_err("it does not fit");
    assert_eq!(refused(&Table { entries: &[1, 2, 3, 65_537], ..FIRST }), Status::JobRefused);
    assert_eq!(refused(&Table { points: &[0, 65_537], ..FIRST }), Status::JobRefused);
    assert_eq!(refused(&Table { values: &[u32::MAX], ..FIRST }), Status::JobRefused);
    assert_eq!(refused(&Table { batching: 65_537, ..FIRST }), Status::JobRefused);
    assert_eq!(refused(&Table { draws: Some(&[65_537]), ..FIRST }), Status::JobRefused);
    assert_eq!(refused(&Table { points: &[0], ..FIRST }), Status::JobRefused);
    assert_eq!(refused(&Table { points: &[0, 1, 1], ..FIRST }), Status::JobRefused);
    assert_eq!(refused(&Table { variables: usize::MAX, ..FIRST }), Status::JobRefused);
    assert_eq!(refused(&Table { variables: 1, points: &[0], ..FIRST }), Status::JobRefused);
    assert_eq!(refused(&Table { entries: &[1, 2, 3], ..FIRST }), Status::JobRefused);
    assert_eq!(refused(&Table { coefficients: true, suffix: true, ..FIRST }), Status::JobRefused);
    assert_eq!(refused(&Table { bits: 17, ..FIRST }), Status::JobRefused);
    assert_eq!(refused(&Table { bits: 1, ..FIRST }), Status::ProofRefused);
    assert_eq!(checked(&FIRST, &rounds(&[(0, 0)])), Err(Status::ProofRefused));
    assert_eq!(checked(&FIRST, &rounds(&[(0, 65_537), (0, 0)])), Err(Status::JobRefused));
    let witnessed = TableProof { witnesses: vec![1], ..proof.clone() };
    assert_eq!(checked(&FIRST, &witnessed), Err(Status::ProofRefused));
    assert_eq!(built(&Table { values: &[3], ..FIRST }).expect_err("the claim is false"), Status::JobRefused);
    assert_eq!(built(&Table { bits: 1, ..FIRST }).expect_err("nothing passes"), Status::NoWitness);
}

#[test]
fn a_witness_that_fails_is_refused() {
    let table = Table { bits: 8, draws: None, ..FIRST };
    let (mut proof, report) = built(&table).expect("each round has a witness");
    assert_eq!(checked(&table, &proof), Ok(report));
    // docs/FORMATS.md has the witnesses of this table
    assert_eq!(proof.witnesses, [88, 553]);
    proof.witnesses[1] = 0;
    assert_eq!(checked(&table, &proof), Err(Status::ProofRefused));
}

#[test]
fn a_table_without_variables_has_one_entry() {
    let table = Table { entries: &[7], variables: 0, points: &[], values: &[7, 7], draws: None, bits: 3, ..FIRST };
    let (proof, report) = built(&table).expect("the claims are true");
    assert_eq!(proof, rounds(&[]));
    assert_eq!((report.claim, report.residual, report.eval, report.weight), (14, 14, 7, 2));
    assert_eq!(checked(&table, &proof), Ok(report));
    assert_eq!(checked(&Table { values: &[], ..table }, &proof).map(|report| report.weight), Ok(0));
}

#[test]
fn there_are_more_claims_than_a_text_may_have() {
    let (points, values) = (vec![0; 4_097], vec![1; 4_097]);
    let table = Table { entries: &[1, 2], variables: 1, points: &points, values: &values, ..FIRST };
    assert_eq!(audit(&job_of(&table)), Err(Refusal::BadMember("groups".to_owned())));
    let (proof, report) = build_65537(&table).expect("the claims are true");
    assert_eq!((report.claim, &report.verdict), (4_097, &TableVerdict::Holds));
    assert_eq!(check_65537(&table, &proof.rounds, &[]), Ok(report));
}

// ---- by chance

struct Chance(u64);

impl Chance {
    fn below(&mut self, bound: u64) -> u64 {
        self.0 ^= self.0 << 13;
        self.0 ^= self.0 >> 7;
        self.0 ^= self.0 << 17;
        (self.0 >> 11) % bound
    }

    /// Often one of the least or the greatest numbers.
    fn element(&mut self) -> u32 {
        let near = self.below(4) as u32;
        match self.below(3) {
            0 => near,
            1 => 65_536 - near,
            _ => self.below(P) as u32,
        }
    }

    fn elements(&mut self, count: usize) -> Vec<u32> {
        (0..count).map(|_| self.element()).collect()
    }
}

/// The sum of entries times the equality weights of a point, whatever the entries are: the first variable belongs to the
/// highest bit.
fn value_at(entries: &[u32], point: &[u32]) -> u32 {
    let mut left = widened(entries);
    for &z in point {
        let (low, high) = left.split_at(left.len() / 2);
        let z = u64::from(z);
        left = low.iter().zip(high).map(|(a, b)| (a * (P + 1 - z) + b * z) % P).collect();
    }
    left[0] as u32
}

/// One number of a proof or of the claims, changed.
fn changed(chance: &mut Chance, proof: &mut TableProof, values: &mut [u32]) {
    let number = chance.element();
    match (chance.below(3), proof.rounds.is_empty(), values.is_empty()) {
        (0, false, _) => {
            let i = chance.below(proof.rounds.len() as u64) as usize;
            proof.rounds[i].first = number;
        }
        (1, false, _) => {
            let i = chance.below(proof.rounds.len() as u64) as usize;
            proof.rounds[i].leading = number;
        }
        (_, _, false) => {
            let i = chance.below(values.len() as u64) as usize;
            values[i] = number;
        }
        _ => {}
    }
}

#[test]
fn tables_by_chance_are_answered_alike() {
    let mut chance = Chance(0x5EED);
    let (mut held, mut refuted, mut lucky) = (0, 0, 0);
    for round in 0..600 {
        let variables = if round % 50 == 0 { 10 } else { chance.below(5) as usize };
        let count = chance.below(4) as usize;
        let (entries, points) = (chance.elements(1 << variables), chance.elements(count * variables));
        let coefficients = chance.below(4) == 0;
        let place = |i: usize| &points[i * variables..(i + 1) * variables];
        let values: Vec<u32> = (0..count).map(|i| value_at(&entries, place(i))).collect();
        let length = variables - (chance.below(2) as usize).min(variables);
        let draws = chance.elements(length);
        let hash = chance.below(3) == 0;
        let table = Table {
            entries: &entries,
            variables,
            points: &points,
            values: &values,
            batching: chance.element(),
            suffix: !coefficients && chance.below(2) == 0,
            coefficients,
            bits: if hash { chance.below(6) as usize } else { 0 },
            draws: if hash { None } else { Some(&draws) },
        };
        let (mut proof, _) = built(&table).expect("the claims are true");
        let mut others = values.clone();
        changed(&mut chance, &mut proof, &mut others);
        let table = Table { values: &others, ..table };
        match checked(&table, &proof).map(|report| report.verdict) {
            Ok(TableVerdict::Holds) => held += 1,
            Ok(TableVerdict::Refuted) => refuted += 1,
            Ok(_) => lucky += 1,
            // a message that another number changes has other witnesses
            Err(status) => assert_eq!(status, Status::ProofRefused),
        }
    }
    assert!(held > 20 && refuted > 100 && lucky > 5, "{held} {refuted} {lucky}");
}
