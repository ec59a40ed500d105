//! Tables, claims and rounds as numbers modulo 65537 in memory: no text is written or read.

use crate::border::{self, Figures, Found, Terms};
use crate::reply::Status;

pub use crate::border::TableRound;

/// A table over the integers modulo 65537, values that are claimed of it at points, and how its rounds are played.
#[derive(Clone, Copy, Debug)]
pub struct Table<'a> {
    /// An entry for each row, row 0 first; the first variable belongs to the highest bit of a row's number.
    pub entries: &'a [u32],
    /// How many variables the table has, at most 24: it has 2^`variables` entries.
    pub variables: usize,
    /// A point for each of the values, one after another, each of so many coordinates as there are variables, that of
    /// the highest bit first.
    pub points: &'a [u32],
    /// The values that are claimed there, however many.
    pub values: &'a [u32],
    /// The element whose powers batch the claims.
    pub batching: u32,
    /// Whether a round binds the last variable that is left, in place of the first.
    pub suffix: bool,
    /// Whether the entries are coefficients, in place of values; rounds then bind the first variable that is left.
    pub coefficients: bool,
    /// The difficulty of each round's test in bits, at most 16, or 0 for no test.
    pub bits: usize,
    /// The challenges in drawing order, past whose end they are 0; none for those of digests of what was observed. With
    /// a script no witness passes a test.
    pub draws: Option<&'a [u32]>,
}

/// What a table's rounds are found to be.
#[derive(Clone, Debug, PartialEq, Eq)]
pub struct TableReport {
    /// The batched claim.
    pub claim: u32,
    /// The challenges, in drawing order.
    pub challenges: Vec<u32>,
    /// What the rounds leave of the claim.
    pub residual: u32,
    /// The value of the table at the challenges.
    pub eval: u32,
    /// The value of the batched weights there.
    pub weight: u32,
    /// Whether the claims are true and the rounds prove them.
    pub verdict: TableVerdict,
}

/// What rounds show of claims.
#[derive(Clone, Debug, PartialEq, Eq)]
pub enum TableVerdict {
    /// The claims are true, and the rounds prove them.
    Holds,
    /// The rounds do not prove them; they may be true or false.
    Refuted,
    /// A claim is false, and the batching challenge let it through: coefficient i of the polynomial is what claim i
    /// claims, less its true value.
    LuckyBatch(TableCertificate),
    /// A claim is false, and the challenge of a round let it through: the polynomial is what the round sent, less the
    /// true one.
    LuckyRound {
        /// The round, counted from 0.
        round: usize,
        /// Why its challenge let the false claim through.
        certificate: TableCertificate,
    },
}

/// A polynomial that is not zero and vanishes at the lucky challenge.
#[derive(Clone, Debug, PartialEq, Eq)]
pub struct TableCertificate {
    /// At how many elements it vanishes.
    pub roots: u64,
    /// The coefficients, the constant first.
    pub coefficients: Vec<u32>,
}

/// Rounds that were built, with the witnesses of their tests.
#[derive(Clone, Debug, PartialEq, Eq)]
pub struct TableProof {
    /// A round for each variable.
    pub rounds: Vec<TableRound>,
    /// A witness for each of them where there is a difficulty, and none where there is not.
    pub witnesses: Vec<u32>,
}

/// Checks rounds of a table that are handed in, by its numbers.
///
/// The answer is that of [`audit`](crate::audit) to the job with these numbers. A job has at most 4,096 claims, and its
/// text 67,108,864 bytes; of a table there may be more.
///
/// # Errors
///
/// [`Status::JobRefused`] where a number is 65537 or more, the points are not one for each value, or the table's shape is
/// refused; [`Status::ProofRefused`] where there are not as many rounds or witnesses as there have to be, or a witness
/// fails; [`Status::OutOfMemory`]. `audit` tells the cause.
///
/// ```
/// use tunaprow::{build_65537, check_65537, Table, TableVerdict};
///
/// // The table 1, 2, 3, 4 and the claim that its value at (0, 1) is 2, under the challenges 5 and 7.
/// let table = Table {
///     entries: &[1, 2, 3, 4],
///     variables: 2,
///     points: &[0, 1],
///     values: &[2],
///     batching: 1,
///     suffix: false,
///     coefficients: false,
///     bits: 0,
///     draws: Some(&[5, 7]),
/// };
/// let (mut proof, built) = build_65537(&table)?;
/// assert_eq!(check_65537(&table, &proof.rounds, &proof.witnesses)?, built);
/// proof.rounds[1].first += 1;
/// assert_eq!(check_65537(&table, &proof.rounds, &proof.witnesses)?.verdict, TableVerdict::Refuted);
/// # Ok::<(), tunaprow::Status>(())
/// ```
pub fn check_65537(table: &Table, rounds: &[TableRound], witnesses: &[u32]) -> Result<TableReport, Status> {
    let terms = table.terms();
    let draws = table.draws.unwrap_or(&[]);
    let (mut figures, mut challenges, mut polynomial) = table.room();
    // SAFETY: all addresses are those of references or slices, so that none is null and each is valid for its length;
    // what may be written is borrowed for this call alone, and initialised; and `bool`s are true or false.
    let code = unsafe {
        border::tunaprow_check_65537(
            &terms,
            table.entries.as_ptr(),
            table.entries.len(),
            table.points.as_ptr(),
            table.points.len(),
            table.values.as_ptr(),
            table.values.len(),
            draws.as_ptr(),
            draws.len(),
            rounds.as_ptr(),
            rounds.len(),
            witnesses.as_ptr(),
            witnesses.len(),
            &mut figures,
            challenges.as_mut_ptr(),
            challenges.len(),
            polynomial.as_mut_ptr(),
            polynomial.len(),
        )
    };
    told(code, figures, challenges, polynomial)
}

/// Builds the rounds of a table, by its numbers and the plain strategy. They hold.
///
/// # Errors
///
/// As [`check_65537`]; a table of which a claim is false is [`Status::JobRefused`], and where no element passes the test
/// of a round it is [`Status::NoWitness`].
pub fn build_65537(table: &Table) -> Result<(TableProof, TableReport), Status> {
    let terms = table.terms();
    let draws = table.draws.unwrap_or(&[]);
    let (mut figures, mut challenges, mut polynomial) = table.room();
    let mut rounds = vec![TableRound::default(); challenges.len()];
    let mut witnesses = vec![0; if table.bits == 0 { 0 } else { challenges.len() }];
    // SAFETY: as in `check_65537`.
    let code = unsafe {
        border::tunaprow_build_65537(
            &terms,
            table.entries.as_ptr(),
            table.entries.len(),
            table.points.as_ptr(),
            table.points.len(),
            table.values.as_ptr(),
            table.values.len(),
            draws.as_ptr(),
            draws.len(),
            rounds.as_mut_ptr(),
            rounds.len(),
            witnesses.as_mut_ptr(),
            witnesses.len(),
            &mut figures,
            challenges.as_mut_ptr(),
            challenges.len(),
            polynomial.as_mut_ptr(),
            polynomial.len(),
        )
    };
    let report = told(code, figures, challenges, polynomial)?;
    Ok((TableProof { rounds, witnesses }, report))
}

/// The greatest number of variables of a table; one with more is refused.
const MOST_VARIABLES: usize = 24;

impl Table<'_> {
    fn terms(&self) -> Terms {
        Terms {
            variables: self.variables,
            bits: self.bits,
            batching: self.batching,
            suffix: self.suffix,
            coefficients: self.coefficients,
            hash: self.draws.is_none(),
        }
    }

    /// Room for the figures, the challenges, and the polynomial of a lucky one, which has three coefficients for a round
    /// and one for each claim of a batch.
    fn room(&self) -> (Figures, Vec<u32>, Vec<u32>) {
        let variables = self.variables.min(MOST_VARIABLES);
        (Figures::default(), vec![0; variables], vec![0; self.values.len().max(3)])
    }
}

/// The report that a call has left, or its status.
fn told(code: u8, figures: Figures, challenges: Vec<u32>, polynomial: Vec<u32>) -> Result<TableReport, Status> {
    match Status::of_code(code) {
        Status::Holds | Status::NotProved => Ok(TableReport {
            claim: figures.claim,
            challenges,
            residual: figures.residual,
            eval: figures.eval,
            weight: figures.weight,
            verdict: verdict(figures.found, polynomial),
        }),
        refused => Err(refused),
    }
}

/// The verdict of these numbers.
fn verdict(found: Found, mut coefficients: Vec<u32>) -> TableVerdict {
    coefficients.truncate(found.coefficients);
    let certificate = TableCertificate { roots: found.vanishing, coefficients };
    match found.verdict {
        0 => TableVerdict::Holds,
        1 => TableVerdict::Refuted,
        2 => TableVerdict::LuckyBatch(certificate),
        3 => TableVerdict::LuckyRound { round: found.round, certificate },
        other => unreachable!("the library's verdicts are proved, and {other} is none of them"),
    }
}
