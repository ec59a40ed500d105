//! Refusals of audits, read off the program's text.

use crate::reply::{Reply, Status};
use std::fmt;

/// Why a job is not reported on. Statements and rounds are counted from 0.
#[derive(Clone, Debug, PartialEq, Eq)]
pub enum Refusal {
    /// The job's text is longer than 67,108,864 bytes.
    TooLong,
    /// The text is no JSON. A [`Job`](crate::Job) is never refused so.
    BadJson,
    /// A member of the job is missing or not of its form, as a table with a number that is no element. `job` is the job
    /// as a whole.
    BadMember(String),
    /// The table's length is no 2^n with n at most 24.
    TableLength(u64),
    /// The difficulty is above the bound.
    Difficulty {
        /// The job's.
        bits: u64,
        /// The greatest.
        bound: u64,
    },
    /// The job states another number of variables than its table has. A [`Job`](crate::Job) is never refused so.
    Variables {
        /// What the job states.
        stated: u64,
        /// What the table has.
        expected: u64,
    },
    /// A table of coefficients has its rounds in prefix order alone.
    ProjectiveSuffix,
    /// Rounds over a table of coefficients are built plainly alone.
    ProjectiveStrategy,
    /// So many rounds on small values are none, or more than the bound.
    SmallValueRounds {
        /// The job's.
        rounds: u64,
        /// The number of variables or, if that is less, 12.
        bound: u64,
    },
    /// Rounds on small values take no statement of powers or products.
    SmallValueSelect(u64),
    /// Rounds on small values take no selector.
    SmallValueSelector(u64),
    /// In a build, the first statement that is false.
    FalseClaim {
        /// Its number.
        statement: u64,
        /// What it claims.
        claimed: u64,
        /// What is true of the table.
        actual: u64,
    },
    /// In a check, there is no proof, and the table has so many variables.
    MissingProof(u64),
    /// The proof has another number of rounds than the table has variables.
    RoundCount {
        /// One for each variable.
        expected: u64,
        /// The proof's.
        actual: u64,
    },
    /// The proof has another number of witnesses than there are tests.
    WitnessCount {
        /// One for each round, or none without a difficulty.
        expected: u64,
        /// The proof's.
        actual: u64,
    },
    /// In a check, the first round whose witness fails its test.
    Witness {
        /// The round.
        round: u64,
        /// The difficulty.
        bits: u64,
    },
    /// In a build, the first round for which no base number passes the test.
    NoWitness(u64),
    /// Out of memory.
    OutOfMemory,
    /// A text that is none of the above. The library that is proved never answers so: another one is linked.
    Unread(String),
}

impl Refusal {
    /// What a reply that is no report refuses.
    pub(crate) fn of(reply: Reply) -> Refusal {
        if reply.status == Status::OutOfMemory {
            return Refusal::OutOfMemory;
        }
        let found = reply.text.strip_suffix('\n').and_then(Refusal::read);
        found.filter(|refusal| refusal.status() == Some(reply.status)).unwrap_or(Refusal::Unread(reply.text))
    }

    /// The refusal that the line of a reply tells, without its line feed, if it is one of an audit. [`Refusal`] is
    /// displayed as that line.
    pub fn read(line: &str) -> Option<Refusal> {
        let words: Vec<&str> = line.split(' ').collect();
        match words[..] {
            ["refused", "too-long"] => Some(Refusal::TooLong),
            ["refused", "bad-json"] => Some(Refusal::BadJson),
            ["refused", "bad-job", member] => Some(Refusal::BadMember(member.to_owned())),
            ["refused", "job-shape", ref rest @ ..] => read_shape(rest),
            ["refused", "strategy-unfit", ref rest @ ..] => read_unfit(rest),
            ["refused", "false-claim", statement, "claimed", claimed, "true", actual] => Some(Refusal::FalseClaim {
                statement: statement.parse().ok()?,
                claimed: claimed.parse().ok()?,
                actual: actual.parse().ok()?,
            }),
            ["proof", "refused", ref rest @ ..] => read_proof(rest),
            ["no", "witness", "round", round] => Some(Refusal::NoWitness(round.parse().ok()?)),
            _ => None,
        }
    }

    /// The status that the program ends with; none for a text that is none of its own.
    pub fn status(&self) -> Option<Status> {
        match self {
            Refusal::MissingProof(_)
            | Refusal::RoundCount { .. }
            | Refusal::WitnessCount { .. }
            | Refusal::Witness { .. } => Some(Status::ProofRefused),
            Refusal::NoWitness(_) => Some(Status::NoWitness),
            Refusal::OutOfMemory => Some(Status::OutOfMemory),
            Refusal::Unread(_) => None,
            _ => Some(Status::JobRefused),
        }
    }
}

fn read_shape(words: &[&str]) -> Option<Refusal> {
    match *words {
        ["table-length", length] => Some(Refusal::TableLength(length.parse().ok()?)),
        ["difficulty", bits, "bound", bound] => {
            Some(Refusal::Difficulty { bits: bits.parse().ok()?, bound: bound.parse().ok()? })
        }
        ["variables", stated, "expected", expected] => {
            Some(Refusal::Variables { stated: stated.parse().ok()?, expected: expected.parse().ok()? })
        }
        ["projective-suffix"] => Some(Refusal::ProjectiveSuffix),
        _ => None,
    }
}

fn read_unfit(words: &[&str]) -> Option<Refusal> {
    match *words {
        ["projective"] => Some(Refusal::ProjectiveStrategy),
        ["variables", rounds, "bound", bound] => {
            Some(Refusal::SmallValueRounds { rounds: rounds.parse().ok()?, bound: bound.parse().ok()? })
        }
        ["select", statement] => Some(Refusal::SmallValueSelect(statement.parse().ok()?)),
        ["selector", statement] => Some(Refusal::SmallValueSelector(statement.parse().ok()?)),
        _ => None,
    }
}

fn read_proof(words: &[&str]) -> Option<Refusal> {
    match *words {
        ["missing", variables] => Some(Refusal::MissingProof(variables.parse().ok()?)),
        ["rounds", "expected", expected, "actual", actual] => {
            Some(Refusal::RoundCount { expected: expected.parse().ok()?, actual: actual.parse().ok()? })
        }
        ["witnesses", "expected", expected, "actual", actual] => {
            Some(Refusal::WitnessCount { expected: expected.parse().ok()?, actual: actual.parse().ok()? })
        }
        ["witness", "round", round, "bits", bits] => {
            Some(Refusal::Witness { round: round.parse().ok()?, bits: bits.parse().ok()? })
        }
        _ => None,
    }
}

/// The program's line.
impl fmt::Display for Refusal {
    fn fmt(&self, f: &mut fmt::Formatter<'_>) -> fmt::Result {
        match self {
            Refusal::TooLong => f.write_str("refused too-long"),
            Refusal::BadJson => f.write_str("refused bad-json"),
            Refusal::BadMember(member) => write!(f, "refused bad-job {member}"),
            Refusal::TableLength(length) => write!(f, "refused job-shape table-length {length}"),
            Refusal::Difficulty { bits, bound } => write!(f, "refused job-shape difficulty {bits} bound {bound}"),
            Refusal::Variables { stated, expected } => {
                write!(f, "refused job-shape variables {stated} expected {expected}")
            }
            Refusal::ProjectiveSuffix => f.write_str("refused job-shape projective-suffix"),
            Refusal::ProjectiveStrategy => f.write_str("refused strategy-unfit projective"),
            Refusal::SmallValueRounds { rounds, bound } => {
                write!(f, "refused strategy-unfit variables {rounds} bound {bound}")
            }
            Refusal::SmallValueSelect(statement) => write!(f, "refused strategy-unfit select {statement}"),
            Refusal::SmallValueSelector(statement) => write!(f, "refused strategy-unfit selector {statement}"),
            Refusal::FalseClaim { statement, claimed, actual } => {
                write!(f, "refused false-claim {statement} claimed {claimed} true {actual}")
            }
            Refusal::MissingProof(variables) => write!(f, "proof refused missing {variables}"),
            Refusal::RoundCount { expected, actual } => {
                write!(f, "proof refused rounds expected {expected} actual {actual}")
            }
            Refusal::WitnessCount { expected, actual } => {
                write!(f, "proof refused witnesses expected {expected} actual {actual}")
            }
            Refusal::Witness { round, bits } => write!(f, "proof refused witness round {round} bits {bits}"),
            Refusal::NoWitness(round) => write!(f, "no witness round {round}"),
            Refusal::OutOfMemory => f.write_str("out of memory"),
            Refusal::Unread(text) => write!(f, "a reply that is none of the program's: {text:?}"),
        }
    }
}

impl std::error::Error for Refusal {}
