//! Reports on audits, read off the program's text.

use crate::job::Proof;
use std::fmt;

/// What the rounds of a job are found to be. Elements are extension numbers.
#[derive(Clone, Debug, PartialEq, Eq)]
pub struct Report {
    /// The batched claim.
    pub claim: u64,
    /// The rounds, in order.
    pub rounds: Vec<Round>,
    /// What the rounds leave of the claim.
    pub residual: u64,
    /// The value of the table at the challenges.
    pub eval: u64,
    /// The value of the batched weights there.
    pub weight: u64,
    /// The grids of a build on small values.
    pub grids: Vec<Grid>,
    /// Whether the statements are true and the rounds prove them.
    pub verdict: Verdict,
}

/// A round: what it sent, and what was drawn after that.
#[derive(Clone, Debug, PartialEq, Eq)]
pub struct Round {
    /// The constant (with coefficients in the table the value at 1) and the leading coefficient.
    pub values: [u64; 2],
    /// The witness that passed the round's test, if there is one.
    pub witness: Option<u64>,
    /// The challenge.
    pub challenge: u64,
}

/// The values of a round's grid, in the order of `docs/FORMATS.md`.
#[derive(Clone, Debug, PartialEq, Eq)]
pub struct Grid {
    /// With the round's own variable at 0.
    pub zero: Vec<u64>,
    /// With it at infinity.
    pub infinity: Vec<u64>,
}

/// What rounds show of statements.
#[derive(Clone, Debug, PartialEq, Eq)]
pub enum Verdict {
    /// The residual is the value times the weight, and every statement is true.
    Holds,
    /// The residual is another one: the rounds do not prove the claim. The statements may be true or false.
    Refuted,
    /// The residual is right although a statement is false, since the batching challenge let it through. Coefficient i
    /// is what statement i claims, less its true value.
    LuckyBatch(Certificate),
    /// The residual is right although a statement is false, since the challenge of a round let it through. The
    /// polynomial is the one that the round sent, less the true one.
    LuckyRound {
        /// The round, counted from 0.
        round: usize,
        /// Why its challenge let the false claim through.
        certificate: Certificate,
    },
}

/// A polynomial that is not zero and vanishes at the lucky challenge.
#[derive(Clone, Debug, PartialEq, Eq)]
pub struct Certificate {
    /// At how many elements it vanishes: at least 1, and less than there are coefficients.
    pub roots: u64,
    /// The coefficients, the constant first.
    pub coefficients: Vec<u64>,
}

impl Report {
    /// The rounds as a proof that can be handed in.
    pub fn proof(&self) -> Proof {
        Proof {
            rounds: self.rounds.iter().map(|round| round.values).collect(),
            witnesses: self.rounds.iter().filter_map(|round| round.witness).collect(),
        }
    }

    /// The first round that sent other values than that of another report: beside a build of the true statements at
    /// the same challenges, the first that is wrong.
    pub fn first_other_round(&self, other: &Report) -> Option<usize> {
        let mut pairs = self.rounds.iter().zip(&other.rounds);
        pairs.position(|(ours, theirs)| ours.values != theirs.values)
    }

    /// The report that the text of a reply is, if it is one of an audit. [`Report`] is displayed as that text.
    ///
    /// ```
    /// use tunaprow::Report;
    ///
    /// let text = "claim 1\nresidual 1\neval 1\nweight 1\nverdict holds\n";
    /// let report = Report::read(text).expect("a table of one entry has no rounds");
    /// assert_eq!(report.to_string(), text);
    /// assert_eq!(Report::read("claim 1\n"), None);
    /// ```
    pub fn read(text: &str) -> Option<Report> {
        let mut lines = text.lines().peekable();
        let claim = lines.next().and_then(|line| figure(line, "claim "))?;
        let mut rounds = Vec::new();
        while let Some(round) = lines.peek().and_then(|line| read_round(line, rounds.len())) {
            rounds.push(round);
            lines.next();
        }
        let residual = lines.next().and_then(|line| figure(line, "residual "))?;
        let eval = lines.next().and_then(|line| figure(line, "eval "))?;
        let weight = lines.next().and_then(|line| figure(line, "weight "))?;
        let mut grids = Vec::new();
        while let Some(zero) = lines.peek().and_then(|line| read_grid(line, grids.len(), "zero")) {
            lines.next();
            let infinity = lines.next().and_then(|line| read_grid(line, grids.len(), "infinity"))?;
            grids.push(Grid { zero, infinity });
        }
        let verdict = lines.next().and_then(read_verdict)?;
        let is_whole = lines.next().is_none();
        is_whole.then_some(Report { claim, rounds, residual, eval, weight, grids, verdict })
    }
}

/// The number after a name.
fn figure(line: &str, name: &str) -> Option<u64> {
    line.strip_prefix(name)?.parse().ok()
}

fn numbers(words: &[&str]) -> Option<Vec<u64>> {
    words.iter().map(|word| word.parse().ok()).collect()
}

fn read_round(line: &str, number: usize) -> Option<Round> {
    let rest = line.strip_prefix(&format!("round {number}: "))?;
    let words: Vec<&str> = rest.split(' ').collect();
    let (values, witness, challenge) = match *words {
        [a, b, "challenge", challenge] => ([a, b], None, challenge),
        [a, b, "witness", witness, "challenge", challenge] => ([a, b], Some(witness.parse().ok()?), challenge),
        _ => return None,
    };
    Some(Round {
        values: [values[0].parse().ok()?, values[1].parse().ok()?],
        witness,
        challenge: challenge.parse().ok()?,
    })
}

fn read_grid(line: &str, number: usize, part: &str) -> Option<Vec<u64>> {
    let rest = line.strip_prefix(&format!("grid {number} {part} "))?;
    numbers(&rest.split(' ').collect::<Vec<_>>())
}

fn read_verdict(line: &str) -> Option<Verdict> {
    let words: Vec<&str> = line.split(' ').collect();
    let certificate = |roots: &str, coefficients| {
        Some(Certificate { roots: roots.parse().ok()?, coefficients: numbers(coefficients)? })
    };
    match words[..] {
        ["verdict", "holds"] => Some(Verdict::Holds),
        ["verdict", "refuted"] => Some(Verdict::Refuted),
        ["verdict", "lucky-batch", "vanishing", roots, "poly", ref coefficients @ ..] => {
            Some(Verdict::LuckyBatch(certificate(roots, coefficients)?))
        }
        ["verdict", "lucky-round", round, "vanishing", roots, "poly", ref coefficients @ ..] => {
            Some(Verdict::LuckyRound { round: round.parse().ok()?, certificate: certificate(roots, coefficients)? })
        }
        _ => None,
    }
}

/// Writes numbers, each after a space.
fn write_numbers(f: &mut fmt::Formatter<'_>, numbers: &[u64]) -> fmt::Result {
    numbers.iter().try_for_each(|number| write!(f, " {number}"))
}

/// The program's text.
impl fmt::Display for Report {
    fn fmt(&self, f: &mut fmt::Formatter<'_>) -> fmt::Result {
        writeln!(f, "claim {}", self.claim)?;
        for (i, round) in self.rounds.iter().enumerate() {
            writeln!(f, "round {i}: {round}")?;
        }
        writeln!(f, "residual {}\neval {}\nweight {}", self.residual, self.eval, self.weight)?;
        for (i, grid) in self.grids.iter().enumerate() {
            write!(f, "grid {i} zero")?;
            write_numbers(f, &grid.zero)?;
            write!(f, "\ngrid {i} infinity")?;
            write_numbers(f, &grid.infinity)?;
            writeln!(f)?;
        }
        writeln!(f, "{}", self.verdict)
    }
}

/// The line of a round, after its number.
impl fmt::Display for Round {
    fn fmt(&self, f: &mut fmt::Formatter<'_>) -> fmt::Result {
        write!(f, "{} {}", self.values[0], self.values[1])?;
        if let Some(witness) = self.witness {
            write!(f, " witness {witness}")?;
        }
        write!(f, " challenge {}", self.challenge)
    }
}

/// The line of the verdict.
impl fmt::Display for Verdict {
    fn fmt(&self, f: &mut fmt::Formatter<'_>) -> fmt::Result {
        match self {
            Verdict::Holds => f.write_str("verdict holds"),
            Verdict::Refuted => f.write_str("verdict refuted"),
            Verdict::LuckyBatch(certificate) => write!(f, "verdict lucky-batch {certificate}"),
            Verdict::LuckyRound { round, certificate } => write!(f, "verdict lucky-round {round} {certificate}"),
        }
    }
}

impl fmt::Display for Certificate {
    fn fmt(&self, f: &mut fmt::Formatter<'_>) -> fmt::Result {
        write!(f, "vanishing {} poly", self.roots)?;
        write_numbers(f, &self.coefficients)
    }
}
