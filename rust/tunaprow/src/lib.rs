//! Audits of sumcheck, from Rust: a table, statements on it and rounds, and whether they hold, or what is wrong.
//!
//! The work is done by a static library, the program `sumcheck` of this package's repository under a C interface. This
//! package turns a [`Job`] into the text that the program reads, and its reply into a [`Report`] or a [`Refusal`].
//!
//! # What is proved
//!
//! In the static library each function is proved: for all bytes of a word and of a job, it puts exactly the reply that
//! the definitions give into the caller's memory, keeps to that memory, and ends. A report on a job holds exactly where
//! the statements are true and the rounds prove them, and a challenge that lets a false statement through is named. The
//! repository's `docs/PROVED.md` has the clauses.
//!
//! **Nothing on this side of the border is proved.** The declarations in `src/border.rs` say what `include/tunaprow.h`
//! says, and no compiler holds either against the library; the heap that the library asks for memory is the one of
//! `std::alloc`, and the library's proof assumes that it behaves; and jobs are written, and replies read, by ordinary
//! Rust, which tests alone hold against the ready jobs of the repository. `reply` hands bytes and text through, and is
//! the least to trust.
//!
//! # An audit
//!
//! ```
//! use tunaprow::{audit, Field, Job, Mode, Statement, Verdict};
//!
//! // The table 1, 2, 3, 4 over the integers modulo 65537, and the claim that its value at (0, 1) is 2.
//! let mut job = Job::new(Field::Modulo65537, vec![1, 2, 3, 4]);
//! job.statements.push(Statement::Value { point: vec![0, 1], value: 2 });
//! let built = audit(&job)?;
//! assert_eq!(built.verdict, Verdict::Holds);
//!
//! // The same rounds, handed in as a proof, with one value changed.
//! let mut proof = built.proof();
//! proof.rounds[1][0] += 1;
//! job.mode = Mode::Check(Some(proof));
//! let checked = audit(&job)?;
//! assert_eq!(checked.verdict, Verdict::Refuted);
//! assert_eq!(checked.first_other_round(&built), Some(1));
//! # Ok::<(), tunaprow::Refusal>(())
//! ```
//!
//! A build of a false statement is refused, and the refusal has the true value:
//!
//! ```
//! use tunaprow::{audit, Field, Job, Refusal, Statement};
//!
//! let mut job = Job::new(Field::Modulo65537, vec![1, 2]);
//! job.statements.push(Statement::Value { point: vec![0], value: 5 });
//! assert_eq!(audit(&job), Err(Refusal::FalseClaim { statement: 0, claimed: 5, actual: 1 }));
//! ```
//!
//! # Tables in memory
//!
//! [`check_65537`] and [`build_65537`] take a table, claims on its values and rounds as slices of numbers modulo 65537,
//! and write and read no text. What they answer is proved to be what [`audit`] is answered of the same numbers.
//!
//! # The other commands
//!
//! [`reply`] answers every command of the program, by the bytes of a job and the text of the reply. The repository's
//! `docs/FORMATS.md` says what both are.
//!
//! # Memory, stack and threads
//!
//! A call keeps nothing. It may come from any thread, and from several at once. 256 KiB of stack are enough for the
//! repository's ready jobs. Where `std::alloc` refuses memory, a call ends with [`Status::OutOfMemory`].

mod border;
mod job;
mod json;
mod refusal;
mod reply;
mod report;
mod tables;

pub use job::{Basis, Challenger, Field, Job, Mode, Order, Proof, Statement, Strategy};
pub use refusal::Refusal;
pub use reply::{make, reply, Reply, Status};
pub use report::{Certificate, Grid, Report, Round, Verdict};
pub use tables::{
    build_65537, check_65537, Table, TableCertificate, TableProof, TableReport, TableRound, TableVerdict,
};

/// Builds the rounds of a job, or checks those that it hands in, and reports on them.
///
/// A build reports on the rounds that it made, and its statements are true of the table, else it is refused. A check
/// reports on the rounds that were handed in: whether they prove what the statements claim, and whether it is true.
///
/// # Errors
///
/// A job that cannot be reported on is refused, by the one cause that comes first in `docs/FORMATS.md`.
pub fn audit(job: &Job) -> Result<Report, Refusal> {
    let reply = reply("audit", job.to_json().as_bytes());
    match reply.status {
        Status::Holds | Status::NotProved => Report::read(&reply.text).ok_or(Refusal::Unread(reply.text)),
        _ => Err(Refusal::of(reply)),
    }
}
