//! Replies: a status and a text.

use crate::border;

/// The room that a reply is given at first. A longer one is asked for a second time, which does the work again.
const ROOM: usize = 65_536;

/// How a reply ends.
#[derive(Clone, Copy, Debug, PartialEq, Eq)]
pub enum Status {
    /// 0: a report that holds, or what is told without a verdict.
    Holds,
    /// 1: a report that is refuted, or that names a lucky challenge.
    NotProved,
    /// 2: the word is no command, or no job can be made of these numbers.
    Usage,
    /// 3: the job is refused.
    JobRefused,
    /// 4: the job's proof is refused.
    ProofRefused,
    /// 5: a build finds no witness for a round.
    NoWitness,
    /// 8: out of memory.
    OutOfMemory,
}

impl Status {
    /// The status of a call whose output had room.
    pub(crate) fn of_code(code: u8) -> Status {
        match code {
            0 => Status::Holds,
            1 => Status::NotProved,
            2 => Status::Usage,
            3 => Status::JobRefused,
            4 => Status::ProofRefused,
            5 => Status::NoWitness,
            8 => Status::OutOfMemory,
            other => unreachable!("the library's statuses are proved, and {other} is none of them"),
        }
    }

    /// The number that the program ends with.
    pub fn code(self) -> u8 {
        match self {
            Status::Holds => 0,
            Status::NotProved => 1,
            Status::Usage => 2,
            Status::JobRefused => 3,
            Status::ProofRefused => 4,
            Status::NoWitness => 5,
            Status::OutOfMemory => 8,
        }
    }
}

/// What a command answers.
#[derive(Clone, Debug, PartialEq, Eq)]
pub struct Reply {
    /// How it ends.
    pub status: Status,
    /// The whole text, in lines that each end with a line feed. It is empty where memory is out.
    pub text: String,
}

/// The reply to a command and the bytes of a job, as the program writes it.
///
/// `word` is one of `audit`, `product`, `veil`, `explain`, `matmul`, `circuit` and `openings`; another one is answered
/// `usage`. A job of more than 67,108,864 bytes is refused.
///
/// ```
/// use tunaprow::{reply, Status};
///
/// let job = br#"{"field": "65537", "challenger": {"draws": [5], "witnesses": []}, "bits": 0,
///                "tables": [[1, 2], [3, 4]], "mode": "build"}"#;
/// let product = reply("product", job);
/// assert_eq!(product.status, Status::Holds);
/// assert_eq!(product.text.lines().next(), Some("claim 11"));
/// assert_eq!(reply("product", b"[").text, "refused bad-json\n");
/// ```
pub fn reply(word: &str, job: &[u8]) -> Reply {
    told(|out, written, needed| {
        // SAFETY: all addresses are those of references or slices, so that none is null and each is valid for its
        // length; `out` and the two sizes are borrowed for this call alone; and the bytes of `out` are initialised.
        unsafe {
            border::tunaprow_reply(
                word.as_ptr(),
                word.len(),
                job.as_ptr(),
                job.len(),
                out.as_mut_ptr(),
                out.len(),
                written,
                needed,
            )
        }
    })
}

/// Makes a job of 2^`variables` entries out of a number, builds its rounds, and reports on them in short.
///
/// `variables` is 1 to 24, `number` at most 65,536, and `strategy` one of `plain`, `represented` and `small-value`;
/// else the answer is `usage`.
///
/// ```
/// let made = tunaprow::make(10, 7, "plain");
/// assert!(made.text.starts_with("rows 1024\n") && made.text.ends_with("verdict holds\n"));
/// ```
pub fn make(variables: u64, number: u64, strategy: &str) -> Reply {
    told(|out, written, needed| {
        // SAFETY: as in `reply`.
        unsafe {
            border::tunaprow_make(
                variables,
                number,
                strategy.as_ptr(),
                strategy.len(),
                out.as_mut_ptr(),
                out.len(),
                written,
                needed,
            )
        }
    })
}

/// The status of an output that is too short.
const SHORT: u8 = 7;

/// What a call leaves, with as much room as it needs.
fn told(call: impl Fn(&mut [u8], &mut usize, &mut usize) -> u8) -> Reply {
    let mut out = vec![0; ROOM];
    let (mut written, mut needed) = (0, 0);
    let mut code = call(&mut out, &mut written, &mut needed);
    if code == SHORT {
        out = vec![0; needed];
        code = call(&mut out, &mut written, &mut needed);
    }
    out.truncate(written);
    Reply { status: Status::of_code(code), text: String::from_utf8(out).expect("the library's texts are ASCII") }
}
