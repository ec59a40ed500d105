//! The smallest audit with two rounds: a table and a claim on it, whose rounds are built and then handed in with one
//! value changed.

use tunaprow::{audit, Field, Job, Mode, Refusal, Statement};

fn main() -> Result<(), Refusal> {
    let mut job = Job::new(Field::Modulo65537, vec![1, 2, 3, 4]);
    job.statements.push(Statement::Value { point: vec![0, 1], value: 2 });
    let mut proof = audit(&job)?.proof(); // of a build, which holds
    proof.rounds[1][0] += 1;
    job.mode = Mode::Check(Some(proof));
    println!("{}", audit(&job)?.verdict); // verdict refuted
    Ok(())
}
