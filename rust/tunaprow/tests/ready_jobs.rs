//! The ready jobs of the repository, whose texts and statuses stand beside them.

use std::path::{Path, PathBuf};
use std::{fs, thread};
use tunaprow::{reply, Refusal, Report, Status};

const WORDS: [&str; 6] = ["product", "veil", "explain", "matmul", "circuit", "openings"];

struct Ready {
    name: String,
    word: &'static str,
    job: Vec<u8>,
    text: String,
    status: u8,
}

fn jobs() -> PathBuf {
    Path::new(env!("CARGO_MANIFEST_DIR")).join("../../jobs")
}

/// A job and what stands beside it: its command is the word that its name begins with, if that is not `audit`.
fn ready_job(name: &str) -> Ready {
    let beside = |ending: &str| jobs().join(format!("{name}.{ending}"));
    let status = fs::read_to_string(beside("status")).unwrap_or_else(|_| "0".to_owned());
    Ready {
        name: name.to_owned(),
        word: WORDS.into_iter().find(|word| name.starts_with(word)).unwrap_or("audit"),
        job: fs::read(beside("json")).expect("a job has a file"),
        text: fs::read_to_string(beside("stdout")).expect("a job has a text"),
        status: status.trim().parse().expect("a status is a number"),
    }
}

fn all() -> Vec<Ready> {
    let files = fs::read_dir(jobs()).expect("the repository has ready jobs");
    let names = files.map(|file| file.expect("a file").file_name().into_string().expect("a name is text"));
    let ready: Vec<Ready> = names.filter_map(|name| name.strip_suffix(".stdout").map(ready_job)).collect();
    assert!(ready.len() > 100);
    ready
}

#[test]
fn each_is_answered_as_it_stands() {
    for ready in all() {
        let reply = reply(ready.word, &ready.job);
        assert_eq!(reply.text, ready.text, "{}", ready.name);
        assert_eq!(reply.status.code(), ready.status, "{}", ready.name);
    }
}

#[test]
fn reports_and_refusals_are_displayed_as_they_were_read() {
    let audits: Vec<Ready> = all().into_iter().filter(|ready| ready.word == "audit").collect();
    for ready in &audits {
        let displayed = match ready.status {
            0 | 1 => Report::read(&ready.text).map(|report| report.to_string()),
            _ => Refusal::read(ready.text.trim_end()).map(|refusal| format!("{refusal}\n")),
        };
        assert_eq!(displayed.as_ref(), Some(&ready.text), "{}", ready.name);
    }
    assert!(audits.len() > 40);
}

#[test]
fn threads_call_at_once() {
    let callers: Vec<_> = (0..4)
        .map(|_| {
            thread::spawn(|| {
                for ready in all() {
                    assert_eq!(reply(ready.word, &ready.job).text, ready.text, "{}", ready.name);
                }
            })
        })
        .collect();
    for caller in callers {
        caller.join().expect("each text is the one that stands there");
    }
}

#[test]
fn words_that_are_no_command_are_told_usage() {
    for word in ["", "Audit", "audit ", "audit\0", "make", "\u{fffd}"] {
        let told = reply(word, b"");
        assert_eq!((told.status, told.text.as_str()), (Status::Usage, "usage\n"), "{word:?}");
    }
    for (variables, number, strategy) in [(0, 7, "plain"), (25, 7, "plain"), (3, 65_537, "plain"), (3, 7, "Plain")] {
        assert_eq!(tunaprow::make(variables, number, strategy).status, Status::Usage);
    }
}

#[test]
fn strategies_make_one_report() {
    let plain = tunaprow::make(9, 12_345, "plain");
    assert_eq!(plain.status, Status::Holds);
    assert_eq!(tunaprow::make(9, 12_345, "represented"), plain);
}

#[test]
fn a_long_text_is_told_whole() {
    // 3^11 values stand in a grid of the last of 12 rounds on small values
    let table: Vec<String> = (0..1 << 12).map(|row| (row % 257).to_string()).collect();
    let job = format!(
        r#"{{"field":"65537","challenger":"hash","order":"prefix","bits":0,"table":[{}],"variables":12,
            "groups":[],"batching":1,"mode":{{"build":{{"small-value":12}}}}}}"#,
        table.join(",")
    );
    let told = reply("audit", job.as_bytes());
    assert_eq!(told.status, Status::Holds);
    let report = Report::read(&told.text).expect("a report");
    let sizes: Vec<usize> = report.grids.iter().map(|grid| grid.infinity.len()).collect();
    assert_eq!(sizes, (0..12).map(|round| 3usize.pow(round)).collect::<Vec<_>>());
    assert!(told.text.len() > 65_536 && report.to_string() == told.text);
}
