//! A second reading of docs/FORMAT.md: answers for files of every sort, to compare with.
//!
//! Commands: vectors SEED COUNT MOSTBYTES, channels, names, count SEED COUNT, big, selftest.

mod aimed;
mod big;
mod examples;
mod files;
mod random;
mod reader;
mod vectors;

use std::io::Write;
use std::process::ExitCode;

// The command and its numbers.
fn main() -> ExitCode {
    let arguments: Vec<String> = std::env::args().skip(1).collect();
    let number = |place: usize| {
        arguments
            .get(place)
            .and_then(|text| text.parse::<u64>().ok())
    };
    let mut text = String::new();
    let fine = match (
        arguments.first().map(String::as_str),
        number(1),
        number(2),
        number(3),
    ) {
        (Some("vectors"), Some(seed), Some(count), Some(most_bytes)) => {
            vectors::vectors(&mut text, seed, count, most_bytes)
        }
        (Some("channels"), ..) => vectors::channels(&mut text),
        (Some("names"), ..) => vectors::names(&mut text),
        (Some("count"), Some(seed), Some(count), _) => vectors::count(&mut text, seed, count),
        (Some("big"), ..) => big::answers(&mut text),
        (Some("selftest"), ..) => examples::selftest(&mut text),
        _ => usage(&mut text),
    };
    let printed = std::io::stdout().write_all(text.as_bytes()).is_ok();
    if fine && printed {
        ExitCode::SUCCESS
    } else {
        ExitCode::FAILURE
    }
}

// What can be asked.
fn usage(text: &mut String) -> bool {
    text.push_str(
        "vectors SEED COUNT MOSTBYTES\nchannels\nnames\ncount SEED COUNT\nbig\nselftest\n",
    );
    false
}
