//! calls [SEED [COUNT]]: compares the static library of the C calls, call by call, with the
//! outside implementation: all aimed cases, files at the limit and over it, then random and damaged
//! files up to COUNT. It ends at the first difference, and fails too when some answer occurred too
//! seldom for the run to say much.

#[allow(dead_code)]
#[path = "../outside/aimed.rs"]
mod aimed;
mod answers;
#[allow(dead_code)]
#[path = "../outside/big.rs"]
mod big;
mod channels;
mod compare;
#[allow(dead_code)]
#[path = "../outside/files.rs"]
mod files;
mod finds;
mod interface;
mod large;
#[allow(dead_code)]
#[path = "../outside/random.rs"]
mod random;
#[allow(dead_code)]
#[path = "../outside/reader.rs"]
mod reader;
mod tally;
mod visits;
mod walks;

use std::fmt::Write;
use std::process::ExitCode;
use std::time::Instant;

use compare::{Comparison, Difference, File};
use files::{set_word, word_at};
use reader::MOST_BYTES;

const DEFAULT_SEED: u64 = 20_100_115;
const DEFAULT_COUNT: u64 = 200_000;
/// How many files over the limit, and by how much at most.
const OVER_LIMIT: usize = 64;
const MOST_OVER: usize = 4_096;
/// One random file in so many has events that come again.
const REPEATING: u64 = 16;
/// A file longer than this is shown by its first bytes.
const SHOWN_WHOLE: usize = 65_536;
const SHOWN: usize = 512;

// The seed and the count, as far as they are given.
fn arguments() -> Option<(u64, u64)> {
    let mut numbers = [DEFAULT_SEED, DEFAULT_COUNT];
    let mut given = std::env::args().skip(1);
    for number in &mut numbers {
        match given.next() {
            Some(text) => *number = text.parse().ok()?,
            None => break,
        }
    }
    match given.next() {
        Some(_) => None,
        None => Some((numbers[0], numbers[1])),
    }
}

fn main() -> ExitCode {
    let (seed, count) = match arguments() {
        Some(numbers) => numbers,
        None => {
            eprintln!("usage: calls [SEED [COUNT]]");
            return ExitCode::FAILURE;
        }
    };
    println!("calls: seed {seed}, {count} files");
    let started = Instant::now();
    let mut comparison = Comparison::new(seed);
    let files = match run(&mut comparison, count) {
        Ok(files) => files,
        Err(report) => {
            print!("{report}");
            println!(
                "calls: FAILED: the archive and the outside implementation differ (seed {seed})"
            );
            return ExitCode::FAILURE;
        }
    };
    print!("{}", comparison.tally.lines());
    let seldom = comparison.tally.too_seldom();
    if !seldom.is_empty() {
        println!("calls: FAILED: too seldom: {}", seldom.join("; "));
        return ExitCode::FAILURE;
    }
    let calls = comparison.tally.calls();
    let seconds = started.elapsed().as_secs_f64();
    println!("calls: {files} files, {calls} calls, no difference ({seconds:.1} s)");
    ExitCode::SUCCESS
}

// The whole comparison: the number of files, or what to print about the first difference.
fn run(comparison: &mut Comparison, count: u64) -> Result<u64, String> {
    channels::all(comparison).map_err(|found| report("no file", &[], &found))?;
    let mut files = 0;
    for case in aimed::aimed() {
        let named = || format!("aimed case {}", case.name);
        let compared = comparison.file(&case.bytes);
        compared.map_err(|found| report(&named(), &case.bytes, &found))?;
        files += 1;
    }
    for (name, make) in large::LARGE {
        let bytes = make();
        let compared = comparison.file(&bytes);
        compared.map_err(|found| report(name, &bytes, &found))?;
        files += 1;
    }
    files += over_limit(comparison)?;
    let names = channels::names();
    while files < count {
        let bytes = match comparison.random.below(REPEATING) {
            0 => finds::repeating(&mut comparison.random),
            _ => files::random_file(&mut comparison.random),
        };
        let compared = comparison
            .file(&bytes)
            .and_then(|()| channels::some(comparison, &names));
        compared.map_err(|found| report(&format!("file number {files}"), &bytes, &found))?;
        files += 1;
    }
    Ok(files)
}

// Files over the limit, by one byte and by more, some of them damaged too: parts of one buffer.
fn over_limit(comparison: &mut Comparison) -> Result<u64, String> {
    let mut bytes = big::full_of_traces();
    bytes.resize(MOST_BYTES + MOST_OVER, 0);
    for turn in 0..OVER_LIMIT {
        let random = &mut comparison.random;
        let more = match turn {
            0..=7 => turn + 1,
            _ => random.between(1, MOST_OVER as u64) as usize,
        };
        let changed = 4 * random.below(32) as usize;
        let value = match random.below(3) {
            0 => random.word(),
            _ => random.pick(&[0, 7, 0x0102_0304, 0xA980_0007]),
        };
        let held = word_at(&bytes, changed).unwrap_or(0);
        if turn % 2 == 1 {
            set_word(&mut bytes, changed, value);
        }
        let file = &bytes[..MOST_BYTES + more];
        let compared = comparison.calls(File {
            lent: file,
            copy: file,
        });
        compared.map_err(|found| report(&format!("{more} over the limit"), file, &found))?;
        set_word(&mut bytes, changed, held);
    }
    Ok(OVER_LIMIT as u64)
}

// A difference with its file in hex.
fn report(name: &str, file: &[u8], found: &Difference) -> String {
    let mut text = format!("{name}, {} bytes:\n", file.len());
    let shown = if file.len() <= SHOWN_WHOLE {
        file.len()
    } else {
        SHOWN
    };
    for byte in &file[..shown] {
        let _ = write!(text, "{byte:02x}");
    }
    if shown < file.len() {
        text.push_str(" and so on");
    }
    let _ = writeln!(text, "\ncall     {}", found.call);
    let _ = writeln!(text, "outside  {}", found.outside);
    let _ = writeln!(text, "archive  {}", found.archive);
    text
}
