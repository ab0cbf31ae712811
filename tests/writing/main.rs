//! writing [SEED [COUNT]]: compares the writers of the static library, call by call, with the outside
//! implementation: all aimed calls, outputs over the limit, files with long parts, files at the limit;
//! then COUNT rounds of random calls, trees with and without faults, and files written again. It ends
//! at the first difference, and fails too when some answer occurred too seldom for the run to say much.

#[allow(dead_code)]
#[path = "../outside/aimed.rs"]
mod aimed;
#[allow(dead_code)]
#[path = "../outside/big.rs"]
mod big;
mod compare;
#[allow(dead_code)]
#[path = "../outside/files.rs"]
mod files;
mod interface;
#[allow(dead_code)]
#[path = "../calls/large.rs"]
mod large;
#[allow(dead_code)]
#[path = "../outside/random.rs"]
mod random;
#[allow(dead_code)]
#[path = "../outside/reader.rs"]
mod reader;
#[allow(dead_code)]
#[path = "../calls/interface.rs"]
mod reading;
mod tally;
#[allow(dead_code)]
#[path = "../outside/trees.rs"]
mod trees;
#[allow(dead_code)]
#[path = "../outside/writer.rs"]
mod writer;

use std::collections::BTreeMap;
use std::process::ExitCode;
use std::time::Instant;

use compare::{fill, Around, Comparison, Difference, Output, LINE};
use random::Random;
use reader::MOST_BYTES;
use trees::{
    aimed_calls, calls, long_calls, part, random_call, random_tree, tree_length, valid_tree, Call,
};

const DEFAULT_SEED: u64 = 20_100_115;
const DEFAULT_ROUNDS: u64 = 40_000;
/// How many random calls, and files written again, a round has.
const CALLS_IN_ROUND: u64 = 4;
const FILES_IN_ROUND: u64 = 3;
/// How often a file with a long part is written again.
const TIMES_AGAIN: usize = 20;
/// How often each sort of call is made over an output longer than the limit, and by how much it is.
const OVER_LIMIT: usize = 120;
const MOST_OVER: usize = 4_096;

// The seed and the count of rounds, as far as they are given.
fn arguments() -> Option<(u64, u64)> {
    let mut numbers = [DEFAULT_SEED, DEFAULT_ROUNDS];
    let mut given = std::env::args().skip(1);
    for number in &mut numbers {
        match given.next() {
            Some(text) => *number = text.parse().ok()?,
            None => break,
        }
    }
    match given.next() {
        Some(_) => None,
        None => Some((numbers[0], numbers[1])),
    }
}

fn main() -> ExitCode {
    let (seed, rounds) = match arguments() {
        Some(numbers) => numbers,
        None => {
            eprintln!("usage: writing [SEED [COUNT]]");
            return ExitCode::FAILURE;
        }
    };
    println!("writing: seed {seed}, {rounds} rounds");
    let started = Instant::now();
    let mut comparison = Comparison::new(seed);
    if let Err(Difference(found)) = run(&mut comparison, rounds) {
        println!("{found}");
        println!(
            "writing: FAILED: the archive and the outside implementation differ (seed {seed})"
        );
        return ExitCode::FAILURE;
    }
    print!("{}", comparison.tally.lines());
    let seldom = comparison.tally.too_seldom();
    if !seldom.is_empty() {
        println!("writing: FAILED: too seldom: {}", seldom.join("; "));
        return ExitCode::FAILURE;
    }
    let (calls, restored) = (comparison.tally.calls(), comparison.tally.restored);
    let seconds = started.elapsed().as_secs_f64();
    println!("writing: {calls} calls, {restored} files assembled, accepted and restored, no difference ({seconds:.1} s)");
    ExitCode::SUCCESS
}

// The whole comparison, up to the first difference.
fn run(comparison: &mut Comparison, rounds: u64) -> Result<(), Difference> {
    let aimed = aimed_calls();
    for (call, length) in &aimed {
        for around in [Around::Filler, Around::Pattern] {
            comparison.single(call, *length, around)?.ok();
        }
    }
    over_limit(comparison, &aimed)?;
    for (_, make) in large::LARGE {
        file_again(comparison, &make())?;
    }
    long_files(comparison)?;
    file_at_limit(comparison)?;
    for _ in 0..rounds {
        for _ in 0..CALLS_IN_ROUND {
            let (call, length) = random_call(&mut comparison.random);
            comparison.single(&call, length, Around::Pattern)?.ok();
        }
        for _ in 0..FILES_IN_ROUND {
            let file = files::random_file(&mut comparison.random);
            file_again(comparison, &file)?;
        }
        faulty_tree(comparison)?;
        sound_tree(comparison)?;
    }
    Ok(())
}

// Calls of every sort over outputs longer than the limit: each is refused, and the one output that
// all of them are lent is compared at the end.
fn over_limit(comparison: &mut Comparison, aimed: &[(Call, usize)]) -> Result<(), Difference> {
    let mut random = Random::new(comparison.random.draw());
    let mut out = vec![0; MOST_BYTES + MOST_OVER + LINE];
    fill(&mut out, random.draw());
    let before = out.clone();
    let mut made = BTreeMap::new();
    while made.len() < 12 || made.values().any(|times| *times < OVER_LIMIT) {
        let chosen = random.below(aimed.len() as u64) as usize;
        let (call, _) = &aimed[chosen];
        let times = made.entry(tally::name(call)).or_insert(0);
        if *times == OVER_LIMIT {
            continue;
        }
        *times += 1;
        let length = MOST_BYTES + random.between(1, MOST_OVER as u64) as usize;
        let start = random.below(LINE as u64) as usize;
        comparison.refused_over_limit(call, &mut out[start..start + length])?;
    }
    if out == before {
        Ok(())
    } else {
        let text = "a byte of an output longer than the limit changed";
        Err(Difference(String::from(text)))
    }
}

// A file written again: into an output of its length, a longer one, and one that is a byte short.
fn file_again(comparison: &mut Comparison, file: &[u8]) -> Result<(), Difference> {
    let length = file.len();
    let call = Call::Rewrite {
        file: file.to_vec(),
    };
    let more = comparison.random.between(1, 24) as usize;
    for room in [length, length + more, length.saturating_sub(1)] {
        let answer = comparison.single(&call, room, Around::Pattern)?;
        if answer.is_ok() && comparison.output.bytes()[..length] != *file {
            let text = format!("a file of {length} bytes, written again, is another");
            return Err(Difference(text));
        }
    }
    Ok(())
}

// An output of a pattern, for several calls.
fn patterned(comparison: &mut Comparison, length: usize) -> Output {
    let mut before = vec![0; length];
    fill(&mut before, comparison.random.draw());
    let mut output = Output::default();
    output.hold(&mut comparison.random, &before);
    output
}

// Every call of a tree with faults or without, over one output that is long enough or too short;
// then the output, a file or not, written again.
fn faulty_tree(comparison: &mut Comparison) -> Result<(), Difference> {
    let tree = random_tree(&mut comparison.random);
    let missing = comparison.random.below(60).saturating_sub(50) as usize * 9;
    let length = tree_length(&tree).saturating_sub(missing);
    let mut output = patterned(comparison, length);
    for call in calls(&tree) {
        comparison.call(&call, &mut output)?.ok();
    }
    file_again(comparison, output.bytes())
}

// A tree without a fault: every call is accepted, and the file is accepted and restored.
fn sound_tree(comparison: &mut Comparison) -> Result<(), Difference> {
    let tree = valid_tree(&mut comparison.random);
    let length = tree_length(&tree);
    let more = comparison.random.below(9) as usize;
    let mut output = patterned(comparison, length + more);
    let mut end = 0;
    for call in calls(&tree) {
        match comparison.call(&call, &mut output)? {
            Ok(next) => end = next,
            Err(_) => return Err(Difference(format!("refused in a sound tree: {call:?}"))),
        }
    }
    if end != length {
        let text = format!("a sound tree of {length} bytes ends at {end}");
        return Err(Difference(text));
    }
    assembled(comparison, &output.bytes()[..length])
}

// A file that the archive's writers assembled: both readers accept it, and Rewrite restores it.
fn assembled(comparison: &mut Comparison, file: &[u8]) -> Result<(), Difference> {
    let expected = reader::table(file);
    let mut rows = vec![0; 6 * expected.rows.len()];
    let (mut count, mut place) = (0, 0);
    let number = reading::table(file, &mut rows, &mut count, &mut place);
    let rows_agree = rows.chunks_exact(6).eq(expected.rows.iter());
    if expected.number != 0 || number != 0 || !rows_agree {
        let text = format!(
            "an assembled file: outside {}, archive {number}, rows alike: {rows_agree}",
            expected.number
        );
        return Err(Difference(text));
    }
    file_again(comparison, file)?;
    comparison.tally.restored += 1;
    Ok(())
}

// Files of one event with a long trace or history, each written again several times: the file and the output start at any
// byte of a line.
fn long_files(comparison: &mut Comparison) -> Result<(), Difference> {
    for call in long_calls() {
        let end = 56 + call.size();
        let mut file = vec![0; end];
        let header = Call::Header { major: 1, minor: 0 };
        let event = closing(16, end, Some([0, 0, 0]));
        for call in [
            header,
            closing(8, 16, None),
            administrative(24),
            call.at(56),
            event,
        ] {
            if trees::perform(&call, &mut file).is_err() {
                let text = format!("refused outside, in a file of one event: {call:?}");
                return Err(Difference(text));
            }
        }
        for _ in 0..TIMES_AGAIN {
            file_again(comparison, &file)?;
        }
    }
    Ok(())
}

// A file of exactly the limit: traces of the most samples, and a history that takes the rest.
fn file_at_limit(comparison: &mut Comparison) -> Result<(), Difference> {
    let mut output = patterned(comparison, MOST_BYTES);
    let mut place = 24;
    let mut first = vec![
        Call::Header { major: 9, minor: 8 },
        closing(8, 16, None),
        administrative(place),
    ];
    place += 32;
    while MOST_BYTES - place > 70_000 {
        first.push(longest_trace(place));
        place += 56 + 65_536;
    }
    let times = (MOST_BYTES - place - 24) / 8;
    let mut veto_times = part(8 * times);
    let veto_masks = veto_times.split_off(4 * times);
    first.push(Call::History {
        place,
        nvt: times as u32,
        veto_times,
        nvw: 1,
        veto_masks,
        ntt: 0,
        trigger_times: Vec::new(),
        ntw: 0,
        trigger_masks: Vec::new(),
    });
    first.push(closing(16, MOST_BYTES, Some([2, 6, 0xA])));
    for call in first {
        if comparison.call(&call, &mut output)?.is_err() {
            let text = "refused in a file of exactly the limit";
            return Err(Difference(String::from(text)));
        }
    }
    assembled(comparison, output.bytes())
}

// A configuration's closing, or that of an event with class, category and type.
fn closing(place: usize, end: usize, event: Option<[u32; 3]>) -> Call {
    let contents = Vec::new();
    match event {
        None => Call::CloseConfiguration {
            place,
            end,
            contents,
        },
        Some([class, category, event_type]) => Call::CloseEvent {
            place,
            end,
            class,
            category,
            event_type,
            contents,
        },
    }
}

// P14's administrative record.
fn administrative(place: usize) -> Call {
    Call::Administrative {
        place,
        series_date: 1_100_115,
        series_time: 1_630,
        event_number: 7,
        event_time: 1_263_573_000,
        since_last: 0,
        live: 0,
    }
}

// A trace of the most samples.
fn longest_trace(place: usize) -> Call {
    Call::Trace {
        place,
        base_address: 1,
        channel: 8,
        code: 11_017_006,
        t0: -1,
        delta_t: 1,
        n: 32_768,
        samples: part(65_536),
    }
}
