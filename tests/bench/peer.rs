//! The C reader (peer.c), built once by each compiler that is at hand; and what its times rest on:
//! before anything is timed its answers are held against the outside implementation's.

use super::aimed::aimed;
use super::files::random_file;
use super::large::LARGE;
use super::random::Random;
use super::reader::{table, Table, MOST_BYTES};

/// Table as C has it: the exports' call and the peers' are one type.
pub type TableCall = unsafe extern "C" fn(
    file: *const u8,
    length: usize,
    rows: *mut u32,
    capacity: usize,
    count: *mut u64,
    place: *mut u64,
) -> u32;

macro_rules! tables {
    ($($(#[$when:meta])? $name:ident)*) => {
        extern "C" {
            $($(#[$when])? pub fn $name(
                file: *const u8,
                length: usize,
                rows: *mut u32,
                capacity: usize,
                count: *mut u64,
                place: *mut u64,
            ) -> u32;)*
        }
    };
}

tables! {
    dwj_table
    peer_cc
    #[cfg(peer_clang)] peer_clang
    #[cfg(peer_same)] peer_same
}

/// The C reader as one compiler built it: one of this machine's, or the one that built the exports.
pub struct Peer {
    pub compiler: &'static str,
    pub of_machine: bool,
    pub call: TableCall,
}

pub const PEERS: &[Peer] = &[
    Peer {
        compiler: "cc",
        of_machine: true,
        call: peer_cc,
    },
    #[cfg(peer_clang)]
    Peer {
        compiler: "clang",
        of_machine: true,
        call: peer_clang,
    },
    #[cfg(peer_same)]
    Peer {
        compiler: "same clang",
        of_machine: false,
        call: peer_same,
    },
];

const SEED: u64 = 20_100_115;
const RANDOM_FILES: usize = 20_000;
/// Numbers before and after the lent rows, and what all of them hold before a call.
const MARGIN: usize = 8;
const PATTERN: u32 = 0xA5C3_9617;

/// A call's number, count and place.
pub fn answer(call: TableCall, file: &[u8], rows: &mut [u32]) -> (u32, u64, u64) {
    let (mut count, mut place) = (u64::MAX, u64::MAX);
    let number = unsafe {
        call(
            file.as_ptr(),
            file.len(),
            rows.as_mut_ptr(),
            rows.len(),
            &mut count,
            &mut place,
        )
    };
    (number, count, place)
}

// One call with room for so many numbers: the answer; of an accepted file every row, and nothing
// stored behind them; of any other nothing stored outside the room.
fn compare(call: TableCall, file: &[u8], capacity: usize, whole: &Table) -> Result<(), String> {
    let needed = 6 * whole.rows.len();
    let number = match whole.number {
        0 if needed > capacity => 12,
        number => number,
    };
    let expected = (number, u64::from(whole.count), whole.place);
    let mut lent = vec![PATTERN; capacity + 2 * MARGIN];
    let given = answer(call, file, &mut lent[MARGIN..MARGIN + capacity]);
    if given != expected {
        return Err(format!(
            "number, count and place {given:?} for {expected:?}"
        ));
    }
    let stored = if number == 0 { needed } else { capacity };
    let (before, rows) = lent.split_at(MARGIN);
    let (rows, after) = rows.split_at(stored);
    if number == 0 && !rows.chunks_exact(6).eq(whole.rows.iter()) {
        return Err("another row".into());
    }
    if before.iter().chain(after).any(|held| *held != PATTERN) {
        return Err("numbers stored where none belong".into());
    }
    Ok(())
}

// A file through every peer: room for exactly all rows, for more, for too few and for none; refused,
// for some and for none. Gives the outside implementation's number.
fn compare_file(random: &mut Random, file: &[u8]) -> Result<u32, String> {
    let whole = table(file);
    let needed = 6 * u64::from(whole.count);
    let capacities = match whole.number {
        0 => vec![
            needed,
            needed + random.between(1, 24),
            needed - 1,
            random.below(needed),
            0,
        ],
        _ => vec![random.below(96), 0],
    };
    for peer in PEERS {
        for capacity in &capacities {
            let compared = compare(peer.call, file, *capacity as usize, &whole);
            compared.map_err(|found| {
                format!("{}, room for {capacity} numbers: {found}", peer.compiler)
            })?;
        }
    }
    Ok(whole.number)
}

/// The peers and the outside implementation agree on files of every sort; gives how many files there
/// were for each number. The answers for rows that don't fit are had from accepted files.
pub fn hold_to_outside() -> Result<[usize; 12], String> {
    let mut random = Random::new(SEED);
    let mut numbers = [0; 12];
    let mut hold = |random: &mut Random, name: &str, file: &[u8]| {
        let compared = compare_file(random, file);
        let number = compared.map_err(|found| format!("{name}, {} bytes: {found}", file.len()))?;
        numbers[number as usize] += 1;
        Ok::<(), String>(())
    };
    for case in aimed() {
        hold(&mut random, &case.name, &case.bytes)?;
    }
    for (name, make) in LARGE {
        hold(&mut random, name, &make())?;
    }
    hold(
        &mut random,
        "one byte over the limit",
        &vec![0; MOST_BYTES + 1],
    )?;
    for turn in 0..RANDOM_FILES {
        let file = random_file(&mut random);
        hold(&mut random, &format!("random file {turn}"), &file)?;
    }
    match numbers.iter().position(|files| *files == 0) {
        Some(number) => Err(format!("no file is answered with {number}")),
        None => Ok(numbers),
    }
}
