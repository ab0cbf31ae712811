//! The calls that need no file: a code's channel, a name's code, a ZIP of a TLB word.

use super::answers;
use super::compare::{alike, Comparison, Difference};
use super::interface;
use super::reader::{channel_of, code_of, zip};

/// Detector types: all that are listed and their neighbours, then some that lie apart or that
/// look like a listed one when bits are lost.
const TYPES: [u32; 22] = [
    0, 1, 2, 3, 4, 5, 6, 7, 8, 9, 10, 11, 12, 13, 255, 266, 267, 999, 1_000, 1_010, 4_106, 4_294,
];
/// Detector numbers, allowed and not.
const NUMBERS: [u32; 12] = [
    0,
    1,
    17,
    500,
    999,
    1_000,
    1_001,
    1_017,
    65_536,
    1_000_000,
    0x7FFF_FFFF,
    0xFFFF_FFFF,
];
/// Names that no type has, besides changed ones.
const WRONG_NAMES: [&str; 20] = [
    "", "q", "qi", "Qo", "Q0", "pa", "Pa", "veto", "VETO", "QIs1", "P", "V", "PE", "QI2", "PAS3",
    "PAS", "PAS11", "Veto1", " QI", "\u{fc}",
];

/// Every channel of every type, every name with every type, every ZIP; then names of any length.
pub fn all(comparison: &mut Comparison) -> Result<(), Difference> {
    for detector_type in TYPES {
        for number in [0, 1, 17, 500, 998, 999] {
            for channel in 0..1_000 {
                let code = u64::from(detector_type) * 1_000_000 + number * 1_000 + channel;
                if let Ok(code) = u32::try_from(code) {
                    one_channel(comparison, code)?;
                }
            }
        }
    }
    for code in (u32::MAX - 5_000)..=u32::MAX {
        one_channel(comparison, code)?;
    }
    let names = names();
    for detector_type in TYPES {
        for number in NUMBERS {
            for name in &names {
                one_code(comparison, detector_type, number, name)?;
            }
        }
    }
    for bit in 0..32 {
        for asked in (0..=64)
            .chain(250..=270)
            .chain([1 << 16, 1 << 31, u32::MAX])
        {
            one_zip(comparison, 1 << bit, asked)?;
            one_zip(comparison, !(1 << bit), asked)?;
        }
    }
    Ok(())
}

/// A few calls with random arguments.
pub fn some(comparison: &mut Comparison, names: &[Vec<u8>]) -> Result<(), Difference> {
    let random = &mut comparison.random;
    let detector_type = random.pick(&TYPES);
    let listed =
        u64::from(detector_type) * 1_000_000 + random.below(1_000) * 1_000 + random.below(14);
    let number = match random.below(3) {
        0 => random.pick(&NUMBERS),
        1 => random.below(1_100) as u32,
        _ => random.word(),
    };
    let mut name = names[random.below(names.len() as u64) as usize].clone();
    if random.once_in(4) && !name.is_empty() {
        let place = random.below(name.len() as u64) as usize;
        name[place] = random.below(256) as u8;
    }
    let any_type = random.word();
    let any_code = random.word();
    let any_word = random.word();
    let any_zip = if random.once_in(4) {
        random.word()
    } else {
        random.below(34) as u32
    };
    one_channel(comparison, listed as u32)?;
    one_channel(comparison, any_code)?;
    if let Ok((_, listed_number, analysis, _)) = channel_of(listed as u32) {
        one_code(comparison, detector_type, listed_number, analysis)?;
        one_code(comparison, detector_type, number, analysis)?;
    }
    one_code(comparison, detector_type, number, &name)?;
    one_code(comparison, any_type, number, &name)?;
    one_zip(comparison, any_word, any_zip)
}

/// Every name, analysis or cold, that some type has; each of them cut, and longer by a zero, by a
/// letter, and by so much that the length's low byte or low half is the same; and wrong names.
pub fn names() -> Vec<Vec<u8>> {
    let mut listed: Vec<Vec<u8>> = Vec::new();
    for detector_type in 0..=13 {
        for channel in 0..20 {
            if let Ok((_, _, analysis, cold)) = channel_of(detector_type * 1_000_000 + channel) {
                for name in [analysis, cold] {
                    if !listed.iter().any(|held| held == name) {
                        listed.push(name.to_vec());
                    }
                }
            }
        }
    }
    let mut names = listed.clone();
    names.extend(WRONG_NAMES.iter().map(|name| name.as_bytes().to_vec()));
    for name in &listed {
        names.push(name[..name.len() - 1].to_vec());
        names.push(name[1..].to_vec());
        for (more, byte) in [(1, 0), (1, b'1'), (256, b'x'), (256, 0)] {
            let mut longer = name.clone();
            longer.resize(name.len() + more, byte);
            names.push(longer);
        }
    }
    for name in [&b"QIS1"[..], b"Q", b""] {
        let mut longest = name.to_vec();
        longest.resize(name.len() + 65_536, 0);
        names.push(longest);
    }
    names
}

// A code's channel: its numbers and names, or 10 and all as it was.
fn one_channel(comparison: &mut Comparison, code: u32) -> Result<(), Difference> {
    let pattern = comparison.random.word();
    let before = (
        [pattern, !pattern, pattern ^ 1, !pattern ^ 1],
        pattern.to_le_bytes(),
        (!pattern).to_le_bytes(),
    );
    let answer = answers::channel(code);
    let number = if answer.is_some() { 0 } else { 10 };
    let expected = (number, answer.unwrap_or(before));
    let (mut numbers, mut analysis, mut cold) = before;
    let given = interface::channel(code, &mut numbers, &mut analysis, &mut cold);
    let left = (given, (numbers, analysis, cold));
    alike(&expected, &left, || format!("dwj_channel of {code}"))?;
    comparison.tally.channel[usize::from(given != 0)] += 1;
    Ok(())
}

// A name's code, or 10 and the code as it was.
fn one_code(
    comparison: &mut Comparison,
    detector_type: u32,
    number: u32,
    name: &[u8],
) -> Result<(), Difference> {
    let pattern = comparison.random.word();
    let expected = match code_of(detector_type, number, name) {
        Ok(code) => (0, code),
        Err(()) => (10, pattern),
    };
    let mut code = pattern;
    let given = interface::code(detector_type, number, name, &mut code);
    alike(&expected, &(given, code), || {
        let shown = String::from_utf8_lossy(&name[..name.len().min(40)]);
        let length = name.len();
        format!(
            "dwj_code of type {detector_type}, number {number}, name {shown:?} ({length} bytes)"
        )
    })?;
    comparison.tally.code[usize::from(given != 0)] += 1;
    Ok(())
}

// Whether a TLB word has a ZIP.
fn one_zip(comparison: &mut Comparison, word: u32, asked: u32) -> Result<(), Difference> {
    let given = interface::zip(word, asked);
    alike(&u32::from(zip(word, asked)), &given, || {
        format!("dwj_zip of {word:#x}, ZIP {asked}")
    })?;
    comparison.tally.zip[usize::from(given == 0)] += 1;
    Ok(())
}
