// equations DIR: turns the outside implementation's answers (standard input, as `outside vectors`, `channels` and `names` print them)
// into modules of equations about the definitions, DIR/specs/*.antt. The check of those modules compares every answer by computation.
use std::fmt::Write as _;
use std::fs;
use std::io::{self, BufRead};

const CASES_IN_A_MODULE: usize = 100;
const NAMES_IN_A_CASE: usize = 50;

const HEADER: &str = "\
-- Generated: what the outside implementation answers, as equations.
use Rattle.std.specs.Prelude.{ℕ, ◌≡◌, List, [], ◌∷◌, ◌++◌, pos, negsuc, Ok}
use Rattle.std.specs.Float.{binary64}
use Rattle.std.specs.Float.Ieee.{div, of_int, of_bits}
use mathlib.Core.Path.{refl}
use Rattle.theory.specs.declared.Order.TheVariants.{Little}
use Rattle.theory.specs.Tests.{bad}
use Rattle.note.specs.Faults.{res_of}
use Rattle.note.specs.Words.{words}
use Rattle.note.specs.Answers.{Given, whole, float, accepted, refused}
use Rattle.note.specs.Channels.{ascii, name_of, channel_answer, code_answer}
use Rattle.note.specs.Listing.{listing}
use Rattle.note.specs.Calls.{record_at, setting_at, sample_at, find_at}
use Rattle.note.proofs.Computing.{computing}
";

/// One file with its answers, as they were printed.
struct Case {
    name: String,
    bytes: Vec<u8>,
    list: Vec<Vec<String>>,
    rest: Vec<Vec<String>>,
}

fn bytes_of(hex: &str) -> Vec<u8> {
    (0..hex.len() / 2)
        .map(|i| u8::from_str_radix(&hex[2 * i..2 * i + 2], 16).expect("two hex digits"))
        .collect()
}

/// A list of natural numbers.
fn naturals(items: &[String]) -> String {
    let mut text = String::new();
    for item in items {
        write!(text, "{} ∷ ", item).unwrap();
    }
    text + "[]"
}

/// The bytes as whole words, and what is left as bytes.
fn file_text(bytes: &[u8]) -> String {
    let words: Vec<String> = bytes
        .chunks_exact(4)
        .map(|w| u32::from_le_bytes([w[0], w[1], w[2], w[3]]).to_string())
        .collect();
    let left: Vec<String> = bytes.chunks_exact(4).remainder().iter().map(|b| b.to_string()).collect();
    format!("words Little ({}) ++ ({})", naturals(&words), naturals(&left))
}

/// A whole number as a value; a signed one where it begins with a minus.
fn value(item: &str) -> String {
    match item.strip_prefix('-') {
        None => format!("whole (pos {})", item),
        Some(digits) => format!("whole (negsuc {})", digits.parse::<u64>().expect("digits") - 1),
    }
}

fn accepted(values: &[String]) -> String {
    let mut text = String::from("accepted (");
    for item in values {
        write!(text, "{} ∷ ", item).unwrap();
    }
    text + "[])"
}

fn refused(number: &str, place: &str) -> String {
    format!("refused {} {}", number, place)
}

/// The answer for a code that names a channel.
fn channel(kind: &str, detector: &str, analysis: &str, cold: &str) -> String {
    let name = |n: &str| format!("name_of (ascii \"{}\")", n);
    format!(
        "Ok (record {{ «detector_type» = {}; detector = {}; analysis = {}; cold = {} }})",
        kind,
        detector,
        name(analysis),
        name(cold)
    )
}

/// Which fields of a setting are floats: gain, both biases and lockpoint of a phonon entry, the gain of a charge entry.
fn is_float(kind: &str, field: usize) -> bool {
    match kind {
        "3" => (3..=6).contains(&field),
        _ => field == 3,
    }
}

/// The equation of one answer line.
fn equation(line: &[String], name: &str) -> String {
    let given = |at: usize| -> String {
        if line[at] == "0" {
            accepted(&line[at + 1..].iter().map(|i| value(i)).collect::<Vec<_>>())
        } else {
            refused(&line[at], &line[at + 1])
        }
    };
    match line[0].as_str() {
        "record" => format!("(record_at Little {} {} ≡ {})", name, line[1], given(2)),
        "sample" => format!("(sample_at Little {} {} {} ≡ {})", name, line[1], line[2], given(3)),
        "setting" if line[2] == "0" => {
            let fields: Vec<String> = line[3..]
                .iter()
                .enumerate()
                .map(|(i, f)| if is_float(&line[3], i) { format!("float (of_bits binary64 {})", f) } else { value(f) })
                .collect();
            format!("(setting_at Little {} {} ≡ {})", name, line[1], accepted(&fields))
        }
        "setting" => format!("(setting_at Little {} {} ≡ {})", name, line[1], given(2)),
        "find" if line[3] == "0" => {
            let found = if line[4] == "1" { vec![value(&line[5])] } else { vec![] };
            format!("(find_at {} {} {} ≡ {})", name, line[1], line[2], accepted(&found))
        }
        "find" => format!("(find_at {} {} {} ≡ {})", name, line[1], line[2], refused(&line[3], &line[4])),
        "channel" if line.len() == 3 => format!("(res_of (channel_answer {}) ≡ bad {} 0)", line[1], line[2]),
        "channel" => format!("(channel_answer {} ≡ {})", line[1], channel(&line[2], &line[3], &line[4], &line[5])),
        "name" => {
            let code = if line[4] == "10" { refused("10", "0") } else { accepted(&[value(&line[4])]) };
            format!("(code_answer {} {} (ascii \"{}\") ≡ {})", line[1], line[2], line[3], code)
        }
        other => panic!("an answer of another kind: {}", other),
    }
}

/// A case as a declaration: the file, and all its equations proved by computation.
fn declaration(number: usize, case: &Case) -> String {
    let name = format!("file{}", number);
    let mut equations = Vec::new();
    if !case.list.is_empty() {
        let lines: Vec<String> = case.list.iter().map(|l| format!("({})", naturals(l))).collect();
        equations.push(format!("(listing {} ≡ {})", name, naturals(&lines)));
    }
    for line in &case.rest {
        equations.push(equation(line, &name));
    }
    let proofs = vec!["refl"; equations.len()].join(", ");
    let proof = if equations.len() == 1 { proofs } else { format!("({})", proofs) };
    format!(
        "\n-- {}\nabbrev {} : List ℕ\n{} = {}\n\nsame{} : {}\nunfolding computing div of_int of_bits\nsame{} = {}\n",
        case.name,
        name,
        name,
        file_text(&case.bytes),
        number,
        equations.join("\n    × "),
        number,
        proof
    )
}

fn cases() -> Vec<Case> {
    let mut cases: Vec<Case> = Vec::new();
    for line in io::stdin().lock().lines() {
        let line = line.expect("a line");
        let words: Vec<String> = line.split_whitespace().map(String::from).collect();
        match words[0].as_str() {
            "case" => cases.push(Case { name: words[1..].join(" "), bytes: vec![], list: vec![], rest: vec![] }),
            "file" => cases.last_mut().expect("a case").bytes = words.get(1).map_or(vec![], |h| bytes_of(h)),
            // A name is a word: one that holds a blank or is empty is left to the tests of the calls.
            "name" if words.len() != 5 => {}
            "channel" | "name" => {
                let full = cases.last().map_or(true, |c| !c.list.is_empty() || c.rest.len() == NAMES_IN_A_CASE);
                if full {
                    cases.push(Case { name: String::from("channels"), bytes: vec![], list: vec![], rest: vec![] });
                }
                cases.last_mut().expect("a case").rest.push(words);
            }
            "list" => cases.last_mut().expect("a case").list.push(words[1..].to_vec()),
            _ => cases.last_mut().expect("a case").rest.push(words),
        }
    }
    cases
}

fn main() {
    let dir = std::env::args().nth(1).expect("usage: equations DIR");
    let cases = cases();
    let files = cases.iter().filter(|c| !c.list.is_empty()).count();
    let equations: usize = files + cases.iter().map(|c| c.rest.len()).sum::<usize>();
    let mut root = String::new();
    for (m, chunk) in cases.chunks(CASES_IN_A_MODULE).enumerate() {
        let mut text = String::from(HEADER);
        for (i, case) in chunk.iter().enumerate() {
            text.push_str(&declaration(m * CASES_IN_A_MODULE + i, case));
        }
        fs::write(format!("{}/specs/Cases{}.antt", dir, m), text).expect("written");
        writeln!(root, "pub mod Cases{}", m).unwrap();
    }
    fs::write(format!("{}/specs/Lib.antt", dir), root).expect("written");
    println!("{} files, {} equations", files, equations);
}
