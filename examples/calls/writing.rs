//! writing FILE: every call of the writers, from Rust. It assembles a small file in memory, which has each kind once, and writes FILE,
//! any file, again from its fields. Exit status: 0 done, 1 refused, 2 no file. docs/CALLS.md shows lines of it; tests/snippets
//! compiles it and runs it; writing.expected is what it prints of examples/every-kind.raw.

use std::process::ExitCode;

// As in include/dwejrasq.h. A lent array or number is a reference; an output and a part handed over are a pointer and a length.
#[rustfmt::skip]
extern "C" {
    fn dwj_write_header(out: *mut u8, length: usize, major: u8, minor: u8, next: &mut u64, refused_at: &mut u64) -> u32;
    fn dwj_write_phonon(out: *mut u8, length: usize, place: usize, fields: &[i32; 11], next: &mut u64, refused_at: &mut u64) -> u32;
    fn dwj_write_charge(out: *mut u8, length: usize, place: usize, fields: &[i32; 8], next: &mut u64, refused_at: &mut u64) -> u32;
    fn dwj_write_administrative(out: *mut u8, length: usize, place: usize, fields: &[u32; 6], next: &mut u64, refused_at: &mut u64) -> u32;
    fn dwj_write_trace(out: *mut u8, length: usize, place: usize, address: u32, channel: u32, code: u32, t0: i32, delta_t: u32, n: u32,
        samples: *const u8, samples_length: usize, next: &mut u64, refused_at: &mut u64) -> u32;
    fn dwj_write_history(out: *mut u8, length: usize, place: usize,
        veto_times: u32, veto_times_bytes: *const u8, veto_times_length: usize, veto_width: u32, veto_masks: *const u8, veto_masks_length: usize,
        trigger_times: u32, trigger_times_bytes: *const u8, trigger_times_length: usize, trigger_width: u32, trigger_masks: *const u8, trigger_masks_length: usize,
        next: &mut u64, refused_at: &mut u64) -> u32;
    fn dwj_write_gps(out: *mut u8, length: usize, place: usize, fields: &[u32; 7], next: &mut u64, refused_at: &mut u64) -> u32;
    fn dwj_write_trigger(out: *mut u8, length: usize, place: usize, fields: &[u32; 6], next: &mut u64, refused_at: &mut u64) -> u32;
    fn dwj_write_tlb(out: *mut u8, length: usize, place: usize, fields: &[u32; 6], next: &mut u64, refused_at: &mut u64) -> u32;
    fn dwj_close_configuration(out: *mut u8, length: usize, place: usize, end: usize, next: &mut u64, refused_at: &mut u64) -> u32;
    fn dwj_close_event(out: *mut u8, length: usize, place: usize, end: usize, class: u32, category: u32, kind: u32, next: &mut u64, refused_at: &mut u64) -> u32;
    fn dwj_rewrite(file: *const u8, file_length: usize, out: *mut u8, length: usize, next: &mut u64, refused_at: &mut u64) -> u32;
    fn dwj_table(file: *const u8, length: usize, rows: *mut u32, rows_length: usize, count: &mut u64, place: &mut u64) -> u32;
}

/// The call that was refused, its number and its place.
struct Refusal(&'static str, u32, u64);

// What a writer's call answers: the place behind what it wrote, or its refusal.
fn told(name: &'static str, call: impl FnOnce(&mut u64, &mut u64) -> u32) -> Result<usize, Refusal> {
    let (mut next, mut refused_at) = (0, 0);
    match call(&mut next, &mut refused_at) {
        0 => Ok(next as usize),
        number => Err(Refusal(name, number, refused_at)),
    }
}

// A file in an output: its length, or the first refusal, after which nothing more is written. A container is closed over eight free
// bytes and what was written behind them.
#[rustfmt::skip]
fn assembled(output: &mut [u8]) -> Result<usize, Refusal> {
    let (out, room, call) = (output.as_mut_ptr(), output.len(), "assembling");
    let start = told(call, |next, refused| unsafe { dwj_write_header(out, room, 1, 0, next, refused) })?;

    // A configuration of two entries.
    let phonon = [11_017_002, 2, 1_050, 325, -333, 0, 7, 2, 800, -51_200, 4];
    let charge = [11_017_006, 2, 4_001, -3_000, 9, 800, -51_200, 4];
    let at = told(call, |next, refused| unsafe { dwj_write_phonon(out, room, start + 8, &phonon, next, refused) })?;
    let at = told(call, |next, refused| unsafe { dwj_write_charge(out, room, at, &charge, next, refused) })?;
    let start = told(call, |next, refused| unsafe { dwj_close_configuration(out, room, start, at, next, refused) })?;

    // An event of all six record kinds, administrative first; lent bytes stand as in a file.
    let administrative = [1_100_115, 1_630, 7, 1_263_573_000, 0, 0];
    let (samples, time, mask) = ([0xD0, 0x07, 0xD1, 0x07, 0xD3, 0x07, 0xD0, 0x07], [0x88, 0xFF, 0xFF, 0xFF], [0x01, 0x00, 0x00, 0x00]);
    let (samples, time, mask) = (samples.as_ptr(), time.as_ptr(), mask.as_ptr());
    let (gps, trigger) = ([2010, 15, 0, 16, 30, 0, 1_234_567], [4, 16, 0, 0, 0, 0]);
    let tlb = [0x0100_0004, 0x0200_0000, 0x0300_0000, 0x0400_0000, 0x0500_0000, 0];
    let at = told(call, |next, refused| unsafe { dwj_write_administrative(out, room, start + 8, &administrative, next, refused) })?;
    let at = told(call, |next, refused| unsafe { dwj_write_trace(out, room, at, 0xA000, 1, 11_017_002, -51_200, 800, 4, samples, 8, next, refused) })?;
    let at = told(call, |next, refused| unsafe { dwj_write_history(out, room, at, 1, time, 4, 1, mask, 4, 0, mask, 0, 0, mask, 0, next, refused) })?;
    let at = told(call, |next, refused| unsafe { dwj_write_gps(out, room, at, &gps, next, refused) })?;
    let at = told(call, |next, refused| unsafe { dwj_write_trigger(out, room, at, &trigger, next, refused) })?;
    let at = told(call, |next, refused| unsafe { dwj_write_tlb(out, room, at, &tlb, next, refused) })?;
    told(call, |next, refused| unsafe { dwj_close_event(out, room, start, at, 0, 0, 0, next, refused) })
}

fn main() -> ExitCode {
    let Some(bytes) = std::env::args_os().nth(1).and_then(|name| std::fs::read(name).ok()) else {
        eprintln!("writing: a file that can be read is asked for");
        return ExitCode::from(2);
    };
    match write(&bytes) {
        Ok(()) => ExitCode::SUCCESS,
        Err(Refusal(call, number, place)) => {
            println!("{call}: refused, number {number} at byte {place}");
            ExitCode::from(1)
        }
    }
}

#[rustfmt::skip]
fn write(file: &[u8]) -> Result<(), Refusal> {
    // 13: what is written doesn't fit, so the output is made larger and written anew. Over 16,777,216 bytes it would be 1.
    let mut out = vec![0; 128];
    let end = loop {
        match assembled(&mut out) {
            Err(Refusal(_, 13, _)) => out = vec![0; 2 * out.len()],
            answer => break answer?,
        }
    };

    // The reader takes it.
    let (mut rows, mut count, mut place) = (vec![[0u32; 6]; end / 8], 0, 0);
    match unsafe { dwj_table(out.as_ptr(), end, rows.as_mut_ptr().cast(), 6 * rows.len(), &mut count, &mut place) } {
        0 => println!("assembled: {end} bytes, {count} rows"),
        number => return Err(Refusal("table", number, place)),
    }

    // Rewrite: the file's fields, read and written again; an output as long as the file is enough.
    let mut again = vec![0; file.len()];
    let end = told("rewrite", |next, refused| unsafe {
        dwj_rewrite(file.as_ptr(), file.len(), again.as_mut_ptr(), again.len(), next, refused)
    })?;
    println!("rewritten: {end} bytes, {}", if again == file { "the same" } else { "another file" });
    Ok(())
}
