//! The writers' C interface, and a call of any sort through it. A part passes as a pointer and then
//! its length; the next place, or a refusal's place, comes back in a number that is lent.
//! Parts are given beside their call, so that copies at other places in memory can be handed over.

use super::trees::Call;

/// The two numbers that a call is lent.
#[derive(Clone, Copy, Debug, PartialEq, Eq)]
pub struct Lent {
    pub next: u64,
    pub refused_at: u64,
}

#[rustfmt::skip]
extern "C" {
    fn dwj_write_header(out: *mut u8, length: usize, major: u8, minor: u8, next: &mut u64, refused_at: &mut u64) -> u32;
    fn dwj_write_phonon(out: *mut u8, length: usize, place: usize, fields: &[i32; 11], next: &mut u64, refused_at: &mut u64) -> u32;
    fn dwj_write_charge(out: *mut u8, length: usize, place: usize, fields: &[i32; 8], next: &mut u64, refused_at: &mut u64) -> u32;
    fn dwj_write_administrative(out: *mut u8, length: usize, place: usize, fields: &[u32; 6], next: &mut u64, refused_at: &mut u64) -> u32;
    fn dwj_write_trace(out: *mut u8, length: usize, place: usize, address: u32, channel: u32, code: u32, t0: i32, delta_t: u32, n: u32, samples: *const u8, samples_length: usize, next: &mut u64, refused_at: &mut u64) -> u32;
    fn dwj_write_history(out: *mut u8, length: usize, place: usize, veto_times: u32, veto_times_bytes: *const u8, veto_times_length: usize, veto_width: u32, veto_masks: *const u8, veto_masks_length: usize, trigger_times: u32, trigger_times_bytes: *const u8, trigger_times_length: usize, trigger_width: u32, trigger_masks: *const u8, trigger_masks_length: usize, next: &mut u64, refused_at: &mut u64) -> u32;
    fn dwj_write_gps(out: *mut u8, length: usize, place: usize, fields: &[u32; 7], next: &mut u64, refused_at: &mut u64) -> u32;
    fn dwj_write_trigger(out: *mut u8, length: usize, place: usize, fields: &[u32; 6], next: &mut u64, refused_at: &mut u64) -> u32;
    fn dwj_write_tlb(out: *mut u8, length: usize, place: usize, fields: &[u32; 6], next: &mut u64, refused_at: &mut u64) -> u32;
    fn dwj_close_configuration(out: *mut u8, length: usize, place: usize, end: usize, next: &mut u64, refused_at: &mut u64) -> u32;
    fn dwj_close_event(out: *mut u8, length: usize, place: usize, end: usize, class: u32, category: u32, event_type: u32, next: &mut u64, refused_at: &mut u64) -> u32;
    fn dwj_rewrite(file: *const u8, file_length: usize, out: *mut u8, length: usize, next: &mut u64, refused_at: &mut u64) -> u32;
}

/// What a call hands over: a trace's samples, a history's four lists, a file; the rest is empty.
pub fn parts(call: &Call) -> [&[u8]; 4] {
    match call {
        Call::Trace { samples, .. } => [samples, &[], &[], &[]],
        Call::History {
            veto_times,
            veto_masks,
            trigger_times,
            trigger_masks,
            ..
        } => [veto_times, veto_masks, trigger_times, trigger_masks],
        Call::Rewrite { file } => [file, &[], &[], &[]],
        _ => [&[]; 4],
    }
}

/// One call over an output, with its parts or copies of them: 0 with the next place, or a refusal's
/// number with its place.
#[rustfmt::skip]
pub fn perform(call: &Call, parts: [&[u8]; 4], out: &mut [u8], lent: &mut Lent) -> u32 {
    let (length, out) = (out.len(), out.as_mut_ptr());
    let [first, second, third, fourth] = parts;
    let Lent { next, refused_at } = lent;
    match call {
        Call::Header { major, minor } => unsafe {
            dwj_write_header(out, length, *major, *minor, next, refused_at)
        },
        Call::Phonon { place, words } => unsafe {
            dwj_write_phonon(out, length, *place, words, next, refused_at)
        },
        Call::Charge { place, words } => unsafe {
            dwj_write_charge(out, length, *place, words, next, refused_at)
        },
        Call::Administrative { place, series_date, series_time, event_number, event_time, since_last, live } => unsafe {
            let fields = [*series_date, *series_time, *event_number, *event_time, *since_last, *live];
            dwj_write_administrative(out, length, *place, &fields, next, refused_at)
        },
        Call::Trace { place, base_address, channel, code, t0, delta_t, n, .. } => unsafe {
            let samples = first.as_ptr();
            dwj_write_trace(out, length, *place, *base_address, *channel, *code, *t0, *delta_t, *n, samples, first.len(), next, refused_at)
        },
        Call::History { place, nvt, nvw, ntt, ntw, .. } => unsafe {
            dwj_write_history(
                out, length, *place,
                *nvt, first.as_ptr(), first.len(),
                *nvw, second.as_ptr(), second.len(),
                *ntt, third.as_ptr(), third.len(),
                *ntw, fourth.as_ptr(), fourth.len(),
                next, refused_at,
            )
        },
        Call::Gps { place, year, day, status, hour, minute, second, tenths } => unsafe {
            let fields = [*year, *day, *status, *hour, *minute, *second, *tenths];
            dwj_write_gps(out, length, *place, &fields, next, refused_at)
        },
        Call::Trigger { place, masks } => unsafe {
            dwj_write_trigger(out, length, *place, masks, next, refused_at)
        },
        Call::Tlb { place, masks } => unsafe {
            dwj_write_tlb(out, length, *place, masks, next, refused_at)
        },
        Call::CloseConfiguration { place, end, .. } => unsafe {
            dwj_close_configuration(out, length, *place, *end, next, refused_at)
        },
        Call::CloseEvent { place, end, class, category, event_type, .. } => unsafe {
            dwj_close_event(out, length, *place, *end, *class, *category, *event_type, next, refused_at)
        },
        Call::Rewrite { .. } => unsafe {
            dwj_rewrite(first.as_ptr(), first.len(), out, length, next, refused_at)
        },
    }
}
