//! The outside implementation's answers, laid out as the C interface lays them out.

use super::reader::{self, Record, Refusal, Setting};

/// A setting's row kind and whole words, and its words in working units.
pub type Settled = ([i64; 8], [f64; 4]);

// Values at the start of an array, zeros after them.
fn padded<const N: usize>(values: &[i64]) -> [i64; N] {
    let mut all = [0; N];
    all[..values.len()].copy_from_slice(values);
    all
}

/// Record: the row kind, then the fields in order, zeros after them.
pub fn record(file: &[u8], place: usize) -> Result<[i64; 12], Refusal> {
    let found = reader::record(file, place as u64)?;
    let mut values = vec![i64::from(reader::row_kind(&found))];
    match found {
        Record::Phonon(words) => values.extend(words.map(i64::from)),
        Record::Charge(words) => values.extend(words.map(i64::from)),
        Record::Administrative {
            series_date,
            series_time,
            event_number,
            event_time,
            since_last,
            live,
        } => values.extend(
            [
                series_date,
                series_time,
                event_number,
                event_time,
                since_last,
                live,
            ]
            .map(i64::from),
        ),
        Record::Trace {
            base_address,
            channel,
            code,
            t0,
            delta_t,
            n,
        } => {
            values.extend([base_address, channel, code].map(i64::from));
            values.push(i64::from(t0));
            values.extend([delta_t, n].map(i64::from));
        }
        Record::History {
            nvt,
            veto_times,
            nvw,
            veto_masks,
            ntt,
            trigger_times,
            ntw,
            trigger_masks,
        } => values.extend([
            i64::from(nvt),
            veto_times as i64,
            i64::from(nvw),
            veto_masks as i64,
            i64::from(ntt),
            trigger_times as i64,
            i64::from(ntw),
            trigger_masks as i64,
        ]),
        Record::Gps {
            year,
            day,
            status,
            hour,
            minute,
            second,
            tenths,
        } => values.extend([year, day, status, hour, minute, second, tenths].map(i64::from)),
        Record::Trigger(masks) => values.extend(masks.map(i64::from)),
        Record::Tlb(masks) => values.extend(masks.map(i64::from)),
    }
    Ok(padded(&values))
}

/// Setting: the row kind, code, tower and the other whole words in order; then gain, QET bias,
/// SQUID bias and lockpoint, of a charge setting the gain alone.
pub fn setting(file: &[u8], place: usize) -> Result<Settled, Refusal> {
    let found = reader::setting(file, place as u64)?;
    Ok(match found {
        Setting::Phonon {
            code,
            tower,
            gain,
            qet_bias,
            squid_bias,
            lockpoint,
            rtf_offset,
            variable_gain,
            delta_t,
            t0,
            trace_length,
        } => (
            [
                3,
                code,
                tower,
                rtf_offset,
                variable_gain,
                delta_t,
                t0,
                trace_length,
            ]
            .map(i64::from),
            [gain, qet_bias, squid_bias, lockpoint],
        ),
        Setting::Charge {
            code,
            tower,
            gain,
            bias,
            rtf_offset,
            delta_t,
            t0,
            trace_length,
        } => (
            [4, code, tower, bias, rtf_offset, delta_t, t0, trace_length].map(i64::from),
            [gain, 0.0, 0.0, 0.0],
        ),
    })
}

/// A code's type, number and lengths of its names, and the two names with zeros after them.
pub fn channel(code: u32) -> Option<([u32; 4], [u8; 4], [u8; 4])> {
    let (detector_type, number, analysis, cold) = reader::channel_of(code).ok()?;
    let mut names = [[0; 4]; 2];
    names[0][..analysis.len()].copy_from_slice(analysis);
    names[1][..cold.len()].copy_from_slice(cold);
    let lengths = [analysis.len() as u32, cold.len() as u32];
    let numbers = [detector_type, number, lengths[0], lengths[1]];
    Some((numbers, names[0], names[1]))
}
