//! The static library of the C calls: its C interface, and a safe call for each of its functions.
//! A part passes as a pointer and then its length; an answer comes back in places that are lent.

extern "C" {
    fn dwj_table(
        file: *const u8,
        file_length: usize,
        rows: *mut u32,
        rows_length: usize,
        count: *mut u64,
        place: *mut u64,
    ) -> u32;
    fn dwj_record(
        file: *const u8,
        file_length: usize,
        place: usize,
        values: *mut i64,
        refused_at: *mut u64,
    ) -> u32;
    fn dwj_setting(
        file: *const u8,
        file_length: usize,
        place: usize,
        whole: *mut i64,
        units: *mut f64,
        refused_at: *mut u64,
    ) -> u32;
    fn dwj_samples(
        file: *const u8,
        file_length: usize,
        place: usize,
        offset: *mut u64,
        size: *mut u64,
    );
    fn dwj_sample(
        file: *const u8,
        file_length: usize,
        place: usize,
        number: usize,
        value: *mut u32,
        refused_at: *mut u64,
    ) -> u32;
    fn dwj_find(
        file: *const u8,
        file_length: usize,
        number: u32,
        code: u32,
        place: *mut u64,
        refused_at: *mut u64,
    ) -> u32;
    fn dwj_open(
        file: *const u8,
        file_length: usize,
        walker: *mut u64,
        row: *mut u32,
        refused_at: *mut u64,
    ) -> u32;
    fn dwj_next(
        file: *const u8,
        file_length: usize,
        walker: *mut u64,
        row: *mut u32,
        refused_at: *mut u64,
    ) -> u32;
    fn dwj_visit(
        file: *const u8,
        file_length: usize,
        first: usize,
        rows: *mut u32,
        rows_length: usize,
        count: *mut u64,
        place: *mut u64,
    ) -> u32;
    fn dwj_channel(code: u32, numbers: *mut u32, analysis: *mut u8, cold: *mut u8) -> u32;
    fn dwj_code(
        detector_type: u32,
        number: u32,
        name: *const u8,
        name_length: usize,
        code: *mut u32,
    ) -> u32;
    fn dwj_zip(word: u32, zip: u32) -> u32;
}

/// Table: the number; count and place are always written, the rows under 0 only.
pub fn table(file: &[u8], rows: &mut [u32], count: &mut u64, place: &mut u64) -> u32 {
    unsafe {
        dwj_table(
            file.as_ptr(),
            file.len(),
            rows.as_mut_ptr(),
            rows.len(),
            count,
            place,
        )
    }
}

/// Record: 0 with the row kind and the fields, or a refusal's number with its place.
pub fn record(file: &[u8], place: usize, values: &mut [i64; 12], refused_at: &mut u64) -> u32 {
    unsafe {
        dwj_record(
            file.as_ptr(),
            file.len(),
            place,
            values.as_mut_ptr(),
            refused_at,
        )
    }
}

/// Setting: 0 with the row kind, the whole words and the words in working units, or a
/// refusal's number with its place.
pub fn setting(
    file: &[u8],
    place: usize,
    whole: &mut [i64; 8],
    units: &mut [f64; 4],
    refused_at: &mut u64,
) -> u32 {
    unsafe {
        dwj_setting(
            file.as_ptr(),
            file.len(),
            place,
            whole.as_mut_ptr(),
            units.as_mut_ptr(),
            refused_at,
        )
    }
}

/// Samples: where they start in the file and how many bytes they are.
pub fn samples(file: &[u8], place: usize, offset: &mut u64, size: &mut u64) {
    unsafe { dwj_samples(file.as_ptr(), file.len(), place, offset, size) }
}

/// Sample: 0 with the value, or a refusal's number with its place.
pub fn sample(
    file: &[u8],
    place: usize,
    number: usize,
    value: &mut u32,
    refused_at: &mut u64,
) -> u32 {
    unsafe { dwj_sample(file.as_ptr(), file.len(), place, number, value, refused_at) }
}

/// Find: 0 with the first trace's place, or 0 for none; or a refusal's number with its place.
pub fn find(file: &[u8], number: u32, code: u32, place: &mut u64, refused_at: &mut u64) -> u32 {
    unsafe { dwj_find(file.as_ptr(), file.len(), number, code, place, refused_at) }
}

/// Open: 0 with a walker's numbers and the first row, or a refusal's number with its place.
pub fn open(file: &[u8], walker: &mut [u64; 6], row: &mut [u32; 6], refused_at: &mut u64) -> u32 {
    unsafe {
        dwj_open(
            file.as_ptr(),
            file.len(),
            walker.as_mut_ptr(),
            row.as_mut_ptr(),
            refused_at,
        )
    }
}

/// Next: 0 with the next row, zeros at the end; or a refusal's number with its place.
pub fn next(file: &[u8], walker: &mut [u64; 6], row: &mut [u32; 6], refused_at: &mut u64) -> u32 {
    unsafe {
        dwj_next(
            file.as_ptr(),
            file.len(),
            walker.as_mut_ptr(),
            row.as_mut_ptr(),
            refused_at,
        )
    }
}

/// Visit: the number; count and place are always written, the rows from one on under 0 only.
pub fn visit(file: &[u8], first: usize, rows: &mut [u32], count: &mut u64, place: &mut u64) -> u32 {
    unsafe {
        dwj_visit(
            file.as_ptr(),
            file.len(),
            first,
            rows.as_mut_ptr(),
            rows.len(),
            count,
            place,
        )
    }
}

/// A code's type, number and lengths of its names, and the names; or 10.
pub fn channel(
    code: u32,
    numbers: &mut [u32; 4],
    analysis: &mut [u8; 4],
    cold: &mut [u8; 4],
) -> u32 {
    unsafe {
        dwj_channel(
            code,
            numbers.as_mut_ptr(),
            analysis.as_mut_ptr(),
            cold.as_mut_ptr(),
        )
    }
}

/// The code of a type, a number and an analysis name; or 10.
pub fn code(detector_type: u32, number: u32, name: &[u8], code: &mut u32) -> u32 {
    unsafe { dwj_code(detector_type, number, name.as_ptr(), name.len(), code) }
}

/// 1 when a TLB word has that ZIP, otherwise 0.
pub fn zip(word: u32, zip: u32) -> u32 {
    unsafe { dwj_zip(word, zip) }
}
