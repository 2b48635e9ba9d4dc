//! Lines of columns taken apart by the library's own reader of fields.
use satskhubo_interface::answer::{read_field, Answer, Failure};

/// The columns of document 01: widths of the fields of a line; a line feed follows them.
pub const SHEET_FIRST: [usize; 2] = [3, 3];
pub const ROW: [usize; 6] = [3, 3, 3, 3, 11, 11];
pub const LOG_FIRST: [usize; 3] = [5, 11, 11];
pub const LINE: [usize; 2] = [11, 3];

/// The bytes of a line of these fields, its line feed among them.
pub const fn length(widths: &[usize]) -> usize {
    let (mut sum, mut field) = (1, 0);
    while field < widths.len() {
        sum += widths[field];
        field += 1;
    }
    sum
}

/// The numbers of a line's fields; none where a field is malformed or missing.
pub fn fields<const COUNT: usize>(line: &[u8], widths: &[usize; COUNT]) -> Answer<Option<[u32; COUNT]>> {
    let mut values = [0; COUNT];
    let mut rest = line;
    for (value, &width) in values.iter_mut().zip(widths) {
        let Some(number) = read_field(rest, width)? else { return Ok(None) };
        *value = number;
        rest = &rest[width..];
    }
    Ok(Some(values))
}

/// The same of a text that the library accepted, where the fields cannot be malformed.
pub fn accepted<const COUNT: usize>(line: &[u8], widths: &[usize; COUNT]) -> Answer<[u32; COUNT]> {
    fields(line, widths)?.ok_or_else(|| Failure("a field of an accepted text could not be read".to_string()))
}

/// The lines of equal width behind a first line, as many as are whole.
pub fn lines<'a>(text: &'a [u8], first: &[usize], line: &[usize]) -> std::slice::ChunksExact<'a, u8> {
    text.get(length(first)..).unwrap_or_default().chunks_exact(length(line))
}
