//! The C interface of include/satskhubo.h: declared here, once; called safely in `lent`; answered in types in `answer`.
pub mod answer;
pub mod lent;

/// The most points that an antiscenario has.
pub const MOST_POINTS: usize = 58;
/// The most bytes that a written antiscenario has.
pub const MOST_TEXT: usize = 3437;
/// The most bytes that a line of a sheet or of a log has.
pub const MOST_LINE: usize = 35;
/// The most points of an antecedent, and the most consequents.
pub const MOST_ANTECEDENT_POINTS: usize = 4;
pub const MOST_CONSEQUENTS: usize = 6;

/// Document 01: a placement, handed over whole. Entries past the count are not read.
#[repr(C)]
#[derive(Clone, Copy, Debug)]
pub struct Placement {
    pub positions: [u32; MOST_POINTS],
    pub count: usize,
}

extern "C" {
    fn check(sheet: *const u8, sheet_len: usize, log: *const u8, log_len: usize) -> u32;
    fn satskhubo_read_log(log: *const u8, log_len: usize, lines: *mut u32) -> u32;
    fn satskhubo_read_sheet(sheet: *const u8, sheet_len: usize, count: *mut u64) -> u32;
    fn satskhubo_judge(
        sheet: *const u8,
        sheet_len: usize,
        log: *const u8,
        log_len: usize,
        number: u64,
        placement: Placement,
        met: *mut bool,
    ) -> u32;
    fn satskhubo_write(
        sheet: *const u8,
        sheet_len: usize,
        number: u64,
        buffer: *mut u8,
        buffer_len: usize,
        length: *mut usize,
    ) -> u32;
    fn satskhubo_impossible(sheet: *const u8, sheet_len: usize, number: u64, impossible: *mut bool) -> u32;
    fn satskhubo_search(
        sheet: *const u8,
        sheet_len: usize,
        log: *const u8,
        log_len: usize,
        number: u64,
        places: *mut u32,
        places_len: usize,
        found: *mut bool,
    ) -> u32;
    fn satskhubo_check(
        sheet: *const u8,
        sheet_len: usize,
        log: *const u8,
        log_len: usize,
        positions: *mut u32,
        points: *mut u32,
        rows: *mut u32,
        consequents: *mut u32,
    ) -> u32;
    fn satskhubo_check_limited(
        sheet: *const u8,
        sheet_len: usize,
        log: *const u8,
        log_len: usize,
        limit: u64,
        positions: *mut u32,
        points: *mut u32,
        rows: *mut u32,
        consequents: *mut u32,
        looked: *mut u64,
        after: *mut u64,
    ) -> u32;
    fn satskhubo_show(
        sheet: *const u8,
        sheet_len: usize,
        log: *const u8,
        log_len: usize,
        of_log: *mut bool,
        offset: *mut usize,
        length: *mut usize,
    ) -> u32;
    fn satskhubo_line(
        sheet: *const u8,
        sheet_len: usize,
        log: *const u8,
        log_len: usize,
        line: *mut u8,
        length: *mut usize,
    ) -> u32;
    fn satskhubo_read_field(text: *const u8, text_len: usize, width: usize, value: *mut u32) -> u32;
    fn satskhubo_write_field(buffer: *mut u8, buffer_len: usize, at: usize, width: usize, value: u32) -> u32;
}
