//! Texts longer than the largest that are accepted: refused for their length and never cut, by the C interface, by document 01's
//! program and by the people's.
mod common;
use common::program::{file, run};
use common::{said, scratch, tell, top};
use satskhubo_tests::generate::logs::uniform;
use satskhubo_tests::generate::sheets::sheet_s;
use satskhubo_tests::host::Host;
use satskhubo_tests::outcome::{Shown, Side};
use satskhubo_tests::reference::sheet::{self, Row};
use std::path::Path;
use std::process::Command;

/// The largest sheet and the largest log, in bytes.
const SHEET: usize = 6167;
const LOG: usize = 60028;

/// 176 rows: every section is full. Two points on one line break every row of the consequents.
fn full_sheet() -> Vec<u8> {
    let mut rows = vec![Row::new(0, 1, 1, 0, 8, 0), Row::new(0, 1, 2, 0, 8, 0)];
    rows.extend([Row::new(0, 8, 1, 2, 0, 0); 30]);
    rows.extend((1..=6).flat_map(|section| [Row::new(section, 7, 1, 2, 0, 0); 24]));
    sheet::text(6, &rows)
}

/// So many bytes more: its last row or line over and over.
fn longer(text: &[u8], unit: usize, further: usize) -> Vec<u8> {
    let again = text[text.len() - unit..].iter().copied().cycle();
    text.iter().copied().chain(again.take(further)).collect()
}

fn further(unit: usize) -> [usize; 9] {
    [1, 2, unit - 1, unit, unit + 1, 10 * unit, 65_536 * unit, 65_536, 1 << 21]
}

/// Document 01's program on files `sheet` and `log`; the people's says the same.
fn program(folder: &Path, sheet: &[u8], log: &[u8]) -> String {
    let (sheet, log) = (file(folder, "sheet", sheet), file(folder, "log", log));
    let program = Command::new(top().join("target/bin/satskhubo")).current_dir(folder).output();
    let said = said(&program.expect("`sh build.sh --all` has built it"));
    assert_eq!(run(&["check", "--plain", &sheet, &log]).answer().1, said);
    said
}

#[test]
fn sheets() {
    let folder = scratch("long-sheets");
    let (full, log) = (full_sheet(), uniform(3, 3).text());
    assert_eq!((full.len(), Host.read_sheet(&full).count), (SHEET, 191_102_976));
    assert_eq!(program(&folder, &full, &log), "  0  1\n    1    1\n  33  57  81 105 129 153\n");
    for further in further(35) {
        let sheet = longer(&full, 35, further);
        assert_eq!(Host.read_sheet(&sheet).answer, 3, "{further} bytes more");
        assert_eq!(Host.check_number(&sheet, &log), 3, "{further} bytes more");
        assert_eq!(Host.show(&sheet, &log), Shown { answer: 3, of_log: 0, offset: 0, length: 7 }, "{further} bytes more");
        assert_eq!(program(&folder, &sheet, &log), "  3  0\n", "{further} bytes more");
    }
    tell("sizes: sheets", 5 * 9 + 3);
}

#[test]
fn logs() {
    let folder = scratch("long-logs");
    let (sheet, full) = (sheet_s(), uniform(4000, 2).text());
    assert_eq!((full.len(), Host.read_log(&full).lines), (LOG, 4000));
    assert_eq!(program(&folder, &sheet, &full), "  0  0\n");
    for further in further(15) {
        let log = longer(&full, 15, further);
        assert_eq!(Host.read_log(&log).answer, 23, "{further} bytes more");
        assert_eq!(Host.check_number(&sheet, &log), 23, "{further} bytes more");
        assert_eq!(Host.show(&sheet, &log), Shown { answer: 23, of_log: 1, offset: 0, length: 28 }, "{further} bytes more");
        assert_eq!(program(&folder, &sheet, &log), " 23  0\n", "{further} bytes more");
    }
    tell("sizes: logs", 5 * 9 + 3);
}
