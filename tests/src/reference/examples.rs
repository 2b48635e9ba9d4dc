//! The reference alone on the examples of document 01.
use super::blunder::Blunder;
use super::limited::Limited;
use super::log::{self, Line, Log};
use super::operations::{open, Opened, Verdict};
use super::refusal::Refusal;
use super::sheet::{self, Row};
use crate::generate::logs::log_of;
use crate::generate::sheets::sheet_s;
use crate::generate::targeted::fullest;

fn pair(sheet_text: &[u8], lines: &[(u32, u32)]) -> Opened {
    open(sheet_text, &log_of(lines).text(), Blunder::None)
}

fn violated(placement: &[u32], rows: &[u32]) -> Result<Verdict, Refusal> {
    Ok(Verdict::Violated { placement: placement.to_vec(), rows: rows.to_vec() })
}

#[test]
fn number_3_of_sheet_s() {
    let opened = pair(&sheet_s(), &[]);
    assert_eq!(opened.read_sheet(), Ok(4));
    let text = "  1  5\n  0  1  1  0          8          0\n  1  3 11  1          4          0\n  1  1 19  0          2          0\n  1  6 11 19          0          0\n  1  6 19  1          0          0\n";
    assert_eq!(opened.write(3, 3437), Ok(text.as_bytes().to_vec()));
    assert_eq!(opened.write(3, text.len() - 1), Err(Refusal::Buffer));
    assert_eq!(opened.write(5, 0), Err(Refusal::Number));
}

#[test]
fn logs_of_sheet_s() {
    let s = sheet_s();
    let late = pair(&s, &[(100, 2), (300, 3), (900, 3)]);
    assert_eq!(late.check(), violated(&[3], &[3]));
    assert_eq!(late.search(2, 2), Ok(Some(vec![3, 1])));
    assert_eq!(late.search(2, 1), Err(Refusal::Places));
    // Document 02, A9: with 600 it held.
    assert_eq!(pair(&s, &[(100, 2), (300, 3), (599, 3)]).check(), Ok(Verdict::Holds));
    assert_eq!(pair(&s, &[(100, 2), (300, 3), (600, 3)]).check(), violated(&[3], &[3]));
    assert_eq!(pair(&s, &[(100, 2), (300, 3), (601, 3)]).check(), violated(&[3], &[3]));
    assert_eq!(pair(&s, &[(10, 3)]).check(), violated(&[1], &[2]));
    let between = pair(&s, &[(100, 2), (200, 1), (300, 3)]);
    assert_eq!(between.check(), violated(&[3], &[4]));
    assert_eq!(between.search(3, 3), Ok(Some(vec![3, 1, 2])));
    assert_eq!(pair(&s, &[]).check(), Ok(Verdict::Holds));
}

#[test]
fn sheets_without_rows() {
    for lines in [&[][..], &[(1, 1)][..]] {
        let none = pair(b"  0  0\n", lines);
        assert_eq!((none.read_sheet(), none.check()), (Ok(1), violated(&[], &[])));
        let empty = pair(b"  1  0\n", lines);
        assert_eq!((empty.read_sheet(), empty.check()), (Ok(0), Ok(Verdict::Holds)));
    }
}

#[test]
fn before_is_denied_by_same_too() {
    let rows = [Row::new(0, 1, 1, 0, 8, 0), Row::new(0, 1, 2, 0, 8, 0), Row::new(1, 6, 1, 2, 0, 0)];
    let opened = pair(&sheet::text(1, &rows), &[(5, 3)]);
    assert_eq!(opened.search(1, 2), Ok(None));
    assert_eq!(opened.search(2, 2), Ok(Some(vec![1, 1])));
}

/// Document 02, A8: with the antecedent's order, and without it.
#[test]
fn next_is_denied_up_to_an_antecedent_point() {
    let points = [Row::new(0, 1, 1, 0, 2, 0), Row::new(0, 1, 2, 0, 8, 0)];
    let (order, chain) = (Row::new(0, 6, 1, 2, 0, 0), [Row::new(1, 2, 11, 1, 4, 1), Row::new(1, 6, 11, 2, 0, 0)]);
    for (order, far) in [(&[order][..], 2), (&[], 99)] {
        let written = pair(&sheet::text(1, &[&points, order, &chain].concat()), &[]).write(1, 3437);
        assert_eq!(written, Ok(sheet::text(1, &[&points, order, &[Row::new(1, 9, 1, far, 4, 1)]].concat())));
    }
}

/// Document 02, A10: the one more is not looked at, and may be violating.
#[test]
fn a_limit_of_none() {
    let opened = pair(&sheet::text(0, &[Row::new(0, 1, 1, 0, 8, 0)]), &[(5, 3)]);
    assert_eq!(opened.check_limited(0), Ok(Limited { verdict: None, looked: 0, after: 1 }));
    let violated = opened.check().ok();
    assert_eq!(opened.check_limited(1), Ok(Limited { verdict: violated, looked: 1, after: 0 }));
}

#[test]
fn largest_counts() {
    let denials = |counts: [usize; 6]| {
        let rows: Vec<Row> = std::iter::once(Row::new(0, 1, 1, 0, 8, 0))
            .chain((1..).zip(counts).flat_map(|(section, count)| vec![Row::new(section, 12, 1, 0, 2, 0); count]))
            .collect();
        sheet::text(6, &rows)
    };
    assert_eq!(pair(&denials([4; 6]), &[]).read_sheet(), Ok(4096));
    assert_eq!(pair(&denials([4, 4, 5, 4, 4, 4]), &[]).read_sheet(), Ok(5120));
    assert_eq!(pair(&denials([24, 24, 24, 24, 24, 0]), &[]).read_sheet(), Ok(0));
    assert_eq!(pair(&fullest(), &[]).read_sheet(), Ok(12_230_590_464));
}

#[test]
fn logs_refused_and_accepted() {
    let with_event = |event| Log { start: 0, close: 7, lines: vec![Line { tick: 7, event }], blunder: Blunder::None }.text();
    // Document 02, A1: 32 was refused.
    for event in [0, 31, 32, 63] {
        assert!(log::read(&with_event(event), Blunder::None).is_ok());
    }
    assert_eq!(log::read(&with_event(64), Blunder::None).unwrap_err().refusal, Refusal::Event);
    assert_eq!(log::read(&with_event(32), Blunder::BeforeA1).unwrap_err().refusal, Refusal::Event);
    assert_eq!(log::read(&log_of(&vec![(1, 1); 4001]).text(), Blunder::None).unwrap_err().refusal, Refusal::LineCount);
    assert!(log::read(&log_of(&vec![(1, 1); 4000]).text(), Blunder::None).is_ok());
}

/// Document 02, A6: number 4 of S wants an injection after the scan and before the correction that is before it.
#[test]
fn number_4_of_sheet_s_is_impossible() {
    let opened = pair(&sheet_s(), &[]);
    assert_eq!([1, 2, 3, 4].map(|number| opened.impossible(number)), [Ok(false), Ok(false), Ok(false), Ok(true)]);
    assert_eq!([0, 5, (1 << 32) + 1].map(|number| opened.impossible(number)), [Err(Refusal::Number); 3]);
    assert_eq!(pair(b"", &[]).impossible(0), Err(Refusal::SheetFirstLine));
}
