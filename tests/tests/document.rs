//! All examples of document 01, through the C interface, with the answers that the document prints.
mod common;
use common::answers::{found, pair, verdict, written};
use satskhubo_tests::generate::logs::log_of;
use satskhubo_tests::generate::sheets::sheet_s;
use satskhubo_tests::generate::targeted::with_denials;
use satskhubo_tests::host::Host;
use satskhubo_tests::outcome::Side;

const NUMBER_3: &str = "  1  5
  0  1  1  0          8          0
  1  3 11  1          4          0
  1  1 19  0          2          0
  1  6 11 19          0          0
  1  6 19  1          0          0
";

#[test]
fn sheet_s_and_its_number_3() {
    let sheet = sheet_s();
    assert_eq!(Host.read_sheet(&sheet).count, 4);
    assert_eq!(written(&sheet, 3), NUMBER_3);
}

#[test]
fn logs_for_sheet_s() {
    let s = sheet_s();
    let late = pair(&s, &[(100, 2), (300, 3), (900, 3)]);
    assert_eq!(verdict(&late), Some((vec![3], vec![3])));
    assert_eq!(found(&late, 2), Some(vec![3, 1]));
    // Document 02, A9: with 600 it held.
    assert_eq!(verdict(&pair(&s, &[(100, 2), (300, 3), (599, 3)])), None);
    assert_eq!(verdict(&pair(&s, &[(100, 2), (300, 3), (600, 3)])), Some((vec![3], vec![3])));
    assert_eq!(verdict(&pair(&s, &[(100, 2), (300, 3), (601, 3)])), Some((vec![3], vec![3])));
    assert_eq!(verdict(&pair(&s, &[(10, 3)])), Some((vec![1], vec![2])));
    let between = pair(&s, &[(100, 2), (200, 1), (300, 3)]);
    assert_eq!(verdict(&between), Some((vec![3], vec![4])));
    assert_eq!(found(&between, 3), Some(vec![3, 1, 2]));
    assert_eq!(verdict(&pair(&s, &[])), None);
}

#[test]
fn sheets_without_rows() {
    for lines in [&[][..], &[(7, 3)][..]] {
        let none = pair(b"  0  0\n", lines);
        assert_eq!(Host.read_sheet(&none.sheet).count, 1);
        assert_eq!(verdict(&none), Some((vec![], vec![])));
        let empty = pair(b"  1  0\n", lines);
        assert_eq!(Host.read_sheet(&empty.sheet).count, 0);
        assert_eq!(verdict(&empty), None);
    }
}

#[test]
fn one_scan_for_two_points() {
    let sheet =
        b"  1  3\n  0  1  1  0          8          0\n  0  1  2  0          8          0\n  1  6  1  2          0          0\n";
    let one_scan = pair(sheet, &[(5, 3)]);
    assert_eq!(found(&one_scan, 1), None);
    assert_eq!(found(&one_scan, 2), Some(vec![1, 1]));
    assert_eq!(verdict(&one_scan), Some((vec![1, 1], vec![3])));
}

#[test]
fn counts_and_refusals() {
    assert_eq!(Host.read_sheet(&with_denials([4; 6])).count, 4096);
    // Document 02, A4: it was refused.
    assert_eq!(Host.read_sheet(&with_denials([4, 4, 4, 4, 5, 4])).count, 5120);
    assert_eq!(Host.read_sheet(b"  7  0\n").answer, 2);
    assert_eq!(Host.read_log(&log_of(&vec![(0, 1); 4001]).text()).answer, 22);
    // Document 02, A1: 32 was refused.
    assert_eq!(Host.read_log(&log_of(&[(1, 32)]).text()).lines, 1);
    assert_eq!(Host.read_log(&log_of(&[(1, 64)]).text()).answer, 25);
    assert_eq!(Host.read_log(&log_of(&[(5, 1), (5, 1)]).text()).lines, 2);
}
