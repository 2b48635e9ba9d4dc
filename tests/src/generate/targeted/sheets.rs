//! Sheets for refusals 1 to 10 and their boundaries.
use super::{replaced, sheet_first, sheet_of, sheet_row, Case, Fields, ROW, SHEET_FIRST};
use crate::generate::sheets::sheet_s;

/// Two points, one consequent with two, and a second consequent that begins after them.
const GROUND: [Fields; 4] = [[0, 1, 1, 0, 8, 0], [0, 1, 2, 0, 8, 0], [1, 2, 11, 1, 8, 0], [1, 3, 12, 2, 8, 0]];

/// The ground with one more row of section 0, which comes third and is followed by the rest.
fn third(row: Fields) -> Vec<u8> {
    sheet_of(2, &[GROUND[0], GROUND[1], row, GROUND[2], GROUND[3]])
}

/// The ground with one more row at the end.
fn fifth(row: Fields) -> Vec<u8> {
    sheet_of(2, &[GROUND[0], GROUND[1], GROUND[2], GROUND[3], row])
}

pub fn sheets() -> Vec<Case> {
    let mut cases = sheet_first_lines();
    cases.extend(malformed_rows());
    cases.extend(refused_rows());
    cases.extend(accepted_rows());
    cases.extend(long_sections());
    cases.extend(counts());
    cases
}

fn sheet_first_lines() -> Vec<Case> {
    let s = sheet_s();
    let wide = sheet_of(0, &vec![[0, 12, 1, 0, 0, 0]; 177]);
    let mut cases = vec![
        sheet_first("S", s.clone(), 0),
        sheet_first("empty", vec![], 1),
        sheet_first("six bytes", s[..6].to_vec(), 1),
        sheet_first("first line alone", s[..7].to_vec(), 3),
        sheet_first("k 7", replaced(&s, 0, b"  7"), 2),
        sheet_first("k 999", replaced(&s, 0, b"999"), 2),
        sheet_first("k 7 without rows", b"  7  0\n".to_vec(), 2),
        sheet_first("177 rows", wide, 2),
        sheet_first("177 rows that are not there", b"  0177\n".to_vec(), 2),
        sheet_first("176 rows that are not there", b"  0176\n".to_vec(), 3),
        sheet_first("one row too few", s[..s.len() - ROW].to_vec(), 3),
        sheet_first("one byte more", [&s[..], b"\n"].concat(), 3),
        sheet_first("65,536 bytes more", [&s[..], &[b' '; 65_536]].concat(), 3),
        sheet_first("last LF missing", s[..s.len() - 1].to_vec(), 3),
        sheet_first("one row more", [&s[..], &s[7..42]].concat(), 3),
        sheet_first("k 0, no rows", b"  0  0\n".to_vec(), 0),
        sheet_first("k 6, no rows", b"  6  0\n".to_vec(), 0),
        sheet_first("k 0, no rows, one byte more", b"  0  0\n ".to_vec(), 3),
        sheet_first("CRLF", String::from_utf8(s.clone()).unwrap().replace('\n', "\r\n").into_bytes(), 1),
    ];
    for first in [
        "001  4\n",
        " 01  4\n",
        "  1 04\n",
        "  1   \n",
        "     4\n",
        "  1  4 ",
        "  1  4\r",
        "\t 1  4\n",
        " +1  4\n",
        " -1  4\n",
        "1    4\n",
        "  1 4 \n",
        "  a  4\n",
    ] {
        cases.push(sheet_first(&format!("first line {first:?}"), replaced(&s, 0, first.as_bytes()), 1));
    }
    cases
}

fn malformed_rows() -> Vec<Case> {
    let s = sheet_s();
    let third = SHEET_FIRST + 2 * ROW;
    let damages: [(usize, &[u8]); 22] = [
        (0, b" 01"),
        (0, b"   "),
        (0, b"1  "),
        (3, b"010"),
        (3, b"\t10"),
        (6, b"1 1"),
        (6, b"-11"),
        (9, b"+ 1"),
        (9, b"001"),
        (12, b" 4294967296"),
        (12, b"99999999999"),
        (12, b"10000000000"),
        (12, b"00000000000"),
        (12, b"           "),
        (12, b" 0000000001"),
        (23, b" 4294967296"),
        (23, b"18446744073"),
        (23, b"       5 00"),
        (23, b"       500\r"),
        (23, b"       500."),
        (34, b" "),
        (34, b"\r"),
    ];
    let mut cases = Vec::new();
    for (column, bytes) in damages {
        let name = format!("column {column} {:?}", String::from_utf8_lossy(bytes));
        cases.push(sheet_row(&name, replaced(&s, third + column, bytes), 4, 3));
    }
    let last = s.len() - 1;
    cases.push(sheet_row("the last byte is no LF", replaced(&s, last, b" "), 4, 4));
    let all_wrong = replaced(&s, third, b"  9 13 98 98          2          1x");
    cases.push(sheet_row("everything wrong and malformed", all_wrong, 4, 3));
    cases
}

/// A row after the ground and its refusal: rows of section 0 come third, all others fifth.
const REFUSED: &[(Fields, u32)] = &[
    ([3, 12, 1, 0, 8, 0], 5),
    ([999, 12, 1, 0, 8, 0], 5),
    ([7, 12, 1, 0, 8, 0], 5),
    ([3, 13, 98, 98, 0, 1], 5),
    ([1, 0, 1, 0, 8, 0], 6),
    ([1, 13, 1, 0, 8, 0], 6),
    ([2, 999, 1, 0, 8, 0], 6),
    ([1, 1, 13, 0, 8, 0], 6),
    ([2, 1, 29, 0, 8, 0], 6),
    ([0, 2, 3, 1, 8, 0], 6),
    ([0, 3, 3, 1, 8, 0], 6),
    ([0, 4, 3, 1, 2, 0], 6),
    ([0, 5, 3, 1, 2, 0], 6),
    ([0, 13, 98, 98, 0, 1], 6),
    ([0, 1, 0, 0, 8, 0], 7),
    ([0, 1, 2, 0, 8, 0], 7),
    ([0, 1, 4, 0, 8, 0], 7),
    ([0, 1, 99, 0, 8, 0], 7),
    ([0, 1, 259, 0, 8, 0], 7),
    ([0, 6, 3, 1, 0, 0], 7),
    ([0, 6, 0, 1, 0, 0], 7),
    ([0, 7, 99, 1, 0, 0], 7),
    ([0, 8, 11, 1, 0, 0], 7),
    ([0, 9, 3, 1, 8, 0], 7),
    ([0, 9, 98, 98, 0, 1], 7),
    ([0, 12, 0, 0, 8, 0], 7),
    ([0, 12, 99, 0, 8, 0], 7),
    ([1, 2, 12, 1, 8, 0], 7),
    ([1, 2, 14, 1, 8, 0], 7),
    ([1, 3, 21, 1, 8, 0], 7),
    ([1, 4, 3, 1, 2, 0], 7),
    ([1, 5, 19, 1, 2, 0], 7),
    ([1, 12, 13, 0, 8, 0], 7),
    ([1, 12, 19, 0, 8, 0], 7),
    ([1, 12, 257, 0, 8, 0], 7),
    ([1, 12, 999, 0, 8, 0], 7),
    ([2, 12, 11, 0, 8, 0], 7),
    ([2, 6, 11, 1, 0, 0], 7),
    ([2, 10, 12, 1, 0, 1], 7),
    ([2, 2, 13, 1, 8, 0], 7),
    ([1, 2, 13, 99, 8, 0], 8),
    ([1, 3, 13, 0, 8, 0], 8),
    ([1, 2, 13, 13, 8, 0], 8),
    ([1, 2, 13, 3, 8, 0], 8),
    ([1, 3, 13, 14, 8, 0], 8),
    ([1, 3, 13, 257, 8, 0], 8),
    ([1, 2, 13, 98, 0, 1], 8),
    ([2, 2, 21, 11, 8, 0], 8),
    ([1, 4, 13, 0, 1, 0], 8),
    ([1, 4, 13, 99, 1, 0], 8),
    ([1, 4, 13, 1, 0, 0], 8),
    ([1, 4, 13, 1, 99, 0], 8),
    ([1, 4, 13, 1, 1, 0], 8),
    ([1, 4, 13, 1, 13, 0], 8),
    ([1, 5, 13, 13, 1, 0], 8),
    ([1, 5, 13, 1, 3, 0], 8),
    ([1, 5, 13, 1, 19, 0], 8),
    ([1, 5, 13, 1, 258, 0], 8),
    ([1, 5, 13, 1, 65538, 0], 8),
    ([1, 5, 13, 1, 4_294_967_295, 0], 8),
    ([1, 5, 13, 1, 4_294_967_295, 1], 8),
    ([2, 4, 21, 1, 11, 0], 8),
    ([2, 5, 21, 11, 1, 0], 8),
    ([0, 6, 1, 1, 0, 0], 8),
    ([0, 6, 1, 0, 0, 0], 8),
    ([0, 7, 1, 99, 0, 0], 8),
    ([0, 8, 1, 3, 0, 0], 8),
    ([0, 8, 1, 11, 0, 0], 8),
    ([0, 9, 0, 0, 8, 0], 8),
    ([0, 9, 99, 99, 8, 0], 8),
    ([0, 9, 1, 1, 8, 0], 8),
    ([0, 10, 0, 0, 0, 1], 8),
    ([0, 11, 99, 99, 0, 1], 8),
    ([0, 10, 1, 98, 2, 1], 8),
    ([2, 9, 1, 11, 8, 0], 8),
    ([1, 6, 1, 257, 0, 0], 8),
    ([0, 1, 3, 1, 8, 0], 9),
    ([0, 1, 3, 99, 8, 0], 9),
    ([0, 1, 3, 98, 8, 0], 9),
    ([0, 1, 3, 0, 0, 0], 9),
    ([0, 1, 3, 1, 0, 2], 9),
    ([1, 2, 13, 1, 0, 0], 9),
    ([1, 3, 13, 1, 0, 0], 9),
    ([1, 4, 13, 1, 2, 1], 9),
    ([1, 4, 13, 1, 2, 4_294_967_295], 9),
    ([1, 5, 13, 1, 2, 1], 9),
    ([1, 5, 13, 1, 2, 4_294_967_295], 9),
    ([0, 6, 1, 2, 1, 0], 9),
    ([0, 6, 1, 2, 0, 1], 9),
    ([0, 6, 1, 2, 0, 4_294_967_295], 9),
    ([0, 7, 1, 2, 1, 0], 9),
    ([0, 7, 1, 2, 0, 1], 9),
    ([0, 7, 1, 2, 0, 2], 9),
    ([0, 8, 1, 2, 1, 0], 9),
    ([0, 8, 1, 2, 0, 1], 9),
    ([0, 8, 1, 2, 0, 2_147_483_648], 9),
    ([0, 9, 1, 2, 0, 0], 9),
    ([0, 10, 1, 2, 2, 1], 9),
    ([0, 11, 1, 2, 4_294_967_295, 4_294_967_294], 9),
    ([0, 12, 1, 2, 8, 0], 9),
    ([0, 12, 1, 98, 8, 0], 9),
    ([0, 12, 1, 99, 8, 0], 9),
    ([0, 12, 1, 2, 0, 8], 9),
];

fn refused_rows() -> Vec<Case> {
    let mut cases: Vec<Case> = Vec::new();
    for &(row, answer) in REFUSED {
        let name = format!("row {row:?}");
        cases.push(if row[0] == 0 { sheet_row(&name, third(row), answer, 3) } else { sheet_row(&name, fifth(row), answer, 5) });
    }
    cases.push(sheet_row("section below the one before", fifth([0, 12, 1, 0, 8, 0]), 5, 5));
    cases.push(sheet_row("first row of section k + 1", sheet_of(2, &[[3, 10, 0, 99, 0, 1]]), 5, 1));
    cases.push(sheet_row("first point is 2", sheet_of(0, &[[0, 1, 2, 0, 8, 0]]), 7, 1));
    cases.push(sheet_row("fifth point", sheet_of(0, &[1, 2, 3, 4, 5].map(|p| [0, 1, p, 0, 8, 0])), 7, 5));
    cases.push(sheet_row("fifth point called 11", sheet_of(0, &[1, 2, 3, 4, 11].map(|p| [0, 1, p, 0, 8, 0])), 7, 5));
    let nine = [11, 12, 13, 14, 15, 16, 17, 18, 19].map(|p| [1, 2, p, 0, 8, 0]);
    cases.push(sheet_row("ninth point of a consequent", sheet_of(1, &nine), 7, 9));
    cases.push(sheet_row("r used after all eight", sheet_of(1, &[&nine[..8], &[[1, 12, 19, 0, 8, 0]]].concat()), 7, 9));
    cases.push(sheet_row(
        "point of the antecedent used before it is there",
        sheet_of(0, &[[0, 12, 1, 0, 8, 0], [0, 1, 1, 0, 8, 0]]),
        7,
        1,
    ));
    cases
}

const ACCEPTED: &[Fields] = &[
    [0, 1, 3, 0, 4_294_967_295, 0],
    [0, 1, 3, 0, 0, 1],
    [0, 1, 3, 0, 8, 1],
    [0, 1, 3, 0, 4_294_967_295, 4_294_967_295],
    [0, 6, 1, 2, 0, 0],
    [0, 6, 2, 1, 0, 0],
    [0, 7, 1, 2, 0, 0],
    [0, 8, 2, 1, 0, 0],
    [0, 9, 0, 99, 1, 0],
    [0, 9, 99, 0, 2_147_483_648, 0],
    [0, 9, 1, 99, 8, 0],
    [0, 9, 0, 2, 8, 0],
    [0, 9, 1, 2, 0, 2_147_483_648],
    [0, 9, 1, 2, 8, 1],
    [0, 10, 0, 99, 0, 0],
    [0, 10, 99, 0, 4_294_967_295, 4_294_967_295],
    [0, 11, 1, 0, 5, 5],
    [0, 11, 99, 2, 0, 4_294_967_295],
    [0, 12, 2, 0, 0, 0],
    [0, 12, 2, 0, 4_294_967_295, 0],
    [0, 12, 2, 0, 0, 4_294_967_295],
    [0, 12, 1, 0, 8, 1],
    [0, 12, 1, 0, 4_294_967_295, 4_294_967_295],
    [1, 2, 13, 0, 8, 0],
    [1, 3, 13, 99, 8, 0],
    [1, 2, 13, 12, 1, 0],
    [1, 2, 13, 1, 0, 1],
    [1, 2, 13, 1, 8, 1],
    [1, 3, 13, 1, 0, 4_294_967_295],
    [1, 3, 13, 1, 8, 1],
    [1, 4, 13, 11, 2, 0],
    [1, 5, 13, 1, 12, 0],
    [1, 6, 11, 1, 0, 0],
    [1, 12, 1, 0, 0, 0],
    [2, 2, 21, 0, 8, 0],
    [2, 4, 21, 1, 2, 0],
    [2, 12, 1, 0, 0, 0],
];

fn accepted_rows() -> Vec<Case> {
    let accepted = |row: &Fields| {
        let text = if row[0] == 0 { third(*row) } else { fifth(*row) };
        sheet_first(&format!("row {row:?}"), text, 0)
    };
    let mut cases: Vec<Case> = ACCEPTED.iter().map(accepted).collect();
    cases.push(sheet_first("sections skipped", sheet_of(6, &[[3, 10, 0, 99, 0, 1], [5, 2, 51, 0, 8, 0]]), 0));
    cases.push(sheet_first("four points", sheet_of(0, &[1, 2, 3, 4].map(|p| [0, 1, p, 0, 8, 0])), 0));
    cases
}

fn long_sections() -> Vec<Case> {
    let point = [0, 1, 1, 0, 8, 0];
    let antecedent = |more: usize| [vec![point], vec![[0, 12, 1, 0, 8, 0]; more]].concat();
    let consequent = |rows: usize| [vec![point], vec![[1, 12, 1, 0, 8, 0]; rows]].concat();
    let mut cases = vec![
        sheet_first("32 antecedent rows", sheet_of(0, &antecedent(31)), 0),
        sheet_row("33 antecedent rows", sheet_of(0, &antecedent(32)), 10, 33),
        sheet_row("176 antecedent rows", sheet_of(0, &antecedent(175)), 10, 33),
        sheet_first("24 consequent rows", sheet_of(1, &consequent(24)), 0),
        sheet_row("25 consequent rows", sheet_of(1, &consequent(25)), 10, 26),
        sheet_row("33rd row and a bad one after it", sheet_of(0, &[antecedent(32), vec![[0, 13, 1, 0, 0, 0]]].concat()), 10, 33),
        sheet_row(
            "33 antecedent rows, then a point used first",
            sheet_of(1, &[antecedent(32), vec![[1, 12, 11, 0, 8, 0]]].concat()),
            10,
            33,
        ),
    ];
    let own_faults: [(Fields, u32); 5] = [
        ([1, 12, 1, 0, 8, 0], 5),
        ([0, 13, 1, 0, 8, 0], 6),
        ([0, 12, 3, 0, 8, 0], 7),
        ([0, 6, 1, 1, 0, 0], 8),
        ([0, 12, 1, 2, 8, 0], 9),
    ];
    for (row, answer) in own_faults {
        let text = sheet_of(0, &[antecedent(31), vec![row]].concat());
        cases.push(sheet_row(&format!("33rd row {row:?}"), text, answer, 33));
    }
    let malformed = replaced(&sheet_of(0, &antecedent(32)), SHEET_FIRST + 32 * ROW + 34, b"x");
    cases.push(sheet_row("33rd row malformed", malformed, 4, 33));
    cases
}

/// So many rows of one denial in each of six consequents.
pub fn with_denials(counts: [usize; 6]) -> Vec<u8> {
    let mut rows = vec![[0, 1, 1, 0, 8, 0]];
    for (section, count) in (1..).zip(counts) {
        rows.extend(vec![[section, 12, 1, 0, 2, 0]; count]);
    }
    sheet_of(6, &rows)
}

/// Two scans, and 24 BEFORE rows in each of six consequents: 48^6 antiscenarios, of which every other denial is SAME.
pub fn all_before() -> Vec<u8> {
    with_all_before(0)
}

/// Every section full, with BEFORE rows: 176 rows and 48^6 antiscenarios, which no log meets.
pub fn fullest() -> Vec<u8> {
    with_all_before(30)
}

fn with_all_before(in_antecedent: usize) -> Vec<u8> {
    let mut rows = vec![[0, 1, 1, 0, 8, 0], [0, 1, 2, 0, 8, 0]];
    rows.extend(vec![[0, 6, 1, 2, 0, 0]; in_antecedent]);
    for section in 1..=6 {
        rows.extend(vec![[section, 6, 1, 2, 0, 0]; 24]);
    }
    sheet_of(6, &rows)
}

/// Sheets with the N that each has.
pub fn counted() -> Vec<(Vec<u8>, u64)> {
    vec![
        (with_denials([4; 6]), 4096),
        (with_denials([4, 4, 4, 4, 4, 5]), 5120),
        (with_denials([5, 4, 4, 4, 4, 4]), 5120),
        (with_denials([17, 1, 1, 1, 1, 1]), 17),
        (with_denials([24, 24, 24, 24, 24, 0]), 0),
        (with_denials([0, 24, 24, 24, 24, 24]), 0),
        (with_denials([24, 24, 7, 1, 1, 1]), 4032),
        (with_denials([24, 24, 8, 1, 1, 1]), 4608),
        (with_denials([24; 6]), 191_102_976),
        (all_before(), 12_230_590_464),
        (fullest(), 12_230_590_464),
    ]
}

fn counts() -> Vec<Case> {
    counted().into_iter().map(|(text, count)| sheet_first(&format!("N {count}"), text, 0)).collect()
}
