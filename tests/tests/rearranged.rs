//! Document 02, A11: consequents in another order, through the C interface: what is answered to the rearranged sheet is what is answered to the sheet, moved.
//! By hand, in every order of families and of six consequents, at random, and for the largest sheets, the supplier's and the theses'.
mod common;
use common::answers::{found, pair, verdict, written};
use common::program::{SUPPLIER, SUPPLIER_KEPT, SUPPLIER_LOG};
use common::{tell, theses, top};
use satskhubo_tests::compare::{compare_rearranged, Comparison, Mismatch};
use satskhubo_tests::generate::families::{self, Family};
use satskhubo_tests::generate::joined::joined;
use satskhubo_tests::generate::logs::log_of;
use satskhubo_tests::generate::pairs::{
    chained_pair_of, independent_pair_of, joined_pair_of, large_pair_of, longer_rule_pair_of, pair_of, rearranged_pair_of,
    rule_pair_of,
};
use satskhubo_tests::generate::rearranged::{alternative_families, alternative_logs, in_either_order};
use satskhubo_tests::generate::sheets::{largest, sheet_of};
use satskhubo_tests::generate::targeted::{all_before, fullest, with_denials};
use satskhubo_tests::generate::Pair;
use satskhubo_tests::host::Host;
use satskhubo_tests::outcome::Side;
use satskhubo_tests::reference::blunder::Blunder;
use satskhubo_tests::reference::log::Log;
use satskhubo_tests::reference::rearranged::every_order;
use satskhubo_tests::reference::sheet::{self, kind::*};
use std::fs;
use std::path::PathBuf;

/// 48^6.
const LARGEST: u64 = 12_230_590_464;

/// Orders of six consequents: turned, two changed, all moved on by one, and none where it was.
const OF_SIX: [[u32; 6]; 4] = [[6, 5, 4, 3, 2, 1], [1, 2, 5, 4, 3, 6], [2, 3, 4, 5, 6, 1], [4, 6, 1, 5, 3, 2]];

/// One pair in these orders, for up to so many of the numbers; gives the number of comparisons.
fn compared(pair: &Pair, orders: &[Vec<u32>], most_numbers: u64) -> u64 {
    let mut comparison = Comparison::new(&Host, pair, 0);
    let compare = |order: &Vec<u32>| comparison.rearranged(order, most_numbers);
    orders.iter().try_for_each(compare).unwrap_or_else(|Mismatch(text)| panic!("{text}"));
    comparison.comparisons
}

/// Every order of the sheet's consequents.
fn in_every_order(pair: &Pair, most_numbers: u64) -> u64 {
    let sheet = sheet::read(&pair.sheet, Blunder::None).expect("accepted");
    compared(pair, &every_order(sheet.k), most_numbers)
}

/// The verdicts on these lines.
fn verdicts(sheets: &[Vec<u8>; 2], lines: &[(u32, u32)]) -> [Option<(Vec<u32>, Vec<u32>)>; 2] {
    [0, 1].map(|index| verdict(&pair(&sheets[index], lines)))
}

/// Rows 2 to 4 and 5 to 6 become 4 to 6 and 2 to 3.
#[test]
fn two_alternatives_by_hand() {
    let sheets = in_either_order();
    let holds = [(100, 2), (300, 3), (800, 3), (820, 2)];
    assert_eq!(verdicts(&sheets, &holds), [None, None]);
    let none_after = [(100, 2), (300, 3), (900, 3)];
    assert_eq!(verdicts(&sheets, &none_after), [Some((vec![3], vec![3, 5])), Some((vec![3], vec![2, 5]))]);
    let too_late = [(100, 2), (900, 3), (1000, 2)];
    assert_eq!(verdicts(&sheets, &too_late), [Some((vec![2], vec![3, 6])), Some((vec![2], vec![3, 5]))]);
    // Number 4 has choices 2 of 4 and 2 of 2, number 6 of the other 2 of 2 and 2 of 4.
    let searched = |index: usize, number| found(&pair(&sheets[index], &too_late), number);
    assert_eq!((searched(0, 4), searched(1, 6)), (Some(vec![2, 1, 3]), Some(vec![2, 3, 1])));
    let order = sheets.iter().map(|sheet| in_every_order(&pair(sheet, &too_late), 8));
    tell("rearranged: two alternatives by hand", 8 + order.sum::<u64>());
}

/// The spare point too.
#[test]
fn a_pattern_by_hand() {
    let sheets = in_either_order();
    let fifth = "  2  6
  0  1  1  0          8          0
  1  3 11  1          4          0
  1  1 19  0          2          0
  1  6 11 19          0          0
  1  6 19  1          0          0
  2  9  1 99          4          0
";
    let third = "  2  6
  0  1  1  0          8          0
  1  9  1 99          4          0
  2  3 21  1          4          0
  2  1 29  0          2          0
  2  6 21 29          0          0
  2  6 29  1          0          0
";
    assert_eq!((written(&sheets[0], 5), written(&sheets[1], 3)), (fifth.to_string(), third.to_string()));
    tell("rearranged: a pattern by hand", 2);
}

/// Every so-many-th pair of a family's sheets and these logs, in every order.
fn of_family(family: &Family, logs: &[Log], stride: usize, most_numbers: u64) {
    let pair = |index: usize| Pair { sheet: family.sheets[index / logs.len()].clone(), log: logs[index % logs.len()].text() };
    let all = family.sheets.len() * logs.len();
    let comparisons = (0..all).step_by(stride).map(|index| in_every_order(&pair(index), most_numbers)).sum();
    tell(&format!("rearranged: {}, 1 in {stride} of {all} pairs, in every order", family.name), comparisons);
}

#[test]
fn two_alternatives() {
    let [two, _] = alternative_families();
    of_family(&two, &alternative_logs(), 1, 40);
}

#[test]
fn three_alternatives() {
    let [_, three] = alternative_families();
    of_family(&three, &alternative_logs(), 17, 12);
}

/// The families of two consequents, that have every kind in each, sets in either half, and points joined across them.
#[test]
fn other_families() {
    let of_two = |family: &Family| family.sheets[0].starts_with(b"  2");
    for family in families::small().iter().filter(|family| of_two(family)) {
        of_family(family, &families::logs(), 29, 40);
    }
    for family in families::boards().iter().filter(|family| of_two(family)) {
        of_family(family, &families::board_logs(), 61, 40);
    }
    for family in joined().iter().filter(|family| of_two(family)) {
        of_family(family, &families::board_logs(), 41, 12);
    }
}

/// Consequents of one to six rows, no two of which are alike; a scan meets every other one, and the last of none.
fn one_to_six() -> Vec<u8> {
    let set = |section: u32, row: u32| 16 * (6 * section + row) + if (section - row) % 2 == 1 { 8 } else { 0 };
    let rows = (1..=6).flat_map(|section| (1..=section).map(move |row| [section, EVENT, 1, 0, set(section, row), 0]));
    sheet_of(6, &[[0, POINT, 1, 0, 8, 0]].into_iter().chain(rows).collect::<Vec<_>>())
}

/// Every one of 720 orders.
#[test]
fn six_consequents_in_every_order() {
    let pair = pair(&one_to_six(), &[(5, 3)]);
    assert_eq!(Host.read_sheet(&pair.sheet).count, 720);
    tell("rearranged: six consequents in every order", in_every_order(&pair, 8));
}

fn at_random(name: &str, pair_of: fn(u64) -> Pair, pairs: u64, most_numbers: u64) {
    let compare = |seed| {
        let compared = compare_rearranged(&Host, &pair_of(seed), seed, most_numbers);
        compared.unwrap_or_else(|Mismatch(text)| panic!("{text}"))
    };
    tell(&format!("rearranged: {name}"), (5_000_000..5_000_000 + pairs).map(compare).sum());
}

#[test]
fn random_pairs() {
    at_random("random pairs", pair_of, 2500, 12);
    at_random("pairs with numbers of points", rearranged_pair_of, 1500, 12);
}

#[test]
fn other_random_pairs() {
    at_random("large sheets", large_pair_of, 150, 12);
    at_random("chains", chained_pair_of, 600, 12);
    at_random("joined points", joined_pair_of, 600, 12);
    at_random("independent consequents", independent_pair_of, 300, 12);
    at_random("ordinary rules", rule_pair_of, 400, 12);
    at_random("longer logs", longer_rule_pair_of, 10, 6);
}

fn file(path: PathBuf) -> Vec<u8> {
    fs::read(&path).unwrap_or_else(|error| panic!("{}: {error}", path.display()))
}

/// Of 16^6 numbers a sample.
#[test]
fn the_suppliers_sheet() {
    let [sheet, log, kept] = [SUPPLIER, SUPPLIER_LOG, SUPPLIER_KEPT].map(|name| file(top().join(name)));
    assert_eq!(Host.read_sheet(&sheet).count, 16_777_216);
    let pairs = [log, kept].map(|log| Pair { sheet: sheet.clone(), log });
    tell("rearranged: the supplier's sheet", pairs.iter().map(|pair| compared(pair, &OF_SIX.map(Vec::from), 60)).sum());
}

/// 48^6 numbers, 176 rows, and texts of 58 points and 98 rows.
#[test]
fn the_largest_sheets() {
    let mut comparisons = 0;
    for log in [&[][..], &[(1, 3)], &[(1, 3), (2, 1), (3, 3)]].map(|lines| log_of(lines).text()) {
        for (sheet, count) in [(all_before(), LARGEST), (fullest(), LARGEST), (largest(), 64), (with_denials([4; 6]), 4096)] {
            assert_eq!(Host.read_sheet(&sheet).count, count);
            comparisons += compared(&Pair { sheet, log: log.clone() }, &OF_SIX.map(Vec::from), 12);
        }
    }
    tell("rearranged: the largest sheets", comparisons);
}

/// Every sheet of two consequents or more, with every log.
#[test]
fn sheets_of_the_theses() {
    let files = |folder: &str| {
        let entries = fs::read_dir(theses().join(folder)).expect("the theses' scenarios belong in examples/theses");
        entries.map(|entry| file(entry.expect("a file").path())).collect::<Vec<_>>()
    };
    let is_rearranged = |text: &Vec<u8>| sheet::read(text, Blunder::None).is_ok_and(|sheet| sheet.k > 1);
    let (sheets, logs) = (files("sheets").into_iter().filter(is_rearranged).collect::<Vec<_>>(), files("logs"));
    assert_eq!(sheets.len(), 6);
    let pairs = sheets.iter().flat_map(|sheet| logs.iter().map(|log| Pair { sheet: sheet.clone(), log: log.clone() }));
    tell("rearranged: theses", pairs.map(|pair| in_every_order(&pair, 20)).sum());
}
