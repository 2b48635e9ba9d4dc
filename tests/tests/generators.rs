//! What the random pairs and their arguments reach: every kind in every section that permits it, limits at and next to distances, short denials,
//! both verdicts, every end of the check with a limit, numbers that are impossible by each rule alone, all that moves with consequents in another order, and
//! every refusal; and what the families have.
use satskhubo_tests::generate::arguments::{arguments_of, limits_of, matched_numbers_of, order_of, Arguments};
use satskhubo_tests::generate::chains::chains;
use satskhubo_tests::generate::families;
use satskhubo_tests::generate::joined::joined;
use satskhubo_tests::generate::pairs::{
    chained_pair_of, has_short_denial, is_violated_later, joined_pair_of, large_pair_of, long_pair_of, longer_rule_pair_of,
    pair_of, rearranged_pair_of, rule_pair_of,
};
use satskhubo_tests::generate::Pair;
use satskhubo_tests::reference::antiscenario::{antiscenario, is_of_denial};
use satskhubo_tests::reference::blunder::{Blunder, IN_CONTRADICTIONS, IN_FAR_ENDS};
use satskhubo_tests::reference::columns::read_line;
use satskhubo_tests::reference::far_end::far_end;
use satskhubo_tests::reference::impossible::Pattern;
use satskhubo_tests::reference::log::Log;
use satskhubo_tests::reference::operations::{open, smallest, Opened, Verdict};
use satskhubo_tests::reference::rearranged::{inverse, Rearrangement};
use satskhubo_tests::reference::refusal::Refusal;
use satskhubo_tests::reference::rows::{meets, points, positions_of, Placement};
use satskhubo_tests::reference::sheet::{self, introduced, is_end, kind::*, Row, Sheet, CLOSE, START};
use satskhubo_tests::reference::weeded;
use std::collections::BTreeMap;
use std::io::Write;

const PAIRS: u64 = 10_000;
/// Document 02, A9: a limit and a distance meet in each way at least so often.
const OFTEN: u64 = 10;

type Reached = BTreeMap<String, u64>;

fn count(reached: &mut Reached, what: String) {
    *reached.entry(what).or_default() += 1;
}

fn of_row(reached: &mut Reached, row: &Row) {
    count(reached, format!("kind {} in section {}", row.kind, row.section));
    for (point, name) in [(START, "start"), (CLOSE, "close")] {
        if row.p == point || row.q == point && ![POINT, EVENT].contains(&row.kind) {
            count(reached, format!("kind {} with the {name}", row.kind));
        }
    }
    if row.kind == EVENT && row.set() == 0 {
        count(reached, "EVENT with no event".into());
    }
    if [POINT, NEXT, LAST, FREE, EVENT].contains(&row.kind) && row.set() != 0 {
        count(reached, format!("kind {} with a set in {}", row.kind, HALVES[halves_of(row)]));
    }
}

const HALVES: [&str; 3] = ["the lower half", "the upper half", "both halves"];

fn halves_of(row: &Row) -> usize {
    match (row.a, row.b) {
        (_, 0) => 0,
        (0, _) => 1,
        _ => 2,
    }
}

/// Document 02, A1: every kind that has a set, with one in either half and in both.
fn sets_in_halves() -> Vec<String> {
    let kinds = [POINT, NEXT, LAST, FREE, EVENT].into_iter();
    kinds.flat_map(|kind| HALVES.map(|half| format!("kind {kind} with a set in {half}"))).collect()
}

/// Document 02, A9: what the limits of a row are beside a distance d.
const LIMITS: [(&str, fn(&Row, u32) -> bool); 12] = [
    ("d = b", |row, d| d == row.b),
    ("d = b - 1", |row, d| d.checked_add(1) == Some(row.b)),
    ("a = 0", |row, _| row.a == 0),
    ("a = b", |row, _| row.a == row.b),
    ("b = a + 1", |row, _| row.a.checked_add(1) == Some(row.b)),
    ("b = 0", |row, _| row.b == 0),
    ("b = 1", |row, _| row.b == 1),
    ("d = a > 0", |row, d| d == row.a && d > 0),
    ("d = a + 1", |row, d| row.a.checked_add(1) == Some(d)),
    ("the longest d", |_, d| d == u32::MAX),
    ("the longest d and b", |row, d| d == u32::MAX && d == row.b),
    ("the longest b and d = b - 1", |row, d| row.b == u32::MAX && d == row.b - 1),
];
/// So many of them can be at distance 0, and so many at any short one.
const AT_0: usize = 7;
const SHORT: usize = 9;

/// Where the two points of a row may stand: on one line, or on two positions, most of which may be apart.
const PLACES: [(&str, usize, fn(&Log, u32, u32) -> bool); 7] = [
    ("one line", AT_0, |_, x, y| x == y),
    ("two lines of one tick", AT_0, |log, x, y| x != y && are_lines(log, x, y) && log.distance(x, y) == 0),
    ("two lines", SHORT, |log, x, y| x != y && are_lines(log, x, y)),
    ("the start and a line", SHORT, |log, x, y| x.min(y) == 0 && x.max(y) <= log.n()),
    ("a line and the close", SHORT, |log, x, y| x.min(y) > 0 && x.max(y) > log.n()),
    ("the start and the close", SHORT, |log, x, y| log.n() > 0 && x.min(y) == 0 && x.max(y) > log.n()),
    ("the start and the close without lines", SHORT, |log, x, y| log.n() == 0 && x != y),
];

fn are_lines(log: &Log, x: u32, y: u32) -> bool {
    x.min(y) > 0 && x.max(y) <= log.n()
}

/// What a row of WITHIN or OUTSIDE has somewhere on the log, each once.
fn of_limits(reached: &mut Reached, row: &Row, log: &Log) {
    if ![WITHIN, OUTSIDE].contains(&row.kind) {
        return;
    }
    let pairs = positions_of(row.p, log).flat_map(|x| positions_of(row.q, log).map(move |y| (x, y)));
    for (limits, are_so) in LIMITS {
        let so: Vec<(u32, u32)> = pairs.clone().filter(|&(x, y)| are_so(row, log.distance(x, y))).collect();
        for (place, ..) in PLACES.iter().filter(|(.., is_there)| so.iter().any(|&(x, y)| is_there(log, x, y))) {
            count(reached, format!("kind {} on {place} with {limits}", row.kind));
        }
        if so.iter().any(|(x, y)| x != y) {
            count(reached, format!("kind {} in {} with {limits}", row.kind, PARTS[usize::from(row.section > 0)]));
        }
    }
}

const PARTS: [&str; 2] = ["the antecedent", "a consequent"];

/// Every limit in every place that can have it, and on two positions in antecedent and consequents.
fn limits_in_places() -> Vec<String> {
    let mut wanted = Vec::new();
    for kind in [WITHIN, OUTSIDE] {
        for (place, many, _) in PLACES {
            wanted.extend(LIMITS[..many].iter().map(|(limits, _)| format!("kind {kind} on {place} with {limits}")));
        }
        for part in PARTS {
            wanted.extend(LIMITS.map(|(limits, _)| format!("kind {kind} in {part} with {limits}")));
        }
    }
    wanted
}

/// Either limit at a distance of two positions, and next to it.
fn at_limits(kind: u32) -> Vec<String> {
    let limits = ["d = b", "d = b - 1", "d = a > 0", "d = a + 1"];
    PARTS.iter().flat_map(|part| limits.map(|limits| format!("kind {kind} in {part} with {limits}"))).collect()
}

/// A sheet refused with 9 for b, in the kinds that do not use it, and for a set that is empty in both halves.
fn of_fields(reached: &mut Reached, text: &[u8]) {
    let Err(fault) = sheet::read(text, Blunder::None) else { return };
    if fault.refusal != Refusal::Fields {
        return;
    }
    let fields = read_line(&text[fault.part.offset..][..fault.part.length], &[3, 3, 3, 3, 11, 11])
        .expect("a row refused with 9 is well formed");
    let (kind, a, b) = (fields[1], fields[4], fields[5]);
    match kind {
        EARLIER | LATER | BEFORE | APART | SAME if b != 0 => count(reached, format!("b of kind {kind} refused")),
        POINT | NEXT | LAST | FREE if a == 0 && b == 0 => count(reached, format!("empty set of kind {kind} refused")),
        _ => {}
    }
}

fn fields_refused() -> Vec<String> {
    let unused = [EARLIER, LATER, BEFORE, APART, SAME].map(|kind| format!("b of kind {kind} refused"));
    let empty = [POINT, NEXT, LAST, FREE].map(|kind| format!("empty set of kind {kind} refused"));
    unused.into_iter().chain(empty).collect()
}

/// Sections of a sheet without rows, and points of a matching in one position.
fn of_sections_and_positions(reached: &mut Reached, sheet: &Sheet, log: &Log) {
    let last = sheet.rows.last().map_or(0, |row| row.section);
    for section in (1..=sheet.k).filter(|&section| sheet.section(section).is_empty()) {
        count(reached, if section < last { "a consequent skipped" } else { "a consequent empty" }.into());
    }
    if let Some(mut positions) = (sheet.count > 0).then(|| weeded::smallest(&antiscenario(sheet, 1), log)).flatten() {
        let points = positions.len();
        positions.sort();
        positions.dedup();
        count(reached, if positions.len() < points { "positions shared" } else { "positions not shared" }.into());
    }
}

fn count_refusal<T>(reached: &mut Reached, answer: Result<T, Refusal>) {
    if let Err(refusal) = answer {
        count(reached, format!("refusal {}", refusal.number()));
    }
}

/// The refusals of both texts, each for itself, and those of the arguments that the comparison tries on them.
fn of_refusals(reached: &mut Reached, opened: &Opened, seed: u64) {
    count_refusal(reached, opened.read_sheet());
    count_refusal(reached, opened.read_log());
    if opened.sheet.is_err() || opened.log.is_err() {
        return;
    }
    let Arguments { number, room, places, table } = arguments_of(seed, opened);
    count_refusal(reached, opened.write(number, room));
    count_refusal(reached, opened.search(number, places));
    count_refusal(reached, opened.judge(number, &table.positions, table.count));
}

/// Document 02, A10: how the check ends with each of the limits that the comparison tries, and how many it has looked at.
fn of_ends(reached: &mut Reached, opened: &Opened, seed: u64) {
    for limit in limits_of(seed, opened) {
        let Ok(limited) = opened.check_limited(limit) else { return };
        let end = match limited.verdict {
            Some(Verdict::Holds) => ENDS[0],
            Some(Verdict::Violated { .. }) => ENDS[1],
            None => ENDS[2],
        };
        count(reached, format!("{end} after {}", LOOKED[limited.looked.min(2) as usize]));
    }
}

const ENDS: [&str; 3] = ["holds", "violated", "stopped"];
const LOOKED: [&str; 3] = ["none", "one", "several"];

/// Violated, at least one was looked at.
fn ends() -> Vec<String> {
    let all = ENDS.iter().flat_map(|end| LOOKED.map(|looked| format!("{end} after {looked}")));
    all.filter(|end| end != "violated after none").collect()
}

/// Each end so often at least.
fn ends_are_reached(name: &str, pairs: u64, pair_of: fn(u64) -> Pair) {
    let mut reached = Reached::new();
    for seed in 0..pairs {
        let pair = pair_of(seed);
        of_ends(&mut reached, &open(&pair.sheet, &pair.log, Blunder::None), seed);
    }
    writeln!(std::io::stderr(), "of {pairs} {name}: {reached:?}").unwrap();
    for end in ends() {
        assert!(reached.get(&end).is_some_and(|&times| times >= OFTEN), "{name}: {end}: {:?}", reached.get(&end));
    }
}

#[test]
fn the_check_with_a_limit_ends_in_every_way() {
    ends_are_reached("random pairs", 2000, pair_of);
    ends_are_reached("large pairs", 500, large_pair_of);
    ends_are_reached("chained pairs", 500, chained_pair_of);
    ends_are_reached("rules", 500, rule_pair_of);
    ends_are_reached("long pairs", 100, long_pair_of);
}

fn of_pair(reached: &mut Reached, seed: u64) {
    let pair = pair_of(seed);
    let opened = open(&pair.sheet, &pair.log, Blunder::None);
    of_refusals(reached, &opened, seed);
    of_fields(reached, &pair.sheet);
    let (Ok(sheet), Ok(log)) = (&opened.sheet, &opened.log) else { return };
    sheet.rows.iter().for_each(|row| of_row(reached, row));
    sheet.rows.iter().for_each(|row| of_limits(reached, row, log));
    of_sections_and_positions(reached, sheet, log);
    count(reached, format!("k {}", sheet.k));
    count(reached, format!("{} antecedent points", introduced(&sheet.rows, 0).len()));
    count(reached, format!("n {}", log.n()));
    log.lines.iter().for_each(|line| count(reached, format!("event {}", line.event)));
    if sheet.count == 0 {
        count(reached, "N 0".into());
    }
    let matched = weeded::smallest(&sheet.section(0), log).is_some();
    count(reached, format!("antecedent {}", if matched { "matched" } else { "not matched" }));
    match opened.check() {
        Ok(Verdict::Holds) if matched && sheet.count > 0 => count(reached, "holds by its consequents".into()),
        Ok(Verdict::Holds) => count(reached, "holds".into()),
        Ok(Verdict::Violated { .. }) => count(reached, "violated".into()),
        Err(refusal) => panic!("accepted and refused with {refusal:?}"),
    }
}

/// Kinds 2 and 3 with the end that they permit, and 9 to 11 with both.
fn kinds_with_ends() -> Vec<String> {
    let one_end = [(2, "start"), (3, "close")].into_iter();
    let both_ends = (9..=11).flat_map(|kind| [(kind, "start"), (kind, "close")]);
    one_end.chain(both_ends).map(|(kind, end)| format!("kind {kind} with the {end}")).collect()
}

fn kinds_in(sections: std::ops::RangeInclusive<u32>) -> Vec<String> {
    let kinds = |section| if section == 0 { vec![1, 6, 7, 8, 9, 10, 11, 12] } else { (2..=12).collect::<Vec<u32>>() };
    sections.flat_map(|section| kinds(section).into_iter().map(move |kind| format!("kind {kind} in section {section}"))).collect()
}

fn are_reached(reached: &Reached, wanted: &[String]) {
    for what in wanted {
        assert!(reached.contains_key(what), "{what} is not reached");
    }
}

#[test]
fn the_small_family_has_every_kind() {
    let mut reached = Reached::new();
    for text in families::small().iter().flat_map(|family| &family.sheets) {
        let sheet = sheet::read(text, Blunder::None).expect("a family's sheet is accepted");
        sheet.rows.iter().for_each(|row| of_row(&mut reached, row));
    }
    are_reached(&reached, &[kinds_in(0..=1), kinds_with_ends(), vec!["EVENT with no event".into()]].concat());
}

/// Document 02, A9: with its logs, either limit at a distance and next to it, and 0 to 0 on one line and on two of one tick.
#[test]
fn the_small_family_reaches_the_limits() {
    let (mut reached, logs) = (Reached::new(), families::logs());
    for text in families::small().iter().flat_map(|family| &family.sheets) {
        let sheet = sheet::read(text, Blunder::None).expect("a family's sheet is accepted");
        let pairs = sheet.rows.iter().flat_map(|row| logs.iter().map(move |log| (row, log)));
        pairs.for_each(|(row, log)| of_limits(&mut reached, row, log));
    }
    are_reached(&reached, &at_limits(WITHIN));
    are_reached(&reached, &PLACES.map(|(place, ..)| format!("kind {OUTSIDE} on {place} with b = 0")));
}

#[test]
fn the_families_of_newer_boards_have_every_half() {
    let mut reached = Reached::new();
    for text in families::boards().iter().flat_map(|family| &family.sheets) {
        let sheet = sheet::read(text, Blunder::None).expect("a family's sheet is accepted");
        sheet.rows.iter().for_each(|row| of_row(&mut reached, row));
    }
    are_reached(&reached, &[kinds_with_ends(), sets_in_halves()].concat());
}

/// Document 02, A4: far more than 4,096 antiscenarios, more than 32 bits can count among them, and logs that keep the sheet and that break it.
#[test]
fn large_pairs_reach_large_counts() {
    let mut reached = Reached::new();
    for seed in 0..1000 {
        let pair = large_pair_of(seed);
        let opened = open(&pair.sheet, &pair.log, Blunder::None);
        let size = match opened.read_sheet().expect("a large sheet is accepted") {
            0 => "none",
            1..=4096 => "few",
            4097..=4_294_967_296 => "many",
            _ => "more than 32 bits",
        };
        let (sheet, log) = (opened.sheet.as_ref().unwrap(), opened.log.as_ref().unwrap());
        let matched = weeded::smallest(&sheet.section(0), log).is_some();
        let verdict = match opened.check() {
            Ok(Verdict::Holds) if matched => "holds by its consequents",
            Ok(Verdict::Holds) => "holds",
            Ok(Verdict::Violated { .. }) => "violated",
            Err(refusal) => panic!("accepted and refused with {refusal:?}"),
        };
        count(&mut reached, format!("{size}, {verdict}"));
    }
    let verdicts = ["holds", "holds by its consequents", "violated"];
    let wanted = ["many", "more than 32 bits"].iter().flat_map(|size| verdicts.map(|verdict| format!("{size}, {verdict}")));
    are_reached(&reached, &wanted.collect::<Vec<_>>());
    writeln!(std::io::stderr(), "of 1000 large pairs: {reached:?}").unwrap();
}

/// Document 02, A8: what a denial of NEXT or LAST is between.
fn of_missing(reached: &mut Reached, sheet: &Sheet) {
    for row in sheet.rows.iter().filter(|row| [NEXT, LAST].contains(&row.kind)) {
        let length = if is_end(far_end(sheet, row)) { "long" } else { "short" };
        let from = match row.q {
            q if is_end(q) => "an end",
            q if q < 10 => "the antecedent",
            _ => "the consequent",
        };
        count(reached, format!("a {length} denial of kind {} from {from}", row.kind));
    }
}

/// Short and long ones from an end and from the antecedent's points, and long ones from the consequent's.
fn missing_from() -> Vec<String> {
    let denials = [("short", "an end"), ("short", "the antecedent"), ("long", "an end"), ("long", "the antecedent")];
    let all = denials.into_iter().chain([("long", "the consequent")]);
    all.flat_map(|(length, from)| [NEXT, LAST].map(|kind| format!("a {length} denial of kind {kind} from {from}"))).collect()
}

/// Of so many pairs, at least so many in a hundred of the sheets that are accepted have a short denial.
fn have_short_denials(name: &str, pair_of: fn(u64) -> Pair, pairs: u64, least: usize) {
    let mut reached = Reached::new();
    let sheets: Vec<Sheet> = (0..pairs).filter_map(|seed| sheet::read(&pair_of(seed).sheet, Blunder::None).ok()).collect();
    sheets.iter().for_each(|sheet| of_missing(&mut reached, sheet));
    let short = sheets.iter().filter(|sheet| has_short_denial(sheet)).count();
    writeln!(std::io::stderr(), "{short} of {} sheets of {name} have a short denial: {reached:?}", sheets.len()).unwrap();
    assert!(100 * short > least * sheets.len(), "{name}: {short} of {}", sheets.len());
    if pairs > 1000 {
        are_reached(&reached, &missing_from());
    }
}

#[test]
fn random_pairs_have_short_denials() {
    have_short_denials("random pairs", pair_of, 4000, 10);
    have_short_denials("large pairs", large_pair_of, 2000, 20);
    have_short_denials("chained pairs", chained_pair_of, 4000, 40);
    have_short_denials("long pairs", long_pair_of, 100, 10);
}

/// Each slip writes a denial of so many sheets otherwise.
fn show_every_slip(name: &str, texts: &[Vec<u8>]) {
    let denials = |text: &[u8], blunder| sheet::read(text, blunder).expect("a sheet with chains is accepted").denials;
    for slip in IN_FAR_ENDS {
        let shown = texts.iter().filter(|text| denials(text, slip) != denials(text, Blunder::None)).count() as u64;
        assert!(shown >= OFTEN, "{slip:?} is shown by {shown} of {name}");
    }
}

#[test]
fn chains_show_every_slip() {
    show_every_slip("chained pairs", &(0..4000).map(|seed| chained_pair_of(seed).sheet).collect::<Vec<_>>());
    show_every_slip("the families", &chains().into_iter().flat_map(|family| family.sheets).collect::<Vec<_>>());
}

/// Document 02, A6: possible, impossible by one rule alone, or by several.
const RULINGS: [&str; 5] =
    ["possible", "no event in common alone", "APART inside alone", "back to itself alone", "several rules"];

fn ruling_of(rows: &[Row]) -> &'static str {
    let pattern = Pattern::new(rows);
    match (pattern.has_no_event(), pattern.is_apart_from_itself(), pattern.leads_back()) {
        (false, false, false) => RULINGS[0],
        (true, false, false) => RULINGS[1],
        (false, true, false) => RULINGS[2],
        (false, false, true) => RULINGS[3],
        _ => RULINGS[4],
    }
}

/// The first so many numbers of a sheet.
fn of_rulings(reached: &mut Reached, text: &[u8], most: u64) {
    let Ok(sheet) = sheet::read(text, Blunder::None) else { return };
    for rows in (1..=sheet.count.min(most)).map(|number| antiscenario(&sheet, number)) {
        count(reached, ruling_of(&rows).into());
        let is_own =
            |row: &Row| introduced(&rows, row.section).contains(&row.p) && introduced(&rows, row.section).contains(&row.q);
        if rows.iter().any(|row| row.kind == SAME && !is_own(row)) {
            count(reached, "SAME across sections".into());
        }
    }
}

fn rulings_are_reached(name: &str, most: u64, texts: impl Iterator<Item = Vec<u8>>) {
    let mut reached = Reached::new();
    texts.for_each(|text| of_rulings(&mut reached, &text, most));
    writeln!(std::io::stderr(), "of the numbers of {name}: {reached:?}").unwrap();
    for what in RULINGS.into_iter().chain(["SAME across sections"]) {
        assert!(reached.get(what).is_some_and(|&times| times >= OFTEN), "{name}: {what}: {:?}", reached.get(what));
    }
}

#[test]
fn numbers_are_impossible_by_each_rule() {
    rulings_are_reached("random pairs", 6, (0..3000).map(|seed| pair_of(seed).sheet));
    rulings_are_reached("joined pairs", 6, (0..1000).map(|seed| joined_pair_of(seed).sheet));
    rulings_are_reached("large pairs", 6, (0..500).map(|seed| large_pair_of(seed).sheet));
}

/// Of one of the sheet's numbers the slip says otherwise.
fn shown_by(slip: Blunder, text: &[u8]) -> bool {
    let (slipped, due) = (open(text, b"", slip), open(text, b"", Blunder::None));
    let count = due.read_sheet().expect("a joined sheet is accepted");
    (1..=count.min(60)).any(|number| slipped.impossible(number) != due.impossible(number))
}

/// Document 02, A6: each slip in the rules says otherwise of so many sheets.
#[test]
fn joined_pairs_show_every_slip() {
    let texts: Vec<Vec<u8>> = (0..1000).map(|seed| joined_pair_of(seed).sheet).collect();
    for slip in IN_CONTRADICTIONS {
        let shown = texts.iter().filter(|text| shown_by(slip, text)).take(OFTEN as usize).count() as u64;
        assert_eq!(shown, OFTEN, "{slip:?} is shown by {shown} of {} joined pairs", texts.len());
    }
}

/// Document 02, A6: the families of joined points have numbers of every sort.
#[test]
fn the_joined_families_have_every_ruling() {
    rulings_are_reached("the joined families", 100, joined().into_iter().flat_map(|family| family.sheets));
}

/// Document 02, A11: what a row of a moved consequent has that is renumbered, or must not be.
fn of_moved_row(reached: &mut Reached, sheet: &Sheet, row: &Row) {
    let is_number = |number: u32| number / 10 == row.section && number % 10 > 0;
    count(reached, format!("kind {} moved", row.kind));
    match row.kind {
        NEXT | LAST if !is_end(far_end(sheet, row)) => count(reached, format!("a short denial of kind {} moved", row.kind)),
        EARLIER | LATER if is_number(row.a) => count(reached, format!("kind {} moved with two of its points", row.kind)),
        _ => {}
    }
    let has_set = [NEXT, LAST, FREE, EVENT].contains(&row.kind) && is_number(row.a);
    let has_limit = [WITHIN, OUTSIDE].contains(&row.kind);
    for (is_so, what) in
        [(has_set, "a set"), (has_limit && is_number(row.a), "a lower limit"), (has_limit && is_number(row.b), "an upper limit")]
    {
        if is_so {
            count(reached, format!("kind {} moved, {what} a point's number", row.kind));
        }
    }
}

/// Rows at fault whose place and number both change.
fn of_moved_faults(reached: &mut Reached, rearrangement: &Rearrangement, rows: &[u32]) {
    let moved = rearrangement.rows_at_fault(rows);
    let is_both =
        |(place, consequent): (u32, &u32)| place != *consequent && moved[place as usize - 1] != rows[*consequent as usize - 1];
    if (1..).zip(&rearrangement.order).any(is_both) {
        count(reached, "a row at fault moved, its number too".into());
    }
}

/// Some numbers: those that change, spare points in moved parts, and matchings whose positions change places.
fn of_moved_numbers(reached: &mut Reached, rearrangement: &Rearrangement, sheet: &Sheet, log: &Log, numbers: &[u64]) {
    let places = inverse(&rearrangement.order);
    for &m in numbers {
        let rows = antiscenario(sheet, m);
        let is_moved = |row: &Row| row.section > 0 && places[row.section as usize - 1] != row.section;
        let found = smallest(&rows, log);
        for (is_so, what) in [
            (rearrangement.number(m) != m, "a number that changes"),
            (rows.iter().any(|row| is_moved(row) && is_of_denial(row.p)), "a spare point moved"),
            (found.is_some_and(|found| rearrangement.positions(&rows, &found) != found), "a matching moved"),
        ] {
            if is_so {
                count(reached, what.into());
            }
        }
    }
}

/// The seed's rearrangement of a pair.
fn of_rearrangement(reached: &mut Reached, pair: &Pair, seed: u64) {
    let opened = open(&pair.sheet, &pair.log, Blunder::None);
    let (Ok(sheet), Ok(log)) = (&opened.sheet, &opened.log) else { return };
    let rearrangement = Rearrangement::new(sheet, &order_of(seed, sheet.k));
    count(reached, format!("k {}", sheet.k));
    for (place, consequent) in (1..).zip(&rearrangement.order).filter(|(place, consequent)| place != *consequent) {
        count(reached, format!("consequent {consequent} in place {place}"));
        sheet.section(*consequent).iter().for_each(|row| of_moved_row(reached, sheet, row));
    }
    if let Ok(Verdict::Violated { rows, .. }) = opened.check() {
        of_moved_faults(reached, &rearrangement, &rows);
    }
    let numbers = [(1..=sheet.count.min(6)).collect(), matched_numbers_of(seed, &opened)].concat();
    of_moved_numbers(reached, &rearrangement, sheet, log, &numbers);
}

/// Each of these so often at least.
fn rearrangements_reach(name: &str, pair_of: fn(u64) -> Pair, pairs: u64, wanted: &[String]) {
    let mut reached = Reached::new();
    (0..pairs).for_each(|seed| of_rearrangement(&mut reached, &pair_of(seed), seed));
    let times = |what: &String| reached.get(what).copied().unwrap_or(0);
    for what in wanted {
        assert!(times(what) >= OFTEN, "{name}: {what}: {}", times(what));
    }
    let told: Vec<String> = wanted.iter().map(|what| format!("{what}: {}", times(what))).collect();
    writeln!(std::io::stderr(), "of {pairs} {name} in another order: {}", told.join(", ")).unwrap();
}

/// Document 02, A11: every kind and every number of consequents, whatever moves with them, and from each place to each other one.
#[test]
fn rearrangements_reach_everything_that_moves() {
    let mut wanted: Vec<String> = (NEXT..=EVENT).map(|kind| format!("kind {kind} moved")).collect();
    wanted.extend([NEXT, LAST].map(|kind| format!("a short denial of kind {kind} moved")));
    wanted.extend([EARLIER, LATER].map(|kind| format!("kind {kind} moved with two of its points")));
    let moved = ["a row at fault moved, its number too", "a number that changes", "a spare point moved", "a matching moved"];
    wanted.extend(moved.map(String::from));
    let all = [(0..=6).map(|k| format!("k {k}")).collect(), wanted.clone()].concat();
    rearrangements_reach("random pairs", pair_of, 4000, &all);
    wanted.extend((2..=6).map(|k| format!("k {k}")));
    let places = (1..=6).flat_map(|from| (1..=6).filter(move |to| *to != from).map(move |to| (from, to)));
    wanted.extend(places.map(|(consequent, place)| format!("consequent {consequent} in place {place}")));
    wanted.extend([NEXT, LAST, FREE, EVENT].map(|kind| format!("kind {kind} moved, a set a point's number")));
    for limit in ["a lower limit", "an upper limit"] {
        wanted.extend([WITHIN, OUTSIDE].map(|kind| format!("kind {kind} moved, {limit} a point's number")));
    }
    rearrangements_reach("pairs with numbers of points", rearranged_pair_of, 1000, &wanted);
}

/// A pair that is accepted, as it is read.
fn accepted(pair: &Pair) -> (Sheet, Log) {
    let opened = open(&pair.sheet, &pair.log, Blunder::None);
    (opened.sheet.expect("accepted"), opened.log.expect("accepted"))
}

/// An ordinary rule's antecedent, and how many of its points, in order, are all that each consequent speaks of.
fn of_rule(reached: &mut Reached, sheet: &Sheet, log: &Log) {
    let antecedent = sheet.section(0);
    for row in &antecedent {
        of_row(reached, row);
        of_limits(reached, row, log);
        if ![POINT, EVENT].contains(&row.kind) && !is_end(row.p) && !is_end(row.q) {
            count(reached, format!("kind {} between two points", row.kind));
        }
    }
    for rows in (1..=sheet.k).map(|section| sheet.section(section)) {
        let of_two = |row: &&Row| [EARLIER, LATER].contains(&row.kind);
        let spoken_of = rows.iter().flat_map(|row| [row.p, row.q]).chain(rows.iter().filter(of_two).map(|row| row.a));
        let last = spoken_of.filter(|point| *point < 10).max().unwrap_or(START);
        count(reached, format!("a consequent up to point {last} of {}", points(&antecedent).len()));
        if rows.iter().filter(of_two).any(|row| row.q.max(row.a) < 10) {
            count(reached, "the earlier or later of two points".into());
        }
    }
}

const NONE_EXTENDS: &str = "no consequent extends";

/// What the antecedent's smallest matching shows: rows that are against a position before, which its point might have else, and the first
/// consequent that extends.
fn of_smallest(reached: &mut Reached, sheet: &Sheet, log: &Log) {
    let antecedent = sheet.section(0);
    let Some(smallest) = weeded::smallest(&antecedent, log) else { return };
    let placement = Placement::of(log, &points(&antecedent), &smallest);
    for row in antecedent.iter().filter(|row| [FREE, WITHIN, EVENT].contains(&row.kind)) {
        let last = [row.p, row.q].into_iter().filter(|point| !is_end(*point)).max();
        let Some(point) = antecedent.iter().find(|row| row.kind == POINT && Some(row.p) == last) else { continue };
        let is_against = |position: u32| {
            let mut moved = placement.clone();
            moved.place(point.p, position);
            meets(point, &moved, log) && !meets(row, &moved, log)
        };
        if (1..placement.position(point.p)).any(is_against) {
            count(reached, format!("kind {} against a position before", row.kind));
        }
    }
    let extends = |section: &u32| weeded::Plan::new(&sheet.section(*section), log).has_matching(&placement);
    let first = (1..=sheet.k).find(extends);
    count(reached, first.map_or(NONE_EXTENDS.into(), |section| format!("consequent {section} extends")));
}

/// Ordinary rules: every kind between the antecedent's points, limits met and missed by a millisecond, rows that narrow places, consequents that
/// speak of the points up to any of them, later ones that extend first, and violations behind matchings that extend.
fn narrowed_and_skipped() -> Vec<String> {
    let between = (BEFORE..=OUTSIDE).map(|kind| format!("kind {kind} between two points"));
    let ends = (FREE..=OUTSIDE).flat_map(|kind| ["start", "close"].map(|end| format!("kind {kind} with the {end}")));
    let limits = ["one line with b = 0", "one line with a = 0", "two lines of one tick with b = 1"];
    let against = [FREE, WITHIN, EVENT].map(|kind| format!("kind {kind} against a position before"));
    let spoken_of =
        (2..=4).flat_map(|points| (0..=points).map(move |last| format!("a consequent up to point {last} of {points}")));
    let mut wanted: Vec<String> = between.chain(ends).chain(against).chain(spoken_of).collect();
    wanted.extend(at_limits(WITHIN).into_iter().filter(|limits| limits.contains(PARTS[0])));
    wanted.extend(limits.map(|limits| format!("kind {WITHIN} on {limits}")));
    wanted.extend((1..=3).map(|section| format!("consequent {section} extends")));
    wanted.extend([NONE_EXTENDS, "the earlier or later of two points", "violated later"].map(String::from));
    wanted
}

#[test]
fn rules_reach_what_is_narrowed_and_skipped() {
    let mut reached = Reached::new();
    for (sheet, log) in (0..2000).map(|seed| accepted(&rule_pair_of(seed))) {
        of_rule(&mut reached, &sheet, &log);
        of_smallest(&mut reached, &sheet, &log);
        if is_violated_later(&sheet, &log) {
            count(&mut reached, "violated later".into());
        }
    }
    let times = |what: &String| reached.get(what).copied().unwrap_or(0);
    for what in narrowed_and_skipped() {
        assert!(times(&what) >= OFTEN, "{what}: {}", times(&what));
    }
    let told: Vec<String> = narrowed_and_skipped().iter().map(|what| format!("{what}: {}", times(what))).collect();
    writeln!(std::io::stderr(), "of 2000 rules: {}", told.join(", ")).unwrap();
}

/// On longer logs: every length about one word of 64 lines and two, and matchings with a point in the second word.
#[test]
fn longer_rules_reach_the_second_word() {
    let mut reached = Reached::new();
    for (sheet, log) in (0..300).map(|seed| accepted(&longer_rule_pair_of(seed))) {
        count(&mut reached, format!("n {}", log.n()));
        let Some(smallest) = weeded::smallest(&sheet.section(0), &log) else { continue };
        count(&mut reached, "matched".into());
        if smallest.iter().any(|position| *position >= 64) {
            count(&mut reached, "a point in the second word".into());
        }
    }
    let lengths = (62..=66).chain(126..=130).map(|n| format!("n {n}"));
    are_reached(&reached, &lengths.chain(["matched".into(), "a point in the second word".into()]).collect::<Vec<_>>());
    writeln!(std::io::stderr(), "of 300 rules on longer logs: {reached:?}").unwrap();
}

#[test]
fn random_pairs_reach_everything() {
    let mut reached = Reached::new();
    (0..PAIRS).for_each(|seed| of_pair(&mut reached, seed));
    let mut wanted: Vec<String> = (0..=6).map(|k| format!("k {k}")).collect();
    wanted.extend((0..=4).map(|points| format!("{points} antecedent points")));
    wanted.extend((0..=6).map(|n| format!("n {n}")));
    let refusals: Vec<String> = (1..=10).chain(21..=27).chain(31..=34).map(|refusal| format!("refusal {refusal}")).collect();
    wanted.extend(refusals.clone());
    wanted.extend([kinds_in(0..=6), kinds_with_ends(), sets_in_halves(), fields_refused()].concat());
    wanted.extend([0, 1, 31, 32, 33, 63].map(|event| format!("event {event}")));
    wanted.extend(["EVENT with no event", "a consequent skipped", "a consequent empty", "positions shared"].map(String::from));
    wanted.extend(["N 0", "holds", "holds by its consequents", "violated"].map(String::from));
    are_reached(&reached, &wanted);
    for what in limits_in_places() {
        assert!(reached.get(&what).is_some_and(|&times| times >= OFTEN), "{what}: {:?}", reached.get(&what));
    }
    let mut told = refusals;
    told.extend(
        ["antecedent matched", "antecedent not matched", "holds by its consequents", "violated", "N 0"].map(String::from),
    );
    told.extend([WITHIN, OUTSIDE].into_iter().flat_map(at_limits));
    let told: Vec<String> = told.into_iter().map(|what| format!("{what}: {}", reached[&what])).collect();
    writeln!(std::io::stderr(), "of {PAIRS} random pairs: {}", told.join(", ")).unwrap();
}
