//! The proved code through the C interface beside plain Rust, in one run, as ratios: bench [check | impossible | alone | counts | once
//! ours|plain check|NUMBER|CASE|RULE | logs FOLDER].
use satskhubo_tests::expected::{STOPPED, VIOLATED};
use satskhubo_tests::generate::cases::{case_of, cases, Case};
use satskhubo_tests::generate::logs::{log_of, mixed, uniform};
use satskhubo_tests::generate::rules::{rule_of, rules, standing_measures, Rule};
use satskhubo_tests::generate::sheets::{largest, sheet_of, sheet_s};
use satskhubo_tests::host::Host;
use satskhubo_tests::outcome::Side;
use satskhubo_tests::plain::tried::Tried;
use satskhubo_tests::plain::{self, Plain};
use satskhubo_tests::reference::sheet::kind::*;
use std::cell::RefCell;
use std::hint::black_box;
use std::ops::RangeInclusive;

const SIZES: [u32; 4] = [500, 1000, 2000, 4000];
const REPEATS: usize = 15;
/// A repeat goes on until it has taken this long, so that short work is measured many times over.
const REPEAT: f64 = 0.005;
/// Work longer than this is measured once.
const LONG: f64 = 0.5;
const THREAD_TIME: i32 = 3;
/// Up to so many positions tried are counted.
const MOST_TRIED: u64 = 2_000_000_000;
/// Whether this tree's archive is linked. Another may be older and lack what is new, which is then not called, and so not looked for.
const OF_THIS_TREE: bool = option_env!("BENCH_ARCHIVE").is_none();

#[repr(C)]
struct Timespec {
    seconds: i64,
    nanoseconds: i64,
}

extern "C" {
    fn clock_gettime(clock: i32, time: *mut Timespec) -> i32;
}

/// The seconds that this thread has had of a processor; others on the machine do not count.
fn thread_seconds() -> f64 {
    let mut time = Timespec { seconds: 0, nanoseconds: 0 };
    assert_eq!(unsafe { clock_gettime(THREAD_TIME, &mut time) }, 0);
    time.seconds as f64 + time.nanoseconds as f64 / 1e9
}

fn seconds_of(runs: u32, work: &mut dyn FnMut()) -> f64 {
    let begun = thread_seconds();
    for _ in 0..runs {
        work();
    }
    (thread_seconds() - begun) / f64::from(runs)
}

fn median(mut times: Vec<f64>) -> f64 {
    times.sort_by(f64::total_cmp);
    times[times.len() / 2]
}

/// The median seconds of a run of each, and the median of the ratios of neighbours, which a change of the machine's clock leaves alone.
struct Both {
    ours: f64,
    plain: f64,
    ratio: f64,
}

/// Measured in turn.
fn both(mut ours: impl FnMut(), mut plain: impl FnMut()) -> Both {
    let once = (seconds_of(1, &mut ours), seconds_of(1, &mut plain));
    if once.0.max(once.1) > LONG {
        return Both { ours: once.0, plain: once.1, ratio: once.0 / once.1 };
    }
    let runs = |once: f64| (REPEAT / once.max(1e-9)).ceil().clamp(1.0, 1e6) as u32;
    let (mut our_times, mut plain_times) = (Vec::new(), Vec::new());
    for _ in 0..REPEATS {
        our_times.push(seconds_of(runs(once.0), &mut ours));
        plain_times.push(seconds_of(runs(once.1), &mut plain));
    }
    let ratios = our_times.iter().zip(&plain_times).map(|(ours, plain)| ours / plain).collect();
    Both { ours: median(our_times), plain: median(plain_times), ratio: median(ratios) }
}

/// Keeps the compiler from leaving out work whose result is not used.
fn keep<T>(result: T) {
    black_box(result);
}

/// One line: both times, their ratio, and how both grew since the size before.
struct Table {
    before: Option<(f64, f64)>,
}

impl Table {
    fn heading() {
        println!("{:<34} {:>6} {:>12} {:>12} {:>7} {:>14}", "", "lines", "ours", "plain Rust", "ratio", "growth");
    }

    fn new() -> Table {
        Table { before: None }
    }

    fn line(&mut self, name: &str, size: u32, measured: Both) {
        let Both { ours, plain, ratio } = measured;
        let growth = match self.before {
            Some((ours_before, plain_before)) => format!("{:.1} / {:.1}", ours / ours_before, plain / plain_before),
            None => String::new(),
        };
        println!("{name:<34} {size:>6} {:>12} {:>12} {ratio:>7.2} {growth:>14}", spelled(ours), spelled(plain));
        self.before = Some((ours, plain));
    }
}

fn spelled(seconds: f64) -> String {
    match seconds {
        s if s < 1e-3 => format!("{:.2} us", s * 1e6),
        s if s < 1.0 => format!("{:.2} ms", s * 1e3),
        s => format!("{s:.2} s"),
    }
}

/// Six consequents of four denials each, that jump to the next correction: N = 4,096.
fn many_antiscenarios() -> Vec<u8> {
    let mut rows = vec![[0, POINT, 1, 0, 8, 0]];
    for section in 1..=6 {
        let p = 10 * section + 1;
        rows.push([section, LAST, p, 1, 4, 0]);
        rows.push([section, WITHIN, p, 1, 0, 500]);
        rows.push([section, FREE, p, 1, 2, 0]);
    }
    sheet_of(6, &rows)
}

/// Document 02, A8: after each injection a correction comes before any scan. Number 1 denies NEXT, up to the scan.
fn correction_between() -> Vec<u8> {
    let antecedent = [[0, POINT, 1, 0, 2, 0], [0, POINT, 2, 0, 8, 0], [0, BEFORE, 1, 2, 0, 0]];
    sheet_of(1, &[&antecedent[..], &[[1, NEXT, 11, 1, 4, 0], [1, BEFORE, 11, 2, 0, 0]]].concat())
}

/// Injections and scans by turns, the only correction in the last line; and the same with a correction between them.
fn injections(n: u32, is_kept: bool) -> Vec<u8> {
    let event = |at: u32| match (is_kept, at % 3) {
        (true, 1) => 1,
        (true, 2) => 2,
        (true, _) => 3,
        (false, _) if at == n => 2,
        (false, _) => 1 + 2 * (at % 2),
    };
    log_of(&(1..=n).map(|at| (10 * at, event(at))).collect::<Vec<_>>()).text()
}

/// The seconds of the proved code alone on 4,000 lines, a line each, for tests/beside: name, tab, seconds.
fn alone() {
    let (mixed, scans) = (mixed_text(4000), scans_text(4000));
    let places = RefCell::new([0; 58]);
    let tell = |name: &str, work: &mut dyn FnMut()| {
        let runs = (REPEAT / seconds_of(1, work).max(1e-9)).ceil().clamp(1.0, 1e6) as u32;
        println!("{name}\t{:e}", median((0..REPEATS).map(|_| seconds_of(runs, work)).collect()));
    };
    tell("read a log", &mut || keep(Host.read_log(black_box(&mixed))));
    tell("read 19 rows", &mut || keep(Host.read_sheet(black_box(&many_antiscenarios()))));
    let (many, buffer) = (many_antiscenarios(), RefCell::new([0; 3437]));
    let write_all =
        &mut || (1..=4096).for_each(|number| keep(Host.write_into(black_box(&many), number, &mut *buffer.borrow_mut())));
    tell("write all of N = 4,096", write_all);
    for number in 1..=4 {
        let search = &mut || keep(Host.search_into(&sheet_s(), black_box(&mixed), number, &mut *places.borrow_mut()));
        tell(&format!("search S, number {number}"), search);
    }
    let search_all =
        &mut || (1..=4096).for_each(|number| keep(Host.search_into(&many, black_box(&mixed), number, &mut *places.borrow_mut())));
    tell("search all of N = 4,096", search_all);
    // Those that are not long without giving up.
    for Case { name, sheet, .. } in ["timed", "denied"].into_iter().filter_map(case_of) {
        tell(name, &mut || keep(Host.search_into(&sheet, black_box(&scans), 1, &mut *places.borrow_mut())));
    }
    for (name, is_kept) in [("correction between: broken", false), ("correction between: kept", true)] {
        let log = injections(4000, is_kept);
        tell(name, &mut || keep(Host.search_into(&correction_between(), black_box(&log), 1, &mut *places.borrow_mut())));
    }
    tell("check S", &mut || keep(Host.check_number(&sheet_s(), black_box(&mixed))));
    // The rules themselves were long before.
    for Rule { name, sheet, .. } in standing_measures() {
        tell(name, &mut || keep(Host.check_number(&sheet, black_box(&scans))));
    }
}

fn read_logs() {
    let mut table = Table::new();
    for n in SIZES {
        let log = mixed(n).text();
        let measured = both(|| keep(Host.read_log(black_box(&log))), || keep(plain::read_log(black_box(&log))));
        let rate = |seconds: f64| log.len() as f64 / seconds / 1e6;
        table.line(&format!("read a log ({:.0} / {:.0} MB/s)", rate(measured.ours), rate(measured.plain)), n, measured);
    }
}

fn read_sheets() {
    for (name, sheet) in [("S", sheet_s()), ("19 rows", many_antiscenarios())] {
        let measured = both(|| keep(Host.read_sheet(black_box(&sheet))), || keep(plain::read_sheet(black_box(&sheet))));
        let rate = |seconds: f64| sheet.len() as f64 / seconds / 1e6;
        Table::new().line(&format!("read {name} ({:.0} / {:.0} MB/s)", rate(measured.ours), rate(measured.plain)), 0, measured);
    }
}

fn write_all() {
    let sheet = many_antiscenarios();
    let buffer = RefCell::new([0; 3437]);
    let write_ours = || (1..=4096).for_each(|number| keep(Host.write_into(&sheet, number, &mut *buffer.borrow_mut())));
    let write_plain = || (1..=4096).for_each(|number| keep(plain::write(&sheet, number, &mut *buffer.borrow_mut())));
    Table::new().line("write all of N = 4,096", 0, both(write_ours, write_plain));
}

/// Document 02, A6: whether each number is impossible: of the sheet that all are written of, and of one whose antiscenarios have 58 points and 98 rows.
fn rule_all() {
    if !OF_THIS_TREE {
        return;
    }
    for (name, sheet, count) in
        [("impossible: all of N = 4,096", many_antiscenarios(), 4096), ("impossible: 58 points, N = 64", largest(), 64)]
    {
        assert!((1..=count).all(|number| Host.impossible(&sheet, number) == Plain.impossible(&sheet, number)));
        let rule_ours = || (1..=count).for_each(|number| keep(Host.impossible(black_box(&sheet), number)));
        let rule_plain = || (1..=count).for_each(|number| keep(Plain.impossible(black_box(&sheet), number)));
        Table::new().line(name, 0, both(rule_ours, rule_plain));
    }
}

/// All numbers on 4,000 lines; and the same where those that are impossible are passed over.
fn search_possible() {
    if !OF_THIS_TREE {
        return;
    }
    let (sheet, log, places) = (many_antiscenarios(), mixed_text(4000), RefCell::new([0; 58]));
    let search_ours = |number: u64| keep(Host.search_into(&sheet, black_box(&log), number, &mut *places.borrow_mut()));
    let search_plain = |number: u64| keep(plain::search(&sheet, black_box(&log), number, &mut *places.borrow_mut()));
    let is_possible = |side: &dyn Side, number: u64| side.impossible(&sheet, number).impossible == 0;
    let all = both(|| (1..=4096).for_each(search_ours), || (1..=4096).for_each(search_plain));
    Table::new().line("search all of N = 4,096", 4000, all);
    let possible = both(
        || (1..=4096).filter(|&number| is_possible(&Host, number)).for_each(search_ours),
        || (1..=4096).filter(|&number| is_possible(&Plain, number)).for_each(search_plain),
    );
    let count = (1..=4096).filter(|&number| is_possible(&Host, number)).count();
    Table::new().line(&format!("search those possible ({count})"), 4000, possible);
}

/// The search of these numbers, one after another, on logs of each size.
fn search(name: &str, sheet: &[u8], numbers: RangeInclusive<u64>, log: impl Fn(u32) -> Vec<u8>) {
    let mut table = Table::new();
    let places = RefCell::new([0; 58]);
    for n in SIZES {
        let log = log(n);
        let search_ours = |number: u64| Host.search_into(sheet, black_box(&log), number, &mut *places.borrow_mut());
        let search_plain = |number: u64| plain::search(sheet, black_box(&log), number, &mut *places.borrow_mut());
        assert_eq!(search_ours(*numbers.start()), (0, search_plain(*numbers.start()).expect("accepted").is_some()));
        let all_ours = || numbers.clone().for_each(|number| keep(search_ours(number)));
        let all_plain = || numbers.clone().for_each(|number| keep(search_plain(number)));
        table.line(name, n, both(all_ours, all_plain));
    }
}

/// The check on logs of each size, which keep the sheet or do not.
fn check(name: &str, sheet: &[u8], log: impl Fn(u32) -> Vec<u8>, holds: bool) {
    let mut table = Table::new();
    for n in SIZES {
        let log = log(n);
        assert_eq!(Host.check_number(sheet, &log), if holds { 0 } else { VIOLATED });
        assert_eq!(plain::check(sheet, &log).map(|violation| violation.is_none()), Ok(holds));
        let check_ours = || keep(Host.check_number(sheet, black_box(&log)));
        let check_plain = || keep(plain::check(sheet, black_box(&log)));
        table.line(name, n, both(check_ours, check_plain));
    }
}

fn check_standing_measures() {
    for Rule { name, sheet, log, holds, .. } in standing_measures() {
        check(name, &sheet, |n| log(n).text(), holds);
    }
}

/// Document 02, A10: the second standing measure with a limit of one less than its n^2 matchings, each of which is looked at.
fn check_with_limit() {
    if !OF_THIS_TREE {
        return;
    }
    let [_, Rule { sheet, log, .. }] = standing_measures();
    let mut table = Table::new();
    for n in SIZES {
        let (log, limit) = (log(n).text(), u64::from(n).pow(2) - 1);
        let (ours, plain) = (Host.check_limited(&sheet, &log, limit), Plain.check_limited(&sheet, &log, limit));
        assert_eq!((&ours, ours.checked.answer), (&plain, STOPPED));
        let check_ours = || keep(Host.check_limited(&sheet, black_box(&log), limit));
        let check_plain = || keep(Plain.check_limited(&sheet, black_box(&log), limit));
        table.line("check with a limit", n, both(check_ours, check_plain));
    }
}

/// The check of each rule, and the searches that go with it.
fn ordinary_rules() {
    for Rule { name, sheet, log, holds, searched, .. } in rules() {
        check(&format!("check: {name}"), &sheet, |n| log(n).text(), holds);
        for number in 1..=searched {
            search(&format!("number {number}: {name}"), &sheet, number..=number, |n| log(n).text());
        }
    }
}

fn mixed_text(n: u32) -> Vec<u8> {
    mixed(n).text()
}

fn scans_text(n: u32) -> Vec<u8> {
    uniform(n, 3).text()
}

fn check_once(side: &str, sheet: &[u8], log: &[u8]) {
    match side {
        "ours" => keep(Host.check_number(sheet, log)),
        _ => keep(plain::check(sheet, log)),
    }
}

/// One run of one side on 4,000 lines, for counting its instructions: the check of S on mixed lines, the search of one of its numbers, a case, or
/// the check of a rule.
fn once(side: &str, what: &str) {
    if let Some(rule) = rule_of(what) {
        return check_once(side, &rule.sheet, &(rule.log)(4000).text());
    }
    let (sheet, log, numbers) = match (case_of(what), what.parse::<u64>()) {
        (Some(case), _) => (case.sheet, (case.log)(4000).text(), case.numbers),
        (_, Ok(number)) => (sheet_s(), mixed_text(4000), number..=number),
        _ => {
            assert_eq!(what, "check", "neither a number nor a case nor a rule");
            return check_once(side, &sheet_s(), &mixed_text(4000));
        }
    };
    let mut places = [0; 58];
    for number in numbers {
        match side {
            "ours" => keep(Host.search_into(&sheet, &log, number, &mut places)),
            _ => keep(plain::search(&sheet, &log, number, &mut places)),
        }
    }
}

/// The positions that plain Rust tries in all searches of a case.
fn tried<const GIVES_UP: bool>(case: &Case, n: u32) -> String {
    let log = (case.log)(n).text();
    let mut tried = Tried::<GIVES_UP>::up_to(MOST_TRIED);
    for number in case.numbers.clone() {
        plain::search_by(&case.sheet, &log, number, &mut [0; 58], &mut tried).expect("accepted");
        if tried.is_over() {
            return format!("over {}", in_thousands(MOST_TRIED));
        }
    }
    in_thousands(tried.count)
}

/// With a comma before each three digits.
fn in_thousands(number: u64) -> String {
    match number {
        0..=999 => number.to_string(),
        _ => format!("{},{:03}", in_thousands(number / 1000), number % 1000),
    }
}

/// Document 02, A2: before it, and with what cannot help given up.
fn counts() {
    println!("{:<34} {:>6} {:>19} {:>19}", "positions tried", "lines", "before", "after");
    for case in cases() {
        for n in SIZES {
            println!("{:<34} {n:>6} {:>19} {:>19}", case.name, tried::<false>(&case, n), tried::<true>(&case, n));
        }
    }
}

/// 400 logs of 4,000 lines: every other one holds S, and the others are violated at the first scan.
fn write_folder(folder: &str) {
    std::fs::create_dir_all(folder).unwrap();
    for number in 0..400 {
        let text = if number % 2 == 0 { mixed_text(4000) } else { scans_text(4000) };
        std::fs::write(format!("{folder}/{number:03}"), text).unwrap();
    }
}

fn main() {
    let words: Vec<String> = std::env::args().skip(1).collect();
    if let [word, folder] = &words[..] {
        assert_eq!(word, "logs");
        return write_folder(folder);
    }
    if let [word, side, what] = &words[..] {
        assert_eq!(word, "once");
        return once(side, what);
    }
    let word = words.first().map_or("", String::as_str);
    if word == "alone" {
        return alone();
    }
    if word == "counts" {
        return counts();
    }
    Table::heading();
    if word == "impossible" {
        rule_all();
        return search_possible();
    }
    if word == "check" {
        check_standing_measures();
        return check_with_limit();
    }
    read_logs();
    read_sheets();
    write_all();
    rule_all();
    for number in 1..=4 {
        search(&format!("search S, number {number}"), &sheet_s(), number..=number, mixed_text);
    }
    search("search all of N = 4,096", &many_antiscenarios(), 1..=4096, mixed_text);
    for case in cases() {
        search(case.name, &case.sheet, case.numbers, |n| (case.log)(n).text());
    }
    check("check S", &sheet_s(), mixed_text, true);
    check_standing_measures();
    check_with_limit();
    ordinary_rules();
}
