//! Lines of a set are found by maps of 64 lines a word where the antecedent has two points: rare events at the borders of these words and in the
//! last one, in sets of one event and of many, in either half, beside a look at every line.
mod common;
use common::answers::{found_by_both, verdict_of_both, Violation};
use common::{tallied, tell};
use satskhubo_tests::compare::{compare_findings, Tally};
use satskhubo_tests::generate::logs::log_of;
use satskhubo_tests::generate::pairs::longer_rule_pair_of;
use satskhubo_tests::generate::Pair;
use satskhubo_tests::host::Host;
use satskhubo_tests::random::Random;
use satskhubo_tests::reference::log::Log;
use satskhubo_tests::reference::sheet::{self, kind::*, Row, CLOSE, START};

/// Logs that end before a border, at it and behind it: of the first word, of the second, and of the last that 4,000 lines need.
const LENGTHS: [u32; 16] = [62, 63, 64, 65, 66, 126, 127, 128, 129, 130, 3966, 3967, 3968, 3969, 3999, 4000];
/// So many logs of each length, and so many positions and sets on each log.
const LOGS: u32 = 24;
const QUESTIONS: u32 = 5;

/// The event of most lines, and the rare ones.
const USUAL: u32 = 3;
const RARE: [u32; 6] = [0, 5, 31, 32, 33, 63];
const ANY: u64 = u64::MAX;

/// The ticks between two lines.
const STEP: u32 = 10;

/// Lines at the borders of words: of the first two, and of the last that a log of this length has.
fn borders(n: u32) -> Vec<u32> {
    let last = n / 64 * 64;
    let around = [1, 64, 128, last.saturating_sub(64), last].into_iter().flat_map(|border| border.max(2) - 2..=border + 1);
    around.chain([n - 1, n]).filter(|line| (1..=n).contains(line)).collect()
}

/// A log with a few rare events, at borders.
fn with_rare_events(random: &mut Random, n: u32) -> Log {
    let mut log = log_of(&(1..=n).map(|line| (STEP * line, USUAL)).collect::<Vec<_>>());
    for _ in 0..random.from_to(1, 3) {
        log.lines[random.pick(&borders(n)) as usize - 1].event = random.pick(&RARE);
    }
    log
}

/// One rare event or several, in either half, or all but the usual one.
fn set_of_rare_events(random: &mut Random) -> u64 {
    match random.below(6) {
        0 => ANY - (1 << USUAL),
        1..=3 => (0..random.from_to(1, 4)).fold(0, |set, _| set | 1 << random.pick(&RARE)),
        _ => 1 << random.pick(&RARE),
    }
}

/// Two points of the antecedent, each on a line that its distance from the start fixes.
fn two_points(x: u32, y: u32) -> Vec<Row> {
    let points = [1, 2].map(|p| Row::of_set(0, POINT, p, 0, ANY));
    let fixed = |p, line| Row::new(0, WITHIN, START, p, STEP * line - 1, STEP * line + 1);
    [&points[..], &[fixed(1, x), fixed(2, y)]].concat()
}

/// A set on a log, and what is found by a look at every line.
struct Asked<'a> {
    log: &'a Log,
    text: &'a [u8],
    set: u64,
}

impl Asked<'_> {
    fn first(&self, mut lines: impl Iterator<Item = u32>) -> Option<u32> {
        lines.find(|&line| self.log.event_in(line, self.set))
    }

    /// A sheet's violation, and what each of its numbers matches.
    fn answers(&self, rows: &[Row], violation: Option<Violation>, found: &[Option<Vec<u32>>]) {
        let k = rows.last().map_or(0, |row| row.section);
        let pair = Pair { sheet: sheet::text(k, rows), log: self.text.to_vec() };
        let about = format!("{rows:?} on {} lines, set {:x}", self.log.n(), self.set);
        assert_eq!(verdict_of_both(&pair), violation, "{about}");
        for (number, found) in (1..).zip(found) {
            assert_eq!(found_by_both(&pair, number), *found, "{about}, number {number}");
        }
    }

    /// NEXT or LAST from a line or an end, and a row that no event meets, so that number 2 tells which line it is.
    fn missing(&self, kind: u32, q: u32, [x, y]: [u32; 2], line: Option<u32>) {
        let rows = [Row::of_set(1, kind, 11, q, self.set), Row::of_set(1, EVENT, 11, 0, 0)];
        let at_fault = if line.is_some() { 6 } else { 5 };
        let (none, some) = (line.is_none().then_some(vec![x, y]), line.map(|line| vec![x, y, line]));
        self.answers(&[&two_points(x, y)[..], &rows].concat(), Some((vec![x, y], vec![at_fault])), &[none, some]);
    }

    /// FREE between two positions, of which the numbers tell the first line of the set between them.
    fn free(&self, [p, q]: [u32; 2], [x, y]: [u32; 2], between: Option<u32>, numbers: &[bool]) {
        let row = Row::of_set(1, FREE, p, q, self.set);
        let violation = between.is_some().then(|| (vec![x, y], vec![5]));
        let found: Vec<Option<Vec<u32>>> =
            numbers.iter().map(|matches| between.filter(|_| *matches).map(|line| vec![x, y, line])).collect();
        self.answers(&[&two_points(x, y)[..], &[row]].concat(), violation, &found);
    }

    /// A second point on a line of the set, before the first or behind it.
    fn point(&self, (p, q): (u32, u32), x: u32, line: Option<u32>) {
        let mut rows = two_points(x, x);
        rows[1] = Row::of_set(0, POINT, 2, 0, self.set);
        rows[3] = Row::new(0, BEFORE, p, q, 0, 0);
        let both = line.map(|line| vec![x, line]);
        self.answers(&rows, both.clone().map(|both| (both, vec![])), &[both]);
    }

    /// Every way to ask, from two lines.
    fn every_way(&self, x: u32, y: u32) {
        let n = self.log.n();
        let (low, high) = (x.min(y), x.max(y));
        self.missing(NEXT, 1, [x, y], self.first(x + 1..=n));
        self.missing(NEXT, START, [x, y], self.first(1..=n));
        self.missing(LAST, 2, [x, y], self.first((1..y).rev()));
        self.missing(LAST, CLOSE, [x, y], self.first((1..=n).rev()));
        self.free([1, 2], [x, y], self.first(low + 1..high), &[x < y, y < x]);
        self.free([START, 1], [x, y], self.first(1..x), &[true]);
        self.free([CLOSE, 2], [x, y], self.first(y + 1..=n), &[true]);
        self.point((1, 2), x, self.first(x + 1..=n));
        self.point((2, 1), x, self.first(1..x));
    }
}

/// A check, and a search of each number: two for five of the ways, and one for four.
const ANSWERS: u64 = 5 * 3 + 4 * 2;

fn at_borders(lengths: &[u32]) {
    let mut asked = 0;
    for &n in lengths {
        let mut random = Random::new(n.into());
        for _ in 0..LOGS {
            let log = with_rare_events(&mut random, n);
            let text = log.text();
            for _ in 0..QUESTIONS {
                let (set, lines) = (set_of_rare_events(&mut random), borders(n));
                let (x, y) = (random.pick(&lines), random.pick(&lines));
                Asked { log: &log, text: &text, set }.every_way(x, y);
                asked += 1;
            }
        }
    }
    tell(&format!("event maps: {lengths:?} lines"), ANSWERS * asked);
}

#[test]
fn about_one_word_and_two() {
    at_borders(&LENGTHS[..10]);
}

#[test]
fn about_the_last_word() {
    at_borders(&LENGTHS[10..]);
}

/// Ordinary rules on logs of one word or two, beside the reference.
#[test]
fn at_random() {
    let pairs = (0..40).map(|seed| tallied(compare_findings(&Host, &longer_rule_pair_of(seed), seed, 4)));
    tell("event maps: random", pairs.sum::<Tally>().comparisons);
}
