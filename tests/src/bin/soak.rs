//! Comparisons for as long as asked: soak SECONDS [SEED] with random pairs, soak families [PART of PARTS] with the larger families.
use satskhubo_tests::compare::{compare, compare_findings, compare_long, compare_once, compare_rearranged, Mismatch, Tally};
use satskhubo_tests::generate::chains::{chain_logs, chains};
use satskhubo_tests::generate::families::{self, Family};
use satskhubo_tests::generate::joined::joined;
use satskhubo_tests::generate::pairs::{
    chained_pair_of, independent_pair_of, joined_pair_of, large_pair_of, long_pair_of, longer_rule_pair_of, pair_of,
    rearranged_pair_of, rule_pair_of,
};
use satskhubo_tests::generate::{logs, sheets, Pair};
use satskhubo_tests::host::Host;
use satskhubo_tests::random::Random;
use satskhubo_tests::reference::log::Log;
use std::time::{Duration, Instant, SystemTime, UNIX_EPOCH};

const USAGE: &str = "soak SECONDS [SEED], or soak families [PART of PARTS]";
/// The larger families tell how far they are each time so many sheets are done.
const PROGRESS: usize = 2000;

fn usage() -> ! {
    eprintln!("usage: {USAGE}");
    std::process::exit(2)
}

fn texts(logs: &[Log]) -> Vec<Vec<u8>> {
    logs.iter().map(Log::text).collect()
}

/// Adds what was compared, or tells the mismatch and ends.
fn add(tally: &mut Tally, result: Result<Tally, Mismatch>) {
    match result {
        Ok(more) => *tally += more,
        Err(Mismatch(text)) => {
            println!("after {} pairs and {} comparisons: {text}", tally.pairs, tally.comparisons);
            std::process::exit(1);
        }
    }
}

/// One part of a family's sheets, every so-many-th, with all logs.
fn part_of_family(family: &Family, logs: &[Vec<u8>], part: usize, parts: usize) -> Tally {
    let mut tally = Tally::default();
    for (done, sheet) in family.sheets.iter().skip(part - 1).step_by(parts).enumerate() {
        for log in logs {
            add(&mut tally, compare_once(&Host, &Pair { sheet: sheet.clone(), log: log.clone() }));
        }
        if (done + 1) % PROGRESS == 0 {
            eprintln!("{}: {} sheets, {} comparisons", family.name, done + 1, tally.comparisons);
        }
    }
    println!("{}: {} comparisons; {tally}", family.name, tally.comparisons);
    tally
}

fn larger_families(part: usize, parts: usize) {
    if part < 1 || part > parts {
        usage();
    }
    let (begun, logs) = (Instant::now(), texts(&families::logs()));
    let families = families::large();
    let all: usize = families.iter().map(|family| family.sheets.len() * logs.len()).sum();
    let tally: Tally = families.iter().map(|family| part_of_family(family, &logs, part, parts)).sum();
    let (comparisons, seconds) = (tally.comparisons, begun.elapsed().as_secs());
    println!(
        "families, part {part} of {parts}, {all} pairs in all: {comparisons} comparisons; {tally}; {seconds} s: no mismatch"
    );
}

/// Families' sheets, and the logs that go with them.
struct Soaked {
    sheets: Vec<Vec<u8>>,
    logs: Vec<Vec<u8>>,
}

impl Soaked {
    fn new(families: Vec<Family>, logs: &[Log]) -> Soaked {
        Soaked { sheets: families.into_iter().flat_map(|family| family.sheets).collect(), logs: texts(logs) }
    }

    fn pair(&self, random: &mut Random) -> Pair {
        Pair {
            sheet: self.sheets[random.below(self.sheets.len())].clone(),
            log: self.logs[random.below(self.logs.len())].clone(),
        }
    }
}

/// Everything on one pair, and document 02, A11: on the pair with its sheet rearranged.
fn in_both_orders(pair: &Pair, seed: u64) -> Result<Tally, Mismatch> {
    let tally = compare(&Host, pair, seed, 12)?;
    let rearranged = compare_rearranged(&Host, pair, seed, 12)?;
    Ok(Tally { comparisons: tally.comparisons + rearranged, ..tally })
}

struct Soak {
    large: Soaked,
    boards: Soaked,
    chains: Soaked,
    joined: Soaked,
}

impl Soak {
    fn new() -> Soak {
        let large = Soaked::new(families::large(), &families::logs());
        let boards = Soaked::new(families::boards(), &families::board_logs());
        let joined = Soaked::new(joined(), &families::board_logs());
        Soak { large, boards, chains: Soaked::new(chains(), &chain_logs()), joined }
    }

    /// Mostly the seed's own pair; else one of the families, one with a longer log, one with a large sheet, one with chains, one with joined
    /// points, one whose consequents are independent, one of an ordinary rule, or one with numbers of points for sets and limits.
    fn compare(&self, seed: u64) -> Result<Tally, Mismatch> {
        let mut random = Random::new(!seed);
        match random.below(100) {
            0..=14 => in_both_orders(&self.large.pair(&mut random), seed),
            15..=19 => in_both_orders(&self.boards.pair(&mut random), seed),
            20..=28 => {
                let n = random.from_to(7, 40);
                let sheet = sheets::random(&mut random, &sheets::SMALL);
                in_both_orders(&Pair { sheet, log: logs::of_length(&mut random, n).text() }, seed)
            }
            29 => compare_long(&Host, &long_pair_of(seed), seed),
            30..=39 => in_both_orders(&large_pair_of(seed), seed),
            40..=46 => in_both_orders(&chained_pair_of(seed), seed),
            47..=49 => in_both_orders(&self.chains.pair(&mut random), seed),
            50..=56 => in_both_orders(&independent_pair_of(seed), seed),
            57..=68 => in_both_orders(&rule_pair_of(seed), seed),
            69 => compare_findings(&Host, &longer_rule_pair_of(seed), seed, 12),
            70..=76 => in_both_orders(&joined_pair_of(seed), seed),
            77 | 78 => in_both_orders(&self.joined.pair(&mut random), seed),
            79..=84 => in_both_orders(&rearranged_pair_of(seed), seed),
            _ => in_both_orders(&pair_of(seed), seed),
        }
    }
}

fn random_pairs(seconds: u64, seed: Option<u64>) {
    let clock = SystemTime::now().duration_since(UNIX_EPOCH).expect("a clock").as_secs();
    let first_seed = seed.unwrap_or(clock << 24);
    println!("seed {first_seed}");
    let soak = Soak::new();
    let begun = Instant::now();
    let mut tally = Tally::default();
    while begun.elapsed() < Duration::from_secs(seconds) {
        let result = soak.compare(first_seed.wrapping_add(tally.pairs));
        add(&mut tally, result);
    }
    let (comparisons, next_seed) = (tally.comparisons, first_seed.wrapping_add(tally.pairs));
    println!("seeds {first_seed} up to {next_seed}: {comparisons} comparisons; {tally}: no mismatch");
}

fn number<N: std::str::FromStr>(word: &str) -> N {
    word.parse().unwrap_or_else(|_| usage())
}

fn main() {
    let arguments: Vec<String> = std::env::args().skip(1).collect();
    let words: Vec<&str> = arguments.iter().map(String::as_str).collect();
    match words[..] {
        ["families"] => larger_families(1, 1),
        ["families", part, "of", parts] => larger_families(number(part), number(parts)),
        [seconds] => random_pairs(number(seconds), None),
        [seconds, seed] => random_pairs(number(seconds), Some(number(seed))),
        _ => usage(),
    }
}
