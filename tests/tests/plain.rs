//! The yardstick of the benchmarks answers as the reference does.
mod common;
use satskhubo_tests::compare::{compare, compare_findings, Tally};
use satskhubo_tests::generate::pairs::{independent_pair_of, joined_pair_of, large_pair_of, longer_rule_pair_of, rule_pair_of};
use satskhubo_tests::plain::Plain;

#[test]
fn plain_rust_answers_as_the_reference() {
    common::tell_tally("plain", common::random_pairs(&Plain, 5000, 1500));
}

#[test]
fn plain_rust_answers_as_the_reference_on_large_sheets() {
    let tally = (5000..5300).map(|seed| common::tallied(compare(&Plain, &large_pair_of(seed), seed, 6))).sum();
    common::tell_tally("plain: large sheets", tally);
}

#[test]
fn plain_rust_answers_as_the_reference_on_independent_consequents() {
    let tally = (5000..7000).map(|seed| common::tallied(compare(&Plain, &independent_pair_of(seed), seed, 8))).sum();
    common::tell_tally("plain: independent consequents", tally);
}

#[test]
fn plain_rust_answers_as_the_reference_on_ordinary_rules() {
    let tally = (5000..5500).map(|seed| common::tallied(compare(&Plain, &rule_pair_of(seed), seed, 6))).sum();
    common::tell_tally("plain: ordinary rules", tally);
    let longer = (5000..5020).map(|seed| common::tallied(compare_findings(&Plain, &longer_rule_pair_of(seed), seed, 4)));
    common::tell("plain: ordinary rules on longer logs", longer.sum::<Tally>().comparisons);
}

/// Document 02, A6.
#[test]
fn plain_rust_answers_as_the_reference_on_joined_points() {
    let tally = (5000..5300).map(|seed| common::tallied(compare(&Plain, &joined_pair_of(seed), seed, 6))).sum();
    common::tell_tally("plain: joined points", tally);
}
