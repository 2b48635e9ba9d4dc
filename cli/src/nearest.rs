//! The word that is nearest to a mistyped one.

/// How many letters must be changed, added or taken away to make one word of the other.
fn distance(one: &str, other: &str) -> usize {
    let other: Vec<char> = other.chars().collect();
    let mut before: Vec<usize> = (0..=other.len()).collect();
    for (row, letter) in one.chars().enumerate() {
        let mut after = vec![row + 1];
        for (column, &other_letter) in other.iter().enumerate() {
            let changed = before[column] + usize::from(letter != other_letter);
            after.push(changed.min(before[column + 1] + 1).min(after[column] + 1));
        }
        before = after;
    }
    before[other.len()]
}

/// The first of the nearest. There is at least one word.
pub fn nearest<'a>(word: &str, words: &[&'a str]) -> &'a str {
    words.iter().copied().min_by_key(|known| distance(word, known)).unwrap_or_default()
}

#[cfg(test)]
mod tests {
    use super::nearest;

    #[test]
    fn of_options_and_commands() {
        let options = ["--plain", "--json", "--events", "--number", "--help", "--version"];
        for (word, known) in
            [("--plian", "--plain"), ("-json", "--json"), ("--numbers", "--number"), ("--events-file", "--events")]
        {
            assert_eq!(nearest(word, &options), known);
        }
        assert_eq!(nearest("chek", &["check", "search", "explain"]), "check");
        assert_eq!(nearest("", &["check"]), "check");
    }
}
