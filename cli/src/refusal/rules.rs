//! Document 01's refusals, a sentence each.
use satskhubo_interface::answer::Refusal;

pub fn rule(refusal: Refusal) -> &'static str {
    match refusal {
        Refusal::SheetFirstLine => {
            "the first line is short or malformed: consequents (3 columns) and row count (3), then a line feed"
        }
        Refusal::SheetCounts => "there are more than 6 consequents or more than 176 rows",
        Refusal::SheetLength => "the file's length is not 7 bytes and 35 for each row",
        Refusal::RowMalformed => {
            "the row is malformed: six numbers, right-justified in 3, 3, 3, 3, 11 and 11 columns, then a line feed"
        }
        Refusal::Section => "the section is above the number of consequents, or below the preceding row's",
        Refusal::Kind => "the kind is unknown, or not for this section (1 is for the antecedent, 2 to 5 for consequents)",
        Refusal::PointP => "p is not the number due, or not a point that may be used here",
        Refusal::PointQ => "q, or a in kinds 4 and 5, is not a point that may be used here, or not a different one",
        Refusal::Fields => "a field that the kind does not use is not 0, a set is empty, or a is above b",
        Refusal::SectionTooLong => "the section is too long: 32 rows for the antecedent, 24 for a consequent",
        Refusal::LogFirstLine => {
            "the first line is short or malformed: line count (5 columns), start (11) and close (11), then a line feed"
        }
        Refusal::LineCount => "there are more than 4,000 lines",
        Refusal::LogLength => "the file's length is not 28 bytes and 15 for each line",
        Refusal::LineMalformed => "the line is malformed: tick (11 columns) and event (3), right-justified, then a line feed",
        Refusal::Event => "the event is over 63",
        Refusal::Tick => "the tick is below the one before",
        Refusal::Close => "the close is below the last tick",
        Refusal::Number => "there is no antiscenario of this number",
        Refusal::Buffer => "the buffer is too short",
        Refusal::Places => "fewer places were lent than the antiscenario has points",
        Refusal::Positions => "the number of positions is not the number of points",
    }
}
