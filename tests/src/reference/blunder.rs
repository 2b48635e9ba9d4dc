//! The blunders that document 01 tells to look for, and slips in what document 02 asks, each a switch in the reference.

#[derive(Clone, Copy, Debug, PartialEq, Eq)]
pub enum Blunder {
    None,
    /// Denying BEFORE only by the reverse order.
    ReverseOnly,
    /// Treating different points as different lines.
    DifferentLines,
    /// Counting the ends as between.
    EndsBetween,
    /// An antiscenario that brings points its denial doesn't need, which lets it miss a run.
    BringsAll,
    /// The same with the points introduced before the row alone, which shows in the text only.
    BringsEarlier,
    /// Taking N as 0 when k is 0.
    NoneWithoutConsequents,
    /// A4: N in 32 bits.
    CountIn32Bits,
    /// A4: m in 32 bits, so that 4,294,967,297 is 1.
    NumberIn32Bits,
    /// A1: denying EVENT in the lower half of its set alone.
    EventDeniedBelow32,
    /// A1: taking a set with a = 0 and b > 0 as empty.
    UpperHalfEmpty,
    /// A1: accepting event 64.
    Event64,
    /// A1: losing the upper half of the set in the denial of NEXT.
    UpperHalfLost,
    /// A1: wanting b of EVENT to be 0, as before.
    EventWithoutUpperHalf,
    /// A9: leaving OUTSIDE as it was, so that neither it nor WITHIN is met where the fraction decides.
    OutsideAsBefore,
    /// A9: taking equal ticks on different lines for one position.
    EqualTicksOnePosition,
    /// A9: d + 1 in 32 bits, so that it is 0 where d is 4,294,967,295.
    DistanceIn32Bits,
    /// A9: leaving the antecedent as it was.
    AntecedentAsBefore,
    /// A9: leaving the lower limit as it was: d is at least a.
    LowerLimitPlain,
    /// A9: d − 1 in 32 bits, so that it is 4,294,967,295 where d is 0.
    LessThanZero,
    /// A8: asking no order of the antecedent, as document 000 has it printed.
    NoOrder,
    /// A8: the order of q and z from the consequent's rows in place of the antecedent's.
    OrderOfConsequent,
    /// A8: the order of q and z from the rows of both.
    OrderOfBoth,
    /// A8: a chain from p to z by rows of both sections.
    MixedChain,
    /// A8: of several z the highest.
    HighestEnd,
    /// A8: the lowest z that is reached, in order or not.
    LowestReached,
    /// A8: the lowest z that is reached, and where it is not in order the long denial.
    LowestReachedOrLong,
    /// A8: q itself as z, with no step wanted from q to q.
    QToItself,
    /// A8: z may be q, where the antecedent's rows lead from q back to q.
    QTaken,
    /// A8: the chain of LAST from p to z.
    LastChainReversed,
    /// A8: the order of LAST from q to z.
    LastOrderReversed,
    /// A8: a chain of one step alone.
    ChainOfOneStep,
    /// A8: the antecedent's order in one step alone.
    OrderOfOneStep,
    /// A8: chains and orders of up to two steps.
    TwoSteps,
    /// A8: chains and orders whose rows stand in the sheet in the order of the steps.
    OnePass,
    /// A8: a chain of rows after the introducing one alone.
    ChainOfLaterRows,
    /// A8: asking no order where q is a point of the consequent.
    OwnPointInOrder,
    /// A8: asking an order where q is 0 or 99 too.
    EndsWantOrder,
    /// A8: losing the upper half of the set in the short denial.
    ShortUpperHalfLost,
    /// A10: the one more counted as looked at.
    OneMoreCounted,
    /// A10: the one more counted in the number looked at alone.
    OneMoreInNumber,
    /// A10: the placements after the one more, not after the last one looked at.
    AfterOneMore,
    /// A10: the one more left out of the placements after.
    OneMoreLeftOut,
    /// A10: holds at the limit, though there is one more.
    HoldsAtLimit,
    /// A10: stopped at exactly the limit, though there is none more.
    StopsAtLimit,
    /// A10: looking on behind the first that extends nowhere.
    LooksOn,
    /// A10: looking at one less than the limit.
    OneLessLookedAt,
    /// A10: looking at one more than the limit.
    OneMoreLookedAt,
    /// A10: a limit of 0 taken as no limit.
    ZeroIsNoLimit,
    /// A10: the limit in 32 bits, so that 4,294,967,297 is 1.
    LimitIn32Bits,
    /// A10: one placement after too few.
    AfterOneTooFew,
    /// A10: one placement after too many.
    AfterOneTooMany,
    /// A10: the one reported counted among the placements after.
    ReportedInAfter,
    /// A10: no placement after where the sheet holds.
    HoldsWithNoneAfter,
    /// A10: no placement after where none was looked at.
    NoneAfterNone,
    /// A10: taking n^0 as 0.
    NoPointsNoPlacement,
    /// A10: taking 0^0 alone as 0.
    NoLinesNoPlacement,
    /// A10: matchings that the check without a limit passes over are not counted.
    PassedOverUncounted,
    /// A6: NEXT read as "p is lower than q".
    NextTurned,
    /// A6: LAST read as "q is lower than p".
    LastTurned,
    /// A6: EARLIER read as "lower than both".
    EarlierAsOrder,
    /// A6: LATER read as "higher than both".
    LaterAsOrder,
    /// A6: FREE p q read as "p is lower than q".
    FreeAsOrder,
    /// A6: WITHIN p q read so.
    WithinAsOrder,
    /// A6: APART p q read so.
    ApartAsOrder,
    /// A6: the order of BEFORE rows alone.
    OrderOfBeforeAlone,
    /// A6: "lower than" inside one point taken for no way back.
    StepInsidePasses,
    /// A6: ways back of one step or two alone.
    TwoStepsBack,
    /// A6: FREE's set counted as a set of its points.
    FreeAsSet,
    /// A6: the sets of EVENT rows not counted.
    EventNotCounted,
    /// A6: the BEFORE rows of a denial's own point not counted. (Its set alone decides nothing: it has an event, and SAME rows join it to no point.)
    DenialPointNotCounted,
    /// A6: the sets of NEXT and LAST rows not counted.
    NextAndLastNotCounted,
    /// A6: EVENT with the empty set passed over.
    EmptySetPasses,
    /// A6: the lower half of each set alone.
    EventsBelow32,
    /// A6: sets of which any two have an event in common passed over.
    SetsByTwo,
    /// A6: a point without a set taken for one that has no event.
    WithoutSetImpossible,
    /// A6: SAME p q joins p to q and not q to p.
    JoinedOneWay,
    /// A6: points joined by one SAME row alone.
    JoinedWithoutChains,
    /// A6: points joined within their section alone.
    JoinedInSection,
    /// A6: the start and the close joined.
    EndsJoined,
    /// A6: points joined in the rule of sets alone.
    JoinedInSetsAlone,
    /// A6: points joined in the rule of APART rows alone.
    JoinedInApartAlone,
    /// A6: points joined in the rule of order alone.
    JoinedInOrderAlone,
    /// A6: no rule of sets.
    NoEventPasses,
    /// A6: no rule of APART rows.
    ApartPasses,
    /// A6: no rule of order.
    LeadingBackPasses,
    /// A6: the antecedent's rows looked at alone.
    AntecedentAlone,
    /// A6: possible, whatever the rows are.
    AlwaysPossible,
    /// A6: impossible, whatever the rows are.
    AlwaysImpossible,
    /// A6: 31 for number N.
    LastNumberRefused,
    /// A6: number 0 taken as 1.
    ZeroAccepted,
    /// A6: m in 32 bits, for this operation alone.
    RuledNumberIn32Bits,
    /// A6: 31 for number 0 before the sheet's refusals.
    ZeroBeforeSheet,
    /// A6: "possible" written though the number is refused.
    WrittenThoughRefused,
    /// A6: nothing written for "possible".
    PossibleUnwritten,
    /// A11: p not renumbered.
    PStays,
    /// A11: q not renumbered.
    QStays,
    /// A11: a of kinds 4 and 5 not renumbered.
    OtherPointStays,
    /// A11: the spare point 10j + 9 not renumbered.
    SparePointStays,
    /// A11: the antecedent's points renumbered too.
    AntecedentRenumbered,
    /// A11: a of kinds 1, 2, 3, 9 and 12 renumbered, though it is a set.
    SetRenumbered,
    /// A11: a of kinds 10 and 11 renumbered, though it is a limit.
    LowerLimitRenumbered,
    /// A11: b of kinds 10 and 11 renumbered.
    UpperLimitRenumbered,
    /// A11: rows at fault not moved.
    FaultsStay,
    /// A11: rows at fault moved to their consequent's place, under their old numbers.
    FaultsKeepNumbers,
    /// A11: rows at fault under their new numbers, in their old places.
    FaultsKeepPlaces,
    /// A11: rows at fault moved as if the consequents before the new place had their old lengths.
    FaultsByOldLengths,
    /// A11: numbers of antiscenarios not moved.
    NumbersStay,
    /// A11: numbers with the first consequent's choice moving fastest.
    FirstChoiceFastest,
    /// A11: choices moved, and combined by the old numbers of denials.
    NumbersByOldCounts,
    /// A11: an antiscenario's parts in the old order, sections and points renumbered.
    PartsStay,
    /// A11: an antiscenario's parts in the new order, as they were written.
    PartsKeepSections,
    /// A11: a placement not moved.
    PositionsStay,
    /// A11: the inverse order taken for the order, in the sheet's rows alone.
    InverseInSheet,
    /// A11: the same in the parts of antiscenarios alone.
    InverseInParts,
    /// A11: the same in numbers alone.
    InverseInNumbers,
    /// A11: the same in rows at fault alone.
    InverseInFaults,
    /// A11: the same in placements alone.
    InverseInPositions,
    /// No blunder: document 01 as it was before A1, with events up to 31 and sets of a alone. WITHIN is A9's, and denials are A8's.
    BeforeA1,
    /// No blunder: document 01 as it was before A9, with distances taken as exact. Events, sets, N and denials are those of A1, A4 and A8.
    BeforeA9,
    /// No blunder: document 01 as it was before A8, with the long denial of every missing point. All else is as it is now.
    BeforeA8,
}

/// Document 02, A8: its slips, each of which writes some denial otherwise, and the denials as they were.
pub const IN_FAR_ENDS: [Blunder; 20] = [
    Blunder::NoOrder,
    Blunder::OrderOfConsequent,
    Blunder::OrderOfBoth,
    Blunder::MixedChain,
    Blunder::HighestEnd,
    Blunder::LowestReached,
    Blunder::LowestReachedOrLong,
    Blunder::QToItself,
    Blunder::QTaken,
    Blunder::LastChainReversed,
    Blunder::LastOrderReversed,
    Blunder::ChainOfOneStep,
    Blunder::OrderOfOneStep,
    Blunder::TwoSteps,
    Blunder::OnePass,
    Blunder::ChainOfLaterRows,
    Blunder::OwnPointInOrder,
    Blunder::EndsWantOrder,
    Blunder::ShortUpperHalfLost,
    Blunder::BeforeA8,
];

/// Document 02, A10: its slips, each of which answers otherwise with some limit.
pub const IN_LIMITS: [Blunder; 19] = [
    Blunder::OneMoreCounted,
    Blunder::OneMoreInNumber,
    Blunder::AfterOneMore,
    Blunder::OneMoreLeftOut,
    Blunder::HoldsAtLimit,
    Blunder::StopsAtLimit,
    Blunder::LooksOn,
    Blunder::OneLessLookedAt,
    Blunder::OneMoreLookedAt,
    Blunder::ZeroIsNoLimit,
    Blunder::LimitIn32Bits,
    Blunder::AfterOneTooFew,
    Blunder::AfterOneTooMany,
    Blunder::ReportedInAfter,
    Blunder::HoldsWithNoneAfter,
    Blunder::NoneAfterNone,
    Blunder::NoPointsNoPlacement,
    Blunder::NoLinesNoPlacement,
    Blunder::PassedOverUncounted,
];

/// Document 02, A6: slips in its rules, each of which answers otherwise for some antiscenario.
pub const IN_CONTRADICTIONS: [Blunder; 31] = [
    Blunder::NextTurned,
    Blunder::LastTurned,
    Blunder::EarlierAsOrder,
    Blunder::LaterAsOrder,
    Blunder::FreeAsOrder,
    Blunder::WithinAsOrder,
    Blunder::ApartAsOrder,
    Blunder::OrderOfBeforeAlone,
    Blunder::StepInsidePasses,
    Blunder::TwoStepsBack,
    Blunder::FreeAsSet,
    Blunder::EventNotCounted,
    Blunder::DenialPointNotCounted,
    Blunder::NextAndLastNotCounted,
    Blunder::EmptySetPasses,
    Blunder::EventsBelow32,
    Blunder::SetsByTwo,
    Blunder::WithoutSetImpossible,
    Blunder::JoinedOneWay,
    Blunder::JoinedWithoutChains,
    Blunder::JoinedInSection,
    Blunder::EndsJoined,
    Blunder::JoinedInSetsAlone,
    Blunder::JoinedInApartAlone,
    Blunder::JoinedInOrderAlone,
    Blunder::NoEventPasses,
    Blunder::ApartPasses,
    Blunder::LeadingBackPasses,
    Blunder::AntecedentAlone,
    Blunder::AlwaysPossible,
    Blunder::AlwaysImpossible,
];

/// Document 02, A6: slips in numbers and in what is written, each of which answers otherwise for some number.
pub const IN_RULINGS: [Blunder; 6] = [
    Blunder::LastNumberRefused,
    Blunder::ZeroAccepted,
    Blunder::RuledNumberIn32Bits,
    Blunder::ZeroBeforeSheet,
    Blunder::WrittenThoughRefused,
    Blunder::PossibleUnwritten,
];

/// Document 02, A11: slips in how a sheet and what is said of it are rearranged.
pub const IN_REARRANGEMENTS: [Blunder; 23] = [
    Blunder::PStays,
    Blunder::QStays,
    Blunder::OtherPointStays,
    Blunder::SparePointStays,
    Blunder::AntecedentRenumbered,
    Blunder::SetRenumbered,
    Blunder::LowerLimitRenumbered,
    Blunder::UpperLimitRenumbered,
    Blunder::FaultsStay,
    Blunder::FaultsKeepNumbers,
    Blunder::FaultsKeepPlaces,
    Blunder::FaultsByOldLengths,
    Blunder::NumbersStay,
    Blunder::FirstChoiceFastest,
    Blunder::NumbersByOldCounts,
    Blunder::PartsStay,
    Blunder::PartsKeepSections,
    Blunder::PositionsStay,
    Blunder::InverseInSheet,
    Blunder::InverseInParts,
    Blunder::InverseInNumbers,
    Blunder::InverseInFaults,
    Blunder::InverseInPositions,
];
