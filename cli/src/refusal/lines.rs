//! Lines of a log that are well formed and yet refused: 25, 26 and 27.
use crate::columns::{fields, lines, LINE, LOG_FIRST};
use crate::events::LAST_EVENT;
use crate::words::line;
use satskhubo_interface::answer::Answer;

/// The tick and the event of a line, from 0.
fn line_of(log: &[u8], index: usize) -> Answer<Option<[u32; 2]>> {
    match lines(log, &LOG_FIRST, &LINE).nth(index) {
        Some(line) => fields(line, &LINE),
        None => Ok(None),
    }
}

/// The tick before a line from 0, and whose it is.
fn tick_before(log: &[u8], index: usize) -> Answer<Option<(u32, String)>> {
    if index == 0 {
        return Ok(fields(log, &LOG_FIRST)?.map(|[_, start, _]| (start, "the start".to_string())));
    }
    let before = line_of(log, index - 1)?;
    Ok(before.map(|[tick, _]| (tick, line(index as u32))))
}

pub fn event(log: &[u8], index: usize) -> Answer<Vec<String>> {
    let said = |[_, event]: [u32; 2]| format!("the event (columns 12 to 14) is {event}; events are 0 to {LAST_EVENT}");
    Ok(line_of(log, index)?.map(said).into_iter().collect())
}

pub fn tick(log: &[u8], index: usize) -> Answer<Vec<String>> {
    let (Some([tick, _]), Some((before, whose))) = (line_of(log, index)?, tick_before(log, index)?) else {
        return Ok(Vec::new());
    };
    Ok(vec![format!("the tick is {tick}, below {before}, the tick of {whose}; ticks never fall")])
}

pub fn close(log: &[u8]) -> Answer<Vec<String>> {
    let Some([count, _, close]) = fields(log, &LOG_FIRST)? else { return Ok(Vec::new()) };
    let Some((last, whose)) = tick_before(log, count as usize)? else { return Ok(Vec::new()) };
    Ok(vec![format!("the close tick is {close}, below {last}, the tick of {whose}; the close is never before it")])
}
