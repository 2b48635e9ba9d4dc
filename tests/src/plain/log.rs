//! A log read into arrays in one pass.
use super::columns::read;
use super::maps::Maps;
use super::Refused;

const MOST_LINES: usize = 4000;
const FIRST_LINE: usize = 28;
const LINE: usize = 15;

/// Ticks by position, start and close among them; events by position, of which those at the ends are not looked at; and where lines of a
/// set are asked for often, where each event stands.
pub struct Log {
    pub n: u32,
    pub ticks: [u32; MOST_LINES + 2],
    pub events: [u8; MOST_LINES + 2],
    maps: Option<Maps>,
}

fn first_line(text: &[u8]) -> Option<(u32, u32, u32)> {
    let line = text.get(..FIRST_LINE)?;
    if line[27] != b'\n' {
        return None;
    }
    Some((read::<5>(line)?, read::<11>(&line[5..])?, read::<11>(&line[16..])?))
}

#[inline]
fn line(text: &[u8]) -> Option<(u32, u32)> {
    if text[14] != b'\n' {
        return None;
    }
    Some((read::<11>(text)?, read::<3>(&text[11..])?))
}

#[inline]
fn is_in(event: u8, set: u64) -> bool {
    set >> event & 1 == 1
}

impl Log {
    pub fn read(text: &[u8]) -> Result<Log, Refused> {
        let first = |refusal| (refusal, 0, text.len().min(FIRST_LINE));
        let (n, start, close) = first_line(text).ok_or(first(21))?;
        if n as usize > MOST_LINES {
            return Err(first(22));
        }
        if text.len() != FIRST_LINE + LINE * n as usize {
            return Err(first(23));
        }
        let mut log = Log { n, ticks: [0; MOST_LINES + 2], events: [0; MOST_LINES + 2], maps: None };
        log.ticks[0] = start;
        let mut before = start;
        for (index, bytes) in text[FIRST_LINE..].chunks_exact(LINE).enumerate() {
            let refused = |refusal| (refusal, FIRST_LINE + LINE * index, LINE);
            let (tick, event) = line(bytes).ok_or(refused(24))?;
            if event > 63 {
                return Err(refused(25));
            }
            if tick < before {
                return Err(refused(26));
            }
            log.ticks[index + 1] = tick;
            log.events[index + 1] = event as u8;
            before = tick;
        }
        if close < before {
            return Err(first(27));
        }
        log.ticks[n as usize + 1] = close;
        Ok(log)
    }

    #[inline]
    pub fn event_in(&self, position: u32, set: u64) -> bool {
        is_in(self.events[position as usize], set)
    }

    pub fn draw_maps(&mut self) {
        self.maps = Some(Maps::new(&self.events[1..=self.n as usize]));
    }

    #[inline]
    pub fn free(&self, x: u32, y: u32, set: u64) -> bool {
        let (low, high) = (x.min(y), x.max(y));
        low == high || self.next_up_to(low, high - 1, set).is_none()
    }

    /// The first position after one with an event of the set.
    #[inline]
    pub fn next(&self, after: u32, set: u64) -> Option<u32> {
        self.next_up_to(after, self.n, set)
    }

    /// With maps, the line beside is looked at first: often it is the one.
    #[inline]
    pub fn next_up_to(&self, after: u32, last: u32, set: u64) -> Option<u32> {
        if after >= last {
            return None;
        }
        let beside = after + 1;
        match &self.maps {
            None => {
                let offset = self.events[beside as usize..=last as usize].iter().position(|&event| is_in(event, set))?;
                Some(beside + offset as u32)
            }
            Some(_) if self.event_in(beside, set) => Some(beside),
            Some(maps) => maps.next(beside, set).filter(|&position| position <= last),
        }
    }

    /// The last position before one with an event of the set.
    #[inline]
    pub fn last(&self, before: u32, set: u64) -> Option<u32> {
        if before <= 1 {
            return None;
        }
        let beside = before - 1;
        match &self.maps {
            None => {
                let index = self.events[1..before as usize].iter().rposition(|&event| is_in(event, set))?;
                Some(index as u32 + 1)
            }
            Some(_) if self.event_in(beside, set) => Some(beside),
            Some(maps) => maps.last(beside, set),
        }
    }

    /// How many lines have a tick below this one.
    #[inline]
    pub fn lines_before(&self, tick: u64) -> u32 {
        self.ticks[1..=self.n as usize].partition_point(|&other| u64::from(other) < tick) as u32
    }
}
