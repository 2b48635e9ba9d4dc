//! The reply on one log, and the tally of all of them with the exit status.
use crate::order::Taker;
use crate::output::{complain, Output, FAILED};
use crate::progress::Progress;
use satskhubo_interface::answer::Looked;

/// The exit status where a check stopped.
const STOPPED: i32 = 3;

#[derive(Clone, Copy, PartialEq, Eq)]
pub enum Standing {
    /// The sheet holds, or nothing was found.
    Clear,
    /// The sheet is violated, or something was found.
    Found,
    /// The check stopped at its limit. How far it has come is known to it alone, so that no search can say this.
    Stopped(Looked),
    Refused,
    NotRead,
    Failed,
}

pub struct Reply {
    pub standing: Standing,
    /// For standard output.
    pub text: String,
    /// For standard error.
    pub complaints: Vec<String>,
    /// The answer stands, but not all that belongs to it.
    pub is_incomplete: bool,
}

impl Reply {
    pub fn new(standing: Standing, text: String) -> Reply {
        Reply { standing, text, complaints: Vec::new(), is_incomplete: false }
    }

    pub fn complaint(standing: Standing, text: String, sentence: String) -> Reply {
        Reply { standing, text, complaints: vec![sentence], is_incomplete: false }
    }
}

#[derive(Default)]
pub struct Tally {
    pub clear: usize,
    pub found: usize,
    pub stopped: usize,
    pub refused: usize,
    pub not_read: usize,
    pub failed: usize,
    incomplete: usize,
}

impl Tally {
    fn add(&mut self, reply: &Reply) {
        match reply.standing {
            Standing::Clear => self.clear += 1,
            Standing::Found => self.found += 1,
            Standing::Stopped(_) => self.stopped += 1,
            Standing::Refused => self.refused += 1,
            Standing::NotRead => self.not_read += 1,
            Standing::Failed => self.failed += 1,
        }
        self.incomplete += usize::from(reply.is_incomplete);
    }

    /// The exit status for so many logs: what went wrong comes before what was never answered, and this before what was found.
    pub fn status(&self, logs: usize) -> i32 {
        if self.clear + self.found + self.stopped != logs || self.incomplete > 0 {
            return FAILED;
        }
        if self.stopped > 0 {
            return STOPPED;
        }
        i32::from(self.found > 0)
    }

    /// How many failed, where some did.
    pub fn failures(&self) -> String {
        if self.failed == 0 {
            String::new()
        } else {
            format!(", {} failed", self.failed)
        }
    }
}

/// Says the replies as they come and keeps the tally.
pub struct Reporter<'a> {
    pub output: &'a mut Output,
    pub progress: &'a Progress,
    pub tally: Tally,
}

impl Taker<Reply> for Reporter<'_> {
    fn take(&mut self, reply: Reply) {
        self.tally.add(&reply);
        self.progress.wipe();
        self.output.say(&reply.text);
        if !reply.complaints.is_empty() {
            self.output.flush();
        }
        for sentence in &reply.complaints {
            complain(sentence);
        }
    }

    fn wait(&mut self) {
        self.output.flush();
    }
}
