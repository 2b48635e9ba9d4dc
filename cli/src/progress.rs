//! How far it is, on a terminal, where it takes over a second; never in a pipe.
use std::io::{IsTerminal, Write};
use std::sync::{Arc, Condvar, Mutex, MutexGuard, PoisonError};
use std::thread::{Builder, JoinHandle};
use std::time::{Duration, Instant};

const PERIOD: Duration = Duration::from_secs(1);

struct State {
    done: u64,
    /// The width of what stands on the terminal.
    drawn: usize,
    is_over: bool,
}

struct Shared {
    state: Mutex<State>,
    over: Condvar,
}

pub struct Progress {
    shared: Arc<Shared>,
    ticker: Option<JoinHandle<()>>,
}

impl Shared {
    fn state(&self) -> MutexGuard<'_, State> {
        self.state.lock().unwrap_or_else(PoisonError::into_inner)
    }
}

fn draw(text: &str, state: &mut State) {
    let width = state.drawn;
    state.drawn = text.len();
    let _ = std::io::stderr().write_all(format!("\r{text:width$}").as_bytes());
}

fn wipe(state: &mut State) {
    if state.drawn > 0 {
        let width = state.drawn;
        state.drawn = 0;
        let _ = std::io::stderr().write_all(format!("\r{:width$}\r", "").as_bytes());
    }
}

/// Draws once a period until it is over.
fn tick(shared: &Shared, total: u64, noun: &str) {
    let begun = Instant::now();
    let mut state = shared.state();
    while !state.is_over {
        let (woken, timeout) = shared.over.wait_timeout(state, PERIOD).unwrap_or_else(PoisonError::into_inner);
        state = woken;
        if timeout.timed_out() && !state.is_over {
            let seconds = begun.elapsed().as_secs();
            let text = if total == 1 { format!("{seconds} s") } else { format!("{} of {total} {noun}, {seconds} s", state.done) };
            draw(&text, &mut state);
        }
    }
}

impl Progress {
    /// Of so many things; without a terminal, nothing is ever drawn.
    pub fn new(total: u64, noun: &'static str) -> Progress {
        let state = Mutex::new(State { done: 0, drawn: 0, is_over: false });
        let shared = Arc::new(Shared { state, over: Condvar::new() });
        if !std::io::stderr().is_terminal() {
            return Progress { shared, ticker: None };
        }
        let ticking = shared.clone();
        let ticker = Builder::new().spawn(move || tick(&ticking, total, noun)).ok();
        Progress { shared, ticker }
    }

    pub fn step(&self) {
        self.shared.state().done += 1;
    }

    /// Takes what is drawn away, so that an answer can stand there.
    pub fn wipe(&self) {
        wipe(&mut self.shared.state());
    }

    pub fn end(self) {
        self.shared.state().is_over = true;
        self.shared.over.notify_all();
        if let Some(ticker) = self.ticker {
            let _ = ticker.join();
        }
        wipe(&mut self.shared.state());
    }
}
