//! The program satskhubo: verdicts, antiscenarios and searches from the proved library, in words, in columns and in JSON.
mod antiscenarios;
mod arguments;
mod certificate;
mod check;
mod columns;
mod contradiction;
mod denial;
mod descriptors;
mod events;
mod explain;
mod found;
mod help;
mod impossible;
mod input;
mod json;
mod limit;
mod log;
mod logs;
mod names;
mod nearest;
mod number;
mod numbered;
mod opened;
mod order;
mod output;
mod placed;
mod progress;
mod refusal;
mod remark;
mod reply;
mod search;
mod sheet;
mod violation;
mod why;
mod words;

use arguments::{Asked, Command, Request};
use output::{complain, Output, FAILED};
use std::ffi::OsString;

/// A panic in any thread ends the program with words and status 2.
fn end_on_panic() {
    std::panic::set_hook(Box::new(|panic| {
        let message = names::printable(panic.to_string().as_bytes());
        complain(&format!("the program failed, and what it said may be incomplete: {message}"));
        std::process::exit(FAILED)
    }));
}

fn carry_out(asked: &Asked, output: &mut Output) -> i32 {
    match asked.command {
        Command::Check => check::run(asked, output),
        Command::Antiscenarios => antiscenarios::run(asked, output),
        Command::Search => search::run(asked, output),
        Command::Explain => explain::run(asked, output),
    }
}

fn answer(request: &Request, output: &mut Output) -> i32 {
    match request {
        Request::Help(command) => output.say(help::help(*command)),
        Request::Version => output.say(&help::version()),
        Request::Carry(asked) => return carry_out(asked, output),
    }
    0
}

fn run() -> i32 {
    if descriptors::output_was_closed() {
        complain("standard output is closed, so that there is nowhere to write the answer");
        return FAILED;
    }
    let words: Vec<OsString> = std::env::args_os().skip(1).collect();
    let request = match arguments::request(&words) {
        Ok(request) => request,
        Err(sentence) => {
            complain(&format!("{sentence}; satskhubo --help says how it is used"));
            return FAILED;
        }
    };
    let mut output = Output::new();
    let status = answer(&request, &mut output);
    output.end();
    status
}

fn main() {
    end_on_panic();
    std::process::exit(run())
}
