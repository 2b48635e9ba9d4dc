//! Logs for refusals 21 to 27 and their boundaries.
use super::{log_first, log_line, replaced, Case, LINE, LOG_FIRST};
use crate::generate::logs::{log_of, uniform};

pub fn logs() -> Vec<Case> {
    let mut cases = log_first_lines();
    cases.extend(log_lines());
    cases.extend(log_ends());
    cases
}

fn log_first_lines() -> Vec<Case> {
    let log = log_of(&[(10, 1), (20, 2), (30, 3)]).text();
    let long = uniform(4001, 3).text();
    let mut cases = vec![
        log_first("three lines", log.clone(), 0),
        log_first("empty", vec![], 21),
        log_first("27 bytes", log[..27].to_vec(), 21),
        log_first("first line alone", log[..28].to_vec(), 23),
        log_first("n 4,000", uniform(4000, 3).text(), 0),
        log_first("n 4,000 and a byte more", [&uniform(4000, 3).text()[..], b"\n"].concat(), 23),
        log_first("n 4,000 and a byte less", uniform(4000, 3).text()[..60_027].to_vec(), 23),
        log_first("65,536 bytes more", [&log[..], &[b' '; 65_536]].concat(), 23),
        log_first("n 4,001", long.clone(), 22),
        log_first("n 4,001 and a byte more", [&long[..], b" "].concat(), 22),
        log_first("n 99,999", replaced(&log, 0, b"99999"), 22),
        log_first("n 4,000 with three lines", replaced(&log, 0, b" 4000"), 23),
        log_first("one byte more", [&log[..], b"\n"].concat(), 23),
        log_first("last LF missing", log[..log.len() - 1].to_vec(), 23),
        log_first("one line too few", log[..log.len() - LINE].to_vec(), 23),
        log_first("one line more", [&log[..], &log[28..43]].concat(), 23),
        log_first("n 0 with three lines", replaced(&log, 0, b"    0"), 23),
        log_first("n 0", b"    0          0          0\n".to_vec(), 0),
        log_first("n 0, one byte more", b"    0          0          0\n\n".to_vec(), 23),
        log_first("CRLF", String::from_utf8(log.clone()).unwrap().replace('\n', "\r\n").into_bytes(), 21),
    ];
    let damages: [(usize, &[u8]); 14] = [
        (0, b"00003"),
        (0, b"   03"),
        (0, b"     "),
        (0, b"3    "),
        (0, b"\t   3"),
        (0, b"   -3"),
        (0, b"   +3"),
        (5, b" 4294967296"),
        (5, b"99999999999"),
        (5, b"           "),
        (16, b"99999999999"),
        (16, b"        030"),
        (27, b" "),
        (27, b"\r"),
    ];
    for (column, bytes) in damages {
        let name = format!("column {column} {:?}", String::from_utf8_lossy(bytes));
        cases.push(log_first(&name, replaced(&log, column, bytes), 21));
    }
    cases
}

fn log_lines() -> Vec<Case> {
    let log = log_of(&[(10, 1), (20, 2), (30, 3)]).text();
    let second = LOG_FIRST + LINE;
    let damages: [(usize, &[u8], u32); 25] = [
        (0, b" 4294967296", 24),
        (0, b"99999999999", 24),
        (0, b"00000000020", 24),
        (0, b"           ", 24),
        (0, b"20         ", 24),
        (0, b"         -1", 24),
        (11, b"   ", 24),
        (11, b" 02", 24),
        (11, b"000", 24),
        (11, b"2  ", 24),
        (11, b" 2\r", 24),
        (11, b"032", 24),
        (11, b"064", 24),
        (14, b" ", 24),
        (14, b"\r", 24),
        (0, b"          9999x", 24),
        (11, b" 64", 25),
        (11, b" 99", 25),
        (11, b"999", 25),
        (11, b"255", 25),
        (11, b"256", 25),
        (0, b"          1 64", 25),
        (0, b"          9", 26),
        (0, b"          0", 26),
        (0, b" 4294967295", 26),
    ];
    let mut cases = Vec::new();
    for (column, bytes, answer) in damages {
        let name = format!("second line, column {column} {:?}", String::from_utf8_lossy(bytes));
        // A tick that is too large is the fault of the line after it.
        let line = if bytes == b" 4294967295" { 3 } else { 2 };
        cases.push(log_line(&name, replaced(&log, second + column, bytes), answer, line));
    }
    cases.push(log_line("the last byte is no LF", replaced(&log, log.len() - 1, b" "), 24, 3));
    cases.push(log_line("line 1 below the start", replaced(&log, 5, b"         11"), 26, 1));
    cases.push(log_line("line 1 below a large start", replaced(&log, 5, b" 4294967295"), 26, 1));
    cases.push(log_line("26 before 27", replaced(&replaced(&log, 16, b"          0"), second, b"          1"), 26, 2));
    for event in [0, 31, 32, 33, 63] {
        cases.push(log_first(&format!("event {event}"), replaced(&log, second + 11, format!("{event:3}").as_bytes()), 0));
    }
    cases.push(log_first("equal ticks", replaced(&log, second, b"         10"), 0));
    cases.push(log_first("start at the first tick", replaced(&log, 5, b"         10"), 0));
    cases
}

fn log_ends() -> Vec<Case> {
    let log = log_of(&[(10, 1), (20, 2), (30, 3)]).text();
    vec![
        log_first("close below the last tick", replaced(&log, 16, b"         29"), 27),
        log_first("close 0", replaced(&log, 16, b"          0"), 27),
        log_first("close later", replaced(&log, 16, b" 4294967295"), 0),
        log_first("n 0, close below the start", b"    0          1          0\n".to_vec(), 27),
        log_first("n 0, close far below the start", b"    0 4294967295 4294967294\n".to_vec(), 27),
        log_first("n 0, close at a large start", b"    0 4294967295 4294967295\n".to_vec(), 0),
    ]
}
