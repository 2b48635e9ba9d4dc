//! Which of the standard streams were closed when the program began. Rust's runtime opens /dev/null in their place before `main`, so
//! that an answer would be lost without an error; this looks before it does.
use std::ffi::c_int;
use std::sync::atomic::{AtomicBool, Ordering};

const F_GETFD: c_int = 1;
const STANDARD_INPUT: c_int = 0;
const STANDARD_OUTPUT: c_int = 1;

static INPUT_CLOSED: AtomicBool = AtomicBool::new(false);
static OUTPUT_CLOSED: AtomicBool = AtomicBool::new(false);

extern "C" {
    fn fcntl(descriptor: c_int, command: c_int, ...) -> c_int;
}

extern "C" fn look() {
    let closed = |descriptor| unsafe { fcntl(descriptor, F_GETFD) } == -1;
    INPUT_CLOSED.store(closed(STANDARD_INPUT), Ordering::Relaxed);
    OUTPUT_CLOSED.store(closed(STANDARD_OUTPUT), Ordering::Relaxed);
}

#[used]
#[link_section = ".init_array"]
static LOOK: extern "C" fn() = look;

pub fn input_was_closed() -> bool {
    INPUT_CLOSED.load(Ordering::Relaxed)
}

pub fn output_was_closed() -> bool {
    OUTPUT_CLOSED.load(Ordering::Relaxed)
}
