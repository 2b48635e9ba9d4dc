//! Fields read and written in one pass.

/// The number right-justified in these columns, if they are well formed.
#[inline]
pub fn read<const WIDTH: usize>(field: &[u8]) -> Option<u32> {
    let field: &[u8; WIDTH] = field[..WIDTH].try_into().unwrap();
    let mut at = 0;
    while at < WIDTH - 1 && field[at] == b' ' {
        at += 1;
    }
    if field[at] == b'0' && at < WIDTH - 1 {
        return None;
    }
    let mut value = 0u64;
    for &byte in &field[at..] {
        let digit = byte.wrapping_sub(b'0');
        if digit > 9 {
            return None;
        }
        value = value * 10 + u64::from(digit);
    }
    u32::try_from(value).ok()
}

/// Writes a number that is known to fit.
#[inline]
pub fn write<const WIDTH: usize>(field: &mut [u8], mut value: u32) {
    let field: &mut [u8; WIDTH] = (&mut field[..WIDTH]).try_into().unwrap();
    *field = [b' '; WIDTH];
    let mut at = WIDTH;
    loop {
        at -= 1;
        field[at] = b'0' + (value % 10) as u8;
        value /= 10;
        if value == 0 {
            return;
        }
    }
}
