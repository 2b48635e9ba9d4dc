//! Fields of every width, read and written through the C interface and by the reference.
mod common;
use common::tell;
use satskhubo_tests::host::Host;
use satskhubo_tests::outcome::{guarded, FieldRead, FieldWritten, GUARD, PATTERN, PATTERN_WORD};
use satskhubo_tests::random::Random;
use satskhubo_tests::reference::columns::{read_field, spell};

fn expected_read(text: &[u8], width: usize) -> FieldRead {
    match text.get(..width).and_then(read_field) {
        Some(value) => FieldRead { answer: 0, value },
        None => FieldRead { answer: 1, value: PATTERN_WORD },
    }
}

fn reads_alike(text: &[u8], width: usize) -> u64 {
    assert_eq!(Host.read_field(text, width), expected_read(text, width), "width {width} of {:?}", String::from_utf8_lossy(text));
    1
}

fn expected_write(room: usize, at: usize, width: usize, value: u32) -> FieldWritten {
    let mut buffer = guarded(room, PATTERN);
    let fits = at.checked_add(width).is_some_and(|end| end <= room);
    let Some(field) = fits.then(|| spell(value, width)).flatten() else { return FieldWritten { answer: 1, buffer } };
    buffer[GUARD + at..GUARD + at + width].copy_from_slice(&field);
    FieldWritten { answer: 0, buffer }
}

fn writes_alike(room: usize, at: usize, width: usize, value: u32) -> u64 {
    let expected = expected_write(room, at, width, value);
    assert_eq!(Host.write_field(room, at, width, value), expected, "{value} at {at}, width {width}, room {room}");
    1
}

/// Numbers at which a width, a digit or 32 bits end.
fn edges() -> Vec<u32> {
    let mut edges = vec![0, u32::MAX, u32::MAX - 1];
    for power in 0..10 {
        let ten = 10u32.pow(power);
        edges.extend([ten - 1, ten, ten + 1, ten.saturating_mul(4), ten * 2]);
    }
    edges
}

/// Every text of a length over an alphabet.
fn texts(alphabet: &[u8], length: usize) -> Vec<Vec<u8>> {
    (0..length).fold(vec![vec![]], |shorter, _| {
        shorter.iter().flat_map(|text| alphabet.iter().map(move |&byte| [&text[..], &[byte]].concat())).collect()
    })
}

#[test]
fn short_fields_enumerated() {
    let mut comparisons = 0;
    for length in 0..=5 {
        for text in texts(b" 019-\n", length) {
            comparisons += (0..=length + 1).map(|width| reads_alike(&text, width)).sum::<u64>();
        }
    }
    for text in (0..=255u8).flat_map(|byte| (0..=255u8).map(move |other| [byte, other])) {
        comparisons += reads_alike(&text, 2);
    }
    tell("columns: short fields", comparisons);
}

#[test]
fn fields_read_at_every_width() {
    let mut random = Random::new(21);
    let mut comparisons = 0;
    for width in 0..=14 {
        let values: Vec<u32> = edges().into_iter().chain((0..300).map(|index| random.next() as u32 >> (index % 32))).collect();
        for field in values.into_iter().filter_map(|value| spell(value, width)) {
            comparisons += reads_alike(&field, width);
            comparisons += reads_alike(&[&field[..], b" 9"].concat(), width);
            for at in 0..width {
                let mut damaged = field.clone();
                damaged[at] = random.pick(b" 0123456789\t\n\r+-/:\x00\xff");
                comparisons += reads_alike(&damaged, width);
            }
        }
    }
    for text in [
        "4294967296",
        "4294967300",
        "5000000000",
        "9999999999",
        "99999999999",
        "18446744073709551616",
        "18446744073709551617",
        "42949672950",
    ] {
        for width in text.len()..text.len() + 4 {
            comparisons += reads_alike(format!("{text:>width$}").as_bytes(), width);
        }
    }
    for width in [12, 40, 1000, usize::MAX, usize::MAX / 2, 1 << 32] {
        comparisons += reads_alike(b"          7", width);
    }
    for width in [12, 40, 1000] {
        comparisons += reads_alike(&spell(u32::MAX, width).unwrap(), width);
        comparisons += reads_alike(&vec![b' '; width], width);
        comparisons += reads_alike(&vec![b'1'; width], width);
        comparisons += reads_alike(&vec![b'0'; width], width);
    }
    tell("columns: reading", comparisons);
}

#[test]
fn fields_written_at_every_width_and_place() {
    let mut random = Random::new(22);
    let mut comparisons = 0;
    for width in (0..=14usize).chain([40, 200]) {
        for value in edges().into_iter().chain((0..40).map(|index| random.next() as u32 >> (index % 32)).collect::<Vec<_>>()) {
            for room in [0, width.saturating_sub(1), width, width + 1, width + 9] {
                let places = [
                    0,
                    1,
                    room.saturating_sub(width),
                    room.saturating_sub(width) + 1,
                    room,
                    room + 1,
                    usize::MAX,
                    usize::MAX - width,
                    (usize::MAX - width).saturating_add(1),
                ];
                comparisons += places.map(|at| writes_alike(room, at, width, value)).iter().sum::<u64>();
            }
        }
    }
    for width in [usize::MAX, usize::MAX - 3, usize::MAX / 2, 1 << 32] {
        comparisons += [0, 1, 3, 4, 5].map(|at| writes_alike(8, at, width, 7)).iter().sum::<u64>();
    }
    tell("columns: writing", comparisons);
}

#[test]
fn what_is_written_reads_back() {
    let mut random = Random::new(23);
    for _ in 0..20_000 {
        let value = random.next() as u32 >> random.below(32);
        let written = Host.write_field(11, 0, 11, value);
        assert_eq!(Host.read_field(&written.buffer[GUARD..GUARD + 11], 11), FieldRead { answer: 0, value });
    }
    tell("columns: back", 20_000);
}
