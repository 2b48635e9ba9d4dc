//! Random damage of texts: bytes changed, lost or added, lines moved, fields replaced by other numbers and by those at an edge, rows written over
//! and over.
use crate::random::Random;
use crate::reference::columns::spell;

const BYTES: [u8; 24] = *b"0123456789  \n\n\r\t+-.a\x00\x7f\xa0\xff";
const NUMBERS: [u32; 25] = [0, 1, 2, 3, 4, 5, 6, 7, 8, 9, 10, 11, 12, 13, 19, 21, 31, 32, 33, 63, 64, 98, 99, 176, 177];
const LARGE_NUMBERS: [u32; 11] = [255, 256, 258, 999, 1000, 4000, 4001, 65_536, 99_999, 4_294_967_294, 4_294_967_295];

/// The widths of a text's first line and of its further lines.
pub struct Columns {
    pub first: &'static [usize],
    pub further: &'static [usize],
    /// Numbers at an edge of what is accepted, for fields of a further line, from this one on.
    edges: &'static [(usize, &'static [u32])],
}

/// The edges are those of sets and of the field b.
pub const SHEET: Columns = Columns {
    first: &[3, 3],
    further: &[3, 3, 3, 3, 11, 11],
    edges: &[(4, &[0, 0]), (4, &[0, 1]), (4, &[0, u32::MAX]), (5, &[1]), (5, &[u32::MAX])],
};
/// The edges are those of events.
pub const LOG: Columns =
    Columns { first: &[5, 11, 11], further: &[11, 3], edges: &[(1, &[31]), (1, &[32]), (1, &[63]), (1, &[64])] };

fn line_length(widths: &[usize]) -> usize {
    widths.iter().sum::<usize>() + 1
}

/// Replaces one field by another number that fits it, so that the damage lies past the columns.
fn other_number(random: &mut Random, text: &mut [u8], columns: &Columns) {
    let first = line_length(columns.first);
    let further = line_length(columns.further);
    if text.len() < first {
        return;
    }
    let lines = (text.len() - first) / further;
    let line = if random.one_in(4) { 0 } else { random.below(lines + 1) };
    let (mut at, widths) = if line == 0 { (0, columns.first) } else { (first + (line - 1) * further, columns.further) };
    let field = random.below(widths.len());
    at += widths[..field].iter().sum::<usize>();
    let number = if random.one_in(4) { random.pick(&LARGE_NUMBERS) } else { random.pick(&NUMBERS) };
    if let Some(spelled) = spell(number, widths[field]) {
        text[at..at + widths[field]].copy_from_slice(&spelled);
    }
}

/// Puts numbers at an edge into fields of a further line.
pub fn edge(random: &mut Random, text: &mut [u8], columns: &Columns) {
    let (first, further) = (line_length(columns.first), line_length(columns.further));
    if text.len() < first + further {
        return;
    }
    let line = first + random.below((text.len() - first) / further) * further;
    let (field, numbers) = random.pick(columns.edges);
    for (field, &number) in (field..).zip(numbers) {
        let (at, width) = (line + columns.further[..field].iter().sum::<usize>(), columns.further[field]);
        text[at..at + width].copy_from_slice(&spell(number, width).expect("a number at an edge fits its field"));
    }
}

fn swap_lines(random: &mut Random, text: &mut [u8], columns: &Columns) {
    let (first, further) = (line_length(columns.first), line_length(columns.further));
    if text.len() < first + further {
        return;
    }
    let lines = (text.len() - first) / further;
    let (x, y) = (random.below(lines), random.below(lines));
    for column in 0..further {
        text.swap(first + x * further + column, first + y * further + column);
    }
}

/// One piece of damage.
pub fn damage(random: &mut Random, text: &mut Vec<u8>, columns: &Columns) {
    let length = text.len();
    match random.below(13) {
        0 | 1 if length > 0 => text[random.below(length)] = random.pick(&BYTES),
        2 if length > 0 => {
            text.remove(random.below(length));
        }
        3 => text.insert(random.below(length + 1), random.pick(&BYTES)),
        4 => text.truncate(random.below(length + 1)),
        5 => text.push(random.pick(&BYTES)),
        6 => swap_lines(random, text, columns),
        7 => edge(random, text, columns),
        _ => other_number(random, text, columns),
    }
}

const MOST_REPEATS: u32 = 40;

/// Writes one row of a sheet over and over and counts it, so that its section may become too long.
pub fn repeat_row(random: &mut Random, sheet: &mut Vec<u8>) {
    let (first, row_length) = (line_length(SHEET.first), line_length(SHEET.further));
    let rows = (sheet.len() - first) / row_length;
    if rows == 0 {
        return;
    }
    let at = first + random.below(rows) * row_length;
    let times = random.from_to(1, MOST_REPEATS);
    let repeated = sheet[at..at + row_length].repeat(times as usize);
    sheet.splice(at..at, repeated);
    let count = spell(rows as u32 + times, SHEET.first[1]).expect("a sheet has fewer than 1,000 rows");
    sheet[SHEET.first[0]..first - 1].copy_from_slice(&count);
}
