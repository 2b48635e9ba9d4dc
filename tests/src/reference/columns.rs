//! Numbers in columns and lines of them, for any width, by the spelling that document 01 gives each number.

pub const LF: u8 = 10;
const SPACE: u8 = 32;

/// The one spelling of a value in a field of this width, if it fits.
pub fn spell(value: u32, width: usize) -> Option<Vec<u8>> {
    let digits = value.to_string().into_bytes();
    let spaces = width.checked_sub(digits.len())?;
    let mut field = vec![SPACE; spaces];
    field.extend(digits);
    Some(field)
}

/// Well formed is what is the spelling of some value; the digits after the spaces say of which.
pub fn read_field(field: &[u8]) -> Option<u32> {
    let spaces = field.iter().take_while(|&&byte| byte == SPACE).count();
    let digits = std::str::from_utf8(&field[spaces..]).ok()?;
    if !digits.bytes().all(|byte| byte.is_ascii_digit()) {
        return None;
    }
    let value: u32 = digits.parse().ok()?;
    (spell(value, field.len())? == field).then_some(value)
}

/// The fields of a line, if it has exactly these widths, each well formed, and its LF.
pub fn read_line(line: &[u8], widths: &[usize]) -> Option<Vec<u32>> {
    if line.len() != widths.iter().sum::<usize>() + 1 || line[line.len() - 1] != LF {
        return None;
    }
    let mut at = 0;
    let mut values = Vec::new();
    for &width in widths {
        values.push(read_field(&line[at..at + width])?);
        at += width;
    }
    Some(values)
}

/// A line of fields that fit their widths.
pub fn spell_line(values: &[u32], widths: &[usize]) -> Vec<u8> {
    let mut line = Vec::new();
    for (&value, &width) in values.iter().zip(widths) {
        line.extend(spell(value, width).expect("the value fits its field"));
    }
    line.push(LF);
    line
}

#[cfg(test)]
mod tests {
    use super::*;

    #[test]
    fn spellings() {
        assert_eq!(spell(0, 3).unwrap(), b"  0");
        assert_eq!(spell(123, 3).unwrap(), b"123");
        assert_eq!(spell(1234, 3), None);
        assert_eq!(spell(0, 0), None);
        assert_eq!(spell(u32::MAX, 11).unwrap(), b" 4294967295");
    }

    #[test]
    fn fields_that_are_malformed() {
        for field in [
            "",
            " ",
            "   ",
            " 00",
            "000",
            " 01",
            "01",
            " -1",
            " +1",
            "+1",
            "1  ",
            " 1 ",
            "\t 1",
            "  1\r",
            "\t1",
            " 4294967296",
            "99999999999",
        ] {
            assert_eq!(read_field(field.as_bytes()), None, "{field:?}");
        }
        assert_eq!(read_field(&[0xd9, 0xa1]), None);
        assert_eq!(read_field(b" 4294967295"), Some(u32::MAX));
        assert_eq!(read_field(b"          0"), Some(0));
    }
}
