//! A reader of JSON for the tests: strict, whole texts only, a name once in an object.
use std::iter::Peekable;
use std::str::Chars;

#[derive(Clone, Debug, PartialEq, Eq)]
pub enum Json {
    Null,
    Bool(bool),
    /// Whole numbers alone: the program has no others.
    Number(u64),
    Text(String),
    List(Vec<Json>),
    Object(Vec<(String, Json)>),
}

impl Json {
    /// The value of a name that must be there.
    pub fn get(&self, name: &str) -> &Json {
        self.find(name).unwrap_or_else(|| panic!("no {name:?} in {self:?}"))
    }

    pub fn find(&self, name: &str) -> Option<&Json> {
        let Json::Object(fields) = self else { panic!("{self:?} is no object") };
        fields.iter().find(|(other, _)| other == name).map(|(_, value)| value)
    }

    pub fn text(&self) -> &str {
        let Json::Text(text) = self else { panic!("{self:?} is no text") };
        text
    }

    pub fn number(&self) -> u64 {
        let Json::Number(number) = self else { panic!("{self:?} is no number") };
        *number
    }

    pub fn list(&self) -> &[Json] {
        let Json::List(list) = self else { panic!("{self:?} is no list") };
        list
    }

    pub fn numbers(&self) -> Vec<u32> {
        self.list().iter().map(|number| number.number().try_into().unwrap()).collect()
    }
}

/// The value that a whole text is.
pub fn read(text: &str) -> Result<Json, String> {
    let mut reader = Reader { rest: text.chars().peekable() };
    let value = reader.value().ok_or_else(|| format!("no JSON: {text}"))?;
    reader.blanks();
    match reader.rest.next() {
        None => Ok(value),
        Some(more) => Err(format!("{more:?} behind the value: {text}")),
    }
}

/// The values of a text that has one on each line.
pub fn lines(text: &str) -> Vec<Json> {
    assert!(text.is_empty() || text.ends_with('\n'), "the last line is not whole: {text}");
    text.lines().map(|line| read(line).unwrap_or_else(|fault| panic!("{fault}"))).collect()
}

struct Reader<'a> {
    rest: Peekable<Chars<'a>>,
}

impl Reader<'_> {
    fn blanks(&mut self) {
        while self.rest.next_if(|c| " \t\r\n".contains(*c)).is_some() {}
    }

    fn sign(&mut self, due: char) -> Option<()> {
        self.blanks();
        self.rest.next_if_eq(&due).map(|_| ())
    }

    fn word(&mut self, word: &str, value: Json) -> Option<Json> {
        word.chars().all(|due| self.rest.next() == Some(due)).then_some(value)
    }

    fn value(&mut self) -> Option<Json> {
        self.blanks();
        match self.rest.peek()? {
            'n' => self.word("null", Json::Null),
            't' => self.word("true", Json::Bool(true)),
            'f' => self.word("false", Json::Bool(false)),
            '"' => self.text().map(Json::Text),
            '[' => self.list().map(Json::List),
            '{' => self.object().map(Json::Object),
            _ => self.number().map(Json::Number),
        }
    }

    fn number(&mut self) -> Option<u64> {
        let mut digits = String::new();
        while let Some(digit) = self.rest.next_if(char::is_ascii_digit) {
            digits.push(digit);
        }
        let leading_zero = digits.len() > 1 && digits.starts_with('0');
        if leading_zero {
            return None;
        }
        digits.parse().ok()
    }

    fn text(&mut self) -> Option<String> {
        let mut text = String::new();
        self.sign('"')?;
        loop {
            match self.rest.next()? {
                '"' => return Some(text),
                '\\' => text.push(self.escaped()?),
                control if control < ' ' => return None,
                other => text.push(other),
            }
        }
    }

    fn escaped(&mut self) -> Option<char> {
        Some(match self.rest.next()? {
            same @ ('"' | '\\' | '/') => same,
            'b' => '\u{8}',
            'f' => '\u{c}',
            'n' => '\n',
            'r' => '\r',
            't' => '\t',
            'u' => {
                let hex: Option<String> = (0..4).map(|_| self.rest.next_if(char::is_ascii_hexdigit)).collect();
                char::from_u32(u32::from_str_radix(&hex?, 16).ok()?)?
            }
            _ => return None,
        })
    }

    /// What stands between a bracket, which comes next, and its closing one, with commas between.
    fn items<T>(&mut self, open: char, close: char, item: impl Fn(&mut Self) -> Option<T>) -> Option<Vec<T>> {
        let mut items = Vec::new();
        self.sign(open)?;
        if self.sign(close).is_some() {
            return Some(items);
        }
        loop {
            items.push(item(self)?);
            if self.sign(close).is_some() {
                return Some(items);
            }
            self.sign(',')?;
        }
    }

    fn list(&mut self) -> Option<Vec<Json>> {
        self.items('[', ']', Self::value)
    }

    fn object(&mut self) -> Option<Vec<(String, Json)>> {
        let fields = self.items('{', '}', |reader| {
            reader.blanks();
            let name = reader.text()?;
            reader.sign(':')?;
            Some((name, reader.value()?))
        })?;
        let once = |name: &String| fields.iter().filter(|(other, _)| other == name).count() == 1;
        fields.iter().all(|(name, _)| once(name)).then_some(fields)
    }
}

#[cfg(test)]
mod tests {
    use super::*;

    #[test]
    fn what_is_json() {
        let value = read(r#" {"a": [0, 4294967295, null], "b\n\"\u00e9": {}, "c": [], "d": false} "#).unwrap();
        assert_eq!(value.get("a").list(), [Json::Number(0), Json::Number(4_294_967_295), Json::Null]);
        assert_eq!(value.get("b\n\"é"), &Json::Object(Vec::new()));
        assert_eq!((value.get("c").numbers(), value.get("d"), value.find("e")), (Vec::new(), &Json::Bool(false), None));
    }

    #[test]
    fn what_is_not() {
        let wrong = [
            "",
            "{",
            "[1,]",
            "{\"a\":1,\"a\":1}",
            "01",
            "-1",
            "1 2",
            "\"\n\"",
            "\"\\x\"",
            "\"\\ud800\"",
            "nul",
            "{a:1}",
            "[1 2]",
        ];
        for text in wrong {
            assert!(read(text).is_err(), "{text}");
        }
    }
}
