//! JSON, as much as the answers need: objects on one line, made key by key.
use std::fmt::Display;

pub struct Object(String);

impl Object {
    pub fn new() -> Object {
        Object("{".to_string())
    }

    /// A value that is JSON already.
    pub fn raw(mut self, key: &str, value: &str) -> Object {
        if self.0.len() > 1 {
            self.0.push(',');
        }
        self.0.push_str(&string(key));
        self.0.push(':');
        self.0.push_str(value);
        self
    }

    pub fn text(self, key: &str, value: &str) -> Object {
        self.raw(key, &string(value))
    }

    pub fn number(self, key: &str, value: impl Display) -> Object {
        self.raw(key, &value.to_string())
    }

    pub fn flag(self, key: &str, value: bool) -> Object {
        self.raw(key, if value { "true" } else { "false" })
    }

    /// The text, or null.
    pub fn optional(self, key: &str, value: Option<&str>) -> Object {
        self.raw(key, &value.map_or("null".to_string(), string))
    }

    pub fn end(mut self) -> String {
        self.0.push('}');
        self.0
    }
}

pub fn string(text: &str) -> String {
    let mut quoted = "\"".to_string();
    for letter in text.chars() {
        match letter {
            '"' => quoted.push_str("\\\""),
            '\\' => quoted.push_str("\\\\"),
            '\n' => quoted.push_str("\\n"),
            // A line of the answer is one object, whatever a reader takes for the end of a line.
            '\0'..='\x1f' | '\x7f'..='\u{9f}' | '\u{2028}' | '\u{2029}' => quoted.push_str(&format!("\\u{:04x}", letter as u32)),
            _ => quoted.push(letter),
        }
    }
    quoted.push('"');
    quoted
}

pub fn array(items: impl Iterator<Item = String>) -> String {
    format!("[{}]", items.collect::<Vec<String>>().join(","))
}

pub fn numbers<T: Display>(items: impl Iterator<Item = T>) -> String {
    array(items.map(|item| item.to_string()))
}
