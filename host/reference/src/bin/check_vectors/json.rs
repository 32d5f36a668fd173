//! JSON, as far as the cases use it.

use std::collections::BTreeMap;

/// A value.
#[derive(Clone, Debug, PartialEq)]
pub enum Json {
    Null,
    Bool(bool),
    Number(i128),
    Text(String),
    List(Vec<Json>),
    Object(BTreeMap<String, Json>),
}

struct Parser<'a> {
    text: &'a [u8],
    at: usize,
}

impl Parser<'_> {
    fn blank(&mut self) {
        while self.at < self.text.len() && self.text[self.at].is_ascii_whitespace() {
            self.at += 1;
        }
    }

    fn expect(&mut self, byte: u8) {
        assert_eq!(self.text[self.at], byte, "at {}", self.at);
        self.at += 1;
    }

    fn word(&mut self, word: &str, value: Json) -> Json {
        assert!(self.text[self.at..].starts_with(word.as_bytes()));
        self.at += word.len();
        value
    }

    fn value(&mut self) -> Json {
        self.blank();
        match self.text[self.at] {
            b'n' => self.word("null", Json::Null),
            b't' => self.word("true", Json::Bool(true)),
            b'f' => self.word("false", Json::Bool(false)),
            b'"' => Json::Text(self.string()),
            b'[' => self.list(),
            b'{' => self.object(),
            _ => self.number(),
        }
    }

    fn list(&mut self) -> Json {
        self.expect(b'[');
        let mut all = Vec::new();
        loop {
            self.blank();
            if self.text[self.at] == b']' {
                self.at += 1;
                return Json::List(all);
            }
            if !all.is_empty() {
                self.expect(b',');
            }
            all.push(self.value());
        }
    }

    fn object(&mut self) -> Json {
        self.expect(b'{');
        let mut all = BTreeMap::new();
        loop {
            self.blank();
            if self.text[self.at] == b'}' {
                self.at += 1;
                return Json::Object(all);
            }
            if !all.is_empty() {
                self.expect(b',');
                self.blank();
            }
            let key = self.string();
            self.blank();
            self.expect(b':');
            let value = self.value();
            all.insert(key, value);
        }
    }

    fn number(&mut self) -> Json {
        let start = self.at;
        while self.at < self.text.len()
            && (self.text[self.at] == b'-' || self.text[self.at].is_ascii_digit())
        {
            self.at += 1;
        }
        let text = std::str::from_utf8(&self.text[start..self.at]).expect("text");
        Json::Number(text.parse().expect("a number"))
    }

    fn string(&mut self) -> String {
        self.expect(b'"');
        let mut all = Vec::new();
        loop {
            let byte = self.text[self.at];
            self.at += 1;
            match byte {
                b'"' => return String::from_utf8(all).expect("text"),
                b'\\' => {
                    let escaped = self.text[self.at];
                    self.at += 1;
                    all.push(match escaped {
                        b'n' => b'\n',
                        b'"' | b'\\' | b'/' => escaped,
                        other => panic!("escape {other}"),
                    });
                }
                other => all.push(other),
            }
        }
    }
}

impl Json {
    /// The value that a text starts with.
    pub fn parse(text: &str) -> Json {
        let text = text.as_bytes();
        Parser { text, at: 0 }.value()
    }

    pub fn get(&self, key: &str) -> &Json {
        match self {
            Json::Object(all) => all.get(key).unwrap_or(&Json::Null),
            _ => &Json::Null,
        }
    }

    pub fn text(&self) -> &str {
        match self {
            Json::Text(text) => text,
            other => panic!("no text: {other:?}"),
        }
    }

    pub fn number(&self) -> u64 {
        match self {
            Json::Number(number) => *number as u64,
            other => panic!("no number: {other:?}"),
        }
    }

    pub fn list(&self) -> &[Json] {
        match self {
            Json::List(all) => all,
            other => panic!("no list: {other:?}"),
        }
    }

    pub fn numbers(&self) -> Vec<u64> {
        self.list().iter().map(Json::number).collect()
    }

    pub fn bytes(&self) -> Vec<u8> {
        let text = self.text().as_bytes();
        let digit = |byte: u8| (byte as char).to_digit(16).expect("hex") as u8;
        text.chunks(2)
            .map(|pair| digit(pair[0]) * 16 + digit(pair[1]))
            .collect()
    }
}

pub fn num(value: u64) -> Json {
    Json::Number(i128::from(value))
}

pub fn hex(bytes: &[u8]) -> Json {
    Json::Text(bytes.iter().map(|byte| format!("{byte:02x}")).collect())
}

pub fn keyed(all: Vec<(&str, Json)>) -> Json {
    Json::Object(
        all.into_iter()
            .map(|(key, value)| (key.to_string(), value))
            .collect(),
    )
}
