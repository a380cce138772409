//! As much of JSON as a file of cases needs: whole numbers, words without escapes, lists, and objects
//! that keep the order of their fields. Written as Python's `json.dumps` writes it.

use crate::fail;
use std::fmt;

#[derive(Clone)]
pub enum Json {
    Number(u64),
    Word(String),
    List(Vec<Json>),
    Object(Vec<(String, Json)>),
}

impl Json {
    pub fn read(text: &str) -> Json {
        let mut reader = Reader { text: text.as_bytes(), at: 0 };
        let value = reader.value();
        if reader.next() != None {
            reader.stop();
        }
        value
    }

    pub fn get(&self, field: &str) -> &Json {
        let Json::Object(fields) = self else { fail("an object was expected") };
        match fields.iter().find(|(name, _)| name == field) {
            Some((_, value)) => value,
            None => fail(&format!("a case lacks the field {field}")),
        }
    }

    pub fn set(&mut self, field: &str, value: Json) {
        let Json::Object(fields) = self else { fail("an object was expected") };
        match fields.iter_mut().find(|(name, _)| name == field) {
            Some((_, old)) => *old = value,
            None => fields.push((field.to_string(), value)),
        }
    }

    pub fn number(&self) -> u64 {
        let Json::Number(number) = self else { fail("a number was expected") };
        *number
    }

    pub fn word(&self) -> &str {
        let Json::Word(word) = self else { fail("a word was expected") };
        word
    }

    pub fn list(&self) -> &[Json] {
        let Json::List(list) = self else { fail("a list was expected") };
        list
    }

    pub fn numbers(&self) -> Vec<u64> {
        self.list().iter().map(Json::number).collect()
    }

    /// A number that counts or names something.
    pub fn id(&self) -> usize {
        self.number() as usize
    }

    pub fn ids(&self) -> Vec<usize> {
        self.list().iter().map(Json::id).collect()
    }

    pub fn of(numbers: &[u64]) -> Json {
        Json::List(numbers.iter().map(|&number| Json::Number(number)).collect())
    }
}

struct Reader<'a> {
    text: &'a [u8],
    at: usize,
}

impl Reader<'_> {
    fn stop(&self) -> ! {
        fail(&format!("this is not a case (byte {} of its line)", self.at))
    }

    /// The next byte that is not a space.
    fn next(&mut self) -> Option<u8> {
        while self.text.get(self.at) == Some(&b' ') {
            self.at += 1;
        }
        self.text.get(self.at).copied()
    }

    fn pass(&mut self, byte: u8) -> bool {
        let there = self.next() == Some(byte);
        self.at += there as usize;
        there
    }

    fn need(&mut self, byte: u8) {
        if !self.pass(byte) {
            self.stop();
        }
    }

    fn value(&mut self) -> Json {
        match self.next() {
            Some(b'{') => Json::Object(self.items(b'{', b'}', |reader| {
                let name = reader.word();
                reader.need(b':');
                (name, reader.value())
            })),
            Some(b'[') => Json::List(self.items(b'[', b']', Reader::value)),
            Some(b'"') => Json::Word(self.word()),
            _ => Json::Number(self.number()),
        }
    }

    fn items<T>(&mut self, open: u8, close: u8, item: fn(&mut Self) -> T) -> Vec<T> {
        let mut items = Vec::new();
        self.need(open);
        if self.pass(close) {
            return items;
        }
        loop {
            items.push(item(self));
            if self.pass(close) {
                return items;
            }
            self.need(b',');
        }
    }

    /// The bytes from here on, as long as they are wanted.
    fn span(&mut self, wanted: fn(u8) -> bool) -> &str {
        let from = self.at;
        while self.text.get(self.at).is_some_and(|&byte| wanted(byte)) {
            self.at += 1;
        }
        std::str::from_utf8(&self.text[from..self.at]).unwrap_or("")
    }

    fn word(&mut self) -> String {
        self.need(b'"');
        let word = self.span(|byte| byte != b'"' && byte != b'\\').to_string();
        self.need(b'"');
        word
    }

    fn number(&mut self) -> u64 {
        match self.span(|byte| byte.is_ascii_digit()).parse() {
            Ok(number) => number,
            Err(_) => self.stop(),
        }
    }
}

impl fmt::Display for Json {
    fn fmt(&self, out: &mut fmt::Formatter) -> fmt::Result {
        match self {
            Json::Number(number) => write!(out, "{number}"),
            Json::Word(word) => write!(out, "\"{word}\""),
            Json::List(list) => {
                out.write_str("[")?;
                for (i, value) in list.iter().enumerate() {
                    write!(out, "{}{value}", if i == 0 { "" } else { ", " })?;
                }
                out.write_str("]")
            }
            Json::Object(fields) => {
                out.write_str("{")?;
                for (i, (name, value)) in fields.iter().enumerate() {
                    write!(out, "{}\"{name}\": {value}", if i == 0 { "" } else { ", " })?;
                }
                out.write_str("}")
            }
        }
    }
}
