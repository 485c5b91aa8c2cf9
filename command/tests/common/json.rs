//! JSON for the tests: reading it, and asking whether a value has the form that a schema says. Only the keywords that docs/plan.schema.json
//! uses are known; any other ends the test, so that none is passed over.

use std::collections::BTreeMap;

#[derive(Clone, Debug, PartialEq)]
pub enum Json {
    Truth(bool),
    Number(i64),
    Text(String),
    List(Vec<Json>),
    Object(BTreeMap<String, Json>),
}

impl Json {
    pub fn read(text: &str) -> Json {
        let mut reader = Reader { left: text.chars().collect(), at: 0 };
        let value = reader.value();
        reader.blanks();
        assert_eq!(reader.at, reader.left.len(), "something stands behind the value: {text}");
        value
    }

    pub fn get(&self, key: &str) -> Option<&Json> {
        match self {
            Json::Object(keys) => keys.get(key),
            _ => None,
        }
    }

    pub fn at(&self, key: &str) -> &Json {
        self.get(key).unwrap_or_else(|| panic!("no key {key} in {self:?}"))
    }

    pub fn number(&self) -> i64 {
        match self {
            Json::Number(number) => *number,
            other => panic!("no number: {other:?}"),
        }
    }

    pub fn text(&self) -> &str {
        match self {
            Json::Text(text) => text,
            other => panic!("no text: {other:?}"),
        }
    }

    pub fn list(&self) -> &[Json] {
        match self {
            Json::List(rows) => rows,
            other => panic!("no list: {other:?}"),
        }
    }
}

struct Reader {
    left: Vec<char>,
    at: usize,
}

impl Reader {
    fn peek(&self) -> char {
        self.left.get(self.at).copied().unwrap_or('\0')
    }

    fn take(&mut self, wanted: char) {
        assert_eq!(self.peek(), wanted, "at character {}", self.at);
        self.at += 1;
    }

    fn blanks(&mut self) {
        while " \n\r\t".contains(self.peek()) {
            self.at += 1;
        }
    }

    fn value(&mut self) -> Json {
        self.blanks();
        match self.peek() {
            '{' => Json::Object(self.rows('}', Reader::key).into_iter().collect()),
            '[' => Json::List(self.rows(']', Reader::value)),
            '"' => Json::Text(self.string()),
            't' => self.word("true", Json::Truth(true)),
            'f' => self.word("false", Json::Truth(false)),
            _ => self.digits(),
        }
    }

    fn rows<T>(&mut self, close: char, one: fn(&mut Reader) -> T) -> Vec<T> {
        let mut rows = Vec::new();
        self.at += 1;
        self.blanks();
        while self.peek() != close {
            if !rows.is_empty() {
                self.take(',');
            }
            rows.push(one(self));
            self.blanks();
        }
        self.take(close);
        rows
    }

    fn key(&mut self) -> (String, Json) {
        self.blanks();
        let key = self.string();
        self.blanks();
        self.take(':');
        (key, self.value())
    }

    fn word(&mut self, word: &str, value: Json) -> Json {
        word.chars().for_each(|one| self.take(one));
        value
    }

    fn digits(&mut self) -> Json {
        let from = self.at;
        while self.peek() == '-' || self.peek().is_ascii_digit() {
            self.at += 1;
        }
        let digits: String = self.left[from..self.at].iter().collect();
        Json::Number(digits.parse().unwrap_or_else(|_| panic!("no value at character {from}")))
    }

    fn string(&mut self) -> String {
        self.take('"');
        let mut text = String::new();
        while self.peek() != '"' {
            let one = self.peek();
            assert!(one >= ' ', "a control character in a string");
            self.at += 1;
            text.push(if one == '\\' { self.escape() } else { one });
        }
        self.take('"');
        text
    }

    fn escape(&mut self) -> char {
        let one = self.peek();
        self.at += 1;
        match one {
            'n' => '\n',
            'u' => {
                let digits: String = self.left[self.at..self.at + 4].iter().collect();
                self.at += 4;
                char::from_u32(u32::from_str_radix(&digits, 16).expect("four digits")).expect("a character")
            }
            '"' | '\\' => one,
            other => panic!("an escape {other}"),
        }
    }
}

/// A schema as others read it; or a strict one, to which an object with a key that it does not name does not fit either.
pub struct Schema {
    pub form: Json,
    pub strict: bool,
}

impl Schema {
    /// What does not fit, if anything.
    pub fn fits(&self, value: &Json) -> Result<(), String> {
        self.by(&self.form, value)
    }

    fn by(&self, schema: &Json, value: &Json) -> Result<(), String> {
        let Json::Object(keywords) = schema else { panic!("no schema: {schema:?}") };
        keywords.iter().try_for_each(|(keyword, asked)| {
            let fits = self.keyword(keyword, asked, value)?;
            if fits {
                Ok(())
            } else {
                Err(format!("{keyword} {asked:?} is not so of {value:?}"))
            }
        })
    }

    fn keyword(&self, keyword: &str, asked: &Json, value: &Json) -> Result<bool, String> {
        Ok(match (keyword, value) {
            ("$schema" | "title" | "description" | "$defs", _) => true,
            ("$ref", _) => self.by(self.referred(asked.text()), value).map(|()| true)?,
            ("oneOf", _) => asked.list().iter().filter(|one| self.by(one, value).is_ok()).count() == 1,
            ("const", _) => value == asked,
            ("enum", _) => asked.list().contains(value),
            ("type", _) => asked.text() == kind(value),
            ("minimum", Json::Number(number)) => *number >= asked.number(),
            ("maximum", Json::Number(number)) => *number <= asked.number(),
            ("pattern", Json::Text(text)) => {
                assert_eq!(asked.text(), "^[a-z]+$", "the one pattern that is known");
                !text.is_empty() && text.chars().all(|one| one.is_ascii_lowercase())
            }
            ("minLength", Json::Text(text)) => text.chars().count() as i64 >= asked.number(),
            ("minItems", Json::List(rows)) => rows.len() as i64 >= asked.number(),
            ("maxItems", Json::List(rows)) => rows.len() as i64 <= asked.number(),
            ("items", Json::List(rows)) => rows.iter().try_for_each(|row| self.by(asked, row)).map(|()| true)?,
            ("required", Json::Object(keys)) => asked.list().iter().all(|key| keys.contains_key(key.text())),
            ("properties", Json::Object(keys)) => {
                let known = keys.iter().filter_map(|(key, value)| Some((asked.get(key)?, value)));
                known.clone().try_for_each(|(asked, value)| self.by(asked, value))?;
                !self.strict || known.count() == keys.len()
            }
            // These ask nothing of a value of another type, which `type` is there for.
            ("minimum" | "maximum" | "pattern" | "minLength" | "minItems" | "maxItems" | "items", _) => true,
            ("required" | "properties", _) => true,
            _ => panic!("no such keyword is known: {keyword}"),
        })
    }

    fn referred(&self, name: &str) -> &Json {
        name.trim_start_matches("#/").split('/').fold(&self.form, |at, key| at.at(key))
    }
}

fn kind(value: &Json) -> &'static str {
    match value {
        Json::Truth(_) => "boolean",
        Json::Number(_) => "integer",
        Json::Text(_) => "string",
        Json::List(_) => "array",
        Json::Object(_) => "object",
    }
}
