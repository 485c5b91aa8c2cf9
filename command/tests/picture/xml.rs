//! A reader of the XML that a picture is written in. It takes nothing that is not well formed.

use std::collections::HashMap;

#[derive(Debug, Default)]
pub struct Element {
    pub name: String,
    pub attributes: HashMap<String, String>,
    /// The text directly inside.
    pub text: String,
    pub inner: Vec<Element>,
}

impl Element {
    pub fn get(&self, name: &str) -> &str {
        self.attributes.get(name).map_or("", String::as_str)
    }

    pub fn number(&self, name: &str) -> f64 {
        self.get(name).parse().unwrap_or_else(|_| panic!("{name} of {self:?}"))
    }

    pub fn is(&self, class: &str) -> bool {
        self.get("class").split(' ').any(|own| own == class)
    }

    /// What is shown when the pointer rests on it.
    pub fn title(&self) -> &str {
        self.inner.iter().find(|inner| inner.name == "title").map_or("", |title| title.text.as_str())
    }

    /// This and everything inside.
    pub fn all(&self) -> Vec<&Element> {
        std::iter::once(self).chain(self.inner.iter().flat_map(Element::all)).collect()
    }

    pub fn with(&self, class: &str) -> Vec<&Element> {
        self.all().into_iter().filter(|one| one.is(class)).collect()
    }
}

struct Reader<'a> {
    left: &'a str,
}

pub fn read(text: &str) -> Element {
    assert!(text.chars().all(|letter| letter == '\n' || !letter.is_control()), "a control character");
    let mut reader = Reader { left: text };
    let root = reader.element();
    assert_eq!(reader.left, "\n", "behind the root");
    root
}

impl<'a> Reader<'a> {
    fn take(&mut self, word: &str) {
        self.left = self.left.strip_prefix(word).unwrap_or_else(|| panic!("{word} is not at {:.60}", self.left));
    }

    fn until(&mut self, end: impl Fn(char) -> bool) -> &'a str {
        let at = self.left.find(end).expect("an end");
        let (taken, left) = self.left.split_at(at);
        self.left = left;
        taken
    }

    fn element(&mut self) -> Element {
        self.take("<");
        let name = self.until(|one| !one.is_ascii_alphanumeric()).to_string();
        assert!(!name.is_empty(), "no name at {:.60}", self.left);
        let mut element = Element { name, ..Element::default() };
        while self.left.starts_with(' ') {
            self.attribute(&mut element);
        }
        if self.left.starts_with("/>") {
            self.take("/>");
            return element;
        }
        self.take(">");
        self.content(&mut element);
        element
    }

    fn attribute(&mut self, element: &mut Element) {
        self.take(" ");
        let name = self.until(|one| one == '=').to_string();
        assert!(name.chars().all(|one| one.is_ascii_alphanumeric() || one == '-'), "{name}");
        self.take("='");
        let value = plain(self.until(|one| one == '\''));
        self.take("'");
        assert!(element.attributes.insert(name, value).is_none(), "an attribute twice: {element:?}");
    }

    fn content(&mut self, element: &mut Element) {
        loop {
            element.text += &plain(self.until(|one| one == '<'));
            if self.left.starts_with("</") {
                break;
            }
            element.inner.push(self.element());
        }
        self.take(&format!("</{}>", element.name));
    }
}

/// Without escapes. A bare & or > would be none.
fn plain(text: &str) -> String {
    assert!(!text.contains(['<', '>']), "{text}");
    let mut pieces = text.split('&');
    let mut plain = pieces.next().unwrap_or("").to_string();
    for piece in pieces {
        let (name, rest) = piece.split_once(';').unwrap_or_else(|| panic!("a bare & in {text}"));
        let letters = [("amp", '&'), ("lt", '<'), ("gt", '>'), ("apos", '\''), ("quot", '"')];
        plain.push(letters.iter().find(|(known, _)| *known == name).unwrap_or_else(|| panic!("&{name};")).1);
        plain += rest;
    }
    plain
}
