//! Pieces of a line, which know where they stand in it.

use std::ops::Range;

/// A part of a line and the byte of that line at which it begins.
#[derive(Clone, Copy)]
pub struct Piece<'a> {
    pub text: &'a str,
    pub at: usize,
}

impl<'a> Piece<'a> {
    /// A line without its comment.
    pub fn of_line(line: &'a str) -> Piece<'a> {
        Piece { text: line.split('#').next().unwrap_or(""), at: 0 }
    }

    pub fn bytes(&self) -> Range<usize> {
        self.at..self.at + self.text.len()
    }

    pub fn part(&self, bytes: Range<usize>) -> Piece<'a> {
        Piece { text: &self.text[bytes.clone()], at: self.at + bytes.start }
    }

    pub fn words(self) -> impl Iterator<Item = Piece<'a>> {
        let begin = self.text.as_ptr() as usize;
        self.text.split_whitespace().map(move |word| Piece { text: word, at: self.at + (word.as_ptr() as usize - begin) })
    }

    /// What stands before and behind the first of these marks.
    pub fn split(&self, mark: &str) -> Option<(Piece<'a>, Piece<'a>)> {
        let at = self.text.find(mark)?;
        Some((self.part(0..at), self.part(at + mark.len()..self.text.len())))
    }

    pub fn behind(&self, word: &Piece) -> Piece<'a> {
        self.part(word.bytes().end - self.at..self.text.len())
    }

    pub fn trimmed(&self) -> Piece<'a> {
        let front = self.text.len() - self.text.trim_start().len();
        self.part(front..front + self.text.trim().len())
    }
}
