//! Pieces of a text that know where they stand.

use std::fmt::Display;

use super::echo::quoted;
use super::Wrong;

/// A piece of one line.
#[derive(Clone, Copy, Debug)]
pub(super) struct Token<'t> {
    /// The line's number, from 1.
    line: usize,
    /// All of the line, of which columns are counted only when they are said.
    whole: &'t str,
    /// The byte of the line that the piece starts at.
    from: usize,
    pub(super) text: &'t str,
}

impl<'t> Token<'t> {
    /// A whole line, by its number.
    pub(super) fn line(number: usize, text: &'t str) -> Token<'t> {
        Token {
            line: number,
            whole: text,
            from: 0,
            text,
        }
    }

    /// A text that has one line.
    pub(super) fn whole(text: &'t str) -> Token<'t> {
        Token::line(1, text)
    }

    pub(super) fn wrong(&self, message: impl Into<String>) -> Wrong {
        let before = self.whole.get(..self.from).unwrap_or(self.whole);
        Wrong {
            line: self.line,
            column: 1 + before.chars().count(),
            message: message.into(),
        }
    }

    /// The piece from this byte to that one.
    fn piece(&self, from: usize, to: usize) -> Token<'t> {
        Token {
            from: self.from + from,
            text: &self.text[from..to],
            ..*self
        }
    }

    /// What stands behind it: nothing.
    pub(super) fn end(&self) -> Token<'t> {
        let trimmed = self.text.trim_end().len();
        self.piece(trimmed, trimmed)
    }

    /// What stands before the first of these characters; all of it if there is
    /// none.
    pub(super) fn before(&self, at: char) -> Token<'t> {
        self.piece(0, self.text.find(at).unwrap_or(self.text.len()))
    }

    /// What stands before the first of these characters, and after it.
    pub(super) fn split_once(&self, at: char) -> Option<(Token<'t>, Token<'t>)> {
        let place = self.text.find(at)?;
        let after = self.piece(place + at.len_utf8(), self.text.len());
        Some((self.piece(0, place), after))
    }

    /// What stands between these characters.
    pub(super) fn split(self, at: char) -> impl Iterator<Item = Token<'t>> {
        let mut rest = Some(self);
        std::iter::from_fn(move || {
            let here = rest?;
            let (first, others) = match here.split_once(at) {
                Some((first, others)) => (first, Some(others)),
                None => (here, None),
            };
            rest = others;
            Some(first)
        })
    }

    /// The words between white space.
    pub(super) fn words(self) -> impl Iterator<Item = Token<'t>> {
        self.text.split_whitespace().map(move |word| {
            let from = word.as_ptr() as usize - self.text.as_ptr() as usize;
            self.piece(from, from + word.len())
        })
    }

    /// A decimal number, or a hexadecimal one after 0x, up to `most`.
    pub(super) fn number<T>(&self, what: &str, most: T) -> Result<T, Wrong>
    where
        T: TryFrom<u64> + Ord + Display,
    {
        let (digits, radix) = match self.text.strip_prefix("0x") {
            Some(digits) => (digits, 16),
            None => (self.text, 10),
        };
        let all_digits = digits.chars().all(|digit| digit.is_digit(radix));
        if digits.is_empty() || !all_digits {
            return Err(self.wrong(format!("{} is no {what}", quoted(self.text))));
        }
        let number = u64::from_str_radix(digits, radix).ok();
        let number = number.and_then(|number| T::try_from(number).ok());
        number.filter(|number| *number <= most).ok_or_else(|| {
            let said = quoted(self.text);
            self.wrong(format!("{said} is too large for {what}: at most {most}"))
        })
    }
}
