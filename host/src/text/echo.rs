//! What stands in a text, said again: nothing in it can pass for something
//! else, move a cursor or fill a screen.

use std::fmt;

/// So many characters are said of one piece.
const MOST_SAID: usize = 60;

/// This piece between quotation marks.
pub(super) fn quoted(text: &str) -> Quoted<'_> {
    Quoted(text)
}

pub(super) struct Quoted<'t>(&'t str);

impl fmt::Display for Quoted<'_> {
    fn fmt(&self, f: &mut fmt::Formatter) -> fmt::Result {
        let mut characters = self.0.chars();
        f.write_str("'")?;
        for character in characters.by_ref().take(MOST_SAID) {
            match character {
                '\'' | '"' => write!(f, "{character}")?,
                other => write!(f, "{}", other.escape_debug())?,
            }
        }
        let cut = if characters.next().is_some() {
            "…"
        } else {
            ""
        };
        write!(f, "{cut}'")
    }
}
