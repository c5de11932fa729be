//! The lines of a text, none of them longer than anybody writes.

use super::token::Token;
use super::Wrong;

/// The most lines of a text; a file counts fewer records.
pub const MOST_LINES: usize = 65_536;
/// The most bytes of a line.
pub const MOST_LINE_BYTES: usize = 4096;
/// The most bytes of a word; the longest set that anybody needs has 287.
pub const MOST_WORD_BYTES: usize = 512;

/// What some editors put before a text.
const BYTE_ORDER_MARK: char = '\u{feff}';

/// The lines without their remarks, up to the first that is too long.
pub(super) fn lines(text: &str) -> impl Iterator<Item = Result<Token<'_>, Wrong>> {
    text.lines().zip(1..).map(|(line, number)| {
        let line = Token::line(number, line);
        if number > MOST_LINES {
            return Err(line.wrong(format!("the text has more than {MOST_LINES} lines")));
        }
        within(&line, "a line", MOST_LINE_BYTES)?;
        if line.text.starts_with(BYTE_ORDER_MARK) {
            return Err(line.wrong("a byte order mark (BOM) stands before the line"));
        }
        let said = line.before('#');
        said.words()
            .try_for_each(|word| within(&word, "a word", MOST_WORD_BYTES))?;
        Ok(said)
    })
}

fn within(token: &Token, what: &str, most: usize) -> Result<(), Wrong> {
    match token.text.len() {
        bytes if bytes > most => {
            Err(token.wrong(format!("{what} of {bytes} bytes: it has at most {most}")))
        }
        _ => Ok(()),
    }
}
