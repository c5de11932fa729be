//! The program: from the bytes on standard input to the text that it prints.

use std::fmt::Write;

use crate::bits::{Bits, Words};
use crate::calls::{list, read_answer, run, verdict, Query};
use crate::file::{set_of, to_le_bytes, to_le_words};
use crate::refusal::Refusal;

/// "Bit 31 of the query's first word marks version 2."
const VERSION_2: u32 = 1 << 31;
/// "It lends 65,536 bytes."
pub const LENT_BYTES: usize = 65_536;

pub const VERDICT: u32 = 1;
pub const LIST: u32 = 2;
pub const RUN: u32 = 3;

/// "12 little-endian words, then the fabric": 48 bytes, or 80 in version 2.
const fn query_bytes<W: Words>() -> usize {
    4 * (4 + 2 * W::Bits::WORDS)
}

/// What the program prints, each line ended by a newline: "`ok N` and N words,
/// eight lower-case hex digits a line, or `no NUMBER at PLACE`".
pub fn print(input: &[u8]) -> String {
    let mut area = vec![0; LENT_BYTES];
    let code = answer(input, &mut area);
    let words = match read_answer(code, &area) {
        Ok(words) => words,
        Err((number, place)) => return format!("no {number} at {place}\n"),
    };
    let mut text = format!("ok {}\n", words.len());
    for word in words {
        let _ = writeln!(text, "{word:08x}");
    }
    text
}

/// The input that asks this call of this fabric file.
pub fn input<W: Words>(call: u32, query: &Query<W>, file: &[u8]) -> Vec<u8> {
    let mark = match W::Bits::VERSION {
        1 => 0,
        _ => VERSION_2,
    };
    let mut words = vec![call | mark, query.port, query.limit, query.budget];
    words.extend(query.care.as_ref());
    words.extend(query.value.as_ref());
    let mut bytes = to_le_bytes(&words);
    bytes.extend(file);
    bytes
}

/// "If the first 48 bytes aren't all there or the call is unknown: 14, place
/// 0, asked before all." In version 2, the first 80.
fn answer(input: &[u8], area: &mut [u8]) -> u64 {
    let answered = match to_le_words(&input[..input.len().min(4)])[..] {
        [first] if first & VERSION_2 == 0 => answer_in::<[u32; 4]>(first, input, area),
        [first] => answer_in::<[u32; 8]>(first & !VERSION_2, input, area),
        _ => None,
    };
    answered.unwrap_or(Refusal::new(14, 0).code())
}

/// Makes this call in one version, if it is one and the whole query is there.
fn answer_in<W: Words>(call: u32, input: &[u8], area: &mut [u8]) -> Option<u64> {
    let (head, file) = input.split_at_checked(query_bytes::<W>())?;
    let words = to_le_words(head);
    let query: Query<W> = Query::wild(words[1], words[2], words[3]);
    let query = query.about(set_of(&words[4..]));
    match call {
        VERDICT => Some(verdict(file, area, &query)),
        LIST => Some(list(file, area, &query)),
        RUN => Some(run(file, area, &query)),
        _ => None,
    }
}
