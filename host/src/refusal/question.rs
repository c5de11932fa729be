//! The questions that can get a no, each with its number and what the place is
//! that goes with it.

use std::num::NonZeroU8;

/// What the place of a no is.
#[derive(Clone, Copy, Debug, PartialEq, Eq, Hash)]
#[non_exhaustive]
pub enum Place {
    /// Nothing: it is 0.
    Nothing,
    /// A word of the file, from 0: the first one of a record.
    Word,
    /// A line of a text, from 1.
    Line,
    /// A record of a list of packets, from 0.
    Record,
    /// An entry's number.
    Entry,
}

/// A line for each question: its number, its name, its place.
macro_rules! questions {
    ($($(#[$says:meta])* $number:literal $name:ident $place:ident;)*) => {
        /// A question, by the number that document 01 or document 02 gives it.
        /// The calls of today ask 1 to 13.
        #[derive(Clone, Copy, Debug, PartialEq, Eq, Hash)]
        #[non_exhaustive]
        pub enum Question {
            $($(#[$says])* $name,)*
            /// None of theirs: the library linked isn't one that this host
            /// knows, and nothing that it says is taken for an answer.
            Unknown(NonZeroU8),
        }

        impl Question {
            /// The question of this number.
            pub fn numbered(number: NonZeroU8) -> Question {
                match number.get() {
                    $($number => Question::$name,)*
                    _ => Question::Unknown(number),
                }
            }

            /// Its number, never 0.
            pub fn number(self) -> u8 {
                match self {
                    $(Question::$name => $number,)*
                    Question::Unknown(number) => number.get(),
                }
            }

            /// What the place of its no is.
            pub fn place(self) -> Place {
                match self {
                    $(Question::$name => Place::$place,)*
                    Question::Unknown(_) => Place::Nothing,
                }
            }
        }
    };
}

questions! {
    /// 1: the file's length.
    1 Length Nothing;
    /// 2: its first word.
    2 Start Nothing;
    /// 3: a record's kind, order, length and zero bits.
    3 Record Word;
    /// 4: its ports.
    4 Ports Word;
    /// 5: its values, zero outside care or mask.
    5 Values Word;
    /// 6: a link's ends.
    6 Links Word;
    /// 7: how many records there are.
    7 Limits Word;
    /// 8: the target.
    8 Target Nothing;
    /// 9: the hop limit.
    9 Hops Nothing;
    /// 10: the asked set.
    10 Asked Nothing;
    /// 11: a run's start.
    11 From Nothing;
    /// 12: the area lent.
    12 Area Nothing;
    /// 13: the budget.
    13 Budget Nothing;
    /// 14: the program's query.
    14 Call Nothing;
    /// 15: whether the start is in the target's group.
    15 OwnGroup Nothing;
    /// 16: a line of a switch's dump.
    16 DumpLine Line;
    /// 17: how many entries a switch's dump has.
    17 DumpLimits Line;
    /// 18: the file that a switch's dump makes.
    18 DumpFile Nothing;
    /// 19: the number of an entry to remove.
    19 EntryNumber Nothing;
    /// 20: the edit number, which can't rise for ever.
    20 EditNumber Nothing;
    /// 21: the shares of a budget.
    21 Shares Nothing;
    /// 22: whether an entering packet's run is decided.
    22 Entering Record;
    /// 23: an entering packet's port.
    23 EnteringPort Record;
    /// 24: whether the highest priority is free.
    24 TopPriority Entry;
    /// 25: how many entries close a leak.
    25 ClosingLimits Nothing;
}
