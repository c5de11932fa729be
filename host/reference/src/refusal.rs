//! A no: document 01, "Questions asked in turn".

/// Which question got a no, and where.
#[derive(Clone, Copy, Debug, PartialEq, Eq, Hash)]
pub struct Refusal {
    pub number: u8,
    pub place: usize,
}

impl Refusal {
    pub fn new(number: u8, place: usize) -> Refusal {
        Refusal { number, place }
    }

    /// "Each returns place × 256 + number in 64 bits."
    pub fn code(&self) -> u64 {
        self.place as u64 * 256 + u64::from(self.number)
    }
}

/// Asks one question: a no is the refusal with its number and place.
pub(crate) fn ask(number: u8, place: usize, yes: bool) -> Result<(), Refusal> {
    if yes {
        Ok(())
    } else {
        Err(Refusal::new(number, place))
    }
}
