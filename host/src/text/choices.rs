//! What a text chooses, once and before all records: `version 2`, `openflow 1.3`.

use super::echo::quoted;
use super::sentence::Sentence;
use super::token::Token;
use super::Wrong;
use crate::openflow::OpenFlow;
use crate::version::Version;

/// How the lines begin that choose.
pub(super) const VERSION: &str = "version";
pub(super) const OPENFLOW: &str = "openflow";

/// What a text chooses, as far as it has such lines.
#[derive(Default)]
pub(super) struct Choices {
    version: Option<Version>,
    openflow: Option<OpenFlow>,
}

impl Choices {
    pub(super) fn begins(first: &Token) -> bool {
        matches!(first.text, VERSION | OPENFLOW)
    }

    /// Makes one by the line with this first word, and these further ones.
    pub(super) fn make(
        &mut self,
        first: &Token,
        words: &mut Sentence,
        is_before_records: bool,
    ) -> Result<(), Wrong> {
        let is_twice = match first.text {
            VERSION => {
                let versions = Version::ALL.map(|version| (version.name(), version));
                self.version.replace(chosen(words, versions)?).is_some()
            }
            _ => {
                let openflows = OpenFlow::ALL.map(|openflow| (openflow.name(), openflow));
                self.openflow.replace(chosen(words, openflows)?).is_some()
            }
        };
        let name = first.text;
        if is_twice {
            return Err(first.wrong(format!("{name} stands here twice")));
        }
        if !is_before_records {
            return Err(first.wrong(format!("{name} stands before every edge, link and entry")));
        }
        Ok(())
    }

    pub(super) fn version(&self) -> Version {
        self.version.unwrap_or_default()
    }

    pub(super) fn openflow(&self) -> OpenFlow {
        self.openflow.unwrap_or_default()
    }
}

/// The one of these that the line's one further word names.
fn chosen<T>(words: &mut Sentence, these: [(&'static str, T); 2]) -> Result<T, Wrong> {
    let names = format!("{} or {}", these[0].0, these[1].0);
    let named = words.want(&names)?;
    let mut these = these.into_iter();
    let (_, chosen) = these
        .find(|(name, _)| *name == named.text)
        .ok_or_else(|| named.wrong(format!("{} instead of {names}", quoted(named.text))))?;
    words.end()?;
    Ok(chosen)
}
