//! The kinds of a figure, and their words.

use core::fmt;

use crate::Figure;

/// The kind of a figure. It is displayed by the word that document 01 has for it.
///
/// ```
/// use callplan::{Figure, Kind};
///
/// assert_eq!(Figure::Endless { j: 2 }.kind(), Kind::Endless);
/// assert_eq!(Kind::Endless.to_string(), "ENDLESS");
/// assert_eq!(Kind::Number.to_string(), "number");
/// ```
#[derive(Clone, Copy, Debug, PartialEq, Eq, Hash)]
#[allow(missing_docs)]
pub enum Kind {
    Number,
    None,
    Stranded,
    Endless,
}

impl Kind {
    /// What it is called: `number`, `NONE`, `STRANDED` or `ENDLESS`.
    #[must_use]
    pub fn text(self) -> &'static str {
        match self {
            Kind::Number => "number",
            Kind::None => "NONE",
            Kind::Stranded => "STRANDED",
            Kind::Endless => "ENDLESS",
        }
    }
}

impl fmt::Display for Kind {
    fn fmt(&self, f: &mut fmt::Formatter) -> fmt::Result {
        f.pad(self.text())
    }
}

impl Figure {
    /// Its kind.
    #[must_use]
    pub fn kind(self) -> Kind {
        match self {
            Figure::Number(_) => Kind::Number,
            Figure::None => Kind::None,
            Figure::Stranded => Kind::Stranded,
            Figure::Endless { .. } => Kind::Endless,
        }
    }
}

/// As the lines of `quote` have it: the number, or the word for the kind.
///
/// ```
/// use callplan::Figure;
///
/// assert_eq!(Figure::Number(60).to_string(), "60");
/// assert_eq!(Figure::Stranded.to_string(), "STRANDED");
/// ```
impl fmt::Display for Figure {
    fn fmt(&self, f: &mut fmt::Formatter) -> fmt::Result {
        match self {
            Figure::Number(value) => value.fmt(f),
            _ => self.kind().fmt(f),
        }
    }
}
