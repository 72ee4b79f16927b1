//! The version of the archive, as it says itself.

use core::fmt;

use crate::archive;

/// The version of this crate, as text.
pub const VERSION: &str = env!("CARGO_PKG_VERSION");

/// A version of the archive. It is displayed as [`VERSION`] is.
#[derive(Clone, Copy, Debug, PartialEq, Eq, PartialOrd, Ord, Hash)]
pub struct Version(u32);

impl Version {
    /// 10,000 times the first number, 100 times the second, and the third.
    #[must_use]
    pub fn number(self) -> u32 {
        self.0
    }
}

impl fmt::Display for Version {
    fn fmt(&self, f: &mut fmt::Formatter) -> fmt::Result {
        let Version(number) = self;
        write!(
            f,
            "{}.{}.{}",
            number / 10000,
            number / 100 % 100,
            number % 100
        )
    }
}

/// The version of the archive that the program is linked with.
///
/// ```
/// assert_eq!(callplan::version().to_string(), callplan::VERSION);
/// assert_eq!(callplan::version().number(), callplan::VERSION_NUMBER);
/// ```
#[must_use]
pub fn version() -> Version {
    // SAFETY: it takes nothing and touches nothing.
    Version(unsafe { archive::callplan_lent_version() })
}

#[cfg(test)]
mod tests {
    use super::*;
    use std::string::ToString;

    #[test]
    fn any_version_has_its_text() {
        for (number, text) in [
            (0, "0.0.0"),
            (900, "0.9.0"),
            (1000, "0.10.0"),
            (120_034, "12.0.34"),
            (u32::MAX, "429496.72.95"),
        ] {
            assert_eq!(Version(number).to_string(), text);
        }
    }
}
