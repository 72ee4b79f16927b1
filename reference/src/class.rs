//! The classes of teams: document 02, E4.

/// The class of each team number in turn, by a letter: none, wards, clinics, switchboards, outside
/// lines.
const CLASSES: &str = "-wwwwwwwwwccccccccccssssssssssoo";

/// The letter of the class that a team is in, where there is such a team.
pub fn class(team: u32) -> Option<u8> {
    CLASSES.as_bytes().get(team as usize).copied()
}

#[cfg(test)]
mod tests {
    use super::*;
    use crate::plan::MAX_TEAM;

    /// "Team 0 is none, 1 to 9 wards, 10 to 19 clinics, 20 to 29 switchboards, 30 and 31 outside
    /// lines."
    #[test]
    fn every_team_is_in_its_class() {
        assert_eq!(CLASSES.len() as u32, MAX_TEAM + 1);
        for (first, last, letter) in [
            (0, 0, b'-'),
            (1, 9, b'w'),
            (10, 19, b'c'),
            (20, 29, b's'),
            (30, 31, b'o'),
        ] {
            for team in first..=last {
                assert_eq!(class(team), Some(letter), "{team}");
            }
        }
        for team in [32, 33, 64, 255, 256, 259, 1 << 16, u32::MAX] {
            assert_eq!(class(team), None, "{team}");
        }
    }
}
