//! The reference calculator by itself, held to the text of documents 01 and 02. Needs no proved
//! library.

mod ends;
mod seeds;
mod texts;
mod vectors;

use reference::aldebaran;
use reference::generate::{draws, words};
use reference::image::{bits_taken, decode, encode};
use reference::{Duration, Figure, Plan, Refusal, Transition};
use seeds::{adler32, missing, parse, Vectors, WORDS};
use texts::{edges, ACCEPTED, P1_TEXT};
use vectors::{P1, P1_WRITTEN};

fn transition(from: usize, to: usize, low: u32, high: u32) -> Transition {
    Transition {
        from,
        to,
        low,
        high,
    }
}

fn p1() -> Plan {
    let transitions = vec![
        transition(0, 1, 5, 20),
        transition(1, 2, 3, 15),
        transition(1, 3, 2, 30),
        transition(2, 3, 4, 25),
    ];
    Plan::of(vec![4, 1, 1, 2], transitions)
}

/// P1 with these teams.
fn p1_of(teams: [u8; 4]) -> Plan {
    let mut plan = p1();
    for (state, team) in plan.states.iter_mut().zip(teams) {
        state.team = team;
    }
    plan
}

/// P1's image with some octets replaced.
fn p1_with(changes: &[(usize, u8)]) -> Vec<u8> {
    let mut octets = P1.to_vec();
    for &(place, octet) in changes {
        octets[place] = octet;
    }
    octets
}

/// Reads the octets into P1's plan, which a refusal must leave.
fn read_over_p1(octets: &[u8]) -> Result<Plan, Refusal> {
    let mut plan = p1();
    match plan.read(octets) {
        Ok(()) => Ok(plan),
        Err(refusal) => {
            assert_eq!(plan, p1());
            Err(refusal)
        }
    }
}

fn assert_refused(octets: &[u8], refusal: Refusal) {
    assert_eq!(read_over_p1(octets), Err(refusal), "{octets:02X?}");
}

#[test]
fn p1_is_read_and_written_back() {
    assert_eq!(decode(&P1), Ok(p1()));
    assert_eq!(encode(&p1()), P1_WRITTEN);
    assert_eq!(decode(&P1_WRITTEN), Ok(p1()));

    for octets in [P1, P1_WRITTEN] {
        let mut plan = Plan::fresh(7).unwrap();
        assert_eq!(plan.read(&octets), Ok(()));
        assert_eq!(plan, p1());

        let mut buffer = [0xAA; 30];
        assert_eq!(plan.write(&mut buffer), Ok(28));
        assert_eq!(buffer[..28], P1_WRITTEN);
        assert_eq!(buffer[28..], [0xAA; 2]);
    }
}

#[test]
fn p1_is_built_by_edits() {
    let mut plan = Plan::fresh(4).unwrap();
    for (state, value) in [(0, 4), (1, 1), (2, 1), (3, 2)] {
        plan.mark(state, value).unwrap();
    }
    for transition in p1().transitions {
        plan.join(transition).unwrap();
    }
    assert_eq!(plan, p1());
}

#[test]
fn numbers_are_those_of_the_table() {
    let table = [
        Refusal::BrokenPlan,
        Refusal::ImageTooShort,
        Refusal::ImageTooLong,
        Refusal::Version,
        Refusal::StateCount,
        Refusal::TransitionCount,
        Refusal::SpareBit,
        Refusal::StateNumber,
        Refusal::Duration,
        Refusal::ListFull,
        Refusal::TransitionNumber,
        Refusal::BufferTooShort,
        Refusal::MarksValue,
        Refusal::StartCount,
        Refusal::TextForm,
        Refusal::FromState,
        Refusal::ToState,
        Refusal::TeamNumber,
    ];
    // "Thirteen can go" (document 02, E8): no row has that number.
    let numbers = (0..).filter(|&number| number != 13);
    for (number, refusal) in numbers.zip(table) {
        assert_eq!(refusal.number(), number);
    }
}

#[test]
fn fresh_takes_1_to_512_states() {
    assert_eq!(Plan::fresh(0), Err(Refusal::StateCount));
    assert_eq!(Plan::fresh(513), Err(Refusal::StateCount));
    for n in [1, 2, 512] {
        let plan = Plan::fresh(n).unwrap();
        assert_eq!(plan.marks(), vec![0; n]);
        assert_eq!(plan.teams(), vec![0; n]);
        assert_eq!(plan.transitions, []);
        assert!(plan.within_limits());
    }
}

#[test]
fn mark_refuses_the_state_before_the_value() {
    let mut plan = p1();
    assert_eq!(plan.mark(4, 8), Err(Refusal::StateNumber));
    assert_eq!(plan.mark(4, 7), Err(Refusal::StateNumber));
    assert_eq!(plan.mark(3, 8), Err(Refusal::MarksValue));
    assert_eq!(plan, p1());
    assert_eq!(plan.mark(3, 7), Ok(()));
    assert_eq!(plan.marks(), [4, 1, 1, 7]);
}

/// "A team above 31 returns 18, after 7" (document 02, E4).
#[test]
fn team_refuses_the_state_before_the_team() {
    let mut plan = p1();
    for state in [4, 5, 512, 1 << 16, 1 << 32, usize::MAX] {
        for team in [0, 31, 32, 259, u32::MAX] {
            assert_eq!(plan.team(state, team), Err(Refusal::StateNumber));
        }
    }
    // The last of these are teams in fewer bits.
    for team in [
        32,
        33,
        63,
        64,
        255,
        256,
        259,
        1 << 16,
        (1 << 16) + 3,
        1 << 31,
        u32::MAX,
    ] {
        assert_eq!(plan.team(3, team), Err(Refusal::TeamNumber), "{team}");
    }
    assert_eq!(plan, p1());
    for team in 0..=31 {
        assert_eq!(plan.team(3, team), Ok(()));
        assert_eq!(plan, p1_of([0, 0, 0, team as u8]));
    }
}

/// "set by its own call and zero after fresh; mark leaves it"
#[test]
fn mark_leaves_the_team_and_team_leaves_the_marks() {
    let mut plan = p1();
    for (state, team) in [(0, 31), (1, 9), (3, 10)] {
        assert_eq!(plan.team(state, team), Ok(()));
    }
    assert_eq!(plan, p1_of([31, 9, 0, 10]));
    for state in 0..4 {
        assert_eq!(plan.mark(state, 7), Ok(()));
        assert_eq!(plan.mark(state, 8), Err(Refusal::MarksValue));
    }
    assert_eq!(
        (plan.marks(), plan.teams()),
        (vec![7; 4], vec![31, 9, 0, 10])
    );
    assert_eq!(plan.team(1, 0), Ok(()));
    assert_eq!(plan.team(2, 20), Ok(()));
    assert_eq!(
        (plan.marks(), plan.teams()),
        (vec![7; 4], vec![31, 0, 20, 10])
    );
    // Transitions move no team.
    let before = plan.teams();
    assert_eq!(plan.unjoin(0), Ok(()));
    assert_eq!(plan.join(transition(3, 0, 1, 1)), Ok(()));
    assert_eq!(plan.teams(), before);
    // A fresh plan in its place has none.
    plan = Plan::fresh(4).unwrap();
    assert_eq!(plan.teams(), [0; 4]);
}

/// The octets of P1 with these teams, of version 2.
fn p1_written_of(teams: [u8; 4]) -> Vec<u8> {
    let mut octets = P1_WRITTEN.to_vec();
    for (octet, team) in octets[4..].iter_mut().zip(teams) {
        *octet += team;
    }
    octets
}

/// "The image version becomes 2. Version 1 .. read with all teams zero"
#[test]
fn images_of_both_versions_are_read_and_version_2_is_written() {
    for version in 0..16 {
        let octets = p1_with(&[(0, version << 4)]);
        match version {
            1 | 2 => assert_eq!(read_over_p1(&octets), Ok(p1())),
            _ => assert_refused(&octets, Refusal::Version),
        }
    }
    // Every team of every state, in both versions, over a plan with teams.
    let old = p1_of([1, 2, 3, 31]);
    for state in 0..4 {
        for team in 0..32 {
            let mut teams = [5, 17, 0, 30];
            teams[state] = team;
            let octets = p1_written_of(teams);
            let mut plan = old.clone();
            assert_eq!(plan.read(&octets), Ok(()));
            assert_eq!(plan, p1_of(teams));
            assert_eq!(encode(&plan), octets);
            // The same bits are spare in version 1.
            let octets = p1_with(&[(4 + state, P1[4 + state] + team)]);
            let mut plan = old.clone();
            let answer = plan.read(&octets);
            if team == 0 {
                assert_eq!(answer, Ok(()));
                assert_eq!(plan, p1());
                assert_eq!(encode(&plan), P1_WRITTEN);
            } else {
                assert_eq!(answer, Err(Refusal::SpareBit), "{team}");
                assert_eq!(plan, old);
            }
        }
    }
    // A pad bit is refused in both versions, before the length; and so are the other versions before it.
    for pad in 1..64 {
        for version in 0..16 {
            let octets = p1_with(&[(0, version << 4), (3, pad)]);
            let refusal = match version {
                1 | 2 => Refusal::SpareBit,
                _ => Refusal::Version,
            };
            assert_refused(&octets, refusal);
            assert_refused(&octets[..27], refusal);
        }
    }
    // Version 2 has the grounds of version 1 after the states.
    for (octet, value, refusal) in [
        (8, 0x02, Refusal::FromState),
        (9, 0x01, Refusal::ToState),
        (12, 0x00, Refusal::Duration),
    ] {
        let mut octets = p1_written_of([31; 4]);
        octets[octet] = value;
        assert_refused(&octets, refusal);
        assert_refused(&octets[..27], Refusal::ImageTooShort);
        octets.push(0);
        assert_refused(&octets, Refusal::ImageTooLong);
    }
}

/// "exported text comes back without its teams too"
#[test]
fn texts_have_no_teams() {
    let plan = p1_of([31, 9, 10, 1]);
    assert_eq!(aldebaran::encode(&plan).as_deref(), Ok(P1_TEXT));
    let mut other = p1_of([4, 3, 2, 1]);
    assert_eq!(other.import(P1_TEXT.as_bytes()), Ok(()));
    assert_eq!(other.teams(), [0; 4]);
    assert_eq!(other, plan.stripped());
    // A refused text leaves them.
    let mut other = plan.clone();
    assert_eq!(other.import(b"des (0, 0, 513)\n"), Err(Refusal::StateCount));
    assert_eq!(other, plan);
}

/// A count for a class: "18, after 7 and before 11", and 0 before both.
#[test]
fn counts_for_a_class_are_refused_in_order() {
    let plan = p1_of([31, 9, 10, 1]);
    let mut broken = plan.clone();
    broken.states[0].marks = 8;
    for figure in [Figure::LeastCount, Figure::GreatestCount] {
        let mut buffer = [7; 5];
        for team in [32, 33, 255, 256, 259, 1 << 16, u32::MAX] {
            let asked = figure.for_class_of(team);
            for lent in [0, 3, 4, 5] {
                let answer = plan.quote(asked, &mut buffer[..lent]);
                assert_eq!(answer, Err(Refusal::TeamNumber), "{team}");
                let answer = broken.quote(asked, &mut buffer[..lent]);
                assert_eq!(answer, Err(Refusal::BrokenPlan), "{team}");
            }
        }
        for team in 0..=31 {
            let asked = figure.for_class_of(team);
            for lent in [0, 3] {
                let answer = plan.quote(asked, &mut buffer[..lent]);
                assert_eq!(answer, Err(Refusal::BufferTooShort), "{team}");
                let answer = broken.quote(asked, &mut buffer[..lent]);
                assert_eq!(answer, Err(Refusal::BrokenPlan), "{team}");
            }
            assert_eq!(buffer, [7; 5]);
            assert!(plan.quote(asked, &mut buffer[..4]).is_ok());
            buffer.fill(7);
        }
    }
}

#[test]
fn join_refuses_from_then_to_then_durations_then_a_full_list() {
    let mut plan = p1();
    for from in [4, 5, 512, 1 << 16, 1 << 32, usize::MAX] {
        for (to, low, high) in [(0, 1, 2), (0, 2, 1), (4, 1, 2), (4, 0, 2048)] {
            let refused = plan.join(transition(from, to, low, high));
            assert_eq!(refused, Err(Refusal::FromState));
        }
        // The same number as the to.
        for (low, high) in [(1, 2), (2, 1), (0, 2048)] {
            let refused = plan.join(transition(0, from, low, high));
            assert_eq!(refused, Err(Refusal::ToState));
        }
    }
    assert_eq!(plan.join(transition(0, 0, 2, 1)), Err(Refusal::Duration));
    assert_eq!(plan.join(transition(0, 0, 0, 2048)), Err(Refusal::Duration));
    assert_eq!(plan, p1());

    while plan.transitions.len() < 2048 {
        plan.join(transition(3, 3, 2047, 2047)).unwrap();
    }
    let full = plan.clone();
    assert_eq!(plan.join(transition(4, 4, 2, 1)), Err(Refusal::FromState));
    assert_eq!(plan.join(transition(4, 3, 1, 2)), Err(Refusal::FromState));
    assert_eq!(plan.join(transition(0, 4, 2, 1)), Err(Refusal::ToState));
    assert_eq!(plan.join(transition(0, 4, 1, 2)), Err(Refusal::ToState));
    assert_eq!(plan.join(transition(0, 3, 2, 1)), Err(Refusal::Duration));
    assert_eq!(plan.join(transition(0, 3, 1, 2)), Err(Refusal::ListFull));
    assert_eq!(plan, full);
}

/// "In join, read and import a bad from returns 16, then a bad to 17, both before 8".
#[test]
fn a_transition_is_refused_by_its_from_its_to_and_its_durations() {
    for (transition, number) in ends::TRANSITIONS {
        let mut plan = p1();
        let refused = plan.join(transition).err().map(Refusal::number);
        assert_eq!(refused, number, "{transition:?}");
        assert_eq!(plan == p1(), number.is_some());
    }
}

/// In read and import "transitions by number", whichever of their parts is wrong.
#[test]
fn the_first_wrong_transition_is_the_ground() {
    for (plan, number) in ends::plans() {
        assert_eq!(plan.within_limits(), number.is_none());
        let image = encode(&plan);
        let read = read_over_p1(&image).map_err(Refusal::number);
        assert_eq!(read.err(), number, "{plan:?}");
        let text = aldebaran::encode(&plan).unwrap();
        let imported = aldebaran::decode(text.as_bytes()).map_err(Refusal::number);
        assert_eq!(imported.err(), number, "{text}");

        // A spare bit of any state comes before all transitions, and so does the initial state. In
        // version 2 it is none.
        for state in 0..4 {
            let mut octets = image.clone();
            octets[4 + state] |= 1;
            let read = read_over_p1(&octets).map_err(Refusal::number);
            assert_eq!(read.err(), number, "{plan:?}");
            octets[0] -= 0x10;
            assert_refused(&octets, Refusal::SpareBit);
        }
        let text = text.replacen("des (0", "des (4", 1);
        let imported = aldebaran::decode(text.as_bytes());
        assert_eq!(imported, Err(Refusal::StateNumber), "{text}");
    }
}

/// "A high of 2,047 shall mean no limit": open, whatever the low, and no other high is.
#[test]
fn a_high_of_2047_is_open() {
    for high in 0..2047 {
        let longest = transition(0, 0, 0, high).longest();
        assert_eq!(longest, Duration::Seconds(high));
    }
    for low in [0, 1, 2046, 2047] {
        let mut plan = p1();
        assert_eq!(plan.join(transition(3, 0, low, 2047)), Ok(()));
        assert_eq!(plan.transitions[4].longest(), Duration::Open);
        // It is kept as the number that it is, in the image and in the text.
        assert_eq!(decode(&encode(&plan)), Ok(plan.clone()));
        let text = aldebaran::encode(&plan).unwrap();
        assert!(text.ends_with(&format!("(3, \"{low}..2047\", 0)\n")));
    }
}

#[test]
fn unjoin_moves_later_transitions_down() {
    let mut plan = p1();
    assert_eq!(plan.unjoin(4), Err(Refusal::TransitionNumber));
    assert_eq!(plan, p1());
    assert_eq!(plan.unjoin(1), Ok(()));
    let was = p1().transitions;
    assert_eq!(plan.transitions, [was[0], was[2], was[3]]);
    assert_eq!(plan.join(was[1]), Ok(()));
    assert_eq!(plan.transitions, [was[0], was[2], was[3], was[1]]);
}

#[test]
fn write_needs_the_images_length() {
    let mut buffer = [0xAA; 27];
    assert_eq!(p1().write(&mut buffer), Err(Refusal::BufferTooShort));
    assert_eq!(buffer, [0xAA; 27]);
    let mut buffer = [0; 28];
    assert_eq!(p1().write(&mut buffer), Ok(28));
    assert_eq!(buffer, P1_WRITTEN);
}

#[test]
fn read_refuses_each_fault() {
    for length in 0..28 {
        assert_refused(&P1[..length], Refusal::ImageTooShort);
    }
    let mut long = P1.to_vec();
    long.push(0);
    assert_refused(&long, Refusal::ImageTooLong);
    assert_refused(&p1_with(&[(0, 0x00)]), Refusal::Version);
    assert_refused(&p1_with(&[(0, 0x30)]), Refusal::Version);
    assert_refused(&p1_with(&[(0, 0xF0)]), Refusal::Version);
    assert_refused(&p1_with(&[(1, 0x00)]), Refusal::StateCount);
    assert_refused(&p1_with(&[(0, 0x18), (1, 0x04)]), Refusal::StateCount);
    assert_refused(
        &p1_with(&[(1, 0x12), (2, 0x00), (3, 0x40)]),
        Refusal::TransitionCount,
    );
    assert_refused(&p1_with(&[(3, 0x01)]), Refusal::SpareBit);
    assert_refused(&p1_with(&[(3, 0x20)]), Refusal::SpareBit);
    assert_refused(&p1_with(&[(4, 0x81)]), Refusal::SpareBit);
    assert_refused(&p1_with(&[(7, 0x50)]), Refusal::SpareBit);
    // The first transition's from becomes 4, the last one's to 7, the first one's high 0.
    assert_refused(&p1_with(&[(8, 0x02)]), Refusal::FromState);
    assert_refused(&p1_with(&[(24, 0x01), (25, 0xC0)]), Refusal::ToState);
    assert_refused(&p1_with(&[(12, 0x00)]), Refusal::Duration);
}

#[test]
fn read_keeps_the_order_of_grounds() {
    // A version other than 1 and 2 and a state count of 0.
    assert_refused(&[0x30, 0x00, 0x00, 0x00], Refusal::Version);
    // Under 4 octets before the version.
    assert_refused(&[0x30, 0x00, 0x00], Refusal::ImageTooShort);
    for version in [0x10, 0x20] {
        // No states and 4,095 transitions.
        assert_refused(&[version, 0x03, 0xFF, 0xC0], Refusal::StateCount);
        // 4,095 transitions and a pad bit.
        assert_refused(&[version, 0x07, 0xFF, 0xFF], Refusal::TransitionCount);
        // A pad bit and an image too short, or too long.
        assert_refused(&[version, 0x04, 0x00, 0x01], Refusal::SpareBit);
        let long = [version, 0x04, 0x00, 0x01, 0x00, 0x00];
        assert_refused(&long, Refusal::SpareBit);
    }
    // Too short or too long, and a spare bit.
    assert_refused(&p1_with(&[(4, 0x81)])[..27], Refusal::ImageTooShort);
    assert_refused(
        &[p1_with(&[(4, 0x81)]), vec![0]].concat(),
        Refusal::ImageTooLong,
    );
    // A spare bit of the last state and a bad from, or a bad to, in the first transition.
    assert_refused(&p1_with(&[(7, 0x41), (8, 0x02)]), Refusal::SpareBit);
    assert_refused(&p1_with(&[(7, 0x41), (9, 0x01)]), Refusal::SpareBit);
    // The first transition with a from of 4 and durations of 5..0, with a to of 5 and such
    // durations, and with both ends bad.
    assert_refused(&p1_with(&[(8, 0x02), (12, 0x00)]), Refusal::FromState);
    assert_refused(&p1_with(&[(9, 0x01), (12, 0x00)]), Refusal::ToState);
    assert_refused(&p1_with(&[(8, 0x02), (9, 0x01)]), Refusal::FromState);
    // Bad durations in the first transition and a bad from or to in the last, and the reverse.
    assert_refused(&p1_with(&[(12, 0x00), (23, 0x02)]), Refusal::Duration);
    assert_refused(&p1_with(&[(12, 0x00), (24, 0x01)]), Refusal::Duration);
    assert_refused(&p1_with(&[(8, 0x02), (27, 0x00)]), Refusal::FromState);
    assert_refused(&p1_with(&[(9, 0x01), (27, 0x00)]), Refusal::ToState);
    // A bad to in the first transition and a bad from in the last, and the reverse.
    assert_refused(&p1_with(&[(9, 0x01), (23, 0x02)]), Refusal::ToState);
    assert_refused(&p1_with(&[(8, 0x02), (24, 0x01)]), Refusal::FromState);
}

/// The bits of taken/proofs/Basic.antt: `taken-header`, `taken-known`, `taken-states` and
/// `taken-transitions`. Then each octet that P1 can be refused at.
#[test]
fn bits_are_counted_over_the_whole_read() {
    assert_eq!(bits_taken(&[]), 0);
    assert_eq!(bits_taken(&[0x20, 0x04, 0x00]), 0);
    assert_eq!(bits_taken(&[0x30, 0x04, 0x00, 0x00, 0x80]), 32);
    assert_eq!(bits_taken(&[0x20, 0x04, 0x00, 0x00]), 32);
    assert_eq!(bits_taken(&[0x20, 0x04, 0x00, 0x00, 0x80, 0x00]), 32);
    assert_eq!(bits_taken(&P1), 224);

    let header = [0x10, 0x08, 0x00, 0x40];
    let bad = [0x01, 0x00, 0x40, 0x08, 0x01];
    for (states, bits) in [([0x81, 0x41], 40), ([0x80, 0x41], 48), ([0x80, 0x40], 88)] {
        let octets = [&header[..], &states, &bad].concat();
        assert_eq!(bits_taken(&octets), bits);
    }

    let one_way = transition(0, 1, 5, 20);
    let back = transition(1, 0, 2, 3);
    for (transitions, bits) in [
        (vec![transition(2, 1, 1, 1), one_way], 88),
        (vec![one_way, transition(0, 1, 5, 3), back], 128),
        (vec![one_way, back], 128),
        (vec![], 48),
    ] {
        let octets = encode(&Plan::of(vec![4, 2], transitions));
        assert_eq!(bits_taken(&octets), bits);
    }

    for state in 0..4 {
        let octets = p1_with(&[(4 + state, 0x01)]);
        assert_eq!(bits_taken(&octets), 32 + 8 * (state + 1));
    }
    for number in 0..4 {
        let octets = p1_with(&[(8 + 5 * number, 0xFF)]);
        assert_eq!(bits_taken(&octets), 64 + 40 * (number + 1));
    }
}

#[test]
fn a_plan_past_a_limit_is_refused_first() {
    let edit = |change: fn(&mut Plan)| {
        let mut plan = p1();
        change(&mut plan);
        plan
    };
    let broken = [
        Plan::default(),
        edit(|plan| plan.states.clear()),
        edit(|plan| plan.states.resize(513, Default::default())),
        edit(|plan| plan.transitions.resize(2049, transition(0, 0, 0, 0))),
        edit(|plan| plan.states[3].marks = 8),
        edit(|plan| plan.states[0].team = 32),
        edit(|plan| plan.states[3].team = 32),
        edit(|plan| plan.states[1].team = 255),
        edit(|plan| plan.transitions[3].from = 4),
        edit(|plan| plan.transitions[0].to = 4),
        edit(|plan| plan.transitions[1].low = 16),
        edit(|plan| plan.transitions[2].high = 2048),
    ];
    for was in broken {
        assert!(!was.within_limits());
        let mut plan = was.clone();
        assert_eq!(plan.mark(600, 8), Err(Refusal::BrokenPlan));
        assert_eq!(plan.mark(0, 0), Err(Refusal::BrokenPlan));
        assert_eq!(plan.team(600, 32), Err(Refusal::BrokenPlan));
        assert_eq!(plan.team(3, 0), Err(Refusal::BrokenPlan));
        assert_eq!(
            plan.join(transition(600, 0, 2, 1)),
            Err(Refusal::BrokenPlan)
        );
        assert_eq!(plan.unjoin(3000), Err(Refusal::BrokenPlan));
        assert_eq!(plan.read(&[]), Err(Refusal::BrokenPlan));
        assert_eq!(plan.read(&P1), Err(Refusal::BrokenPlan));
        assert_eq!(plan.import(&[]), Err(Refusal::BrokenPlan));
        assert_eq!(plan.import(P1_TEXT.as_bytes()), Err(Refusal::BrokenPlan));
        let mut buffer = [0xAA; 100];
        assert_eq!(plan.write(&mut buffer[..0]), Err(Refusal::BrokenPlan));
        assert_eq!(plan.write(&mut buffer), Err(Refusal::BrokenPlan));
        assert_eq!(plan.export(&mut buffer[..0]), Err(Refusal::BrokenPlan));
        assert_eq!(plan.export(&mut buffer), Err(Refusal::BrokenPlan));
        assert_eq!(buffer, [0xAA; 100]);
        assert_eq!(plan, was);
    }
}

#[test]
fn the_largest_plan_goes_both_ways() {
    let marks = (0..512).map(|state| (state % 8) as u8).collect();
    let transitions = (0..2048)
        .map(|number| transition(number % 512, 511 - number % 512, number as u32, 2047))
        .collect();
    let mut plan = Plan::of(marks, transitions);
    for (state, number) in plan.states.iter_mut().zip(0..) {
        state.team = (number / 8 % 32) as u8;
    }
    assert!(plan.within_limits());
    let octets = encode(&plan);
    assert_eq!(octets.len(), 4 + 512 + 5 * 2048);
    assert_eq!(octets[..4], [0x28, 0x02, 0x00, 0x00]);
    assert_eq!(read_over_p1(&octets), Ok(plan));
}

#[test]
fn p1_is_exported_and_imported_without_its_other_marks() {
    assert_eq!(aldebaran::encode(&p1()).as_deref(), Ok(P1_TEXT));
    let imported = aldebaran::decode(P1_TEXT.as_bytes()).unwrap();
    assert_eq!(imported.marks(), [4, 0, 0, 0]);
    assert_eq!(imported.transitions, p1().transitions);
    assert_eq!(imported, p1().stripped());
    assert_eq!(aldebaran::encode(&imported).as_deref(), Ok(P1_TEXT));
}

#[test]
fn texts_at_the_edges_are_answered_by_their_number() {
    for (text, answer) in edges() {
        let mut plan = p1();
        let shown = String::from_utf8_lossy(&text[..text.len().min(120)]);
        let number = match plan.import(&text) {
            Ok(()) => {
                let written = aldebaran::encode(&plan).map(String::into_bytes);
                assert_eq!(written, Ok(text.clone()), "{shown:?}");
                ACCEPTED
            }
            Err(refusal) => {
                assert_eq!(plan, p1(), "{shown:?}");
                refusal.number()
            }
        };
        assert_eq!(number, answer, "{shown:?}");
    }
}

#[test]
fn export_needs_one_start_and_then_the_texts_length() {
    let length = P1_TEXT.len();
    let mut buffer = vec![0xAA; length + 2];
    for marks in [0, 1, 2, 3] {
        let mut plan = p1();
        plan.mark(0, marks).unwrap();
        assert_eq!(plan.export(&mut buffer[..0]), Err(Refusal::StartCount));
        assert_eq!(plan.export(&mut buffer), Err(Refusal::StartCount));
    }
    let mut plan = p1();
    plan.mark(3, 6).unwrap();
    assert_eq!(plan.export(&mut buffer[..0]), Err(Refusal::StartCount));
    assert_eq!(plan.export(&mut buffer), Err(Refusal::StartCount));
    for lent in [0, 1, length - 1] {
        let answer = p1().export(&mut buffer[..lent]);
        assert_eq!(answer, Err(Refusal::BufferTooShort));
    }
    assert!(buffer.iter().all(|&octet| octet == 0xAA));
    assert_eq!(p1().export(&mut buffer), Ok(length));
    assert_eq!(&buffer[..length], P1_TEXT.as_bytes());
    assert_eq!(buffer[length..], [0xAA; 2]);
    assert_eq!(p1().export(&mut buffer[..length]), Ok(length));
}

#[test]
fn the_initial_state_is_the_start_wherever_it_is() {
    let mut plan = p1();
    plan.mark(0, 3).unwrap();
    plan.mark(3, 7).unwrap();
    let text = aldebaran::encode(&plan).unwrap();
    assert_eq!(text, P1_TEXT.replacen("des (0", "des (3", 1));
    let imported = aldebaran::decode(text.as_bytes()).unwrap();
    assert_eq!(imported.marks(), [0, 0, 0, 4]);
    assert_eq!(imported, plan.stripped());
}

/// What the first 55 words of a seed grow by, document 02, E7.
const STEP: u128 = 0x9E37_79B9;

/// Seeds at the edges, and some between.
const SEEDS: [u32; 9] = [
    0,
    1,
    2,
    54,
    0x61C8_8647, // with the step, 0 modulo 4,294,967,296
    305_419_896,
    1 << 31,
    u32::MAX - 1,
    u32::MAX,
];

/// "the first 55 words are s, then each the one before plus 9E3779B9 hex": s and a multiple of it. "Each
/// later word is the word 24 back plus the word 55 back": word 56 is word 32 plus word 1, and so on, with
/// twice s and two multiples, up to word 79; from word 80 on the word 24 back is such a word itself.
#[test]
fn words_are_those_of_the_sentence() {
    for seed in SEEDS {
        let of = |seeds: u128, steps: u128| {
            ((seeds * u128::from(seed) + steps * STEP) % 4_294_967_296) as u64
        };
        let words = words(seed, 86);
        for (place, &word) in (0..).zip(&words) {
            let expected = match place {
                0..55 => of(1, place),
                55..79 => of(2, (place - 24) + (place - 55)),
                _ => of(3, (place - 48) + (place - 79) + (place - 55)),
            };
            assert_eq!(word, expected, "{seed} {place}");
        }
        assert_eq!(draws(seed, 31), words[55..]);
    }
    // Word 1 of all, none, and words that do not depend on how many are asked for.
    assert_eq!(words(7, 1), [7]);
    assert_eq!((words(7, 0), draws(7, 0)), (vec![], vec![]));
    assert_eq!(words(7, 300)[..86], words(7, 86));
}

/// Every word is a sum of seeds and steps: as many seeds as the words of seeds 0 and 1 are apart.
#[test]
fn words_of_any_seed_are_those_of_0_and_1_together() {
    let count = 55 + 4 * 2048;
    let (zero, one) = (words(0, count), words(1, count));
    for seed in SEEDS {
        for (place, word) in words(seed, count).into_iter().enumerate() {
            let seeds = u128::from(one[place] + 4_294_967_296 - zero[place]);
            let sum = u128::from(zero[place]) + seeds * u128::from(seed);
            assert_eq!(u128::from(word), sum % 4_294_967_296, "{seed} {place}");
        }
    }
}

/// Small plans of seed 1, by hand. Its first draws, words 56 to 63, are 2 and 31, 33, 35 .. 45 times
/// 9E3779B9 hex, modulo 4,294,967,296: 683130217, 1697034459, 2710938701, 3724842943, 443779889,
/// 1457684131, 2471588373, 3485492615.
#[test]
fn small_plans_are_made_by_hand() {
    // 2710938701 is 1323700 times 2,048 and 1101, and 3724842943 is 3933308 times 947 and 267; 2471588373
    // is 1206830 times 2,048 and 533, and 3485492615 is 2300655 times 1515 and 290.
    for (n, ends) in [
        (1, [(0, 0), (0, 0)]),
        (2, [(1, 1), (1, 1)]),
        (3, [(1, 0), (2, 1)]),
        (10, [(7, 9), (9, 1)]),
        (512, [(361, 219), (305, 163)]),
    ] {
        let durations = [(1101, 1368), (533, 823)];
        let transitions = ends.into_iter().zip(durations);
        let transitions =
            transitions.map(|((from, to), (low, high))| transition(from, to, low, high));
        let transitions: Vec<Transition> = transitions.collect();
        for m in 0..=2 {
            let plan = Plan::generate(1, n, m).unwrap();
            assert_eq!(plan.transitions, transitions[..m], "{n} {m}");
        }
    }
}

/// "State 0 is start and state n − 1 final, no other mark set and all teams zero", whatever the seed.
#[test]
fn marks_of_made_plans_are_those_of_the_first_and_the_last_state() {
    for seed in SEEDS {
        for n in 1..=512 {
            let plan = Plan::generate(seed, n, 3).unwrap();
            let mut marks = vec![0; n];
            marks[n - 1] = 2;
            marks[0] += 4;
            assert_eq!(plan.marks(), marks);
            assert_eq!(plan.teams(), vec![0; n]);
            assert_eq!(plan.transitions.len(), 3);
        }
        // One state is both.
        assert_eq!(Plan::generate(seed, 1, 0).unwrap().marks(), [6]);
        assert_eq!(Plan::generate(seed, 2, 0).unwrap().marks(), [4, 2]);
        assert_eq!(Plan::generate(seed, 3, 0).unwrap().marks(), [4, 0, 2]);
    }
}

/// "A bad n returns 4, then a transition count above 2,048 returns 5."
#[test]
fn generate_refuses_the_state_count_before_the_transition_count() {
    let wide = [1 << 16, 1 << 32, (1 << 32) + 1, 1 << 63, usize::MAX];
    for seed in SEEDS {
        for n in [0, 513, 514, 1024].into_iter().chain(wide) {
            for m in [0, 1, 2048, 2049].into_iter().chain(wide) {
                let refused = Plan::generate(seed, n, m);
                assert_eq!(refused, Err(Refusal::StateCount), "{n} {m}");
            }
        }
        for m in [2049, 2050, 4096].into_iter().chain(wide) {
            for n in [1, 2, 511, 512] {
                let refused = Plan::generate(seed, n, m);
                assert_eq!(refused, Err(Refusal::TransitionCount), "{n} {m}");
            }
        }
        for (n, m) in [(1, 0), (1, 2048), (512, 0), (512, 2048)] {
            assert!(Plan::generate(seed, n, m).is_ok(), "{n} {m}");
        }
    }
}

/// "Every generated plan is one that write and read carry through whole." Fewer transitions of the same
/// seed are the first ones of more.
#[test]
fn made_plans_are_within_the_limits_and_are_read_back_whole() {
    let sizes = [1, 2, 3, 10, 511, 512].map(|n| [0, 1, 2, 2047, 2048].map(|m| (n, m)));
    for seed in SEEDS {
        for (n, m) in sizes.into_iter().flatten() {
            let plan = Plan::generate(seed, n, m).unwrap();
            assert!(plan.within_limits(), "{seed} {n} {m}");
            assert_eq!((plan.states.len(), plan.transitions.len()), (n, m));
            let octets = encode(&plan);
            assert_eq!(octets.len(), 4 + n + 5 * m);
            assert_eq!(read_over_p1(&octets), Ok(plan.clone()));
            assert_eq!(encode(&decode(&octets).unwrap()), octets);
            let full = Plan::generate(seed, n, 2048).unwrap();
            assert_eq!(plan.transitions, full.transitions[..m]);
            // The text carries all but the final mark.
            let text = aldebaran::encode(&plan).unwrap();
            let imported = aldebaran::decode(text.as_bytes());
            assert_eq!(imported, Ok(plan.stripped()));
        }
    }
}

/// A high may come out as 2,047: as many of them as there are draws one below 2,048 − low.
#[test]
fn highs_that_are_drawn_as_2047_are_open() {
    let mut open = 0;
    for seed in SEEDS {
        let plan = Plan::generate(seed, 512, 2048).unwrap();
        let draws = draws(seed, 4 * 2048);
        for (transition, four) in plan.transitions.iter().zip(draws.chunks(4)) {
            let span = 2048 - four[2] % 2048;
            let is_open = four[3] % span == span - 1;
            assert_eq!(transition.longest() == Duration::Open, is_open);
            assert_eq!(transition.high == 2047, is_open);
            open += u32::from(is_open);
        }
    }
    // On average one high in 250 or so is.
    assert!((20..400).contains(&open), "{open}");
}

/// The words and the plans that are proved, by this calculator.
#[test]
fn made_plans_are_those_of_the_proved_vectors() {
    let vectors = seeds::vectors();
    for (seed, expected) in vectors.words {
        assert_eq!(draws(seed, WORDS), expected, "words of seed {seed}");
        assert_eq!(words(seed, 70)[55..], expected, "words of seed {seed}");
    }
    for ((seed, n, m), expected) in vectors.plans {
        let octets = encode(&Plan::generate(seed, n, m).unwrap());
        assert_eq!(adler32(&octets), expected, "{seed} {n} {m}");
    }
}

/// A vector that is missing, off its form or there twice is found, and so is a wrong checksum: the one
/// of "Wikipedia" is known.
#[test]
fn vectors_are_parsed_and_none_may_be_missing() {
    assert_eq!(adler32(b"Wikipedia"), 0x11E6_0398);
    assert_eq!((adler32(b""), adler32(&[0xFF; 6000])), (1, 0xA497_59EA));

    let words_of = |seed: &str| {
        let words: Vec<String> = (1..=15).map(|word| word.to_string()).collect();
        format!(
            "words_{seed} : tabulate 15 (draw {seed}) ≡ {} ∷ []",
            words.join(" ∷ ")
        )
    };
    let plan_of = |n: usize, m: usize| {
        format!("plan_9_{n}_{m} : adler32 (image (generated_graph 9 {n} {m})) ≡ 77")
    };
    let mut lines = vec!["-- a comment : and no fact".to_string()];
    lines.extend(["0", "1", "305419896", "4294967295"].map(words_of));
    lines.push("words_0 = refl".to_string());
    for n in [1, 2, 512] {
        lines.extend([0, 1, 2048].map(|m| plan_of(n, m)));
    }
    let whole = parse(&lines.join("\n")).unwrap();
    assert_eq!((whole.words.len(), whole.plans.len()), (4, 9));
    assert_eq!(whole.words[&1], (1..=15).collect::<Vec<u64>>());
    assert_eq!(whole.plans[&(9, 512, 2048)], 77);
    assert_eq!(missing(&whole), None);
    assert!(missing(&Vectors::default()).is_some());

    for (place, line) in lines.iter().enumerate() {
        if !line.contains('≡') {
            continue;
        }
        let mut fewer = lines.clone();
        fewer.remove(place);
        assert!(
            missing(&parse(&fewer.join("\n")).unwrap()).is_some(),
            "{line}"
        );
        fewer.extend([line.clone(), line.clone()]);
        assert!(parse(&fewer.join("\n")).is_err(), "twice: {line}");
    }
    for wrong in [
        words_of("1").replace("15 ∷ []", "[]"),
        words_of("1").replace("15 ∷ []", "15 ∷ 16 ∷ []"),
        words_of("1").replace("tabulate 15", "tabulate 14"),
        words_of("1").replace("draw 1", "draw 2"),
        words_of("1").replace(" ∷ []", ""),
        words_of("4294967296"),
        plan_of(2, 1).replace("graph 9", "graph 8"),
        plan_of(2, 1).replace("9 2 1)", "9 1 2)"),
        plan_of(2, 1).replace("77", "4294967296"),
        plan_of(2, 1).replace("plan_9_2_1", "plan_9_2"),
        plan_of(2, 1).replace("adler32", "crc32"),
    ] {
        assert!(parse(&wrong).is_err(), "{wrong}");
    }
}
