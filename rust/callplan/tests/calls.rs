//! Every call of the crate, accepted and refused.

use std::hash::{DefaultHasher, Hash, Hasher};
use std::thread;

use callplan::{
    CallKind, Figure, Kind, Plan, Refusal, State, Transition, COUNTED, FINAL, MAX_STATES, MAX_TEAM,
    MAX_TRANSITIONS, OPEN_HIGH, START,
};

/// The image of plan P1 of document 01, of version 1.
const P1: [u8; 28] = [
    0x10, 0x10, 0x01, 0x00, 0x80, 0x20, 0x20, 0x40, 0x00, 0x00, 0x40, 0x28, 0x14, 0x00, 0x80, 0x80,
    0x18, 0x0F, 0x00, 0x80, 0xC0, 0x10, 0x1E, 0x01, 0x00, 0xC0, 0x20, 0x19,
];

/// The image of version 2 that is written of it.
const P1_WRITTEN: [u8; 28] = {
    let mut octets = P1;
    octets[0] = 0x20;
    octets
};

/// Its text.
const P1_TEXT: &str = r#"des (0, 4, 4)
(0, "5..20", 1)
(1, "3..15", 2)
(1, "2..30", 3)
(2, "4..25", 3)
"#;

fn transition(from: usize, to: usize, low: u32, high: u32) -> Transition {
    Transition {
        from,
        to,
        low,
        high,
    }
}

fn p1() -> Result<Plan, Refusal> {
    let mut plan = Plan::fresh(4)?;
    plan.mark(0, START)?;
    plan.mark(1, COUNTED)?;
    plan.mark(2, COUNTED)?;
    plan.mark(3, FINAL)?;
    plan.join(transition(0, 1, 5, 20))?;
    plan.join(transition(1, 2, 3, 15))?;
    plan.join(transition(1, 3, 2, 30))?;
    plan.join(transition(2, 3, 4, 25))?;
    Ok(plan)
}

fn hash(value: &impl Hash) -> u64 {
    let mut hasher = DefaultHasher::new();
    value.hash(&mut hasher);
    hasher.finish()
}

fn image(plan: &Plan) -> Vec<u8> {
    let mut buffer = [0; callplan::MAX_IMAGE_OCTETS];
    let length = plan.write(&mut buffer).unwrap();
    buffer[..length].to_vec()
}

#[test]
fn a_plan_is_made_by_edits_and_holds_what_it_was_given() {
    let mut plan = p1().unwrap();
    assert_eq!((plan.states(), plan.transitions()), (4, 4));
    assert_eq!((plan.marks(3), plan.marks(4)), (Some(FINAL), None));
    assert_eq!(plan.transition(3), Some(transition(2, 3, 4, 25)));
    assert_eq!(plan.transition(4), None);
    assert_eq!(plan.unjoin(0), Ok(()));
    assert_eq!(plan.transition(0), Some(transition(1, 2, 3, 15)));
    assert_eq!(plan.transition(3), None);
}

#[test]
fn edits_are_refused_and_change_nothing() {
    let mut plan = p1().unwrap();
    assert_eq!(Plan::fresh(0).unwrap_err(), Refusal::StateCount);
    assert_eq!(Plan::fresh(513).unwrap_err(), Refusal::StateCount);
    for m in [0, 2048, 2049, usize::MAX] {
        for n in [0, 513, 1 << 16, (1 << 32) + 1, usize::MAX] {
            assert_eq!(Plan::generate(7, n, m), Err(Refusal::StateCount));
        }
    }
    for m in [2049, 1 << 16, (1 << 32) + 1, usize::MAX] {
        assert_eq!(Plan::generate(7, 1, m), Err(Refusal::TransitionCount));
        assert_eq!(Plan::generate(7, 512, m), Err(Refusal::TransitionCount));
    }
    assert_eq!(plan.mark(4, 8), Err(Refusal::StateNumber));
    assert_eq!(plan.mark(3, 8), Err(Refusal::MarksValue));
    assert_eq!(plan.team(4, MAX_TEAM + 1), Err(Refusal::StateNumber));
    for team in [MAX_TEAM + 1, 255, 256, 259, u32::MAX] {
        assert_eq!(plan.team(3, team), Err(Refusal::TeamNumber));
    }
    for (from, to, low, high, refusal) in [
        (4, 0, 0, 0, Refusal::FromState),
        (usize::MAX, 0, 1, 0, Refusal::FromState),
        (4, 4, 0, 0, Refusal::FromState),
        (4, 4, 1, 0, Refusal::FromState),
        (0, 4, 0, 0, Refusal::ToState),
        (0, usize::MAX, 0, 0, Refusal::ToState),
        (0, 4, 1, 0, Refusal::ToState),
        (0, 4, 0, 2048, Refusal::ToState),
        (0, 0, 1, 0, Refusal::Duration),
    ] {
        assert_eq!(plan.join(transition(from, to, low, high)), Err(refusal));
    }
    assert_eq!(plan.join(transition(0, 1, 2, 1)), Err(Refusal::Duration));
    assert_eq!(plan.join(transition(0, 1, 0, 2048)), Err(Refusal::Duration));
    assert_eq!(plan.unjoin(4), Err(Refusal::TransitionNumber));
    assert_eq!(image(&plan), P1_WRITTEN);

    for _ in plan.transitions()..MAX_TRANSITIONS {
        plan.join(transition(0, 1, 0, 2047)).unwrap();
    }
    assert_eq!(plan.join(transition(0, 1, 0, 0)), Err(Refusal::ListFull));
    assert_eq!(plan.join(transition(4, 1, 0, 0)), Err(Refusal::FromState));
    assert_eq!(plan.join(transition(0, 4, 0, 0)), Err(Refusal::ToState));
    assert_eq!(
        image(&plan).len(),
        callplan::MAX_IMAGE_OCTETS - (callplan::MAX_STATES - 4)
    );
}

#[test]
fn images_are_written_and_read() {
    assert_eq!(image(&p1().unwrap()), P1_WRITTEN);
    for octets in [P1, P1_WRITTEN] {
        assert_eq!(image(&Plan::from_image(&octets).unwrap()), P1_WRITTEN);
    }

    let mut buffer = [0xAA; 29];
    let plan = p1().unwrap();
    assert_eq!(plan.write(&mut buffer[..27]), Err(Refusal::BufferLength));
    assert_eq!(plan.write(&mut []), Err(Refusal::BufferLength));
    assert_eq!(buffer, [0xAA; 29]);
    assert_eq!(plan.write(&mut buffer), Ok(28));
    assert_eq!(buffer[28], 0xAA);

    let mut plan = Plan::fresh(1).unwrap();
    assert_eq!(plan.read(&[]), Err(Refusal::ImageShort));
    assert_eq!(plan.read(&P1[..27]), Err(Refusal::ImageShort));
    assert_eq!(
        plan.read(&[&P1[..], &[0]].concat()),
        Err(Refusal::ImageLong)
    );
    for (place, octet, refusal) in [
        (0, 0x00, Refusal::Version),
        (0, 0x30, Refusal::Version),
        (0, 0xF0, Refusal::Version),
        (0, 0x1F, Refusal::StateCount),
        (1, 0x13, Refusal::TransitionCount),
        (3, 0x01, Refusal::SpareBits),
        (4, 0x81, Refusal::SpareBits),
        (8, 0xFF, Refusal::FromState),
        (9, 0x01, Refusal::ToState),
        (12, 0x00, Refusal::Duration),
        // At the last transition.
        (23, 0xFF, Refusal::FromState),
        (24, 0x01, Refusal::ToState),
        (27, 0x00, Refusal::Duration),
    ] {
        let mut octets = P1;
        octets[place] = octet;
        if refusal == Refusal::TransitionCount {
            octets[2] = 0xFF;
        }
        assert_eq!(plan.read(&octets), Err(refusal));
        assert_eq!(plan, Plan::fresh(1).unwrap());
    }
}

/// The draws of a seed, modulo 4,294,967,296: words 56 on.
fn draws(seed: u32, count: usize) -> Vec<u64> {
    let mut words = vec![u64::from(seed)];
    while words.len() < 55 + count {
        let back = |k: usize| words[words.len() - k];
        let sum = match words.len() {
            0..55 => back(1) + 0x9E37_79B9,
            _ => back(24) + back(55),
        };
        words.push(sum % (1 << 32));
    }
    words.split_off(55)
}

/// The same plan from the same seed, by the draws; it is edited, written and read as any.
#[test]
fn plans_are_made_from_seeds() {
    for seed in [0, 1, 305_419_896, 1 << 31, u32::MAX] {
        for (n, m) in [(1, 0), (1, 3), (2, 1), (3, 100), (512, 0), (512, 2048)] {
            let plan = Plan::generate(seed, n, m).unwrap();
            assert_eq!((plan.states(), plan.transitions()), (n, m));
            for state in 0..n {
                let start = if state == 0 { START } else { 0 };
                let last = if state == n - 1 { FINAL } else { 0 };
                assert_eq!(plan.marks(state), Some(start + last));
                assert_eq!(plan.team_of(state), Some(0));
            }
            for (number, four) in draws(seed, 4 * m).chunks(4).enumerate() {
                let state = |draw: u64| (draw % n as u64) as usize;
                let low = four[2] % 2048;
                let high = low + four[3] % (2048 - low);
                let drawn = transition(state(four[0]), state(four[1]), low as u32, high as u32);
                assert_eq!(plan.transition(number), Some(drawn));
            }
            assert_eq!(Plan::generate(seed, n, m).unwrap(), plan);
            assert_eq!(Plan::from_image(&image(&plan)).unwrap(), plan);
        }
        assert_ne!(Plan::generate(seed, 9, 9), Plan::generate(seed ^ 1, 9, 9));
    }
    let mut plan = Plan::generate(1, 2, 1).unwrap();
    assert_eq!(plan.transition(0), Some(transition(1, 1, 1101, 1368)));
    assert_eq!(plan.greatest_delay().figure(), Figure::Stranded);
    plan.join(transition(0, 1, 5, OPEN_HIGH)).unwrap();
    assert_eq!(plan.least_delay().figure(), Figure::Number(5));
    assert_eq!(plan.greatest_delay().figure(), Figure::Endless { j: 1 });
}

/// A team is set by its own call, and is in images of version 2 alone.
#[test]
fn teams_are_set_read_and_written() {
    let mut plan = p1().unwrap();
    assert_eq!((plan.team_of(3), plan.team_of(4)), (Some(0), None));
    for (state, team) in [(0, 31), (1, 9), (2, 10)] {
        assert_eq!(plan.team(state, team), Ok(()));
    }
    assert_ne!(plan, p1().unwrap());
    // Mark leaves it, and it leaves the marks.
    assert_eq!((plan.marks(1), plan.team_of(1)), (Some(COUNTED), Some(9)));
    plan.mark(1, 7).unwrap();
    assert_eq!((plan.marks(1), plan.team_of(1)), (Some(7), Some(9)));
    plan.mark(1, COUNTED).unwrap();

    for team in 0..=MAX_TEAM {
        plan.team(3, team).unwrap();
        let octets = image(&plan);
        let mut expected = P1_WRITTEN;
        for (octet, team) in expected[4..].iter_mut().zip([31, 9, 10, team as u8]) {
            *octet += team;
        }
        assert_eq!(octets, expected);
        assert_eq!(Plan::from_image(&octets).unwrap(), plan);
        // The same bits are spare in version 1.
        let mut spare = P1;
        spare[7] += team as u8;
        let mut other = plan.clone();
        if team == 0 {
            assert_eq!(other.read(&spare), Ok(()));
            assert_eq!(other, p1().unwrap());
        } else {
            assert_eq!(other.read(&spare), Err(Refusal::SpareBits));
            assert_eq!(other, plan);
        }
    }
    // A text has none.
    let mut text = [0; 200];
    let length = plan.export(&mut text).unwrap();
    assert_eq!(text[..length], *P1_TEXT.as_bytes());
    plan.import(&text[..length]).unwrap();
    assert_eq!((0..4).map(|state| plan.team_of(state)).max(), Some(Some(0)));
}

/// P1's routes visit states 0, 1, 3 and 0, 1, 2, 3. Every number of a class names it.
#[test]
fn counts_are_quoted_for_classes() {
    let mut plan = p1().unwrap();
    for (state, team) in [(0, 0), (1, 9), (2, 10), (3, 31)] {
        plan.team(state, team).unwrap();
    }
    for (first, last, least, greatest) in [
        (0, 0, 1, 1),
        (1, 9, 1, 1),
        (10, 19, 0, 1),
        (20, 29, 0, 0),
        (30, 31, 1, 1),
    ] {
        for team in first..=last {
            let quotation = plan.least_count_for(team).unwrap();
            assert_eq!(quotation.figure(), Figure::Number(least), "{team}");
            let quotation = plan.greatest_count_for(team).unwrap();
            assert_eq!(quotation.figure(), Figure::Number(greatest), "{team}");
        }
    }
    assert_eq!(plan.least_count_for(15).unwrap().walk(), [0, 2]);
    assert_eq!(plan.greatest_count_for(15).unwrap().walk(), [0, 1, 3]);
    for team in [MAX_TEAM + 1, 259, u32::MAX] {
        assert_eq!(plan.least_count_for(team), Err(Refusal::TeamNumber));
        assert_eq!(plan.greatest_count_for(team), Err(Refusal::TeamNumber));
    }
    // The others stay with the counted mark.
    assert_eq!(plan.least_count().figure(), Figure::Number(1));
    assert_eq!(plan.greatest_count().figure(), Figure::Number(2));

    let mut plan = Plan::fresh(2).unwrap();
    let kinds = |plan: &Plan| [plan.least_count_for(1), plan.greatest_count_for(1)];
    let figures = |plan: &Plan| kinds(plan).map(|quotation| quotation.unwrap().figure());
    assert_eq!(figures(&plan), [Figure::None, Figure::None]);
    plan.mark(0, START).unwrap();
    assert_eq!(figures(&plan), [Figure::None, Figure::Stranded]);
    plan.join(transition(0, 0, 0, 0)).unwrap();
    assert_eq!(figures(&plan), [Figure::None, Figure::Endless { j: 0 }]);
}

/// The first wrong transition decides, by its from, then its to, then its durations.
#[test]
fn images_are_refused_by_the_end_that_is_wrong() {
    let mut plan = Plan::fresh(1).unwrap();
    let (from, to, high) = ((8, 0x02), (9, 0x01), (12, 0x00)); // of the first transition
    let (last_from, last_to) = ((23, 0x02), (24, 0x01));
    for (changes, refusal) in [
        ([from, to], Refusal::FromState),
        ([from, high], Refusal::FromState),
        ([to, high], Refusal::ToState),
        ([from, last_to], Refusal::FromState),
        ([to, last_from], Refusal::ToState),
        ([high, last_from], Refusal::Duration),
        ([high, last_to], Refusal::Duration),
        ([(7, 0x41), from], Refusal::SpareBits),
        ([(7, 0x41), to], Refusal::SpareBits),
    ] {
        let mut octets = P1;
        for (place, octet) in changes {
            octets[place] = octet;
        }
        assert_eq!(plan.read(&octets), Err(refusal));
        assert_eq!(Plan::from_image(&octets).unwrap_err(), refusal);
        assert_eq!(callplan::quote(&octets).unwrap_err(), refusal);
    }
    assert_eq!((plan.states(), plan.transitions()), (1, 0));
}

#[test]
fn texts_are_exported_and_imported() {
    let mut plan = p1().unwrap();
    let length = P1_TEXT.len();
    let mut buffer = [0xAA; callplan::MAX_TEXT_OCTETS];
    let short = plan.export(&mut buffer[..length - 1]);
    assert_eq!(short, Err(Refusal::BufferLength));
    assert_eq!(plan.export(&mut []), Err(Refusal::BufferLength));
    assert_eq!(buffer[0], 0xAA);
    assert_eq!(plan.export(&mut buffer), Ok(length));
    assert_eq!(buffer[..length], *P1_TEXT.as_bytes());
    assert_eq!(buffer[length], 0xAA);
    plan.mark(0, COUNTED).unwrap();
    assert_eq!(plan.export(&mut []), Err(Refusal::StartCount));
    plan.mark(0, START).unwrap();
    plan.mark(1, START).unwrap();
    assert_eq!(plan.export(&mut buffer), Err(Refusal::StartCount));

    let mut plan = Plan::fresh(1).unwrap();
    for (text, refusal) in [
        ("", Refusal::TextForm),
        ("des (0, 0, 1)", Refusal::TextForm),
        ("des (0,0,1)\n", Refusal::TextForm),
        ("des (0, 1, 513)\n", Refusal::TextForm),
        ("des (0, 0, 513)\n", Refusal::StateCount),
        ("des (1, 1, 1)\n(0, \"1..0\", 0)\n", Refusal::StateNumber),
        ("des (1, 1, 1)\n(1, \"1..0\", 1)\n", Refusal::StateNumber),
        ("des (0, 1, 1)\n(1, \"1..0\", 1)\n", Refusal::FromState),
        ("des (0, 1, 1)\n(1, \"0..0\", 0)\n", Refusal::FromState),
        ("des (0, 1, 1)\n(0, \"1..0\", 1)\n", Refusal::ToState),
        ("des (0, 1, 1)\n(0, \"0..0\", 1)\n", Refusal::ToState),
        (
            "des (0, 2, 1)\n(0, \"0..0\", 1)\n(1, \"0..0\", 0)\n",
            Refusal::ToState,
        ),
        (
            "des (0, 2, 1)\n(0, \"1..0\", 0)\n(1, \"0..0\", 0)\n",
            Refusal::Duration,
        ),
        ("des (0, 1, 1)\n(0, \"1..0\", 0)\n", Refusal::Duration),
        ("des (0, 1, 1)\n(0, \"0..2048\", 0)\n", Refusal::Duration),
    ] {
        assert_eq!(plan.import(text.as_bytes()), Err(refusal), "{text:?}");
    }
    let many = format!("des (0, 2049, 1)\n{}", "(0, \"0..0\", 0)\n".repeat(2049));
    let refused = plan.import(many.as_bytes());
    assert_eq!(refused, Err(Refusal::TransitionCount));
    assert_eq!((plan.states(), plan.transitions()), (1, 0));

    assert_eq!(plan.import(P1_TEXT.as_bytes()), Ok(()));
    let mut stripped = p1().unwrap();
    for state in 1..4 {
        stripped.mark(state, 0).unwrap();
    }
    assert_eq!(plan, stripped);
}

#[test]
fn kinds_and_versions_have_their_words() {
    for (figure, kind, word) in [
        (Figure::Number(60), Kind::Number, "number"),
        (Figure::None, Kind::None, "NONE"),
        (Figure::Stranded, Kind::Stranded, "STRANDED"),
        (Figure::Endless { j: 0 }, Kind::Endless, "ENDLESS"),
    ] {
        assert_eq!((figure.kind(), kind.text()), (kind, word));
        assert_eq!(format!("{kind}|{kind:>9}"), format!("{word}|{word:>9}"));
    }
    assert_eq!(callplan::version().number(), callplan::VERSION_NUMBER);
    assert_eq!(callplan::version().to_string(), callplan::VERSION);
}

#[test]
fn figures_are_quoted_with_their_walks() {
    let plan = p1().unwrap();
    for (quotation, value, walk) in [
        (plan.least_delay(), 7, &[0, 2][..]),
        (plan.greatest_delay(), 60, &[0, 1, 3]),
        (plan.least_count(), 1, &[0, 2]),
        (plan.greatest_count(), 2, &[0, 1, 3]),
    ] {
        assert_eq!(quotation.figure(), Figure::Number(value));
        assert_eq!(quotation.walk(), walk);
    }

    let mut plan = Plan::fresh(2).unwrap();
    assert_eq!(plan.greatest_delay().figure(), Figure::None);
    plan.mark(0, START).unwrap();
    plan.mark(1, FINAL).unwrap();
    assert_eq!(plan.least_delay().figure(), Figure::None);
    assert_eq!(plan.greatest_count().figure(), Figure::Stranded);
    assert!(plan.greatest_count().walk().is_empty());
    plan.join(transition(0, 0, 0, 0)).unwrap();
    plan.join(transition(0, 1, 1, 1)).unwrap();
    assert_eq!(plan.greatest_delay().figure(), Figure::Endless { j: 0 });
    assert_eq!(plan.greatest_delay().walk(), [0]);
    assert_eq!(plan.least_delay().walk(), [1]);
}

/// A high of 2,047 means no limit, for the greatest delay alone.
#[test]
fn open_highs_are_endless() {
    let mut plan = Plan::fresh(3).unwrap();
    for (state, marks) in [(0, START), (1, COUNTED), (2, FINAL)] {
        plan.mark(state, marks).unwrap();
    }
    plan.join(transition(0, 1, 1, 1)).unwrap();
    plan.join(transition(1, 2, 1, OPEN_HIGH)).unwrap();
    let delay = plan.greatest_delay();
    assert_eq!(delay.figure(), Figure::Endless { j: 2 });
    assert_eq!(delay.walk(), [0, 1]);
    assert_eq!(plan.least_delay().figure(), Figure::Number(2));
    assert_eq!(plan.least_count().figure(), Figure::Number(1));
    assert_eq!(plan.greatest_count().figure(), Figure::Number(1));
    let mut record = [0; callplan::RECORD_OCTETS];
    assert_eq!(plan.record(&mut record), Ok(callplan::RECORD_OCTETS));
    assert_eq!(record, [0, 0, 0x0B, 0, 0, 0, 0, 0, 0x40, 0, 1]);
    assert_eq!(callplan::quote(&image(&plan)).unwrap()[1], delay);

    // A second less is a number, and out of a final state that is no start an open high is of no account.
    plan.unjoin(1).unwrap();
    plan.join(transition(1, 2, 1, OPEN_HIGH - 1)).unwrap();
    plan.join(transition(2, 0, 0, OPEN_HIGH)).unwrap();
    assert_eq!(plan.greatest_delay().figure(), Figure::Number(2047));
    // A low of 2,047 is 2,047 seconds.
    plan.unjoin(1).unwrap();
    plan.join(transition(1, 2, OPEN_HIGH, OPEN_HIGH)).unwrap();
    assert_eq!(plan.least_delay().figure(), Figure::Number(2048));
    assert_eq!(plan.greatest_delay().figure(), Figure::Endless { j: 2 });
}

/// A route has at least one transition, and its first state may be final.
#[test]
fn calls_begin_answered() {
    let figures = |plan: &Plan| {
        [
            plan.least_delay(),
            plan.greatest_delay(),
            plan.least_count(),
            plan.greatest_count(),
        ]
        .map(|quotation| quotation.figure())
    };
    let [none, stranded] = [Figure::None, Figure::Stranded];
    let mut plan = Plan::fresh(1).unwrap();
    plan.mark(0, START + FINAL + COUNTED).unwrap();
    assert_eq!(figures(&plan), [none, stranded, none, stranded]);
    assert!(plan.greatest_delay().walk().is_empty());
    // A route that ends where it began, and counts its state twice.
    plan.join(transition(0, 0, 3, 4)).unwrap();
    assert_eq!(figures(&plan), [3, 4, 2, 2].map(Figure::Number));
    assert_eq!(plan.least_delay().walk(), [0]);
    let [of_none, of_wards] = [0, 1].map(|team| plan.least_count_for(team).unwrap().figure());
    assert_eq!((of_none, of_wards), (Figure::Number(2), Figure::Number(0)));
    plan.join(transition(0, 0, 3, OPEN_HIGH)).unwrap();
    assert_eq!(plan.greatest_delay().figure(), Figure::Endless { j: 1 });
    assert_eq!(plan.greatest_delay().walk(), [1]);

    // To a dead end, which then becomes a loop.
    let mut plan = Plan::fresh(2).unwrap();
    plan.mark(0, START + FINAL).unwrap();
    plan.join(transition(0, 1, 1, 1)).unwrap();
    assert_eq!(figures(&plan), [none, stranded, none, stranded]);
    assert_eq!(plan.greatest_delay().walk(), [0]);
    plan.join(transition(1, 1, 1, 1)).unwrap();
    let endless = Figure::Endless { j: 1 };
    assert_eq!(figures(&plan), [none, endless, none, endless]);
    assert_eq!(plan.greatest_delay().walk(), [0, 1]);

    // The ring of 512 states: the greatest figures that there are, over 512 transitions.
    let mut plan = Plan::fresh(MAX_STATES).unwrap();
    for state in 0..MAX_STATES {
        let step = transition(state, (state + 1) % MAX_STATES, 2046, OPEN_HIGH - 1);
        plan.mark(state, COUNTED).unwrap();
        plan.join(step).unwrap();
    }
    plan.mark(0, START + FINAL + COUNTED).unwrap();
    let delay = Figure::Number(1_047_552);
    let count = Figure::Number(513);
    assert_eq!(figures(&plan), [delay, delay, count, count]);
    for quotation in [plan.least_delay(), plan.greatest_count()] {
        assert!(quotation.walk().iter().copied().eq(0..512));
    }
}

#[test]
fn an_image_is_quoted_at_once() {
    let quotations = callplan::quote(&P1).unwrap();
    let plan = Plan::from_image(&P1).unwrap();
    let apart = [
        plan.least_delay(),
        plan.greatest_delay(),
        plan.least_count(),
        plan.greatest_count(),
    ];
    for (one, other) in quotations.iter().zip(&apart) {
        assert_eq!(one.figure(), other.figure());
        assert_eq!(one.walk(), other.walk());
    }
    assert_eq!(callplan::quote(&[]).unwrap_err(), Refusal::ImageShort);
    assert_eq!(callplan::quote(&P1[..27]).unwrap_err(), Refusal::ImageShort);
}

#[test]
fn figures_are_displayed_as_the_lines_of_quote_have_them() {
    for (figure, words) in [
        (Figure::Number(0), "0"),
        (Figure::Number(1_048_064), "1048064"),
        (Figure::None, "NONE"),
        (Figure::Stranded, "STRANDED"),
        (Figure::Endless { j: 2 }, "ENDLESS"),
    ] {
        assert_eq!(figure.to_string(), words);
        assert_eq!(format!("{figure:>9}|"), format!("{words:>9}|"));
        assert_eq!(format!("{figure:<9}|"), format!("{words:<9}|"));
    }
    let [least, greatest, ..] = callplan::quote(&P1).unwrap();
    let line = format!("{} {}", least.figure(), greatest.figure());
    assert_eq!(line, "7 60");
}

#[test]
fn states_and_transitions_come_in_their_order() {
    let mut plan = p1().unwrap();
    plan.team(3, MAX_TEAM).unwrap();
    plan.unjoin(3).unwrap(); // what was joined still lies past the count
    assert_eq!(plan.iter_states().len(), 4);
    assert_eq!(plan.iter_transitions().len(), 3);
    for (number, state) in plan.iter_states().enumerate() {
        let (marks, team) = (plan.marks(number), plan.team_of(number));
        assert_eq!((Some(state.marks), Some(state.team)), (marks, team));
    }
    for (number, transition) in plan.iter_transitions().enumerate() {
        assert_eq!(Some(transition), plan.transition(number));
    }
    let last = State {
        marks: FINAL,
        team: MAX_TEAM,
    };
    assert_eq!(plan.iter_states().next_back(), Some(last));
    assert_eq!(plan.iter_states().nth(4), None);
    assert_eq!(plan.iter_transitions().rev().nth(2), plan.transition(0));
    let mut transitions = plan.iter_transitions();
    assert_eq!(transitions.nth(1), plan.transition(1));
    assert_eq!((transitions.len(), transitions.clone().count()), (1, 1));
    assert_eq!(transitions.next(), plan.transition(2));
    assert_eq!((transitions.next(), transitions.len()), (None, 0));

    let plan = Plan::fresh(1).unwrap();
    assert_eq!(plan.iter_transitions().next(), None);
    assert_eq!(plan.iter_states().count(), 1);
    let plan = Plan::generate(1, MAX_STATES, MAX_TRANSITIONS).unwrap();
    assert_eq!(plan.iter_states().len(), MAX_STATES);
    assert_eq!(plan.iter_transitions().len(), MAX_TRANSITIONS);
    let mut copy = Plan::fresh(MAX_STATES).unwrap();
    for (number, state) in plan.iter_states().enumerate() {
        copy.mark(number, state.marks).unwrap();
    }
    for transition in plan.iter_transitions() {
        copy.join(transition).unwrap();
    }
    assert_eq!(copy, plan);
}

/// P1 by a list of calls, a refused one and one that is undone among them; then lists that are none.
#[test]
fn a_list_of_calls_is_made_at_once() {
    use CallKind::{Import, Join, Mark, Read, Team, Unjoin};
    let kinds = [Mark, Join, Join, Mark, Unjoin, Read];
    let arguments = [
        [0, 4, 0, 0],
        [0, 9, 1, 1],
        [0, 1, 1, 9],
        [1, 2, 0, 0],
        [0, 0, 0, 0],
        [0, 28, 0, 0],
    ];
    let mut plan = Plan::generate(7, 9, 9).unwrap();
    let before = plan.clone();
    let mut answers = [9; 7];
    for (n, octets, places, refusal) in [
        (0, &P1[..], 6, Refusal::StateCount),
        (513, &P1, 5, Refusal::StateCount),
        (2, &P1, 5, Refusal::BufferLength),
        (513, &P1[..27], 5, Refusal::NoCalls),
    ] {
        let refused = plan.replay(n, &kinds, &arguments, octets, &mut answers[..places]);
        assert_eq!(refused, Err(refusal));
    }
    let refused = plan.replay(2, &kinds, &arguments[..5], &P1, &mut answers);
    assert_eq!(refused, Err(Refusal::NoCalls));
    assert_eq!((&plan, answers), (&before, [9; 7]));

    let made = plan.replay(2, &kinds[..5], &arguments, &[], &mut answers);
    let [least, greatest, ..] = made.unwrap();
    assert_eq!(answers[5..], [9, 9]);
    let refused = Err(Refusal::ToState);
    assert_eq!(
        [0, 1, 2, 3, 4].map(|i: usize| callplan::answer(answers[i])),
        [Ok(()), refused, Ok(()), Ok(()), Ok(())]
    );
    assert_eq!((plan.states(), plan.transitions()), (2, 0));
    assert_eq!((plan.marks(0), plan.marks(1)), (Some(START), Some(FINAL)));
    assert_eq!(least.figure(), Figure::None);
    assert_eq!(greatest.figure(), Figure::Stranded);

    let quotations = plan.replay(2, &kinds, &arguments, &P1, &mut answers);
    assert_eq!(plan, p1().unwrap());
    assert_eq!(quotations.unwrap(), callplan::quote(&P1).unwrap());
    assert_eq!(answers[5..], [256, 9]);

    let kinds = [Import, Team, Team, Import];
    let end = P1_TEXT.len();
    let arguments = [
        [0, end, 0, 0],
        [3, 31, 0, 0],
        [3, (1 << 32) + 3, 0, 0],
        [1, end, 0, 0],
    ];
    let mut answers = [9; 4];
    let made = plan.replay(1, &kinds, &arguments, P1_TEXT.as_bytes(), &mut answers);
    assert_eq!(made.unwrap()[1].figure(), Figure::Stranded);
    let refusals = [Refusal::TeamNumber, Refusal::TextForm].map(Err);
    assert_eq!(
        answers.map(callplan::answer),
        [Ok(()), Ok(()), refusals[0], refusals[1]]
    );
    assert_eq!((plan.states(), plan.team_of(3)), (4, Some(31)));
    let made = plan.replay(1, &[], &[], &[], &mut []);
    assert_eq!(made.unwrap()[0].figure(), Figure::None);
    assert_eq!(plan, Plan::fresh(1).unwrap());
}

#[test]
fn the_record_is_that_of_document_01() {
    let plan = p1().unwrap();
    let mut buffer = [0xAA; 12];
    assert_eq!(plan.record(&mut buffer[..10]), Err(Refusal::BufferLength));
    assert_eq!(plan.record(&mut buffer), Ok(callplan::RECORD_OCTETS));
    assert_eq!(
        buffer,
        [0x00, 0x00, 0x1C, 0x00, 0x03, 0xC0, 0x00, 0x00, 0x40, 0x00, 0x02, 0xAA]
    );
}

#[test]
fn plans_and_quotations_are_equal_by_what_they_mean() {
    let (one, mut other) = (p1().unwrap(), p1().unwrap());
    assert_eq!(one, other);
    assert_eq!(hash(&one), hash(&other));
    other.join(transition(0, 3, 1, 2)).unwrap();
    assert_ne!(one, other);
    other.unjoin(4).unwrap(); // what was joined still lies past the count
    assert_eq!(one, other);
    assert_eq!(hash(&one), hash(&other));
    other.team(1, 5).unwrap();
    assert_ne!(one, other);
    other.team(1, 0).unwrap();
    assert_eq!(one, other);
    assert_eq!(hash(&one), hash(&other));
    other.mark(1, FINAL).unwrap();
    assert_ne!(one, other);
    assert_ne!(Plan::fresh(1).unwrap(), Plan::fresh(2).unwrap());
    assert_eq!(one.least_delay(), p1().unwrap().least_delay());
    assert_eq!(hash(&one.least_delay()), hash(&p1().unwrap().least_delay()));
    assert_ne!(one.least_delay(), one.greatest_delay());
}

#[test]
fn an_image_makes_a_plan_or_is_refused() {
    assert_eq!(Plan::from_image(&P1).unwrap(), p1().unwrap());
    assert_eq!(Plan::from_image(&[]).unwrap_err(), Refusal::ImageShort);
    assert_eq!(
        Plan::from_image(&P1[..27]).unwrap_err(),
        Refusal::ImageShort
    );
    let mut octets = P1;
    octets[3] = 1;
    assert_eq!(Plan::from_image(&octets).unwrap_err(), Refusal::SpareBits);
}

#[test]
fn one_plan_is_quoted_from_many_threads() {
    let plan = p1().unwrap();
    thread::scope(|scope| {
        for _ in 0..4 {
            scope.spawn(|| {
                for _ in 0..200 {
                    assert_eq!(plan.least_delay().figure(), Figure::Number(7));
                    assert_eq!(plan.greatest_delay().walk(), [0, 1, 3]);
                }
            });
        }
    });
}
