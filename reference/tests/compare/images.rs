//! Random images: good, made of noise, damaged, truncated and over-long.

use reference::image::{decode, encode};
use reference::proved::ACCEPTED;
use reference::rng::{Case, Rng};

use crate::ends;
use crate::generate::{self, put};
use crate::pair::{Call, Pair};
use crate::tally::Tally;

const SEED: u64 = 0x0001_3A6E;
const IMAGES: u64 = 200_000;

#[test]
fn random_images() {
    let mut tally = Tally::default();
    let mut pair = Pair::fresh(&mut Rng::of_test("random_images", SEED), 3);
    for number in 0..IMAGES {
        let case = Case { seed: SEED, number };
        let mut rng = case.rng();
        let octets = generate::image(&mut rng);
        if rng.one_in(50) {
            // The same image over an old plan altered by hand.
            let mut altered = pair.clone();
            generate::alter(&mut rng, &mut altered);
            read(&mut altered, &octets, &mut tally);
        }
        read(&mut pair, &octets, &mut tally);
    }
    tally.print(&format!(
        "images: {IMAGES}, and some again over an altered plan"
    ));
    tally.assert_covers(&["read", "from_image"]);
}

/// Reads the image on both, and makes a plan of it alone. An accepted one of version 2 must be written
/// back as it was, and one of version 1 as the same with version 2.
fn read(pair: &mut Pair, octets: &[u8], tally: &mut Tally) {
    let n = pair.plan().states.len();
    let make = Call::FromImage(octets.to_vec());
    tally.add_call(&make, n, pair.clone().run(&make));
    let read = Call::Read(octets.to_vec());
    let answer = pair.run(&read);
    tally.add_call(&read, n, answer);
    if answer == ACCEPTED {
        let mut octets = octets.to_vec();
        if octets[0] < 0x20 {
            octets[0] += 0x10;
            let teams = pair.plan().teams();
            assert!(teams.iter().all(|&team| team == 0), "{octets:02X?}");
        }
        assert!(encode(pair.plan()) == octets, "{octets:02X?}");
        let written = pair.run(&Call::Write(vec![0xAA; octets.len() + 2]));
        assert_eq!(written, ACCEPTED + octets.len() as u32);
    }
}

/// Every value of each header field in turn, alone and over a body that fits or does not.
#[test]
fn every_value_of_each_header_field() {
    let mut rng = Rng::of_test("every_value_of_each_header_field", SEED);
    let mut pair = Pair::fresh(&mut rng, 3);
    let good = encode(&generate::plan(&mut rng, 4, 4));
    for (at, width) in [(0, 4), (4, 10), (14, 12), (26, 6)] {
        for value in 0..1 << width {
            let mut octets = good.clone();
            put(&mut octets, at, width, value);
            pair.run(&Call::Read(octets[..4].to_vec()));
            pair.run(&Call::Read(octets[..3].to_vec()));
            pair.run(&Call::Read(octets));
        }
    }
    // Every version with every pad, of a plan with teams and of one without.
    let mut teamless = good.clone();
    generate::make_version_1(&mut teamless);
    let mut with_teams = teamless.clone();
    with_teams[4] |= 31;
    for (image, versions) in [(&teamless, &[1, 2][..]), (&with_teams, &[2])] {
        for both in 0..1 << 10 {
            let (version, pad) = (both / 64, both % 64);
            let mut octets = image.clone();
            put(&mut octets, 0, 4, version);
            put(&mut octets, 26, 6, pad);
            let answer = pair.run(&Call::Read(octets));
            let expected = match (version, pad) {
                (1 | 2, 0) if versions.contains(&version) => ACCEPTED,
                (1 | 2, _) => 6,
                _ => 3,
            };
            assert_eq!(answer, expected, "version {version}, pad {pad}");
        }
    }
}

/// Every team of every state, in both versions, over a plan with teams.
#[test]
fn every_team_of_each_state() {
    let mut rng = Rng::of_test("every_team_of_each_state", SEED);
    let n = 5;
    let old = generate::plan(&mut rng, 7, 2);
    for state in 0..n {
        for team in 0..32 {
            let mut plan = generate::plan(&mut rng, n, 3);
            plan.states[state].team = team;
            let octets = encode(&plan);
            for call in [Call::Read, Call::FromImage] {
                let mut pair = Pair::fresh(&mut rng, 1);
                pair.by_hand(|lent| lent.hold(&old));
                assert_eq!(pair.run(&call(octets.clone())), ACCEPTED);
                assert!(*pair.plan() == plan);
                let mut teamless = octets.clone();
                generate::make_version_1(&mut teamless);
                assert_eq!(pair.run(&call(teamless.clone())), ACCEPTED);
                assert_eq!(pair.plan().teams(), vec![0; n]);
                teamless[4 + state] |= team;
                let answer = pair.run(&call(teamless));
                assert_eq!(answer, if team == 0 { ACCEPTED } else { 6 });
            }
        }
    }
}

/// Every value of each field of the body.
#[test]
fn every_value_of_each_body_field() {
    let mut rng = Rng::of_test("every_value_of_each_body_field", SEED);
    let mut pair = Pair::fresh(&mut rng, 3);
    let (n, m) = (5, 3);
    let written = encode(&generate::plan(&mut rng, n, m));
    let mut teamless = written.clone();
    generate::make_version_1(&mut teamless);
    let states = (0..n).map(|state| (32 + 8 * state, 8));
    let transitions = (0..m).flat_map(|number| {
        let at = 32 + 8 * n + 40 * number;
        [(at, 9), (at + 9, 9), (at + 18, 11), (at + 29, 11)]
    });
    for (at, width) in states.chain(transitions) {
        for value in 0..1 << width {
            for good in [&written, &teamless] {
                let mut octets = good.clone();
                put(&mut octets, at, width, value);
                let accepted = decode(&octets).is_ok();
                let answer = pair.run(&Call::Read(octets));
                assert_eq!(answer == ACCEPTED, accepted);
            }
        }
    }
}

/// Images with one or two wrong transitions, each wrong in every way.
#[test]
fn wrong_transitions() {
    let mut rng = Rng::of_test("wrong_transitions", SEED);
    for (plan, number) in ends::plans() {
        let octets = encode(&plan);
        let answer = number.unwrap_or(ACCEPTED);
        for call in [Call::Read(octets.clone()), Call::FromImage(octets.clone())] {
            let mut pair = Pair::fresh(&mut rng, 5);
            assert_eq!(pair.run(&call), answer, "{plan:?}");
        }
        // A spare bit of the last state comes before; in version 2 it is none.
        let mut octets = octets;
        octets[7] |= 1;
        let mut pair = Pair::fresh(&mut rng, 5);
        assert_eq!(pair.run(&Call::Read(octets.clone())), answer, "{plan:?}");
        octets[0] -= 0x10;
        assert_eq!(pair.run(&Call::Read(octets)), 6, "{plan:?}");
    }
}

/// The same image at every length up to its own, and past it.
#[test]
fn every_length() {
    let mut rng = Rng::of_test("every_length", SEED);
    let mut pair = Pair::fresh(&mut rng, 3);
    let good = encode(&generate::plan(&mut rng, 300, 700));
    let mut octets = good.clone();
    octets.extend(rng.octets(300));
    for length in 0..=octets.len() {
        let answer = pair.run(&Call::Read(octets[..length].to_vec()));
        assert_eq!(answer == ACCEPTED, length == good.len());
    }
}
