//! What a read takes of an image (document 02, E6). The octets behind the bits that it takes lie on
//! pages that nobody may touch: a read that looked at one more would end the test. Then images that
//! are refused at their last transition, which leave the old plan.

use std::alloc::{alloc_zeroed, dealloc, Layout};
use std::ffi::{c_int, c_void};
use std::io::Write;
use std::os::unix::net::UnixStream;
use std::slice;

use reference::image::{bits_taken, decode, encode, length};
use reference::proved::ACCEPTED;
use reference::rng::{print, Case, Rng};
use reference::{Transition, MAX_STATES, MAX_TRANSITIONS};

use crate::generate::{self, get};
use crate::pair::{Call, Pair};

const SEED: u64 = 0x0B17_5EED;
const IMAGES: u64 = 20_000;

/// A multiple of every platform's page, and more than an image has octets.
const PART: usize = 64 << 10;

extern "C" {
    fn mprotect(address: *mut c_void, length: usize, protection: c_int) -> c_int;
}

const NO_ACCESS: c_int = 0;
const READ_AND_WRITE: c_int = 3;

/// Memory in two parts, of which the second may not be touched.
struct Guarded {
    front: *mut u8,
}

impl Guarded {
    fn layout() -> Layout {
        Layout::from_size_align(2 * PART, PART).expect("a layout of whole pages")
    }

    fn protect(&self, protection: c_int) {
        // SAFETY: the second part is whole pages of ours, which nothing else lies on.
        let status = unsafe { mprotect(self.front.add(PART).cast(), PART, protection) };
        assert_eq!(status, 0);
    }

    fn new() -> Guarded {
        // SAFETY: the layout is not empty.
        let front = unsafe { alloc_zeroed(Guarded::layout()) };
        assert!(!front.is_null());
        let guarded = Guarded { front };
        guarded.protect(NO_ACCESS);
        guarded
    }

    /// As many octets as the slice has, of which the first `front` lie before the guarded part.
    fn lend(&mut self, octets: &[u8], front: usize) -> &[u8] {
        assert!(front <= octets.len() && octets.len() <= PART);
        // SAFETY: they lie within the memory. Only those in front are written here; the library is
        // handed no more than the pointer and the length.
        unsafe {
            let place = self.front.add(PART - front);
            place.copy_from_nonoverlapping(octets.as_ptr(), front);
            slice::from_raw_parts(place, octets.len())
        }
    }
}

impl Drop for Guarded {
    fn drop(&mut self) {
        self.protect(READ_AND_WRITE);
        // SAFETY: it was allocated by this layout.
        unsafe { dealloc(self.front, Guarded::layout()) };
    }
}

/// How a read ended.
#[derive(Clone, Copy, Debug, PartialEq)]
enum End {
    Short,
    Header,
    State,
    Transition,
    Accepted,
}

const ENDS: [End; 5] = [
    End::Short,
    End::Header,
    End::State,
    End::Transition,
    End::Accepted,
];

/// How a read of the octets ends that takes so many bits, which are counted once more on the way.
fn end(octets: &[u8], taken: usize) -> End {
    let all = 8 * octets.len();
    if decode(octets).is_ok() {
        assert_eq!(taken, all);
        return End::Accepted;
    }
    assert!(taken <= all);
    if octets.len() < 4 {
        assert_eq!(taken, 0);
        return End::Short;
    }
    let (n, m) = (get(octets, 4, 10), get(octets, 14, 12));
    let first = 32 + 8 * n;
    if taken == 32 {
        return End::Header;
    }
    assert_eq!(all, 8 * length(n, m));
    if taken <= first {
        // The state that ends there has a spare bit, and none before it.
        let spare = |state: usize| octets[4 + state] & 31 != 0;
        let last = (taken - 32) / 8 - 1;
        assert_eq!((0..n).position(spare), Some(last));
        assert_eq!(taken, 32 + 8 * (last + 1));
        return End::State;
    }
    let wrong = |number: usize| {
        let at = generate::transition_at(n, number);
        let (from, to) = (get(octets, at, 9), get(octets, at + 9, 9));
        from >= n || to >= n || get(octets, at + 18, 11) > get(octets, at + 29, 11)
    };
    let last = (0..m).position(wrong).expect("a transition is wrong");
    assert_eq!(taken, first + 40 * (last + 1));
    End::Transition
}

#[test]
fn no_octet_behind_the_bits_taken_is_touched() {
    let mut memory = Guarded::new();
    // The guarded part can't be read: not by the system either.
    let (mut socket, _other) = UnixStream::pair().expect("a pair of sockets");
    assert!(socket.write(memory.lend(&[0; 2], 2)).is_ok());
    assert!(socket.write(memory.lend(&[0; 2], 0)).is_err());

    let mut counts = [0; ENDS.len()];
    let mut pair = Pair::fresh(&mut Rng::of_test("no_octet_behind", SEED), 3);
    for number in 0..IMAGES {
        let mut rng = Case { seed: SEED, number }.rng();
        let octets = generate::image(&mut rng);
        let taken = bits_taken(&octets);
        counts[end(&octets, taken) as usize] += 1;
        assert_eq!(taken % 8, 0);
        let mut lent = pair.lent().clone();
        let read = lent.read(memory.lend(&octets, taken / 8));
        let mut made = pair.lent().clone();
        assert_eq!(made.make(memory.lend(&octets, taken / 8)), read);
        assert_eq!(pair.run(&Call::Read(octets)), read);
        assert!(lent == *pair.lent());
    }
    for end in ENDS {
        print(&format!("bits taken: {end:?} {}\n", counts[end as usize]));
        assert!(counts[end as usize] > 0, "{end:?} never came up");
    }
}

/// Transitions of a plan of `n` states that are wrong in their from, their to and their durations, as far as an
/// image can hold them, with the number that each is refused by.
fn wrong(n: usize) -> Vec<(Transition, u32)> {
    let transition = |from, to, low, high| Transition {
        from,
        to,
        low,
        high,
    };
    let mut list = vec![
        (transition(0, n - 1, 1, 0), 8),
        (transition(n - 1, 0, 2047, 2046), 8),
    ];
    if n < MAX_STATES {
        list.push((transition(n, 0, 3, 5), 16));
        list.push((transition(0, n, 3, 5), 17));
    }
    list
}

#[test]
fn refused_at_the_last_transition() {
    let mut rng = Rng::of_test("refused_at_the_last_transition", SEED);
    let full = (MAX_STATES, MAX_TRANSITIONS);
    let sizes = [(1, 1), (1, 2), (4, 4), (511, 3), (512, 1), full];
    for (old_n, old_m) in sizes {
        let old = generate::plan(&mut rng, old_n, old_m);
        for (n, m) in sizes {
            for (bad, number) in wrong(n) {
                let mut plan = generate::plan(&mut rng, n, m);
                plan.transitions[m - 1] = bad;
                let octets = encode(&plan);
                assert_eq!(bits_taken(&octets), 8 * length(n, m));
                let mut pair = Pair::fresh(&mut rng, 1);
                pair.by_hand(|lent| lent.hold(&old));
                pair.fill_past_counts(&mut rng);
                let before = pair.lent().clone();
                assert_eq!(pair.run(&Call::Read(octets.clone())), number);
                assert!(*pair.lent() == before && *pair.plan() == old);
                assert_eq!(pair.run(&Call::FromImage(octets)), number);
                assert!(*pair.lent() == before);
                // The same with a last transition that is right replaces it.
                plan.transitions[m - 1].from = 0;
                plan.transitions[m - 1].to = n - 1;
                plan.transitions[m - 1].high = 2047;
                assert_eq!(pair.run(&Call::Read(encode(&plan))), ACCEPTED);
                assert!(*pair.plan() == plan);
            }
        }
    }
}
