//! How deep each call of the proved library goes on the stack.
//!
//! A call runs on a thread whose stack is memory of ours, painted before. What is not painted any
//! more when the thread has ended was used. The use of a thread that makes no call is taken off.

use std::alloc::{alloc, dealloc, Layout};
use std::ffi::{c_int, c_void};
use std::hint::black_box;
use std::ptr::null_mut;
use std::slice;

use reference::aldebaran;
use reference::image::{encode, length};
#[cfg(feature = "quotations")]
use reference::proved::{quote, replay, LentCalls, OUT, WALKS};
use reference::proved::{LentPlan, ACCEPTED};
use reference::rng::print;
#[cfg(feature = "quotations")]
use reference::{quotation::RECORD_OCTETS, Asked, Figure, FIGURES};
use reference::{Plan, Refusal, Transition, MAX_STATES, MAX_TRANSITIONS, OPEN_HIGH};

const STACK: usize = 1 << 20;
const LIMIT: usize = 96 << 10;
const PAINT: u8 = 0xA5;

/// `pthread_attr_t`, with room to spare: its size is the platform's own.
#[repr(C, align(16))]
struct Attributes([u8; 256]);

extern "C" {
    fn pthread_attr_init(attributes: *mut Attributes) -> c_int;
    fn pthread_attr_setstack(attributes: *mut Attributes, low: *mut u8, size: usize) -> c_int;
    fn pthread_attr_destroy(attributes: *mut Attributes) -> c_int;
    fn pthread_create(
        thread: *mut usize,
        attributes: *const Attributes,
        start: extern "C" fn(*mut c_void) -> *mut c_void,
        argument: *mut c_void,
    ) -> c_int;
    fn pthread_join(thread: usize, result: *mut *mut c_void) -> c_int;
}

extern "C" fn run<F: FnMut()>(call: *mut c_void) -> *mut c_void {
    // SAFETY: the argument is the closure that `used` lends until the thread has ended.
    unsafe { (*call.cast::<F>())() };
    null_mut()
}

/// The octets of stack that a thread uses which makes the call.
fn used<F: FnMut() + Send>(mut call: F) -> usize {
    let layout = Layout::from_size_align(STACK, 4096).expect("a layout of whole pages");
    // SAFETY: the memory is ours and lives until the thread that has it for its stack has ended.
    // Nothing else looks at it meanwhile.
    unsafe {
        let low = alloc(layout);
        assert!(!low.is_null());
        low.write_bytes(PAINT, STACK);
        let mut attributes = Attributes([0; 256]);
        let mut thread = 0;
        assert_eq!(pthread_attr_init(&mut attributes), 0);
        assert_eq!(pthread_attr_setstack(&mut attributes, low, STACK), 0);
        let argument = (&raw mut call).cast();
        assert_eq!(
            pthread_create(&mut thread, &attributes, run::<F>, argument),
            0
        );
        assert_eq!(pthread_join(thread, null_mut()), 0);
        assert_eq!(pthread_attr_destroy(&mut attributes), 0);
        let octets = slice::from_raw_parts(low, STACK);
        let painted = octets.iter().take_while(|&&octet| octet == PAINT).count();
        dealloc(low, layout);
        STACK - painted
    }
}

/// A plan of the largest size: a chain, with steps back in it if `has_loops`. All highs are closed.
fn full(has_loops: bool) -> Plan {
    let mut marks = vec![1; MAX_STATES];
    marks[0] = 4;
    marks[MAX_STATES - 1] = 2;
    let transitions = (0..MAX_TRANSITIONS).map(|number| {
        let from = number * 5 % (MAX_STATES - 1);
        let is_back = has_loops && number > MAX_STATES;
        Transition {
            from,
            to: if is_back { from / 2 } else { from + 1 },
            low: (number % 1023) as u32,
            high: 1024 + (number % 1023) as u32,
        }
    });
    let mut plan = Plan::of(marks, transitions.collect());
    for (state, number) in plan.states.iter_mut().zip(0..) {
        state.team = number % 32;
    }
    plan
}

/// Plans with figures of every kind.
fn plans() -> Vec<Plan> {
    let (chain, loops) = (full(false), full(true));
    let mut stranded = chain.clone();
    stranded.states[MAX_STATES - 1].marks = 0;
    // Open at the end of the chain, so that the whole of it is shown.
    let mut open = chain.clone();
    for transition in &mut open.transitions {
        if transition.to == MAX_STATES - 1 {
            transition.high = OPEN_HIGH;
        }
    }
    // A ring through a state that is start and final, whose one route is all its states.
    let mut ring = chain.clone();
    ring.states[0].marks = 7;
    ring.states[MAX_STATES - 1].marks = 1;
    ring.transitions[0] = Transition {
        from: MAX_STATES - 1,
        to: 0,
        low: 0,
        high: 0,
    };
    vec![Plan::fresh(1).unwrap(), chain, loops, stranded, open, ring]
}

/// The most stack that the call uses on a plan, where it is accepted.
fn most(call: impl Fn(LentPlan, &Plan) -> u32 + Sync) -> usize {
    let idle = used(|| {});
    let of_plan = |plan: &Plan| {
        let mut lent = LentPlan::zeroed();
        lent.hold(plan);
        let mut answer = 0;
        let depth = used(|| answer = call(lent.clone(), plan));
        (answer >= ACCEPTED).then_some(depth - idle)
    };
    let depths: Vec<usize> = plans().iter().filter_map(of_plan).collect();
    assert!(depths.len() >= 4, "most plans are accepted");
    depths.into_iter().max().unwrap_or(0)
}

#[test]
fn the_measure_sees_a_large_frame() {
    assert!(used(|| {}) < 32 << 10);
    let depth = used(|| {
        black_box([1u8; 200 << 10]);
    });
    assert!(depth >= 200 << 10, "{depth} octets");
}

#[test]
fn every_call_stays_within_the_limit() {
    let fresh = most(|mut lent, _| lent.fresh(MAX_STATES));
    let generate = most(|mut lent, _| lent.generate(1, MAX_STATES, MAX_TRANSITIONS));
    let mark = most(|mut lent, _| lent.mark(0, 7));
    let team = most(|mut lent, _| lent.team(0, 31));
    let unjoin = most(|mut lent, _| lent.unjoin(0));
    let join = most(|mut lent, plan| {
        // A full plan has room once its last transition is gone.
        lent.counts[1] = lent.counts[1].min(MAX_TRANSITIONS - 1);
        let (from, to, low, high) = (0, plan.states.len() - 1, 0, 0);
        lent.join(Transition {
            from,
            to,
            low,
            high,
        })
    });
    let read = most(|mut lent, plan| lent.read(&encode(plan)));
    let from_image = most(|mut lent, plan| lent.make(&encode(plan)));
    let write = most(|lent, _| lent.write(&mut vec![0; length(MAX_STATES, MAX_TRANSITIONS)]));
    let import = most(|mut lent, plan| match aldebaran::encode(plan) {
        Ok(text) => {
            // Off the form by its last octet, and then the whole text.
            let off = lent.import(&text.as_bytes()[..text.len() - 1]);
            assert_eq!(off, Refusal::TextForm.number());
            lent.import(text.as_bytes())
        }
        Err(refusal) => refusal.number(),
    });
    let export = most(|lent, _| lent.export(&mut vec![0; 1 << 16]));
    #[cfg_attr(not(feature = "quotations"), allow(unused_mut))]
    let mut depths = vec![
        ("fresh", fresh),
        ("generate", generate),
        ("mark", mark),
        ("team", team),
        ("join", join),
        ("unjoin", unjoin),
        ("read", read),
        ("from_image", from_image),
        ("write", write),
        ("import", import),
        ("export", export),
    ];
    #[cfg(feature = "quotations")]
    depths.extend(quotations());

    for (name, depth) in &depths {
        print(&format!("  {name:18} {depth:7} octets of stack\n"));
    }
    for (name, depth) in depths {
        assert!(depth <= LIMIT, "{name} used {depth} octets of stack");
    }
}

#[cfg(feature = "quotations")]
fn quotations() -> Vec<(&'static str, usize)> {
    let of_asked =
        |asked: Asked| most(|lent, _| lent.quote(asked, &mut vec![0; MAX_STATES], &mut [0; OUT]));
    let of_figure = |figure: Figure| (figure.name(), of_asked(figure.into()));
    let mut depths = FIGURES.map(of_figure).to_vec();
    let [least, greatest] = [Figure::LeastCount, Figure::GreatestCount];
    depths.extend([
        ("least count for", of_asked(least.for_class_of(15))),
        ("greatest count for", of_asked(greatest.for_class_of(15))),
    ]);
    let record = most(|lent, _| lent.record(&mut [0; RECORD_OCTETS]));
    let quote = most(|_, plan| quote(&encode(plan), &mut vec![0; WALKS], &mut [0; 4 * OUT]));
    let replay = most(|mut lent, plan| {
        // A call of each kind: the text is imported, the image is read, a transition goes, one comes, a
        // state is marked, and it gets a team.
        let text = aldebaran::encode(plan).unwrap_or_default();
        let image = encode(plan);
        let octets = [text.as_bytes(), &image].concat();
        let mut arguments = vec![0; 24];
        arguments[1] = text.len();
        arguments[4..6].copy_from_slice(&[text.len(), octets.len()]);
        let calls = LentCalls {
            kinds: vec![4, 3, 2, 1, 0, 5],
            arguments,
            octets,
        };
        let (mut walks, mut out) = (vec![0; WALKS], [0; 4 * OUT]);
        replay(1, &calls, &mut [0; 6], &mut lent, &mut walks, &mut out)
    });
    depths.extend([("record", record), ("quote", quote), ("replay", replay)]);
    depths
}
