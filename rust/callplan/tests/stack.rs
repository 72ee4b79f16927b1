//! How deep each call of the crate goes on the stack, in the build at hand.
//!
//! A call runs on a thread whose stack is memory of ours, painted before. What is not painted any
//! more when the thread has ended was used. The use of a thread that makes no call is taken off.

use std::alloc::{alloc, dealloc, Layout};
use std::ffi::{c_int, c_void};
use std::hint::black_box;
use std::ptr::null_mut;
use std::slice;

use callplan::{
    CallKind, Plan, Transition, FINAL, MAX_IMAGE_OCTETS, MAX_STATES, MAX_TEXT_OCTETS,
    MAX_TRANSITIONS, START,
};

const STACK: usize = 1 << 20;
/// What docs/LINKING.md says of the crate.
const LIMIT: usize = 112 << 10;
const PAINT: u8 = 0xA5;

/// `pthread_attr_t`, with room to spare: its size is the platform's own.
#[repr(C, align(16))]
struct Attributes([u8; 256]);

extern "C" {
    fn pthread_attr_init(attributes: *mut Attributes) -> c_int;
    fn pthread_attr_setstack(attributes: *mut Attributes, low: *mut u8, size: usize) -> c_int;
    fn pthread_attr_destroy(attributes: *mut Attributes) -> c_int;
    fn pthread_create(
        thread: *mut usize,
        attributes: *const Attributes,
        start: extern "C" fn(*mut c_void) -> *mut c_void,
        argument: *mut c_void,
    ) -> c_int;
    fn pthread_join(thread: usize, result: *mut *mut c_void) -> c_int;
}

extern "C" fn run<F: FnMut()>(call: *mut c_void) -> *mut c_void {
    // SAFETY: the argument is the closure that `used` lends until the thread has ended.
    unsafe { (*call.cast::<F>())() };
    null_mut()
}

/// The octets of stack that a thread uses which makes the call.
fn used<F: FnMut() + Send>(mut call: F) -> usize {
    let layout = Layout::from_size_align(STACK, 4096).expect("a layout of whole pages");
    // SAFETY: the memory is ours and lives until the thread that has it for its stack has ended.
    // Nothing else looks at it meanwhile.
    unsafe {
        let low = alloc(layout);
        assert!(!low.is_null());
        low.write_bytes(PAINT, STACK);
        let mut attributes = Attributes([0; 256]);
        let mut thread = 0;
        assert_eq!(pthread_attr_init(&mut attributes), 0);
        assert_eq!(pthread_attr_setstack(&mut attributes, low, STACK), 0);
        let argument = std::ptr::addr_of_mut!(call).cast();
        assert_eq!(
            pthread_create(&mut thread, &attributes, run::<F>, argument),
            0
        );
        assert_eq!(pthread_join(thread, null_mut()), 0);
        assert_eq!(pthread_attr_destroy(&mut attributes), 0);
        let octets = slice::from_raw_parts(low, STACK);
        let painted = octets.iter().take_while(|&&octet| octet == PAINT).count();
        dealloc(low, layout);
        STACK - painted
    }
}

/// The image of a plan of the largest size, a chain, and the plan.
fn full() -> (Vec<u8>, Plan) {
    let mut plan = Plan::fresh(MAX_STATES).unwrap();
    plan.mark(0, START).unwrap();
    plan.mark(MAX_STATES - 1, FINAL).unwrap();
    for number in 0..MAX_TRANSITIONS {
        let from = number % (MAX_STATES - 1);
        let to = from + 1;
        let (low, high) = (1, 2);
        plan.join(Transition {
            from,
            to,
            low,
            high,
        })
        .unwrap();
    }
    let mut image = vec![0; MAX_IMAGE_OCTETS];
    assert_eq!(plan.write(&mut image), Ok(MAX_IMAGE_OCTETS));
    (image, plan)
}

#[test]
fn every_call_stays_within_what_is_said() {
    let (image, plan) = full();
    let idle = used(|| {});
    let mut deepest = 0;
    let mut tell = |name: &str, depth: usize| {
        println!("  {name:18} {:7} octets of stack", depth - idle);
        deepest = deepest.max(depth - idle);
    };
    let mut target = plan.clone();
    let mut buffer = vec![0; MAX_IMAGE_OCTETS];
    tell("fresh", used(|| assert!(Plan::fresh(MAX_STATES).is_ok())));
    tell(
        "generate",
        used(|| assert!(black_box(Plan::generate(1, MAX_STATES, MAX_TRANSITIONS)).is_ok())),
    );
    tell(
        "from_image",
        used(|| assert!(black_box(Plan::from_image(&image)).is_ok())),
    );
    tell("read", used(|| target.read(&image).unwrap()));
    tell("mark", used(|| target.mark(0, START).unwrap()));
    tell("team", used(|| target.team(0, 31).unwrap()));
    tell("unjoin", used(|| target.unjoin(0).unwrap()));
    tell("write", used(|| assert!(plan.write(&mut buffer).is_ok())));
    let mut text = vec![0; MAX_TEXT_OCTETS];
    tell("export", used(|| assert!(plan.export(&mut text).is_ok())));
    let length = plan.export(&mut text).unwrap();
    tell("import", used(|| target.import(&text[..length]).unwrap()));
    tell(
        "least_delay",
        used(|| assert!(!plan.least_delay().walk().is_empty())),
    );
    tell(
        "greatest_delay",
        used(|| assert!(!plan.greatest_delay().walk().is_empty())),
    );
    tell(
        "least_count_for",
        used(|| assert!(!plan.least_count_for(0).unwrap().walk().is_empty())),
    );
    tell(
        "greatest_count_for",
        used(|| assert!(!plan.greatest_count_for(0).unwrap().walk().is_empty())),
    );
    tell("record", used(|| assert!(plan.record(&mut buffer).is_ok())));
    tell("quote", used(|| assert!(callplan::quote(&image).is_ok())));
    let (kinds, arguments) = ([CallKind::Read], [[0, image.len(), 0, 0]]);
    let mut answers = [0];
    tell(
        "replay",
        used(|| {
            let made = target.replay(1, &kinds, &arguments, &image, &mut answers);
            assert!(made.is_ok());
        }),
    );
    assert!(deepest <= LIMIT, "{deepest} octets of stack");
}
