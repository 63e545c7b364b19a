//! Times our verdict against the two linear Rust checkers on the same sheets, the least of nine rounds in turn; then on grids with long
//! vertical links against those without, and measures the stack that our verdict takes on the largest sheet.

mod bars;
mod kinds;
mod least;
mod linear;

use bars::{Bars, JUDGED};
use kinds::{on_both_kinds, MOST_LONG_RATIO};
use least::{least, ROUNDS};
use second::sheets;
use std::alloc::{alloc, dealloc, handle_alloc_error, Layout};
use std::ffi::c_void;
use std::hint::black_box;
use std::process::ExitCode;

extern "C" {
    fn argo_verdict(sheet: *const u32, length: usize) -> u32;
}

const MOST_OF_TUNED: f64 = 0.6;
const STACK_LIMIT: usize = 512 * 1024;

fn our_verdict(sheet: &[u32]) -> u32 {
    // The pointer and the length are those of a live slice.
    unsafe { argo_verdict(sheet.as_ptr(), sheet.len()) }
}

fn main() -> ExitCode {
    let mut bars = Bars::default();
    println!("our verdict against two linear checkers in Rust, the least of {ROUNDS} rounds in turn");
    println!("{:<14} {:>6} {:>10} {:>10} {JUDGED} {:>10} {JUDGED}", "sheet", "words", "ours, ns", "tuned, ns", "plain, ns");
    // No bar is set for mixed slots against the plain table.
    let timed = [
        ("sheet A", sheets::sheet_a(), Some(0.6)),
        ("middle", sheets::middle(1), Some(0.35)),
        ("largest", sheets::largest(1), Some(0.25)),
        ("mixed lengths", sheets::largest_mixed(1), None),
    ];
    for (name, plan, most_of_plain) in timed {
        time_verdicts(&mut bars, name, &plan.words(), most_of_plain);
    }

    println!("{:<14} {:>6} {:>10} {:>10} {JUDGED}", "both kinds", "words", "long, ns", "short, ns");
    for (name, plan) in [("sheet A", sheets::sheet_a()), ("middle", sheets::middle(1)), ("largest", sheets::largest(1))] {
        let [short, long] = on_both_kinds(&plan).map(|plan| plan.words());
        assert_eq!([our_verdict(&short), our_verdict(&long)], [0, 0], "the entries pass on either kind");
        let [long_time, short_time] = least([
            &mut || our_verdict(black_box(&long)).into(),
            &mut || our_verdict(black_box(&short)).into(),
        ]);
        let judged = bars.at_most(long_time / short_time, MOST_LONG_RATIO);
        println!("{name:<14} {:>6} {long_time:>10.1} {short_time:>10.1} {judged}", long.len());
    }

    let bytes = stack_bytes(&sheets::largest(1).words());
    let judged = bars.at_most(bytes as f64 / STACK_LIMIT as f64, 1.0);
    println!("stack of our verdict on the largest sheet: {bytes} bytes of {STACK_LIMIT} {judged}");
    bars.exit()
}

fn time_verdicts(bars: &mut Bars, name: &str, sheet: &[u32], most_of_plain: Option<f64>) {
    let verdicts = [our_verdict(sheet), linear::tuned_verdict(sheet), linear::verdict(sheet)];
    assert_eq!(verdicts, [0, 0, 0], "{name} has to pass");
    let [ours, tuned, plain] = least([
        &mut || our_verdict(black_box(sheet)).into(),
        &mut || linear::tuned_verdict(black_box(sheet)).into(),
        &mut || linear::verdict(black_box(sheet)).into(),
    ]);
    let of_tuned = bars.at_most(ours / tuned, MOST_OF_TUNED);
    let of_plain = most_of_plain.map_or(format!("{:>8.4}", ours / plain), |most| bars.at_most(ours / plain, most));
    println!("{name:<14} {:>6} {ours:>10.1} {tuned:>10.1} {of_tuned} {plain:>10.1} {of_plain}", sheet.len());
}

// The C library's threads, since only they take a stack of the caller's.

/// Larger than the C library's own.
#[repr(C, align(16))]
struct ThreadAttributes([u8; 128]);

extern "C" {
    fn pthread_attr_init(attributes: *mut ThreadAttributes) -> i32;
    fn pthread_attr_setstack(attributes: *mut ThreadAttributes, stack: *mut c_void, bytes: usize) -> i32;
    fn pthread_create(
        thread: *mut usize,
        attributes: *const ThreadAttributes,
        start: extern "C" fn(*mut c_void) -> *mut c_void,
        argument: *mut c_void,
    ) -> i32;
    fn pthread_join(thread: usize, result: *mut *mut c_void) -> i32;
}

struct Call<'a> {
    sheet: &'a [u32],
    top: usize,
    verdict: u32,
}

extern "C" fn call_on_own_stack(argument: *mut c_void) -> *mut c_void {
    let call = unsafe { &mut *argument.cast::<Call>() };
    let mark = 0u8;
    call.top = black_box(&raw const mark) as usize;
    call.verdict = our_verdict(call.sheet);
    std::ptr::null_mut()
}

/// How far below the caller's frame our verdict writes, seen on a stack that was filled
/// with a pattern beforehand. The stack is larger than the main thread's, which has
/// sufficed when this is called.
fn stack_bytes(sheet: &[u32]) -> usize {
    const STACK: usize = 16 * 1024 * 1024;
    const PATTERN: u8 = 0xA5;
    let layout = Layout::from_size_align(STACK, 4_096).expect("a power of two");
    let mut call = Call { sheet, top: 0, verdict: u32::MAX };
    unsafe {
        let stack = alloc(layout);
        if stack.is_null() {
            handle_alloc_error(layout);
        }
        stack.write_bytes(PATTERN, STACK);
        let mut attributes = ThreadAttributes([0; 128]);
        let mut thread = 0;
        assert_eq!(pthread_attr_init(&mut attributes), 0);
        assert_eq!(pthread_attr_setstack(&mut attributes, stack.cast(), STACK), 0);
        let argument = (&raw mut call).cast();
        assert_eq!(pthread_create(&mut thread, &attributes, call_on_own_stack, argument), 0);
        assert_eq!(pthread_join(thread, std::ptr::null_mut()), 0);
        let untouched = (0..STACK).take_while(|&position| stack.add(position).read_volatile() == PATTERN).count();
        let lowest = stack as usize + untouched;
        dealloc(stack, layout);
        assert_eq!(call.verdict, 0, "the largest sheet passes");
        call.top - lowest
    }
}
