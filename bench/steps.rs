//! The instructions of one call, each with its address: the processor is made to trap after every one (its trap flag), and the
//! handler notes which comes next. Exact, and the same whatever else runs; Linux on x86-64 only. What the call uses of the C library
//! is counted with it.

use std::arch::{asm, global_asm};
use std::sync::atomic::{AtomicUsize, Ordering::Relaxed};

/// No call of the library comes near it; one that does ends the program.
const ROOM: usize = 1 << 16;
const SIGTRAP: i32 = 5;
const SA_SIGINFO: i32 = 4;
/// Where the registers begin in what a handler is given, and where the stack pointer, the instruction pointer and the flags stand among
/// them.
const REGISTERS: usize = 40;
const RSP: usize = 15;
const RIP: usize = 16;
const FLAGS: usize = 17;
const TRAP: u64 = 0x100;

/// As glibc has it.
#[repr(C)]
struct Action {
    handler: extern "C" fn(i32, *mut u8, *mut u8),
    mask: [u64; 16],
    flags: i32,
    restorer: usize,
}

// One instruction, three times two, and the return.
global_asm!(
    ".globl steps_of_eight",
    "steps_of_eight:",
    "mov eax, 3",
    "2:",
    "dec eax",
    "jnz 2b",
    "ret"
);

unsafe extern "C" {
    fn steps_of_eight();
    fn sigaction(signal: i32, new: *const Action, old: *mut Action) -> i32;
    static __executable_start: u8;
    static etext: u8;
}

static ENTRY: AtomicUsize = AtomicUsize::new(0);
/// The stack pointer at the entry, 0 before it.
static INSIDE: AtomicUsize = AtomicUsize::new(0);
static DEEPEST: AtomicUsize = AtomicUsize::new(0);
static NOTED: AtomicUsize = AtomicUsize::new(0);
static ADDRESSES: [AtomicUsize; ROOM] = [const { AtomicUsize::new(0) }; ROOM];

/// What one call executed.
#[derive(Clone, Debug, Default)]
pub struct Trace {
    /// The address of each instruction, in order, from the function's entry to its return.
    pub addresses: Vec<usize>,
    /// Bytes of stack, the return address among them, as far as the stack pointer tells.
    pub stack: usize,
}

impl Trace {
    pub fn len(&self) -> usize {
        self.addresses.len()
    }

    /// How many of them are the C library's (memcpy and the like), which lies outside the program.
    pub fn outside(&self) -> usize {
        self.addresses.iter().filter(|at| within(**at).is_none()).count()
    }

    /// The addresses, counted from the program's beginning, as a disassembler has them; - is one outside.
    pub fn words(&self) -> String {
        let word = |at: &usize| within(*at).map_or("-".to_string(), |at| format!("{at:x}"));
        self.addresses.iter().map(word).collect::<Vec<String>>().join(" ")
    }
}

/// The place in the program, if the address is one.
fn within(at: usize) -> Option<usize> {
    let (begin, end) = (&raw const __executable_start as usize, &raw const etext as usize);
    (begin..end).contains(&at).then(|| at - begin)
}

extern "C" fn trapped(_: i32, _: *mut u8, context: *mut u8) {
    // SAFETY: the system hands in the registers of the program at this place of its context.
    let registers = unsafe { context.add(REGISTERS).cast::<[u64; 23]>().as_mut() };
    let Some(registers) = registers else { return };
    let (stack, at) = (registers[RSP] as usize, registers[RIP] as usize);
    match INSIDE.load(Relaxed) {
        0 if at != ENTRY.load(Relaxed) => {}
        0 => {
            INSIDE.store(stack, Relaxed);
            DEEPEST.store(stack, Relaxed);
            note(at);
        }
        // The return address is off the stack.
        entry if stack > entry => registers[FLAGS] &= !TRAP,
        _ => {
            DEEPEST.fetch_min(stack, Relaxed);
            note(at);
        }
    }
}

fn note(at: usize) {
    let noted = NOTED.fetch_add(1, Relaxed);
    if let Some(place) = ADDRESSES.get(noted) {
        place.store(at, Relaxed);
    }
}

/// Sets up the handler, once, before the first `trace`; and counts what is known.
pub fn begin() {
    let action = Action {
        handler: trapped,
        mask: [0; 16],
        flags: SA_SIGINFO,
        restorer: 0,
    };
    // SAFETY: the handler touches nothing but its own numbers and the registers that it is handed.
    let set = unsafe { sigaction(SIGTRAP, &action, std::ptr::null_mut()) };
    assert_eq!(set, 0, "the handler is set");
    // SAFETY: it changes a register that a call may change.
    let ((), known) = trace(steps_of_eight as *const () as usize, || unsafe { steps_of_eight() });
    assert_eq!(
        (known.len(), known.stack),
        (8, 8),
        "eight instructions and a return address are counted"
    );
}

/// Makes a call of the function at `entry`, in one thread at a time, and gives what it returned and what it executed.
pub fn trace<R>(entry: usize, call: impl FnOnce() -> R) -> (R, Trace) {
    ENTRY.store(entry, Relaxed);
    INSIDE.store(0, Relaxed);
    NOTED.store(0, Relaxed);
    // SAFETY: sets the trap flag, and nothing else; the handler takes it off when the function has returned.
    unsafe { asm!("pushfq", "or qword ptr [rsp], 0x100", "popfq") };
    let returned = call();
    let noted = NOTED.load(Relaxed);
    assert!(
        (1..=ROOM).contains(&noted),
        "the call was made, and its instructions have room: {noted}"
    );
    let addresses = ADDRESSES[..noted].iter().map(|at| at.load(Relaxed)).collect();
    // With the return address, which stands at the stack pointer at the entry.
    let stack = 8 + INSIDE.load(Relaxed) - DEEPEST.load(Relaxed);
    (returned, Trace { addresses, stack })
}
