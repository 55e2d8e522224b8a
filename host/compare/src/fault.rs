//! What is said when a call reads or writes where it may not: the process ends there.
#![allow(unsafe_code)]

use std::ffi::{c_int, c_void};
use std::fmt::{self, Write};
use std::ops::Range;
use std::ptr;
use std::sync::atomic::{AtomicPtr, Ordering};

use crate::engines::Call;
use crate::lent::End;
use crate::pages::GAP;

const SIGBUS: c_int = 7;
const SIGSEGV: c_int = 11;
const WITH_ADDRESS_ON_OTHER_STACK: c_int = 0x0800_0004;
const STANDARD_ERROR: c_int = 2;

extern "C" {
    fn sigaction(signal: c_int, action: *const Action, old: *mut Action) -> c_int;
    fn write(file: c_int, bytes: *const c_void, len: usize) -> isize;
    fn _exit(status: c_int) -> !;
}

/// `struct sigaction` of Linux on 64 bits.
#[repr(C)]
struct Action {
    handler: extern "C" fn(c_int, *const Info, *const c_void),
    mask: [u64; 16],
    flags: c_int,
    restorer: usize,
}

/// The beginning of `siginfo_t`.
#[repr(C)]
struct Info {
    codes: [c_int; 4],
    address: usize,
}

/// The call being made.
pub struct Case {
    pub seed: u64,
    pub call_number: u64,
    pub engine: &'static str,
    pub call: Call,
    pub end: End,
    pub plan: Range<usize>,
    /// The image, the log or the buffer of images.
    pub lent: Range<usize>,
    /// The list or the roster, with its name.
    pub on_top: Option<(&'static str, Range<usize>)>,
}

/// Null while no call is made.
static CASE: AtomicPtr<Case> = AtomicPtr::new(ptr::null_mut());

/// From here on a fault ends the process with a message and status 1.
pub fn watch() {
    let action = Action {
        handler: on_fault,
        mask: [0; 16],
        flags: WITH_ADDRESS_ON_OTHER_STACK,
        restorer: 0,
    };
    for signal in [SIGSEGV, SIGBUS] {
        let status = unsafe { sigaction(signal, &action, ptr::null_mut()) };
        assert!(status == 0, "faults cannot be watched for");
    }
}

/// Makes the call, with its case at hand for a message.
pub fn during<T>(case: &Case, call: impl FnOnce() -> T) -> T {
    CASE.store(ptr::from_ref(case).cast_mut(), Ordering::SeqCst);
    let result = call();
    CASE.store(ptr::null_mut(), Ordering::SeqCst);
    result
}

/// Takes no memory and no lock: it may run anywhere.
extern "C" fn on_fault(_: c_int, info: *const Info, _: *const c_void) {
    let mut text = Text::default();
    let (address, case) = unsafe { ((*info).address, CASE.load(Ordering::SeqCst).as_ref()) };
    let _ = match case {
        Some(case) => say(&mut text, case, address),
        None => writeln!(
            text,
            "compare: a fault outside of all calls, at {address:#x}"
        ),
    };
    unsafe {
        write(STANDARD_ERROR, text.bytes.as_ptr().cast(), text.len);
        _exit(1)
    }
}

fn say(text: &mut Text, case: &Case, address: usize) -> fmt::Result {
    let (call, engine, end) = (case.call, case.engine, case.end);
    write!(
        text,
        "compare: seed {}, call {}",
        case.seed, case.call_number
    )?;
    write!(
        text,
        ": {call:?} of the {engine}, with the {end:?} end of plan"
    )?;
    let lends = call.lends();
    write!(text, " ({} bytes), {lends}", case.plan.len())?;
    write!(text, " ({})", case.lent.len())?;
    if let Some((name, lent)) = &case.on_top {
        write!(text, ", {name} ({})", lent.len())?;
    }
    writeln!(text, " at a guard page")?;
    write!(text, "compare: the run stops: the call ")?;
    let on_top = case.on_top.iter().map(|(name, lent)| (*name, lent));
    for (name, lent) in [("plan", &case.plan), (lends, &case.lent)]
        .into_iter()
        .chain(on_top)
    {
        if let Some((done, bytes, place)) = doing(lent, address) {
            return writeln!(text, "{done} {bytes} {place} the {name}");
        }
    }
    writeln!(text, "read or wrote at {address:#x}, far from all of them")
}

/// What was done about a lent buffer, where the address lies in or near it.
fn doing(lent: &Range<usize>, address: usize) -> Option<(&'static str, usize, &'static str)> {
    let Range { start, end } = *lent;
    if (start - GAP..start).contains(&address) {
        Some(("read or wrote a byte", start - address, "before"))
    } else if lent.contains(&address) {
        Some((
            "wrote to byte",
            address - start,
            "of the read-only pages of",
        ))
    } else if (end..end + GAP).contains(&address) {
        Some(("read or wrote a byte", address - end + 1, "behind"))
    } else {
        None
    }
}

/// Text in a fixed room; what does not fit is left out.
struct Text {
    bytes: [u8; 512],
    len: usize,
}

impl Default for Text {
    fn default() -> Text {
        Text {
            bytes: [0; 512],
            len: 0,
        }
    }
}

impl Write for Text {
    fn write_str(&mut self, part: &str) -> fmt::Result {
        let room = &mut self.bytes[self.len..];
        let len = part.len().min(room.len());
        room[..len].copy_from_slice(&part.as_bytes()[..len]);
        self.len += len;
        Ok(())
    }
}
