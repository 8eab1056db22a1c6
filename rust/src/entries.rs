//! The six proved entries on bytes as they are: nothing is checked, added or interpreted here but the packed answer. Beside them stands the sign of
//! two indices.
//!
//! The interface above ([`crate::judge`] and so on) is what programs want. This one is for those that look at every number, place and
//! byte. All `unsafe` of the crate is in this module.
//!
//! An entry uses up to 1 MiB of stack. Each call looks whether the calling thread has that much left, and runs on a thread of its own
//! where it has not. Only if such a thread cannot be started does a call panic.

#![allow(unsafe_code)]

use std::cell::Cell;
use std::ops::Range;
use std::thread;

/// An entry's packed answer taken apart.
#[derive(Clone, Copy, PartialEq, Eq, Debug, Hash)]
pub struct Answer {
    /// 0 accepted, else the refusal's number, 1 to 16.
    pub number: u8,
    /// The place of a refusal; 0 where it has none, and on acceptance. Of [`reason`], with number 0, the step that judge refuses with 10.
    pub place: u32,
    /// On acceptance the iterations (judge, run), the bytes written (write, list), or 1 apart and 0 perhaps (quick); of [`reason`], where it has a
    /// step, the pairs that trade places; 0 on refusal.
    pub count: u32,
}

/// Two conflicting instances that trade places, and one kind of their conflict, as C has it: 22 bytes, aligned to 2.
#[derive(Clone, Copy, PartialEq, Eq, Debug, Hash, Default)]
#[repr(C)]
pub struct PairRecord {
    /// The earlier instance's iteration, in the ticket's own indices, outermost first; 0 for loops that are not there.
    pub source: [i16; 4],
    /// The later instance's iteration.
    pub sink: [i16; 4],
    /// The earlier instance's statement, from 1.
    pub source_statement: u16,
    /// The later instance's statement.
    pub sink_statement: u16,
    /// The letter F, A or O.
    pub kind: u16,
}

impl Answer {
    fn unpack(packed: u64) -> Answer {
        Answer {
            number: (packed & 0xff) as u8,
            place: (packed >> 8 & 0xff_ffff) as u32,
            count: (packed >> 32) as u32,
        }
    }
}

mod c {
    use super::PairRecord;

    unsafe extern "C" {
        pub fn hurkeztor_judge(ticket: *const u8, ticket_len: usize) -> u64;
        pub fn hurkeztor_write(ticket: *const u8, ticket_len: usize, out: *mut u8, out_len: usize) -> u64;
        pub fn hurkeztor_list(ticket: *const u8, ticket_len: usize, out: *mut u8, out_len: usize) -> u64;
        pub fn hurkeztor_quick(ticket: *const u8, ticket_len: usize, first: u64, second: u64) -> u64;
        pub fn hurkeztor_run(ticket: *const u8, ticket_len: usize, store: *mut u32, store_words: usize) -> u64;
        pub fn hurkeztor_reason(ticket: *const u8, ticket_len: usize, list: *mut PairRecord, list_len: usize) -> u64;
        pub fn hurkeztor_sign(source: i64, sink: i64) -> i64;
    }
}

/// Judges the ticket's new order.
pub fn judge(ticket: &[u8]) -> Answer {
    // SAFETY: a slice's pointer is not null and covers its length; there is stack enough.
    with_stack(|| unsafe { c::hurkeztor_judge(ticket.as_ptr(), ticket.len()) })
}

/// Writes the new nest's bytes to the front of `out`. The longest has 2,696 bytes.
pub fn write(ticket: &[u8], out: &mut [u8]) -> Answer {
    // SAFETY: as in `judge`; `out` is borrowed alone, so that it does not overlap the ticket.
    with_stack(|| unsafe { c::hurkeztor_write(ticket.as_ptr(), ticket.len(), out.as_mut_ptr(), out.len()) })
}

/// Writes the listing of all directions to the front of `out`, in ASCII. The longest has 21,330 bytes.
pub fn list(ticket: &[u8], out: &mut [u8]) -> Answer {
    // SAFETY: as in `write`.
    with_stack(|| unsafe { c::hurkeztor_list(ticket.as_ptr(), ticket.len(), out.as_mut_ptr(), out.len()) })
}

/// Tests two accesses, numbered from 1 in ticket order: count 1 says apart, 0 perhaps.
pub fn quick(ticket: &[u8], first: u64, second: u64) -> Answer {
    // SAFETY: as in `judge`.
    with_stack(|| unsafe { c::hurkeztor_quick(ticket.as_ptr(), ticket.len(), first, second) })
}

/// Runs the nest in its new order on `store`: arrays following one another, last subscript fastest.
pub fn run(ticket: &[u8], store: &mut [u32]) -> Answer {
    // SAFETY: as in `write`.
    with_stack(|| unsafe { c::hurkeztor_run(ticket.as_ptr(), ticket.len(), store.as_mut_ptr(), store.len()) })
}

/// Fills the front of `list` with the pairs that trade places at the step that judge refuses with 10, as many as it has room for. The answer is then
/// number 0, the step, and the count of all of them; 0 of them says 'by the table alone'. For any other ticket it is what judge answers. Records
/// beyond the pairs found are left as they were.
pub fn reason(ticket: &[u8], list: &mut [PairRecord]) -> Answer {
    // SAFETY: as in `write`; a record is laid out as C has it.
    with_stack(|| unsafe { c::hurkeztor_reason(ticket.as_ptr(), ticket.len(), list.as_mut_ptr(), list.len()) })
}

/// −1, 0 or 1 as the source's index is below, equal to or above the sink's, for any two numbers.
pub fn sign(source: i64, sink: i64) -> i64 {
    // SAFETY: no memory is lent, and a few instructions need no stack.
    unsafe { c::hurkeztor_sign(source, sink) }
}

/// What has to be left of a stack: the 1 MiB of an entry, and a quarter for whatever else stands on it.
const NEEDED: usize = (1 << 20) + (1 << 18);
const OWN_STACK: usize = 4 << 20;

fn with_stack(call: impl FnOnce() -> u64 + Send) -> Answer {
    let packed = if stack_left() >= NEEDED { call() } else { on_own_stack(call) };
    Answer::unpack(packed)
}

#[cold]
fn on_own_stack(call: impl FnOnce() -> u64 + Send) -> u64 {
    thread::scope(|scope| {
        let thread = thread::Builder::new().stack_size(OWN_STACK).spawn_scoped(scope, call);
        thread
            .expect("a thread with 4 MiB of stack for the entry")
            .join()
            .expect("an entry never unwinds")
    })
}

/// The bytes between this frame and the end of the calling thread's stack; 0 where that is not known, as on a stack that is not the
/// thread's own.
fn stack_left() -> usize {
    let frame = 0u8;
    let here = (&raw const frame).addr();
    let stack = stack_bounds();
    if stack.contains(&here) { here - stack.start } else { 0 }
}

fn stack_bounds() -> Range<usize> {
    thread_local! {
        static BOUNDS: Cell<Option<(usize, usize)>> = const { Cell::new(None) };
    }
    let (start, end) = BOUNDS.with(|bounds| match bounds.get() {
        Some(known) => known,
        None => {
            let found = pthread::stack_bounds();
            bounds.set(Some(found));
            found
        }
    });
    start..end
}

/// The calling thread's stack, as the C library knows it.
mod pthread {
    use std::ffi::{c_int, c_ulong, c_void};

    /// At least as large as `pthread_attr_t` of the C libraries on x86-64 Linux (56 bytes), and aligned as it is.
    #[repr(C, align(16))]
    struct Attributes([u64; 16]);

    unsafe extern "C" {
        fn pthread_self() -> c_ulong;
        fn pthread_getattr_np(thread: c_ulong, attributes: *mut Attributes) -> c_int;
        fn pthread_attr_getstack(attributes: *const Attributes, start: *mut *mut c_void, size: *mut usize) -> c_int;
        fn pthread_attr_destroy(attributes: *mut Attributes) -> c_int;
    }

    pub fn stack_bounds() -> (usize, usize) {
        let mut attributes = Attributes([0; 16]);
        let mut start = std::ptr::null_mut();
        let mut size = 0;
        // SAFETY: the attributes are filled by the first call before the others read them; all pointers are to locals.
        unsafe {
            if pthread_getattr_np(pthread_self(), &mut attributes) != 0 {
                return (0, 0);
            }
            let found = pthread_attr_getstack(&attributes, &mut start, &mut size) == 0;
            pthread_attr_destroy(&mut attributes);
            if found {
                (start.addr(), start.addr().saturating_add(size))
            } else {
                (0, 0)
            }
        }
    }
}
