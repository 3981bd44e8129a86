//! Memory lent to a call between guard pages. A touch past the end or before the beginning faults,
//! and bytes between a guard page and the lent part hold a pattern that is looked at afterwards.

use crate::tally;
use std::arch::global_asm;
use std::ffi::c_void;
use std::mem::{align_of, size_of, transmute};
use std::ptr;
use std::slice;
use std::sync::atomic::{AtomicPtr, Ordering::SeqCst};

const PAGE: usize = 4_096;

const PROT_NONE: i32 = 0;
const PROT_READ: i32 = 1;
const PROT_WRITE: i32 = 2;
const MAP_PRIVATE_ANONYMOUS: i32 = 0x22;
const SIGSEGV: i32 = 11;
const SIGBUS: i32 = 7;

extern "C" {
    fn mmap(
        at: *mut c_void,
        bytes: usize,
        prot: i32,
        flags: i32,
        fd: i32,
        offset: i64,
    ) -> *mut c_void;
    fn mprotect(at: *mut c_void, bytes: usize, prot: i32) -> i32;
    fn munmap(at: *mut c_void, bytes: usize) -> i32;
    fn signal(number: i32, handler: unsafe extern "C" fn(i32)) -> usize;
    fn fault_entry(number: i32);
    fn _exit(status: i32) -> !;
}

/// Where the lent part lies.
#[derive(Clone, Copy, Debug)]
pub enum Placement {
    /// Its last byte is the last before a guard page.
    EndsAtGuard,
    /// Its first byte is the first after a guard page.
    BeginsAtGuard,
    /// It begins a little after a guard page, bytes at an odd address.
    AfterGuard,
    /// It begins so many times its alignment after a guard page, up to FARTHEST.
    Farther(usize),
}

pub const FARTHEST: usize = 64;

impl Placement {
    /// Each in its turn, most often the one that sees a step past the end.
    pub fn in_turn(case: usize) -> Placement {
        match case % 4 {
            0 | 2 => Placement::EndsAtGuard,
            1 => Placement::BeginsAtGuard,
            _ => Placement::AfterGuard,
        }
    }
}

/// Items lent to a call: a guard page, pages with the items and the pattern, a guard page.
pub struct Lent<T: Copy> {
    pages: *mut u8,
    pages_bytes: usize,
    items: *mut T,
    count: usize,
}

impl<T: Copy> Lent<T> {
    /// Lends a copy that the call may write to.
    pub fn copy_of(items: &[T], placement: Placement) -> Lent<T> {
        let bytes = items.len() * size_of::<T>();
        // Some items more than needed: the pattern then has room in every placement.
        let pages_bytes = (bytes + FARTHEST * size_of::<T>()) / PAGE * PAGE + PAGE;
        let pages = guarded_pages(pages_bytes);
        let first = match placement {
            Placement::EndsAtGuard => pages_bytes - bytes,
            Placement::BeginsAtGuard => 0,
            Placement::AfterGuard => align_of::<T>(),
            Placement::Farther(times) => times.min(FARTHEST) * align_of::<T>(),
        };
        // SAFETY: the pages can be written and hold the items from `first` on, which keeps T's
        // alignment: the pages begin and end at page bounds and sizes are multiples of it.
        unsafe {
            for at in 0..pages_bytes {
                *pages.add(at) = pattern(at);
            }
            let lent = pages.add(first) as *mut T;
            ptr::copy_nonoverlapping(items.as_ptr(), lent, items.len());
            Lent { pages, pages_bytes, items: lent, count: items.len() }
        }
    }

    /// Lends a copy that nobody may write to.
    pub fn shared(items: &[T], placement: Placement) -> Lent<T> {
        let lent = Lent::copy_of(items, placement);
        protect(lent.pages, lent.pages_bytes, PROT_READ);
        lent
    }

    /// Lends nothing, by a null pointer with length 0.
    pub fn null() -> Lent<T> {
        let mut lent = Lent::copy_of(&[], Placement::EndsAtGuard);
        lent.items = ptr::null_mut();
        lent
    }

    pub fn pointer(&self) -> *mut T {
        self.items
    }

    pub fn count(&self) -> usize {
        self.count
    }

    /// The items as they are now.
    pub fn items(&self) -> &[T] {
        if self.count == 0 {
            return &[];
        }
        // SAFETY: the items were written when they were lent, and a call writes whole items.
        unsafe { slice::from_raw_parts(self.items, self.count) }
    }

    /// True if every byte around the lent part still has its pattern.
    pub fn around_kept(&self) -> bool {
        let first = (self.items as usize).saturating_sub(self.pages as usize);
        let end = first + self.count * size_of::<T>();
        // SAFETY: these bytes lie in our pages, which can be read.
        (0..first)
            .chain(end..self.pages_bytes)
            .all(|at| unsafe { *self.pages.add(at) } == pattern(at))
    }
}

impl<T: Copy> Drop for Lent<T> {
    fn drop(&mut self) {
        // SAFETY: the mapping made by guarded_pages, given back once.
        unsafe { munmap(self.pages.sub(PAGE) as *mut c_void, self.pages_bytes + 2 * PAGE) };
    }
}

fn pattern(at: usize) -> u8 {
    at as u8 ^ 0xA5
}

/// Pages that can be written, between two that can not be touched.
fn guarded_pages(bytes: usize) -> *mut u8 {
    let whole = bytes + 2 * PAGE;
    // SAFETY: a private mapping of its own, at an address that the system picks.
    let at = unsafe { mmap(ptr::null_mut(), whole, PROT_NONE, MAP_PRIVATE_ANONYMOUS, -1, 0) };
    assert!(at as isize != -1, "no memory to lend");
    // SAFETY: within the mapping.
    let pages = unsafe { (at as *mut u8).add(PAGE) };
    protect(pages, bytes, PROT_READ | PROT_WRITE);
    pages
}

fn protect(pages: *mut u8, bytes: usize, prot: i32) {
    // SAFETY: whole pages of a mapping of ours.
    let status = unsafe { mprotect(pages as *mut c_void, bytes, prot) };
    assert!(status == 0, "pages can not be protected");
}

/// What is called at this moment; told by the fault handler.
static CALLED: AtomicPtr<&dyn Fn() -> String> = AtomicPtr::new(ptr::null_mut());

/// Calls with a description at hand, so that a fault can say what was called.
pub fn described<R>(describe: &dyn Fn() -> String, call: impl FnOnce() -> R) -> R {
    let mut described: &dyn Fn() -> String = describe;
    let place: *mut &dyn Fn() -> String = &mut described;
    // SAFETY: only the lifetime goes; the place is taken away before it ends.
    CALLED.store(unsafe { transmute(place) }, SeqCst);
    let result = call();
    CALLED.store(ptr::null_mut(), SeqCst);
    result
}

/// From now on a touch outside lent memory is a failed test, and the last one.
pub fn watch_for_faults() {
    // SAFETY: the handler does not return.
    unsafe {
        signal(SIGSEGV, fault_entry);
        signal(SIGBUS, fault_entry);
    }
}

// The handler that the system enters. An emulator may enter it with the stack 8 bytes off, where
// compiled code would fault again; nothing returns from here, so the stack can be moved.
global_asm!(".globl fault_entry", "fault_entry:", "and rsp, -16", "call fault_told", "ud2");

/// The product's code holds no lock and no allocation of ours, so printing is possible here.
#[no_mangle]
extern "C" fn fault_told() {
    let place = CALLED.load(SeqCst);
    // SAFETY: not null only during `described`, which keeps the description alive.
    let case = if place.is_null() { String::new() } else { unsafe { (*place)() } };
    tally::test("memory outside what was lent is not touched", Err(case));
    tally::close();
    // SAFETY: ends the program.
    unsafe { _exit(1) }
}

/// What a faulty call would do, to see that it is told. The program ends here.
pub fn touch_past_the_end() {
    watch_for_faults();
    let lent = Lent::shared(&[0u8], Placement::EndsAtGuard);
    let describe = || "the byte past the end is read".to_string();
    // SAFETY: none; the fault is what is wanted.
    described(&describe, || unsafe { lent.pointer().add(1).read_volatile() });
}
