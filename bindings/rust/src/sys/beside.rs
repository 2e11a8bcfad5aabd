//! The calls of `gcflip_thread.h` and `gcflip_beside.h`: a heap whose collector works in a thread of its own.
//!
//! The headers let one thread at a time use the mutator's end of a heap, and the collector's thread is C's own. One call goes to this crate's code: that of
//! `Handle::on_flip`, in the mutator's thread. The function may call the mutator's end, and safepoints in it do nothing.

#[cfg(test)]
use super::layout;
use super::{FlipChecks, Frame, Pace, RawView};
use crate::heap::Place;
use std::any::Any;
use std::cell::{Cell, RefCell};
use std::ffi::c_void;
use std::panic::{catch_unwind, resume_unwind, AssertUnwindSafe};
use std::ptr::null_mut;

/// A heap with its collector's thread. Only C knows what is in it.
#[repr(C)]
pub struct RawThread {
    hidden: [u8; 0],
}

/// The mutator's end of a heap.
#[repr(C)]
pub struct RawMutator {
    pub(super) at: *mut c_void,
}

/// The options of a heap, with the size of this struct.
#[repr(C)]
pub struct RawBesideOptions {
    pub(super) bytes: u32,
    pub(super) size: u32,
    pub(super) extra_roots: u32,
    pub(super) whole_each: u32,
}

impl RawBesideOptions {
    pub fn new(size: u32, extra_roots: u32, whole_each: u32) -> RawBesideOptions {
        RawBesideOptions { bytes: std::mem::size_of::<RawBesideOptions>() as u32, size, extra_roots, whole_each }
    }
}

/// What has happened since the heap was opened. Times are in nanoseconds.
#[repr(C)]
#[derive(Default)]
pub struct RawThreadCounts {
    pub flips: u64,
    pub failed: u64,
    pub stops: u64,
    pub most_stops: u64,
    pub throttled: u64,
    pub waited: u64,
    pub longest_wait: u64,
}

calls! {
    gcflip_thread_open_with(*mut *mut RawThread, *const RawBesideOptions, *const Pace);
    gcflip_thread_safepoint(*mut RawThread);
    gcflip_thread_try_safepoint(*mut RawThread);
    gcflip_thread_collect(*mut RawThread);
    gcflip_thread_reserve(*mut RawThread, u32);
    gcflip_thread_size(*const RawThread);
    gcflip_beside_new(*mut RawMutator, u32, u32, u32);
    gcflip_beside_new_raw(*mut RawMutator, u32, u32, u32);
    gcflip_beside_new_pair(*mut RawMutator, u32, u32, u32, u32);
    gcflip_beside_set_number(*mut RawMutator, u32, u64);
    gcflip_beside_set_nil(*mut RawMutator, u32);
    gcflip_beside_copy(*mut RawMutator, u32, u32);
    gcflip_beside_get(*mut RawMutator, u32, u32, u32, *mut u64);
    gcflip_beside_put(*mut RawMutator, u32, u32, u32);
    gcflip_beside_put_number(*mut RawMutator, u32, u32, u64);
    gcflip_beside_put_nil(*mut RawMutator, u32, u32);
    gcflip_beside_peek(*mut RawMutator, u32, u32, *mut RawView);
    gcflip_beside_clear(*mut RawMutator, u32, u32);
    gcflip_beside_new_from(*mut RawMutator, u32, u32, *const u32, usize);
    gcflip_beside_gather(*mut RawMutator, u32, u32, u32, u32);
    gcflip_beside_spread(*mut RawMutator, u32, u32, u32);
    gcflip_beside_fill(*mut RawMutator, u32, u32, u32, u32);
    gcflip_beside_copy_fields(*mut RawMutator, u32, u32, u32, u32, u32);
    gcflip_beside_raw_read(*mut RawMutator, u32, u32, *mut u64, usize);
    gcflip_beside_raw_write(*mut RawMutator, u32, u32, *const u64, usize);
    gcflip_beside_frame_push(*mut RawMutator, u32, *mut Frame);
    gcflip_beside_frame_pop(*mut RawMutator, u32, *mut Frame);
    gcflip_beside_frame_trim(*mut RawMutator, *mut Frame, u32);
    gcflip_beside_same(*mut RawMutator, u32, u32);
    gcflip_beside_look(*mut RawMutator, u32, *mut RawView);
    gcflip_beside_room(*const RawMutator);
    gcflip_beside_roots(*const RawMutator);
    gcflip_beside_address(*mut RawMutator, u32, *mut u32);
    gcflip_beside_moved(*mut RawMutator, u32, *mut u32);
    gcflip_beside_refer(*mut RawMutator, u32, u32);
    gcflip_beside_object_at(*mut RawMutator, u32, *mut RawView);
    gcflip_beside_field_at(*mut RawMutator, u32, u32, *mut RawView);
    gcflip_beside_flips(*const RawMutator) -> u64;
}

// The calls that return no answer.
extern "C" {
    fn gcflip_thread_mutator(thread: *mut RawThread) -> *mut RawMutator;
    fn gcflip_thread_growing(thread: *mut RawThread, most: u32);
    fn gcflip_thread_on_flip(thread: *mut RawThread, function: Option<extern "C" fn(*mut c_void)>, argument: *mut c_void);
    fn gcflip_thread_read(thread: *mut RawThread, counts: *mut RawThreadCounts);
    fn gcflip_thread_flip_checks(thread: *mut RawThread, checks: *mut FlipChecks);
    fn gcflip_thread_close(thread: *mut RawThread);
}

/// The pointer to the mutator's end, which lies in the heap's memory of C.
struct End(*mut RawMutator);

impl End {
    fn get(&self) -> *mut RawMutator {
        self.0
    }
}

/// A panic that waits until C has returned.
type Panicked = Cell<Option<Box<dyn Any + Send>>>;

/// What the heap calls after a flip.
struct Follower<'a> {
    follow: RefCell<&'a mut dyn FnMut()>,
    panicked: &'a Panicked,
}

/// Runs the closure of the follower to which `argument` points. After a panic it runs it no more, until the panic has gone on.
extern "C" fn run_follower(argument: *mut c_void) {
    // SAFETY: `Handle::on_flip` gives the heap this function with a pointer to a follower, and takes both back before the follower is dropped.
    let follower = unsafe { &*argument.cast::<Follower>() };
    let before = follower.panicked.take();
    let panicked = match follower.follow.try_borrow_mut() {
        Ok(mut follow) if before.is_none() => catch_unwind(AssertUnwindSafe(|| (*follow)())).err(),
        _ => before,
    };
    follower.panicked.set(panicked);
}

/// A handle that owns a heap with its collector's thread. It ends the thread and frees the heap when it is dropped.
pub struct Handle {
    thread: *mut RawThread,
    heap: End,
    /// The follower to which the heap has a pointer, or null.
    follower: AssertUnwindSafe<Cell<*mut c_void>>,
    panicked: AssertUnwindSafe<Panicked>,
}

// SAFETY: the headers let the mutator's end go from one thread to another, as long as one thread at a time uses it. The raw pointers make a `Handle`
// not `Sync`, so no other thread can use it at the same time.
unsafe impl Send for Handle {}

impl Handle {
    /// Opens a heap with these options, and starts its collector's thread. Returns the answer where it is not `GCFLIP_DONE`.
    pub fn open(options: &RawBesideOptions, pace: &Pace) -> Result<Handle, u32> {
        let mut thread = std::ptr::null_mut();
        // SAFETY: the first pointer is to a local variable, and the others are references.
        let answer = unsafe { gcflip_thread_open_with(&mut thread, options, pace) };
        if answer != super::GCFLIP_DONE {
            return Err(answer);
        }
        // SAFETY: the heap is open. Its mutator's end stays where it is until the heap is closed.
        let heap = End(unsafe { gcflip_thread_mutator(thread) });
        Ok(Handle { thread, heap, follower: AssertUnwindSafe(Cell::new(null_mut())), panicked: AssertUnwindSafe(Cell::new(None)) })
    }

    pub fn safepoint(&self) -> u32 {
        // SAFETY: the heap is open, and `Handle` is not `Sync`, so this thread alone is its mutator's.
        self.goes_on(unsafe { gcflip_thread_safepoint(self.thread) })
    }

    pub fn try_safepoint(&self) -> u32 {
        // SAFETY: as in `safepoint`.
        self.goes_on(unsafe { gcflip_thread_try_safepoint(self.thread) })
    }

    pub fn collect(&self) -> u32 {
        // SAFETY: as in `safepoint`.
        self.goes_on(unsafe { gcflip_thread_collect(self.thread) })
    }

    pub fn reserve(&self, words: u32) -> u32 {
        // SAFETY: as in `safepoint`.
        self.goes_on(unsafe { gcflip_thread_reserve(self.thread, words) })
    }

    pub fn growing(&self, most: u32) {
        // SAFETY: as in `safepoint`.
        unsafe { gcflip_thread_growing(self.thread, most) };
    }

    pub fn size(&self) -> u32 {
        // SAFETY: as in `safepoint`.
        unsafe { gcflip_thread_size(self.thread) }
    }

    /// Returns the answer, or goes on with the panic of a follower.
    fn goes_on(&self, answer: u32) -> u32 {
        match self.panicked.take() {
            None => answer,
            Some(panicked) => resume_unwind(panicked),
        }
    }

    /// Runs `body`. The heap calls `follow` after each flip meanwhile, in place of the one of an `on_flip` around this.
    pub fn on_flip<R>(&self, follow: &mut dyn FnMut(), body: impl FnOnce() -> R) -> R {
        let follower = Follower { follow: RefCell::new(follow), panicked: &self.panicked };
        let _put_back = PutBack { handle: self, before: self.follower.get() };
        self.set_follower(std::ptr::from_ref(&follower).cast_mut().cast());
        body()
    }

    fn set_follower(&self, follower: *mut c_void) {
        let function: Option<extern "C" fn(*mut c_void)> = if follower.is_null() { None } else { Some(run_follower) };
        self.follower.set(follower);
        // SAFETY: as in `safepoint`. `PutBack` takes the follower back before it is dropped.
        unsafe { gcflip_thread_on_flip(self.thread, function, follower) };
    }

    pub fn counts(&self) -> RawThreadCounts {
        let mut counts = RawThreadCounts::default();
        // SAFETY: as in `safepoint`, and the counts are a local variable.
        unsafe { gcflip_thread_read(self.thread, &mut counts) };
        counts
    }

    pub fn flip_checks(&self) -> FlipChecks {
        let mut checks = FlipChecks::default();
        // SAFETY: as in `counts`.
        unsafe { gcflip_thread_flip_checks(self.thread, &mut checks) };
        checks
    }
}

/// Gives the heap the follower that it had before, also if `body` panics.
struct PutBack<'a> {
    handle: &'a Handle,
    before: *mut c_void,
}

impl Drop for PutBack<'_> {
    fn drop(&mut self) {
        self.handle.set_follower(self.before);
    }
}

impl Handle {
    pub fn flips(&self) -> u64 {
        // SAFETY: as in `safepoint`.
        unsafe { gcflip_beside_flips(self.heap.get()) }
    }

    pub fn new_from(&self, d: u32, kind: u32, fields: &[Place]) -> u32 {
        // SAFETY: as in `safepoint`. The pointer and the length are those of one slice, and a place is a number of C.
        unsafe { gcflip_beside_new_from(self.heap.get(), d, kind, fields.as_ptr().cast(), fields.len()) }
    }

    pub fn raw_read(&self, s: u32, first: u32, words: &mut [u64]) -> u32 {
        // SAFETY: as in `safepoint`. The pointer and the length are those of one slice.
        unsafe { gcflip_beside_raw_read(self.heap.get(), s, first, words.as_mut_ptr(), words.len()) }
    }

    pub fn raw_write(&self, s: u32, first: u32, words: &[u64]) -> u32 {
        // SAFETY: as in `raw_read`.
        unsafe { gcflip_beside_raw_write(self.heap.get(), s, first, words.as_ptr(), words.len()) }
    }
}

impl Drop for Handle {
    fn drop(&mut self) {
        // SAFETY: the heap is open, and nobody uses it afterwards.
        unsafe { gcflip_thread_close(self.thread) };
    }
}

answers! {
    new_object: gcflip_beside_new(d: u32, kind: u32, count: u32);
    new_raw: gcflip_beside_new_raw(d: u32, kind: u32, count: u32);
    new_pair: gcflip_beside_new_pair(d: u32, kind: u32, s: u32, t: u32);
    set_number: gcflip_beside_set_number(d: u32, n: u64);
    set_nil: gcflip_beside_set_nil(d: u32);
    copy: gcflip_beside_copy(d: u32, s: u32);
    put: gcflip_beside_put(s: u32, i: u32, t: u32);
    put_number: gcflip_beside_put_number(s: u32, i: u32, n: u64);
    put_nil: gcflip_beside_put_nil(s: u32, i: u32);
    clear: gcflip_beside_clear(from: u32, to: u32);
    gather: gcflip_beside_gather(d: u32, kind: u32, first: u32, count: u32);
    spread: gcflip_beside_spread(first: u32, s: u32, count: u32);
    fill: gcflip_beside_fill(s: u32, from: u32, to: u32, t: u32);
    copy_fields: gcflip_beside_copy_fields(d: u32, to: u32, s: u32, from: u32, count: u32);
    push: gcflip_beside_frame_push(s: u32, frame: &mut Frame);
    pop: gcflip_beside_frame_pop(d: u32, frame: &mut Frame);
    trim: gcflip_beside_frame_trim(frame: &mut Frame, most: u32);
    same: gcflip_beside_same(s: u32, t: u32);
    room: gcflip_beside_room();
    roots: gcflip_beside_roots();
    refer: gcflip_beside_refer(d: u32, address: u32);
}

results! {
    get: gcflip_beside_get(d: u32, s: u32, i: u32) -> u64;
    look: gcflip_beside_look(s: u32) -> RawView;
    peek: gcflip_beside_peek(s: u32, i: u32) -> RawView;
    address: gcflip_beside_address(s: u32) -> u32;
    moved: gcflip_beside_moved(old: u32) -> u32;
    object_at: gcflip_beside_object_at(address: u32) -> RawView;
    field_at: gcflip_beside_field_at(address: u32, i: u32) -> RawView;
}

/// Returns all calls as C declares them, for the test that compares them with the headers.
#[cfg(test)]
pub(super) fn all_declarations() -> Vec<String> {
    let others = [
        "gcflip_mutator *gcflip_thread_mutator(gcflip_thread *);",
        "void gcflip_thread_growing(gcflip_thread *, uint32_t);",
        "void gcflip_thread_on_flip(gcflip_thread *, void (*)(void *), void *);",
        "void gcflip_thread_read(gcflip_thread *, gcflip_thread_counts *);",
        "void gcflip_thread_flip_checks(gcflip_thread *, gcflip_flip_checks *);",
        "void gcflip_thread_close(gcflip_thread *);",
    ];
    declarations().into_iter().chain(others.map(String::from)).collect()
}
