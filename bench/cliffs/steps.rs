//! How much was done so far, in steps that are the same in each run, or else in nanoseconds.
//!
//! With `--cfg steps` the program is built by `-C profile-generate`, which counts how often the ways through each function are taken, also
//! through those of std that are compiled for it; a step is one count. Otherwise it is the time that the thread had a processor for.

#[cfg(steps)]
extern "C" {
    #[link_name = "__start___llvm_prf_cnts"]
    static mut FIRST: u64;
    #[link_name = "__stop___llvm_prf_cnts"]
    static mut END: u64;
}

/// The sum of all counters, which the linker puts between these two names.
#[cfg(steps)]
#[inline(never)]
fn all() -> u64 {
    unsafe {
        let (first, end) = (std::ptr::addr_of!(FIRST), std::ptr::addr_of!(END));
        let count = (end as usize - first as usize) / std::mem::size_of::<u64>();
        std::slice::from_raw_parts(first, count).iter().sum()
    }
}

/// All but what counting took.
#[cfg(steps)]
pub fn steps() -> u64 {
    use std::sync::atomic::{AtomicU64, Ordering::Relaxed};
    static LOOK: AtomicU64 = AtomicU64::new(0);
    static LOOKS: AtomicU64 = AtomicU64::new(0);
    if LOOK.load(Relaxed) == 0 {
        let before = all();
        LOOK.store(all() - before, Relaxed);
    }
    all() - (LOOKS.fetch_add(1, Relaxed) + 2) * LOOK.load(Relaxed)
}

#[cfg(not(steps))]
extern "C" {
    fn clock_gettime(clock: i32, time: *mut [i64; 2]) -> i32;
}

#[cfg(not(steps))]
pub fn steps() -> u64 {
    const THREAD_TIME: i32 = 3;
    let mut time = [0; 2];
    unsafe { clock_gettime(THREAD_TIME, &mut time) };
    time[0] as u64 * 1_000_000_000 + time[1] as u64
}

/// A request of valgrind's, which does nothing without it.
#[cfg(target_arch = "x86_64")]
fn request(number: u64) {
    let words = [number, 0, 0, 0, 0, 0];
    unsafe {
        std::arch::asm!(
            "rol rdi, 3", "rol rdi, 13", "rol rdi, 61", "rol rdi, 51", "xchg rbx, rbx",
            in("rax") words.as_ptr(), inout("rdx") 0u64 => _,
        );
    }
}

#[cfg(not(target_arch = "x86_64"))]
fn request(_: u64) {}

/// Callgrind counts from now on.
#[inline(never)]
pub fn start_counting() {
    request(0x4354_0004);
    request(0x4354_0001);
}

/// Callgrind writes what it counted, and counts no longer; it forgets the code that it had made ready.
#[inline(never)]
pub fn stop_counting() {
    stop_count();
    request(0x4354_0005);
}

/// Callgrind writes what it counted, and goes on.
#[inline(never)]
pub fn stop_count() {
    request(0x4354_0000);
}

/// Where callgrind counts on other processors: it is told this name.
#[inline(never)]
pub fn counted(part: &mut dyn FnMut()) {
    part();
    std::hint::black_box(());
}
