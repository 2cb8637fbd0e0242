//! The memory of a library that C links: from C's `malloc`, or from a function of the caller's.

use core::alloc::{GlobalAlloc, Layout};
use core::ffi::c_void;
use core::mem::{size_of, transmute};
use core::ptr::null_mut;
use core::sync::atomic::{AtomicPtr, Ordering::Relaxed};

extern "C" {
    fn malloc(size: usize) -> *mut c_void;
    fn realloc(block: *mut c_void, size: usize) -> *mut c_void;
    fn free(block: *mut c_void);
    #[link_name = "abort"]
    fn end() -> !;
}

/// Takes, resizes and gives back blocks: `user`, the block or null, its bytes or 0, and the bytes that it is to have, or 0.
pub type Resize = unsafe extern "C" fn(*mut c_void, *mut c_void, usize, usize) -> *mut c_void;

static RESIZE: AtomicPtr<c_void> = AtomicPtr::new(null_mut());
static USER: AtomicPtr<c_void> = AtomicPtr::new(null_mut());

/// The alignment of all blocks: that of `malloc` on the platforms that are served.
const ALIGNED: usize = 2 * size_of::<usize>();

/// From now on blocks come from `resize`, which is passed `user`; without it from `malloc`.
///
/// # Safety
///
/// No block is in use, and no other thread uses the library during the call. `resize` does what its type says.
pub unsafe fn set(resize: Option<Resize>, user: *mut c_void) {
    USER.store(user, Relaxed);
    RESIZE.store(
        resize.map_or(null_mut(), |resize| resize as *mut c_void),
        Relaxed,
    );
}

/// Ends the program, as C's `abort`.
pub fn abort() -> ! {
    unsafe { end() }
}

/// The function of the caller's, if there is one.
#[inline(always)]
fn hook() -> Option<Resize> {
    unsafe { transmute::<*mut c_void, Option<Resize>>(RESIZE.load(Relaxed)) }
}

/// The allocator of the library.
pub struct Memory;

unsafe impl GlobalAlloc for Memory {
    #[inline(never)]
    unsafe fn alloc(&self, layout: Layout) -> *mut u8 {
        if layout.align() > ALIGNED {
            return null_mut();
        }
        let block = match hook() {
            None => malloc(layout.size()),
            Some(resize) => resize(USER.load(Relaxed), null_mut(), 0, layout.size()),
        };
        block.cast()
    }

    #[inline(never)]
    unsafe fn dealloc(&self, block: *mut u8, layout: Layout) {
        match hook() {
            None => free(block.cast()),
            Some(resize) => {
                resize(USER.load(Relaxed), block.cast(), layout.size(), 0);
            }
        }
    }

    #[inline(never)]
    unsafe fn realloc(&self, block: *mut u8, layout: Layout, size: usize) -> *mut u8 {
        let block = match hook() {
            None => realloc(block.cast(), size),
            Some(resize) => resize(USER.load(Relaxed), block.cast(), layout.size(), size),
        };
        block.cast()
    }
}

/// What a library for C has at its root: its memory, the call that sets it, the call that says what a status means, and without the
/// feature `std` what a panic does, which is to end the program. WebAssembly with no C library has none of these calls, and the memory
/// of Rust's `std`.
#[macro_export]
macro_rules! library_for_c {
    ($set_memory:ident, $status_text:ident, $($status:pat => $text:literal,)*) => {
        // A test's own frame asks for blocks with an alignment that `malloc` doesn't give.
        #[cfg(all(not(test), any(not(target_family = "wasm"), target_os = "wasi")))]
        #[global_allocator]
        static MEMORY: $crate::c_memory::Memory = $crate::c_memory::Memory;

        #[cfg(any(not(target_family = "wasm"), target_os = "wasi"))]
        /// From now on the memory of all handles is from `resize`, which is passed `user`; where it is null, from `malloc`.
        /// No handle holds anything, and no other call runs meanwhile.
        #[no_mangle]
        pub unsafe extern "C" fn $set_memory(
            resize: Option<$crate::c_memory::Resize>,
            user: *mut core::ffi::c_void,
        ) {
            $crate::c_memory::set(resize, user)
        }

        #[cfg(any(not(target_family = "wasm"), target_os = "wasi"))]
        /// What a status means, in a few words of English, which end with a zero.
        #[no_mangle]
        pub extern "C" fn $status_text(status: u32) -> *const u8 {
            let text: &'static str = match status {
                $($status => concat!($text, "\0"),)*
            };
            text.as_ptr()
        }

        #[cfg(not(feature = "std"))]
        #[panic_handler]
        fn panicked(_: &core::panic::PanicInfo<'_>) -> ! {
            $crate::c_memory::abort()
        }
    };
}
