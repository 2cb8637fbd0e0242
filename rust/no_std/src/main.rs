//! A program without Rust's std: it has a panic handler and an allocator of its own, so it builds only where nothing below it brings in
//! std. It ends with 0 if each answer is right, and else with the number of the first that isn't.
#![no_std]
#![no_main]

use core::alloc::{GlobalAlloc, Layout};
use core::cell::UnsafeCell;
use core::panic::PanicInfo;
use core::ptr::null_mut;
use core::sync::atomic::{AtomicUsize, Ordering};
use guillotiere::cache::{CacheChange, CacheOptions, TextureCache};
use guillotiere::recording::RecordingAllocator;
use guillotiere::sheet::{pack, Allowed, SheetOptions};
use guillotiere::{point2, size2, AtlasAllocator, AtlasError, Rectangle};

const BYTES: usize = 1 << 20;

/// Hands out one piece of memory from its start to its end, and takes none back.
struct Heap {
    bytes: UnsafeCell<[u128; BYTES / 16]>,
    used: AtomicUsize,
}

// Each byte is handed out once.
unsafe impl Sync for Heap {}

unsafe impl GlobalAlloc for Heap {
    unsafe fn alloc(&self, layout: Layout) -> *mut u8 {
        let wanted = layout.size() + layout.align();
        let start = self.used.fetch_add(wanted, Ordering::Relaxed);
        if start + wanted > BYTES {
            return null_mut();
        }
        let first = self.bytes.get().cast::<u8>().add(start);
        first.add(first.align_offset(layout.align()))
    }

    unsafe fn dealloc(&self, _: *mut u8, _: Layout) {}
}

#[global_allocator]
static HEAP: Heap = Heap {
    bytes: UnsafeCell::new([0; BYTES / 16]),
    used: AtomicUsize::new(0),
};

#[panic_handler]
fn end(_: &PanicInfo<'_>) -> ! {
    loop {}
}

// Rust's alloc, as rustup and Debian have it, names this function. It is called only where a panic unwinds, which here none does.
#[no_mangle]
pub extern "C" fn rust_eh_personality() {}

fn first_wrong() -> i32 {
    let mut atlas = AtlasAllocator::new(size2(64, 64));
    let glyph = match atlas.allocate(size2(20, 60)) {
        Some(glyph) => glyph,
        None => return 1,
    };
    let wanted = Rectangle {
        min: point2(0, 0),
        max: point2(20, 60),
    };
    if atlas[glyph.id] != wanted {
        return 2;
    }
    if atlas.try_grow(size2(32, 99)) != Err(AtlasError::Shrinks) {
        return 3;
    }
    atlas.deallocate(glyph.id);
    if !atlas.is_empty() {
        return 4;
    }
    if !has_cache() {
        return 5;
    }
    let one = SheetOptions::new(Allowed::One(size2(16, 16)));
    if !matches!(pack(&[size2(16, 8); 2], &one), Ok(Some(_))) {
        return 6;
    }
    let recorded = RecordingAllocator::new(size2(64, 64)).recording();
    if recorded.resume().is_err() {
        return 7;
    }
    0
}

fn has_cache() -> bool {
    let mut glyphs = match TextureCache::new(&CacheOptions::new(size2(64, 64))) {
        Ok(glyphs) => glyphs,
        Err(_) => return false,
    };
    let added = CacheChange::PageAdded {
        page: 0,
        size: size2(64, 64),
    };
    glyphs.insert('g', size2(20, 60)).is_ok()
        && glyphs.drain_changes().eq([added])
        && glyphs.contains_key('g')
}

#[cfg(unix)]
#[link(name = "c")]
extern "C" {}

/// What C's start-up code calls.
#[no_mangle]
pub extern "C" fn main(_: i32, _: *const *const u8) -> i32 {
    first_wrong()
}
