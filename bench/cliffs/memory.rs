//! The bytes that a library holds: `memory fill=SIZES boxes=N`. A part has the boxes, and bytes in place of steps; `struct` and `simple`
//! are those of an allocator itself, `simplenew` and `simpleone` what a simple one holds with nothing and with one box.
//!
//! The program that counts steps also counts what is asked of the allocator of memory; the other one doesn't.
use crate::atlases::{Atlas, Form, Options, Simple};
use crate::genome::Genome;
use crate::playing::Run;
use crate::sizes::Sizes;
use crate::Random;
use std::sync::atomic::{AtomicU64, Ordering::Relaxed};

static HELD: AtomicU64 = AtomicU64::new(0);
static PEAK: AtomicU64 = AtomicU64::new(0);
static GIVEN: AtomicU64 = AtomicU64::new(0);

/// How many bytes were given so far.
pub fn given() -> u64 {
    GIVEN.load(Relaxed)
}

#[cfg(steps)]
mod counting {
    use super::{GIVEN, HELD, PEAK};
    use std::alloc::{GlobalAlloc, Layout, System};
    use std::sync::atomic::Ordering::Relaxed;

    struct Counting;

    #[global_allocator]
    static COUNTING: Counting = Counting;

    fn took(bytes: usize) {
        GIVEN.fetch_add(bytes as u64, Relaxed);
        let held = HELD.fetch_add(bytes as u64, Relaxed) + bytes as u64;
        PEAK.fetch_max(held, Relaxed);
    }

    // A block that is made longer is counted as if it were moved: both are held for a while.
    unsafe impl GlobalAlloc for Counting {
        unsafe fn alloc(&self, layout: Layout) -> *mut u8 {
            took(layout.size());
            System.alloc(layout)
        }

        unsafe fn dealloc(&self, block: *mut u8, layout: Layout) {
            HELD.fetch_sub(layout.size() as u64, Relaxed);
            System.dealloc(block, layout);
        }

        unsafe fn realloc(&self, block: *mut u8, layout: Layout, size: usize) -> *mut u8 {
            took(size);
            HELD.fetch_sub(layout.size() as u64, Relaxed);
            System.realloc(block, layout, size)
        }
    }
}

fn held() -> u64 {
    HELD.load(Relaxed)
}

/// The most that was held since `since`, above what was held then.
fn peak_above(before: u64) -> u64 {
    PEAK.load(Relaxed) - before
}

fn forget_peak() -> u64 {
    PEAK.store(held(), Relaxed);
    held()
}

fn simple_bytes<F: Form>(size: (i32, i32), options: Options, one: (i32, i32, usize), run: &mut Run) {
    let empty = held();
    let mut simple = <F::Simple as Simple<F::Atlas>>::new(size, options);
    let new = held() - empty;
    simple.ask(one.0, one.1);
    let with_one = held() - empty;
    let sides = [std::mem::size_of::<F::Atlas>(), std::mem::size_of::<F::Simple>()];
    run.parts.push(("struct".to_string(), 1, sides[0] as u64));
    run.parts.push(("simple".to_string(), 1, sides[1] as u64));
    run.parts.push(("simplenew".to_string(), 1, new));
    run.parts.push(("simpleone".to_string(), 1, with_one));
}

pub fn play<F: Form>(genome: &Genome, run: &mut Run) {
    let boxes = genome.scaled("boxes", 1 << 16);
    let sizes = Sizes::read(genome.word("fill", "16x16"));
    let mut random = Random::new(genome.number("seed", 1));
    let options = Options { alignment: (1, 1), small: 32, large: 256 };
    let size = genome.sides("size", "4096x4096");
    if boxes == 1 {
        simple_bytes::<F>(size, options, sizes.at(0, 1, &mut Random::new(1)), run);
    }
    let empty = forget_peak();
    let mut atlas = F::Atlas::new(size, options);
    let new = held() - empty;
    let (mut granted, mut ids) = (0, 0);
    for place in 0..boxes {
        let (width, height, _) = sizes.at(place, boxes, &mut random);
        granted += u64::from(atlas.ask(width, height).map_or(false, |found| {
            ids += u64::from(found.id);
            true
        }));
    }
    std::hint::black_box(ids);
    let (filled, peak) = (held() - empty, peak_above(empty));
    let copy = atlas.copied();
    let both = held() - empty;
    drop(copy);
    forget_peak();
    atlas.rearrange();
    let rearranged = peak_above(empty);
    // What is told takes memory as well, so it comes last.
    run.parts.push(("new".to_string(), 1, new));
    for (part, bytes) in [("fill", filled), ("peak", peak), ("clone", both), ("rearrange", rearranged)] {
        run.parts.push((part.to_string(), granted, bytes));
    }
}
