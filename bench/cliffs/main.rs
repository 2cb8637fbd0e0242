//! Plays workloads for bench/worst.
//!
//! A line of standard input is `FORM BUDGET CALLS COUNTED GENOME`. FORM is `here`, this repository's library, `crate`, the Rust
//! crate's own code, or `patched`, that code with the rule by which a box is taken here. BUDGET is how many steps a part may take
//! before it is cut short, 0 for any number. CALLS bounds the calls of each part, as in `fill:1000,ask:400`, or is `-`. COUNTED is
//! the part that callgrind counts, or `-`. GENOME says what is played (docs/BENCH.md). The reply is a line of words:
//! `PART:CALLS:STEPS` for each part, `holes:N` and `sum:N`, how many free boxes there were when asking began and a checksum of all
//! answers, and with `watch` what was watched of single calls.
#![allow(dead_code)]
extern crate alloc;

#[cfg(crates)]
mod allocator;
mod atlases;
mod caches;
mod calls;
mod constants;
mod genome;
mod here;
mod memory;
mod paged;
mod playing;
mod sheets;
mod sizes;
mod steps;
#[cfg(crates)]
mod their_pages;
#[cfg(crates)]
mod theirs;
#[cfg(crates)]
#[path = "cache.rs"]
mod texture_cache;
mod watching;
// The crate's code with two changes, after which its answers are the same as here.
#[cfg(crates)]
#[path = "."]
mod patched {
    #[path = "patched_allocator.rs"]
    pub mod allocator;
    #[path = "theirs.rs"]
    pub mod theirs;
}

use genome::Genome;
use playing::Run;
use std::io::BufRead;
use wollemigo_core::atlas_pages::PagedAtlas;
use wollemigo_core::guillotiere::AtlasAllocator;

// What the crate's own root gives allocator.rs, and bench/driver.rs gives cache.rs.
#[cfg(crates)]
pub type Point = euclid::Point2D;
#[cfg(crates)]
pub type Size = euclid::Size2D;
#[cfg(crates)]
pub type Rectangle = euclid::Box2D;
#[cfg(crates)]
pub use their_pages::Answers;

pub struct Random(u64);

impl Random {
    pub fn new(seed: u64) -> Random {
        Random(seed)
    }

    /// splitmix64
    pub fn next(&mut self) -> u64 {
        self.0 = self.0.wrapping_add(0x9e37_79b9_7f4a_7c15);
        let mut z = self.0;
        z = (z ^ (z >> 30)).wrapping_mul(0xbf58_476d_1ce4_e5b9);
        z = (z ^ (z >> 27)).wrapping_mul(0x94d0_49bb_1331_11eb);
        z ^ (z >> 31)
    }

    pub fn below(&mut self, bound: u64) -> u64 {
        (self.next() >> 33) % bound.max(1)
    }
}

#[cfg(crates)]
fn play_theirs(genome: &Genome, run: &mut Run) {
    match genome.kind.as_str() {
        "cache" => caches::play::<their_pages::Pages>(genome, run),
        "constants" => constants::play::<theirs::Theirs>(run),
        "memory" => memory::play::<theirs::Theirs>(genome, run),
        "hand" => paged::play::<paged::ByHand<allocator::AtlasAllocator>>(genome, run),
        _ => play_atlas::<theirs::Theirs>(genome, run),
    }
}

#[cfg(crates)]
fn play_patched(genome: &Genome, run: &mut Run) {
    match genome.kind.as_str() {
        "hand" => paged::play::<paged::ByHand<patched::allocator::AtlasAllocator>>(genome, run),
        _ => play_atlas::<patched::theirs::Theirs>(genome, run),
    }
}

#[cfg(not(crates))]
fn play_patched(_: &Genome, _: &mut Run) {
    panic!("built without the crate's own code");
}

#[cfg(not(crates))]
fn play_theirs(_: &Genome, _: &mut Run) {
    panic!("built without the crate's own code");
}

fn play_atlas<F: atlases::Form>(genome: &Genome, run: &mut Run) {
    if genome.word("watch", "").is_empty() {
        playing::play::<F>(genome, run);
    } else {
        watching::begin(genome.word("watch", ""));
        playing::play::<watching::Watch<F>>(genome, run);
        run.watched = watching::shown();
    }
}

fn play_here(genome: &Genome, run: &mut Run) {
    match genome.kind.as_str() {
        "cache" => caches::play::<here::Cache>(genome, run),
        "sheet" => sheets::play(genome, run),
        "calls" => calls::play(genome, run),
        "constants" => constants::play::<here::Here>(run),
        "memory" => memory::play::<here::Here>(genome, run),
        "paged" => paged::play::<PagedAtlas>(genome, run),
        "hand" => paged::play::<paged::ByHand<AtlasAllocator>>(genome, run),
        _ => play_atlas::<here::Here>(genome, run),
    }
}

fn main() {
    for line in std::io::stdin().lock().lines() {
        let line = line.expect("input");
        let mut words = line.splitn(5, ' ');
        let mut next = || words.next().expect("FORM BUDGET CALLS COUNTED GENOME");
        let (form, budget, bounds) = (next(), next().parse().expect("a budget"), next());
        let mut run = Run::new(budget, bounds, next());
        let genome = Genome::read(next());
        match form {
            "here" => play_here(&genome, &mut run),
            "patched" => play_patched(&genome, &mut run),
            _ => play_theirs(&genome, &mut run),
        }
        println!("{}", run.shown());
    }
}
