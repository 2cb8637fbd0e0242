//! Seven programs as those write that use the crate `guillotiere`, in small. Six take its names alone, and pass over its own code too: what
//! they expect doesn't depend on where boxes are placed. `session` keeps its allocator, so it takes one that records.
mod bounds;
mod foreign;
mod images;
mod layers;
mod renderer;
#[cfg(all(feature = "serialization", feature = "recording"))]
mod session;
#[cfg(feature = "serialization")]
mod stored;
#[cfg(feature = "serialization")]
#[path = "../tree/mod.rs"]
#[allow(dead_code)]
mod tree;

/// Numbers that are the same in each run.
pub struct Random(pub u64);

impl Random {
    pub fn below(&mut self, bound: u32) -> u32 {
        self.0 = self
            .0
            .wrapping_mul(6_364_136_223_846_793_005)
            .wrapping_add(1_442_695_040_888_963_407);
        (self.0 >> 33) as u32 % bound
    }

    pub fn side(&mut self, least: i32, most: i32) -> i32 {
        least + self.below((most - least + 1) as u32) as i32
    }
}
