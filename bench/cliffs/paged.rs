//! Boxes on several pages: `paged`, and `hand`, a list of atlases as a user writes it, which are asked one after another until one grants.
//!
//! So many `boxes` are granted, some are `freed`, and then one goes and one is granted, `calls` times together. With `watch=each` callgrind
//! counts each of these calls by itself: a freeing, a grant, and so on.
use crate::atlases::{Atlas, Granted, Options};
use crate::genome::Genome;
use crate::playing::{add, Run};
use crate::sizes::Sizes;
use crate::watching::counted_alone;
use crate::Random;
use wollemigo_core::atlas_pages::PagedAtlas;
use wollemigo_core::guillotiere::{size2, AllocId};
use wollemigo_support::alloc::Global;

pub trait Pages: Sized {
    fn new(size: (i32, i32)) -> Self;
    /// The page, and the box there.
    fn ask(&mut self, width: i32, height: i32) -> (u32, Granted);
    fn free(&mut self, page: u32, id: u32);
    fn count(&self) -> u64;
}

impl Pages for PagedAtlas {
    fn new(size: (i32, i32)) -> Self {
        PagedAtlas::new(Global, size2(size.0, size.1), u32::MAX).ok().expect("a usable size")
    }

    #[inline]
    fn ask(&mut self, width: i32, height: i32) -> (u32, Granted) {
        let found = self.allocate(size2(width, height)).ok().expect("memory").expect("room");
        (found.page, crate::here::granted(found.id.serialize(), found.rectangle))
    }

    #[inline]
    fn free(&mut self, page: u32, id: u32) {
        self.deallocate(page, AllocId::deserialize(id)).ok().expect("a live id");
    }

    fn count(&self) -> u64 {
        u64::from(self.page_count())
    }
}

pub struct ByHand<A> {
    size: (i32, i32),
    pages: Vec<A>,
}

impl<A: Atlas> Pages for ByHand<A> {
    fn new(size: (i32, i32)) -> Self {
        ByHand { size, pages: Vec::new() }
    }

    #[inline]
    fn ask(&mut self, width: i32, height: i32) -> (u32, Granted) {
        for (page, atlas) in self.pages.iter_mut().enumerate() {
            if let Some(found) = atlas.ask(width, height) {
                return (page as u32, found);
            }
        }
        let mut atlas = A::new(self.size, Options { alignment: (1, 1), small: 32, large: 256 });
        let found = atlas.ask(width, height).expect("room");
        self.pages.push(atlas);
        (self.pages.len() as u32 - 1, found)
    }

    #[inline]
    fn free(&mut self, page: u32, id: u32) {
        self.pages[page as usize].free(id);
    }

    fn count(&self) -> u64 {
        self.pages.len() as u64
    }
}

fn place<P: Pages>(pages: &mut P, size: (i32, i32), sum: &mut u64) -> (u32, u32) {
    let (page, granted) = pages.ask(size.0, size.1);
    add(sum, &granted);
    *sum = sum.wrapping_mul(31).wrapping_add(u64::from(page));
    (page, granted.id)
}

/// In place of free boxes it is told how many pages there were when asking began.
pub fn play<P: Pages>(genome: &Genome, run: &mut Run) {
    let (boxes, calls) = (genome.scaled("boxes", 1000), genome.number("calls", 2000) / 2);
    let sizes = Sizes::read(genome.word("fill", "8-64x8-64"));
    let mut random = Random::new(genome.number("seed", 1));
    let mut drawn = |count: u64| -> Vec<(i32, i32)> {
        (0..count).map(|place| sizes.at(place, count, &mut random)).map(|(width, height, _)| (width, height)).collect()
    };
    let (first, later) = (drawn(boxes), drawn(calls));
    let mut pages = P::new(genome.pair("size", "1024x1024"));
    let mut live: Vec<(u32, u32)> = Vec::with_capacity((boxes + calls) as usize);
    run.part("fill", boxes, &mut |limit, sum| {
        first.iter().for_each(|size| live.push(place(&mut pages, *size, sum)));
        limit.done = boxes;
    });
    let gone: Vec<(u32, u32)> = match genome.word("freed", "none") {
        "second" => live.iter().copied().step_by(2).collect(),
        _ => Vec::new(),
    };
    if !gone.is_empty() {
        live = live.into_iter().skip(1).step_by(2).collect();
    }
    run.part("free", boxes, &mut |limit, _| {
        gone.iter().for_each(|(page, id)| pages.free(*page, *id));
        limit.done = gone.len() as u64;
    });
    live.reserve(1);
    run.holes = pages.count();
    let is_each = genome.word("watch", "") == "each";
    run.part("ask", 2 * calls, &mut |limit, sum| {
        for size in &later {
            let (page, id) = live.swap_remove(random.below(live.len() as u64) as usize);
            if is_each {
                counted_alone(&mut || pages.free(page, id));
                live.push(counted_alone(&mut || place(&mut pages, *size, sum)));
            } else {
                pages.free(page, id);
                live.push(place(&mut pages, *size, sum));
            }
        }
        limit.done = 2 * later.len() as u64;
    });
    run.parts.push(("pages".to_string(), pages.count(), 0));
}
