//! Plays what programs draw over a cache, for bench/traces.
//!
//!     uses sum TRACE SEED FRAMES
//!     uses shelves TRACE SEED FRAMES
//!     uses play TRACE SEED FRAMES CACHE RULE
//!     uses overfull SIZES PERCENT ORDER LOOP
//!     uses burst SEED PIXELS
//!
//! The first prints a sum of a trace, how many keys it has, and how often they are used. The second plays it over shelves on a page of
//! 256 by 256, after each frame looks whether boxes overlap, and prints how many keys went. The third prints what was counted; CACHE is
//! `here` or `shelves`, and RULE when pages are repacked. With 0 FRAMES it takes as many as are measured. The fourth draws frames of more
//! keys than there is room for: of `equal` or `mixed` SIZES, PERCENT of what an empty cache takes, in the `same` ORDER, `shuffled`, or in
//! `scenes`, which are shuffled and use other keys every four frames; LOOP is what a full frame does: it begins a frame (`frames`), or
//! ends a batch in which an Nth of the keys goes (`batches:N`), and does what the cache's page says (`marked:N`). The fifth fills eight
//! pages, lets most keys go, and empties page after page, from so many PIXELS in each frame.
mod burst;
mod here;
mod overfull;
mod playing;
mod shelves;
mod text;
mod traces;

use overfull::{Loop, Order};
use playing::{play, Answer, Cache, Counts, Rule};
use traces::{Pages, Trace};

fn mean(counts: &[u64]) -> f64 {
    counts.iter().sum::<u64>() as f64 / counts.len().max(1) as f64
}

fn tell(mut counts: Counts) {
    counts.gone.sort_unstable();
    let gone = &counts.gone;
    let (ninety_ninth, worst) = match gone.len() {
        0 => (0, 0),
        calls => (gone[(calls * 99 + 99) / 100 - 1], gone[calls - 1]),
    };
    println!(
        "uses={} misses={} pixels={} inserts={} mean={:.4} ninety_ninth={} worst={} full={} repacks={} moved={} moved_pixels={} lost={}",
        counts.uses, counts.misses, counts.pixels, gone.len(), mean(gone), ninety_ninth, worst, counts.full, counts.repacks,
        counts.moved, counts.moved_pixels, counts.lost
    );
}

fn are_apart(held: &shelves::Shelves, trace: &Trace) -> bool {
    let side = trace.pages.largest;
    let mut taken = vec![false; (side * side) as usize];
    held.corners().iter().all(|(key, page, left, top)| {
        let (width, height) = trace.sizes[*key as usize];
        let (right, bottom) = (left + width + 2 * shelves::PADDING, top + height + 2 * shelves::PADDING);
        let mut pixels = (*top..bottom).flat_map(|y| (*left..right).map(move |x| (y * side + x) as usize));
        *page == 0 && right <= side && bottom <= side && pixels.all(|pixel| !std::mem::replace(&mut taken[pixel], true))
    })
}

fn try_shelves(mut trace: Trace) {
    trace.pages = Pages { side: 256, largest: 256, most: 1 };
    let mut cache = shelves::Shelves::new(trace.pages);
    for frame in &trace.frames {
        cache.begin_frame();
        for key in frame.iter().filter(|key| trace.sizes[**key as usize].0.max(trace.sizes[**key as usize].1) <= 64) {
            while !cache.get(*key) && matches!(cache.insert(*key, trace.sizes[*key as usize]), Answer::FrameFull) {
                cache.begin_frame();
            }
        }
        assert!(are_apart(&cache, &trace), "boxes overlap, or pass the page");
    }
    println!("evictions={}", cache.evictions());
}

fn tell_overfull(words: &[String]) {
    let percent = words[1].parse().expect("how many of 100");
    let order = match words[2].as_str() {
        "same" => Order::Same,
        "shuffled" => Order::Shuffled,
        "scenes" => Order::Scenes,
        other => panic!("no order {}", other),
    };
    let (name, part) = words[3].split_once(':').unwrap_or((&words[3], "1"));
    let part = part.parse().expect("a part of the keys");
    let at_full = match name {
        "frames" => Loop::Frames,
        "batches" => Loop::Batches(part),
        "marked" => Loop::Marked(part),
        other => panic!("no loop {}", other),
    };
    let counts = overfull::play(words[0] == "equal", percent, order, at_full);
    println!("keys={} uses={} misses={} full={}", counts.keys, counts.uses, counts.misses, counts.full);
}

fn main() {
    let words: Vec<String> = std::env::args().skip(1).collect();
    if words[0] == "overfull" {
        return tell_overfull(&words[1..]);
    }
    let number = |place: usize| words[place].parse::<u64>().expect("a number");
    if words[0] == "burst" {
        return burst::tell(number(1), number(2));
    }
    let trace = traces::named(&words[1], number(2), number(3) as usize);
    match words[0].as_str() {
        "sum" => {
            let uses: usize = trace.frames.iter().map(Vec::len).sum();
            println!("sum={} keys={} uses={}", traces::sum(&trace), trace.sizes.len(), uses);
        }
        "shelves" => try_shelves(trace),
        "play" => {
            let rule = Rule::named(&words[5]);
            tell(match words[4].as_str() {
                "here" => play(&mut here::Here::new(trace.pages), &trace, rule),
                "shelves" => play(&mut shelves::Shelves::new(trace.pages), &trace, rule),
                other => panic!("no cache {}", other),
            });
        }
        other => panic!("what is {}", other),
    }
}
