//! Sheets: `do` with so many `boxes`, into the sheets that are `allowed`.
use crate::genome::Genome;
use crate::playing::Run;
use crate::sizes::Sizes;
use crate::Random;
use wollemigo_core::atlas_sheet::{fill, pack, pack_dense, pack_groups, pack_pages, Allowed, SheetOptions};
use wollemigo_core::guillotiere::{size2, Size};
use wollemigo_support::alloc::Global;

const GREATEST: i32 = 1 << 24;

/// `squares`, `powers`, `heights:WIDTH`, `one:SIDE`, or `area:PERCENT`: a square of so much of the sprites' pixels.
fn allowed(genome: &Genome, sprites: &[Size]) -> Allowed {
    let (kind, number) = genome.both("allowed", "squares");
    let side = number as i32;
    match kind.as_str() {
        "powers" => Allowed::Powers { greatest: 1 << 15 },
        "heights" => Allowed::Heights { width: side, greatest: GREATEST },
        "one" => Allowed::One(size2(side, side)),
        "area" => {
            let pixels: u64 = sprites.iter().map(|sprite| sprite.width as u64 * sprite.height as u64).sum();
            let side = ((pixels * number / 100) as f64).sqrt() as i32;
            Allowed::One(size2(side, side))
        }
        _ => Allowed::Squares { least: 1, greatest: 1 << 15 },
    }
}

/// `pairs:N`: N sprites that come together are a group; `round:N`: the groups in turn, each of N sprites.
fn groups(genome: &Genome, count: usize) -> Vec<Option<usize>> {
    let (kind, number) = genome.both("groups", "pairs:2");
    let number = (number as usize).max(1);
    let group = |place: usize| match kind.as_str() {
        "round" => place % (count / number).max(1),
        _ => place / number,
    };
    (0..count).map(|place| Some(group(place))).collect()
}

pub fn play(genome: &Genome, run: &mut Run) {
    let sizes = Sizes::read(genome.word("fill", "16x16"));
    let count = genome.scaled("boxes", 500);
    let mut random = Random::new(genome.number("seed", 1));
    let sprite = |place: u64| {
        let (width, height, _) = sizes.at(place, count, &mut random);
        size2(width, height)
    };
    let sprites: Vec<Size> = (0..count).map(sprite).collect();
    let mut options = SheetOptions::new(allowed(genome, &sprites));
    options.turn = genome.number("turn", 0) == 1;
    options.effort = genome.number("effort", 0) as u32;
    options.padding = genome.number("padding", 0) as u16;
    let groups = groups(genome, sprites.len());
    run.part("ask", count, &mut |limit, sum| {
        let width = |size: Size| size.width as u64 * 65536 + size.height as u64;
        let answer = match genome.word("do", "pack") {
            "fill" => fill(Global, &sprites, &options).ok().map(|found| found.used_area as u64),
            "dense" => pack_dense(Global, &sprites, &options).ok().flatten().map(|found| width(found.size)),
            "pages" => pack_pages(Global, &sprites, &options).ok().flatten().map(|found| found.sizes.len() as u64),
            "groups" => pack_groups(Global, &sprites, &groups, &options).ok().flatten().map(|found| found.sizes.len() as u64),
            _ => pack(Global, &sprites, &options).ok().flatten().map(|found| width(found.size)),
        };
        *sum = answer.unwrap_or(0);
        limit.done = count;
    });
}
