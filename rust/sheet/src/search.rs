//! The search for smaller sheets, which ends in time, or when it is asked to.
use crate::packing::{pages_inset, Pages, Ways};
use crate::stop;
use guillotiere::sheet::{SheetError, SheetOptions};
use guillotiere::Size;
use std::cmp::Reverse;
use std::collections::HashMap;
use std::sync::mpsc::{channel, Receiver, RecvTimeoutError};
use std::thread;
use std::time::{Duration, Instant};

/// When a search ends before all is tried.
#[derive(Clone, Copy, Debug, Default)]
pub struct Limits {
    /// After so long.
    pub time: Option<Duration>,
    /// When a signal asks for it; without this a signal ends the program.
    pub keeps_best: bool,
}

// The first time without changes of the order, and then with twice as many as before, each time from the beginning.
const FIRST: u32 = 64;
// So often it is seen whether a signal came.
const EACH: Duration = Duration::from_millis(50);

fn area(size: &Size) -> i64 {
    i64::from(size.width) * i64::from(size.height)
}

// Less is better: sprites without a place, sheets, pixels.
fn cost(pages: &Pages) -> (Reverse<usize>, usize, i64) {
    let placed = pages.places.iter().flatten().count();
    (
        Reverse(placed),
        pages.sizes.len(),
        pages.sizes.iter().map(area).sum(),
    )
}

type Found = Result<Pages, SheetError>;

// The groups that lie on several sheets.
fn split(pages: &Pages, groups: &[Option<usize>]) -> usize {
    let mut sheets: HashMap<usize, (Option<usize>, bool)> = HashMap::new();
    for (group, place) in groups.iter().zip(&pages.places) {
        let sheet = place.map(|place| place.page);
        if let Some(group) = group {
            let (first, is_split) = sheets.entry(*group).or_insert((sheet, false));
            *is_split |= *first != sheet;
        }
    }
    sheets.values().filter(|(_, is_split)| *is_split).count()
}

// As `pages_inset`, and where sprites may be turned, also with none turned: that is taken where it is better and splits no more groups.
// Changes of the order begin elsewhere where sprites are turned, and may end at a larger sheet.
fn either(
    sprites: &[Size],
    groups: &[Option<usize>],
    ways: &Ways,
    mut told: impl FnMut(Size),
) -> Found {
    let mut least = i64::MAX;
    let mut smaller = |size: Size| {
        if area(&size) < least {
            least = area(&size);
            told(size);
        }
    };
    let found = pages_inset(sprites, groups, ways, &mut smaller)?;
    let options = ways.options;
    // Without changes of the order one sheet is the smallest of all turnings that are tried, and none is one of these.
    let is_sure = options.effort == 0 && !ways.is_dense && found.needed == 1;
    if !options.turn || is_sure {
        return Ok(found);
    }
    let upright = Ways {
        options: SheetOptions {
            turn: false,
            ..options
        },
        ..*ways
    };
    let other = pages_inset(sprites, groups, &upright, &mut smaller)?;
    let is_better = cost(&other) < cost(&found) && split(&other, groups) <= split(&found, groups);
    Ok(if is_better { other } else { found })
}

// All rounds, in a thread that ends with the program or when nobody asks for more.
fn rounds(sprites: &[Size], groups: &[Option<usize>], ways: &Ways) -> Receiver<Found> {
    let (sender, results) = channel();
    let (sprites, groups, ways) = (sprites.to_vec(), groups.to_vec(), *ways);
    let most = match ways.options.effort {
        0 => u32::MAX,
        effort => effort,
    };
    thread::spawn(move || {
        let mut effort = 0;
        loop {
            let options = SheetOptions {
                effort,
                ..ways.options
            };
            let found = either(&sprites, &groups, &Ways { options, ..ways }, |_| {});
            if sender.send(found).is_err() || effort >= most {
                break;
            }
            effort = effort.saturating_mul(2).max(FIRST).min(most);
        }
    });
    results
}

/// As `pages_inset`, or with none turned, and where there are limits, the best that is found within them. `told` is called with the size
/// of each sheet that takes all sprites and is smaller than those before.
pub fn found(
    sprites: &[Size],
    groups: &[Option<usize>],
    ways: &Ways,
    limits: Limits,
    mut told: impl FnMut(Size),
) -> Found {
    if limits.time.is_none() && !limits.keeps_best {
        return either(sprites, groups, ways, told);
    }
    let begun = Instant::now();
    let _kept = limits.keeps_best.then(stop::Asked::new);
    let results = rounds(sprites, groups, ways);
    let mut best: Option<Pages> = None;
    let is_over = || {
        limits.time.map_or(false, |time| begun.elapsed() >= time)
            || limits.keeps_best && stop::is_asked()
    };
    while best.is_none() || !is_over() {
        match results.recv_timeout(EACH) {
            Ok(found) => {
                let found = found?;
                if best.as_ref().map_or(true, |best| cost(&found) < cost(best)) {
                    if let ([size], true) =
                        (&found.sizes[..], found.places.iter().all(Option::is_some))
                    {
                        told(*size);
                    }
                    best = Some(found);
                }
            }
            Err(RecvTimeoutError::Timeout) => {}
            Err(RecvTimeoutError::Disconnected) => break,
        }
    }
    Ok(best.unwrap_or_else(|| Pages::none(sprites.len())))
}

#[cfg(test)]
mod tests {
    use super::{cost, either, split};
    use crate::packing::{pages_inset, Ways};
    use guillotiere::sheet::{Allowed, SheetOptions};
    use guillotiere::size2;

    #[test]
    fn counts_groups_that_are_split() {
        let ways = Ways {
            options: SheetOptions::new(Allowed::Squares {
                least: 1,
                greatest: 8,
            }),
            is_dense: false,
            limit: 9,
            inset: 0,
        };
        let turning = Ways {
            options: SheetOptions {
                turn: true,
                ..ways.options
            },
            ..ways
        };
        // Two of them fill a sheet where one is turned, and else each has its own.
        let sprites = [size2(8, 4), size2(4, 8), size2(8, 8)];
        let groups = [Some(3), Some(3), None];
        let upright = pages_inset(&sprites, &groups, &ways, |_| {}).unwrap();
        assert_eq!((split(&upright, &groups), upright.sizes.len()), (1, 3));
        let found = either(&sprites, &groups, &turning, |_| {}).unwrap();
        assert_eq!((split(&found, &groups), found.sizes.len()), (0, 2));
        assert!(cost(&found) < cost(&upright));
        // A sprite with no place lies elsewhere than the others.
        let mut left_out = found;
        left_out.places[0] = None;
        assert_eq!(split(&left_out, &groups), 1);
        assert_eq!(split(&left_out, &[None, Some(1), Some(2)]), 0);
    }
}
