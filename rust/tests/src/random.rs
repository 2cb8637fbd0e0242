//! Random numbers that are the same in each run.

/// The next word of the generator splitmix64.
pub fn next(state: &mut u64) -> u64 {
    *state = state.wrapping_add(0x9e37_79b9_7f4a_7c15);
    let mut z = *state;
    z = (z ^ (z >> 30)).wrapping_mul(0xbf58_476d_1ce4_e5b9);
    z = (z ^ (z >> 27)).wrapping_mul(0x94d0_49bb_1331_11eb);
    z ^ (z >> 31)
}

/// A number below the bound; 0 where that is 0.
pub fn below(state: &mut u64, bound: u16) -> u16 {
    if bound == 0 {
        return 0;
    }
    ((next(state) >> 40) % u64::from(bound)) as u16
}

/// A side of a box below the bound; 0 where that is 0.
pub fn side(state: &mut u64, bound: u16) -> i32 {
    i32::from(below(state, bound))
}
