//! What the tests share: numbers at random, and a run for each request that may be refused.
#![allow(dead_code)]

use test_memory::Refusing;
use wollemigo_support::alloc::Global;

/// Numbers at random, the same for the same seed (xorshift).
pub struct Random {
    state: u64,
}

impl Random {
    pub fn new(seed: u64) -> Random {
        Random {
            state: seed.wrapping_mul(0x9e37_79b9_7f4a_7c15) | 1,
        }
    }

    pub fn below(&mut self, bound: u64) -> u64 {
        self.state ^= self.state << 13;
        self.state ^= self.state >> 7;
        self.state ^= self.state << 17;
        (self.state >> 16) % bound
    }
}

/// Plays with no request refused, then with the first one refused, then the second, and so on. `play` says how many of
/// its calls failed for want of memory, and drops all that it made.
pub fn refuse_in_turn(mut play: impl FnMut(&Refusing<Global>) -> u64) {
    for number in 0.. {
        let heap = Refusing::new(Global);
        heap.refuse_nth(number);
        let failed = play(&heap);
        let refused = u64::from(heap.is_done() && number != 0);
        assert_eq!(failed, refused, "request {number}");
        assert_eq!(
            heap.returned() + refused,
            heap.requests(),
            "request {number}"
        );
        if number != 0 && refused == 0 {
            assert!(number > 1, "nothing was asked for");
            return;
        }
    }
}

/// How many requests `run` makes.
pub fn requests<R>(heap: &Refusing<Global>, run: impl FnOnce() -> R) -> (u64, R) {
    let before = heap.requests();
    let result = run();
    (heap.requests() - before, result)
}
