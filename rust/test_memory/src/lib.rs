//! An allocator for tests, which refuses one request for memory or every one.
#![no_std]
#![forbid(unsafe_code)]

use core::cell::Cell;
use wollemigo_support::alloc::{AllocError, Allocator};

/// Hands requests on to `inner`, but for those that it is told to refuse. A test keeps it and lends it: a
/// `&Refusing<Global>` is an allocator that may be copied.
#[derive(Debug, PartialEq)]
pub struct Refusing<B: Allocator> {
    inner: B,
    plan: Cell<Plan>,
}

// Which request is refused next.
#[derive(Clone, Copy, Debug, PartialEq)]
enum Refusal {
    None,
    // So many requests are granted before it.
    After(u32),
    Every,
}

#[derive(Clone, Copy, Debug, PartialEq)]
struct Plan {
    refusal: Refusal,
    // How many requests were made, round past 2^64.
    made: u64,
    // How many blocks were given back, round past 2^64.
    returned: u64,
}

impl<B: Allocator> Refusing<B> {
    /// Refuses nothing until it is told to.
    pub fn new(inner: B) -> Refusing<B> {
        Refusing {
            inner,
            plan: Cell::new(Plan {
                refusal: Refusal::None,
                made: 0,
                returned: 0,
            }),
        }
    }

    fn set(&self, refusal: Refusal) {
        self.plan.set(Plan {
            refusal,
            ..self.plan.get()
        });
    }

    /// From now on the request with this number is refused, counted from 1, and no other; none for 0.
    pub fn refuse_nth(&self, number: u32) {
        self.set(number.checked_sub(1).map_or(Refusal::None, Refusal::After));
    }

    /// From now on every request is refused.
    pub fn refuse_every(&self) {
        self.set(Refusal::Every);
    }

    /// Whether no refusal is still to come.
    pub fn is_done(&self) -> bool {
        self.plan.get().refusal == Refusal::None
    }

    /// How many requests for memory were made so far, the refused ones too; it wraps at 2^64.
    pub fn requests(&self) -> u64 {
        self.plan.get().made
    }

    /// How many blocks of memory were given back so far; it wraps at 2^64.
    pub fn returned(&self) -> u64 {
        self.plan.get().returned
    }
}

impl Plan {
    // After one more request, and whether it is refused.
    fn after_request(self) -> (Plan, bool) {
        let (refusal, is_refused) = match self.refusal {
            Refusal::None => (Refusal::None, false),
            Refusal::After(0) => (Refusal::None, true),
            Refusal::After(granted) => (Refusal::After(granted - 1), false),
            Refusal::Every => (Refusal::Every, true),
        };
        let made = self.made.wrapping_add(1);
        (
            Plan {
                refusal,
                made,
                ..self
            },
            is_refused,
        )
    }
}

impl<B: Allocator> Allocator for Refusing<B> {
    fn ask(&self, size: usize, align: usize) -> Result<(), AllocError> {
        let (plan, is_refused) = self.plan.get().after_request();
        self.plan.set(plan);
        if is_refused {
            return Err(AllocError);
        }
        self.inner.ask(size, align)
    }

    fn give_back(&self, size: usize, align: usize) {
        let plan = self.plan.get();
        self.plan.set(Plan {
            returned: plan.returned.wrapping_add(1),
            ..plan
        });
        self.inner.give_back(size, align);
    }
}
