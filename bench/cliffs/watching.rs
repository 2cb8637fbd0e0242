//! Each call of an atlas by itself: the dearest ones, and the 99th of 100.
//!
//! `watch=steps` tells of each part and each of its calls how many there were, which of them took most steps, and which the 99th of 100;
//! calls that were given memory are apart. `watch=N+N+..` has callgrind count the calls of these numbers, one by one.
use crate::atlases::{Atlas, Form, Granted, Options, Simple};
use crate::memory;
use crate::steps::{start_counting, steps, stop_count, stop_counting};
use std::cell::RefCell;
use std::collections::BTreeMap;

/// How many of the dearest calls are told.
const DEAREST: usize = 6;

struct Call {
    number: usize,
    steps: u64,
    /// The bytes that it was given.
    given: u64,
}

#[derive(Default)]
struct Log {
    part: String,
    number: usize,
    picked: Vec<usize>,
    calls: BTreeMap<(String, &'static str), Vec<Call>>,
}

thread_local! {
    static LOG: RefCell<Log> = RefCell::new(Log::default());
}

/// Nothing was watched yet.
pub fn begin(what: &str) {
    let picked = if what == "steps" { Vec::new() } else { what.split('+').map(|number| number.parse().expect("a number")).collect() };
    LOG.with(|log| *log.borrow_mut() = Log { picked, ..Log::default() });
}

/// What is done from now on.
pub fn enter(part: &str) {
    LOG.with(|log| log.borrow_mut().part = part.to_string());
}

/// One of many calls, each of which callgrind counts.
pub fn counted_alone<T>(call: &mut dyn FnMut() -> T) -> T {
    start_counting();
    let answer = call();
    stop_count();
    answer
}

fn watched<T>(kind: &'static str, call: &mut dyn FnMut() -> T) -> T {
    let (number, is_picked, is_counting) = LOG.with(|log| {
        let mut log = log.borrow_mut();
        log.number += 1;
        (log.number, log.picked.contains(&log.number), !log.picked.is_empty())
    });
    if is_picked {
        start_counting();
        let answer = call();
        stop_counting();
        return answer;
    }
    if is_counting {
        return call();
    }
    let (given, begin) = (memory::given(), steps());
    let answer = call();
    let (end, given) = (steps(), memory::given() - given);
    LOG.with(|log| {
        let mut log = log.borrow_mut();
        let part = log.part.clone();
        log.calls.entry((part, kind)).or_default().push(Call { number, steps: end - begin, given });
    });
    answer
}

fn told(calls: &[&Call]) -> String {
    let each: Vec<String> = calls.iter().map(|call| format!("{}.{}.{}", call.number, call.steps, call.given)).collect();
    if each.is_empty() { "-".to_string() } else { each.join("+") }
}

/// `watched:PART:CALL:COUNT:99TH:DEAREST:GIVEN`, each call as `NUMBER.STEPS.BYTES`.
pub fn shown() -> String {
    let line = |((part, kind), calls): (&(String, &'static str), &Vec<Call>)| {
        let mut plain: Vec<&Call> = calls.iter().filter(|call| call.given == 0).collect();
        let mut given: Vec<&Call> = calls.iter().filter(|call| call.given != 0).collect();
        plain.sort_by_key(|call| std::cmp::Reverse(call.steps));
        given.sort_by_key(|call| std::cmp::Reverse(call.given));
        let late = plain.len() / 100;
        let rare = told(&plain[late.min(plain.len())..(late + 1).min(plain.len())]);
        let dearest = told(&plain[..DEAREST.min(plain.len())]);
        format!(" watched:{}:{}:{}:{}:{}:{}", part, kind, calls.len(), rare, dearest, told(&given[..2.min(given.len())]))
    };
    LOG.with(|log| log.borrow().calls.iter().map(line).collect())
}

/// A library, of which each call is watched.
pub struct Watch<F>(F);

pub struct Watched<A>(A);

impl<F: Form> Form for Watch<F> {
    type Atlas = Watched<F::Atlas>;
    type Simple = Watched<F::Simple>;
}

impl<A: Atlas> Atlas for Watched<A> {
    fn new(size: (i32, i32), options: Options) -> Self {
        Watched(A::new(size, options))
    }

    fn ask(&mut self, width: i32, height: i32) -> Option<Granted> {
        watched("allocate", &mut || self.0.ask(width, height))
    }

    fn free(&mut self, id: u32) {
        watched("deallocate", &mut || self.0.free(id));
    }

    fn can_fit(&self, width: i32, height: i32) -> bool {
        watched("can_fit", &mut || self.0.can_fit(width, height))
    }

    fn grow(&mut self, size: (i32, i32)) {
        watched("grow", &mut || self.0.grow(size));
    }

    fn clear(&mut self) {
        self.0.clear();
    }

    fn reset(&mut self, size: (i32, i32), options: Options) {
        self.0.reset(size, options);
    }

    fn rearrange(&mut self) -> u64 {
        self.0.rearrange()
    }

    fn copied(&self) -> Self {
        Watched(self.0.copied())
    }

    fn holes(&self) -> u64 {
        self.0.holes()
    }
}

impl<A: Atlas, S: Simple<A>> Simple<Watched<A>> for Watched<S> {
    fn new(size: (i32, i32), options: Options) -> Self {
        Watched(S::new(size, options))
    }

    fn taken_over(atlas: &Watched<A>) -> Self {
        Watched(S::taken_over(&atlas.0))
    }

    fn ask(&mut self, width: i32, height: i32) -> Option<Granted> {
        watched("allocate", &mut || self.0.ask(width, height))
    }

    fn clear(&mut self) {
        self.0.clear();
    }

    fn reset(&mut self, size: (i32, i32), options: Options) {
        self.0.reset(size, options);
    }
}
