//! The steps of the simple allocator as lists of calls, also with each request for memory refused in turn.

use super::steps::{Row, Step, ROWS};
use super::whole::{begun, source_of, Atlas, Simple};
use guillotiere_tests::tables::{rectangle, size};
use test_memory::Refusing;
use wollemigo_core::guillotiere::session::{run_simple, SimpleCall, SimpleReply};
use wollemigo_core::guillotiere::AtlasError;
use wollemigo_support::alloc::Global;
use wollemigo_support::test::Fail;
use wollemigo_support::vec;

type Replies<'a> = vec::Vec<SimpleReply, &'a Refusing<Global>>;

// The call and the reply of a step; None for a look.
fn call_and_reply(step: Step) -> Option<(SimpleCall, SimpleReply)> {
    match step {
        Step::Grant(request, want) => Some((
            SimpleCall::Allocate(size(request)),
            SimpleReply::Granted(rectangle(want)),
        )),
        Step::NoRoom(request) => Some((SimpleCall::Allocate(size(request)), SimpleReply::NoRoom)),
        Step::Grow(to) => Some((SimpleCall::Grow(size(to)), SimpleReply::Done)),
        Step::Clear => Some((SimpleCall::Clear, SimpleReply::Done)),
        Step::Reset(to, options) => Some((SimpleCall::Reset(size(to), options), SimpleReply::Done)),
        Step::Start => Some((SimpleCall::Start, SimpleReply::Done)),
        Step::Shrink(to) => Some((SimpleCall::Grow(size(to)), SimpleReply::BadCall)),
        Step::BadReset(to, options) => {
            Some((SimpleCall::Reset(size(to), options), SimpleReply::BadCall))
        }
        Step::SizeIs(_) | Step::EmptyIs(_) => None,
    }
}

// The calls of a row's steps.
fn calls_of(steps: &[Step]) -> Vec<SimpleCall> {
    let made = steps.iter().filter_map(|step| call_and_reply(*step));
    made.map(|(call, _)| call).collect()
}

// Whether these are the replies to a row's steps, after the first, which was there before.
fn are_replies(steps: &[Step], replies: &[SimpleReply]) -> bool {
    let mut count = 1;
    for step in steps {
        if let Some((_, reply)) = call_and_reply(*step) {
            if replies.get(count) != Some(&reply) {
                return false;
            }
            count += 1;
        }
    }
    replies.len() == count && replies.first() == Some(&SimpleReply::NoRoom)
}

// Makes a list of calls for a row.
fn made<'a>(
    heap: &'a Refusing<Global>,
    row: &Row,
    calls: &[SimpleCall],
) -> Result<Replies<'a>, AtlasError> {
    let atlas = source_of(heap, row)?;
    let mut simple = begun(heap, row)?;
    let mut replies = vec::Vec::new(heap);
    replies.push(SimpleReply::NoRoom)?;
    run_simple(&mut simple, &atlas, calls, &mut replies)?;
    Ok(replies)
}

#[test]
fn rows_as_lists_of_calls() -> Result<(), Fail> {
    let heap = Refusing::new(Global);
    for row in &ROWS {
        let replies = made(&heap, row, &calls_of(row.steps))?;
        assert!(are_replies(row.steps, &replies));
    }
    Ok(())
}

// Makes a list of one call. Returns whether it met a refusal of memory; then nothing has changed.
fn is_refused<'a>(
    simple: &mut Simple<'a>,
    atlas: &Atlas<'a>,
    call: SimpleCall,
    replies: &mut Replies<'a>,
) -> bool {
    let before = (simple.size(), simple.is_empty());
    let refused = match run_simple(simple, atlas, &[call], replies) {
        Ok(()) => replies.as_slice() == [SimpleReply::Refused(AtlasError::Memory)],
        Err(error) => error == AtlasError::Memory && replies.is_empty(),
    };
    assert!(!refused || (simple.size(), simple.is_empty()) == before);
    refused
}

// Makes a list of one call; one that is refused memory once is made again.
fn run_or_again<'a>(
    heap: &'a Refusing<Global>,
    simple: &mut Simple<'a>,
    atlas: &Atlas<'a>,
    (call, want): (SimpleCall, SimpleReply),
) {
    let mut replies = vec::Vec::new(heap);
    if is_refused(simple, atlas, call, &mut replies) {
        replies.clear();
        assert!(!is_refused(simple, atlas, call, &mut replies));
    }
    assert_eq!(replies.as_slice(), [want]);
}

// Whether the allocator looks as a step says that is no call.
fn looks_as(simple: &Simple<'_>, step: Step) -> bool {
    match step {
        Step::SizeIs(want) => simple.size() == size(want),
        Step::EmptyIs(want) => simple.is_empty() == want,
        _ => true,
    }
}

// Makes a list of each call of a row.
fn run_steps(heap: &Refusing<Global>, row: &Row) -> Result<(), AtlasError> {
    let atlas = source_of(heap, row)?;
    let mut simple = begun(heap, row)?;
    for step in row.steps {
        if let Some(made) = call_and_reply(*step) {
            run_or_again(heap, &mut simple, &atlas, made);
        }
        assert!(looks_as(&simple, *step));
    }
    Ok(())
}

#[test]
fn lists_of_one_call_with_each_request_for_memory_refused_in_turn() -> Result<(), Fail> {
    let heap = Refusing::new(Global);
    for row in &ROWS {
        let mut refusals = 0;
        for number in 1..100 {
            heap.refuse_nth(number);
            run_steps(&heap, row)?;
            if !heap.is_done() {
                break;
            }
            refusals = number;
        }
        assert!(0 < refusals && refusals < 99);
    }
    Ok(())
}

// Makes two calls without memory for their replies.
fn made_without_memory<'a>(
    heap: &'a Refusing<Global>,
    simple: &mut Simple<'a>,
    atlas: &Atlas<'a>,
) -> (Result<(), AtlasError>, usize) {
    let mut replies = vec::Vec::new(heap);
    heap.refuse_every();
    let calls = [SimpleCall::Grow(size((20, 30))), SimpleCall::Start];
    let answer = run_simple(simple, atlas, &calls, &mut replies);
    (answer, replies.len())
}

fn keeps_all(heap: &Refusing<Global>, row: &Row) -> Result<(), AtlasError> {
    let atlas = source_of(heap, row)?;
    let mut simple = begun(heap, row)?;
    let (answer, replies) = made_without_memory(heap, &mut simple, &atlas);
    assert!(answer == Err(AtlasError::Memory) && replies == 0);
    assert!(simple.is_empty() && simple.size() == size((10, 10)));
    Ok(())
}

// A list whose replies find no memory is not begun.
#[test]
fn no_call_is_made_without_memory_for_its_replies() -> Result<(), Fail> {
    let heap = Refusing::new(Global);
    keeps_all(&heap, &ROWS[1])?;
    Ok(())
}
