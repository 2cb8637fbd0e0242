//! Each request for memory refused in turn: a call that gives an error leaves everything as it was.
#![cfg(all(feature = "cache", feature = "sheet", feature = "recording"))]
use guillotiere::cache::{CacheError, CacheOptions, TextureCache};
use guillotiere::recording::{RecordingAllocator, ResumeError};
use guillotiere::sheet::{fill, pack, Allowed, SheetError, SheetOptions};
use guillotiere::*;

mod granting;
use granting::granting;

type Call = fn(&mut AtlasAllocator) -> Result<(), AtlasError>;

fn allocate_some(atlas: &mut AtlasAllocator) -> Result<(), AtlasError> {
    let turn = atlas.slots().used as i32;
    atlas
        .try_allocate(size2(3 + turn % 7, 2 + turn % 5))
        .map(drop)
}

// Frees the first and the third of what is live.
fn free_two(atlas: &mut AtlasAllocator) -> Result<(), AtlasError> {
    let mut ids = [AllocId::deserialize(0); 3];
    let mut found = 0;
    atlas.for_each_allocated_rectangle(|id, _| {
        if found < 3 {
            ids[found] = id;
            found += 1;
        }
    });
    atlas.try_deallocate_all(&[ids[0], ids[2]])
}

const CALLS: &[Call] = &[
    allocate_some,
    allocate_some,
    allocate_some,
    |atlas| atlas.try_reserve(20),
    allocate_some,
    allocate_some,
    free_two,
    |atlas| atlas.try_grow(size2(64, 48)),
    allocate_some,
    |atlas| atlas.try_rearrange().map(drop),
    allocate_some,
    |atlas| atlas.try_resize_and_rearrange(size2(9, 40)).map(drop),
    |atlas| atlas.try_clone().map(|copy| *atlas = copy),
    allocate_some,
];

type State = (Size, SlotCount, Vec<(AllocId, Rectangle)>, Vec<Rectangle>);

fn state_of(atlas: &AtlasAllocator) -> State {
    let (mut live, mut free) = (Vec::new(), Vec::new());
    atlas.for_each_allocated_rectangle(|id, area| {
        assert_eq!((atlas[id], atlas.get(id)), (*area, Some(*area)));
        live.push((id, *area));
    });
    atlas.for_each_free_rectangle(|area| free.push(*area));
    (atlas.size(), atlas.slots(), live, free)
}

// The atlas after so many calls, none of which is refused.
fn played(calls: usize) -> AtlasAllocator {
    let mut atlas = AtlasAllocator::new(size2(32, 32));
    for call in &CALLS[..calls] {
        call(&mut atlas).unwrap();
    }
    atlas
}

#[test]
fn an_atlas_stays_where_memory_is_refused() {
    let mut refused = 0;
    for (number, call) in CALLS.iter().enumerate() {
        let after = state_of(&played(number + 1));
        for requests in 0.. {
            let mut atlas = played(number);
            let before = state_of(&atlas);
            if granting(requests, || call(&mut atlas)).is_ok() {
                assert_eq!(state_of(&atlas), after);
                break;
            }
            refused += 1;
            assert_eq!(granting(0, || call(&mut atlas)), Err(AtlasError::Memory));
            assert_eq!(state_of(&atlas), before);
            call(&mut atlas).unwrap();
            assert_eq!(state_of(&atlas), after);
        }
    }
    assert!(refused >= 10);
}

type RecordedCall = fn(&mut RecordingAllocator) -> Result<(), AtlasError>;

fn request_some(atlas: &mut RecordingAllocator) -> Result<(), AtlasError> {
    let turn = atlas.slots().used as i32;
    atlas
        .try_allocate(size2(3 + turn % 7, 2 + turn % 5))
        .map(drop)
}

const RECORDED_CALLS: &[RecordedCall] = &[
    request_some,
    request_some,
    |atlas| atlas.try_reserve(20),
    request_some,
    |atlas| atlas.try_allocate(size2(99, 1)).map(drop),
    |atlas| atlas.try_deallocate(AllocId::deserialize(1)),
    |atlas| atlas.try_grow(size2(64, 48)),
    |atlas| atlas.try_rearrange().map(drop),
    request_some,
    |atlas| atlas.try_resize_and_rearrange(size2(9, 9)).map(drop),
    request_some,
];

// The recording allocator after so many calls, none of which is refused.
fn recorded(calls: usize) -> RecordingAllocator {
    let mut atlas = RecordingAllocator::new(size2(32, 32));
    for call in &RECORDED_CALLS[..calls] {
        call(&mut atlas).unwrap();
    }
    atlas
}

#[test]
fn nothing_is_recorded_where_memory_is_refused() {
    let mut refused = 0;
    for (number, call) in RECORDED_CALLS.iter().enumerate() {
        let after = recorded(number + 1);
        for requests in 0.. {
            let mut atlas = recorded(number);
            let before = (atlas.recording(), atlas.allocations(), atlas.slots());
            if granting(requests, || call(&mut atlas)).is_ok() {
                assert_eq!(atlas.recording(), after.recording());
                assert_eq!(atlas.allocations(), after.allocations());
                break;
            }
            refused += 1;
            let now = (atlas.recording(), atlas.allocations(), atlas.slots());
            assert_eq!(now, before);
        }
    }
    assert!(refused >= 10);
}

#[test]
fn copies_and_resumptions_are_refused() {
    let atlas = recorded(RECORDED_CALLS.len());
    let whole = atlas.recording();
    let mut requests = 0;
    while granting(requests, || atlas.try_recording()) != Ok(whole.clone()) {
        let refused = granting(requests, || atlas.try_recording());
        assert_eq!(refused, Err(AtlasError::Memory));
        requests += 1;
    }
    assert!(requests >= 4);
    requests = 0;
    while let Err(error) = granting(requests, || whole.resume()) {
        assert_eq!(error, ResumeError::Memory);
        requests += 1;
    }
    assert!(requests >= 10);
    let live = granting(0, || atlas.try_allocations());
    assert_eq!(live, Err(AtlasError::Memory));
    let start = granting(0, || RecordingAllocator::try_new(size2(9, 9)).err());
    assert_eq!(start, Some(AtlasError::Memory));
}

#[test]
fn nothing_is_asked_for_where_room_is_reserved() {
    let mut atlas = AtlasAllocator::new(size2(64, 64));
    atlas.try_reserve(41).unwrap();
    let ids = granting(0, || {
        [(); 10].map(|_| atlas.allocate(size2(5, 3)).unwrap().id)
    });
    granting(0, || {
        ids.iter().for_each(|id| atlas.deallocate(*id));
        atlas.clear();
    });
    assert!(atlas.is_empty());
}

// Not even what is dropped is asked for: these walks make no list.
#[test]
fn walks_ask_for_nothing() {
    let atlas = played(CALLS.len());
    let (live, free) = granting(0, || {
        let walk = atlas.iter();
        let copy = walk.clone();
        assert_eq!(walk.count(), copy.rev().count());
        (atlas.iter().count(), atlas.free_iter().clone().count())
    });
    let (_, _, live_there, free_there) = state_of(&atlas);
    assert_eq!((live, free), (live_there.len(), free_there.len()));
    assert!(live > 0 && free > 0);
}

#[test]
fn starts_are_refused() {
    let error = granting(0, || AtlasAllocator::try_new(size2(9, 9)).err());
    assert_eq!(error, Some(AtlasError::Memory));
    let error = granting(0, || SimpleAtlasAllocator::try_new(size2(9, 9)).err());
    assert_eq!(error, Some(AtlasError::Memory));
}

#[test]
fn sheets_are_refused() {
    let sprites = [size2(4, 4), size2(3, 9), size2(7, 2)];
    let options = SheetOptions::new(Allowed::Squares {
        least: 1,
        greatest: 64,
    });
    let sheet = pack(&sprites, &options);
    let requests = (0..).find(|requests| {
        let found = granting(*requests, || pack(&sprites, &options));
        assert!(found == Err(SheetError::Memory) || found == sheet);
        found == sheet
    });
    assert!(requests > Some(3));
    let filled = fill(&sprites, &options).unwrap();
    assert_eq!(
        granting(0, || fill(&sprites, &options)),
        Err(SheetError::Memory)
    );
    assert_eq!((filled.places.len(), filled.used_area), (3, 16 + 27 + 14));
}

#[test]
fn a_cache_stays_where_memory_is_refused() {
    let options = CacheOptions {
        page: size2(16, 16),
        largest_page: size2(16, 32),
        pages: 2,
        padding: 1,
        atlas: DEFAULT_OPTIONS,
    };
    let mut cache = TextureCache::<u64>::new(&options).unwrap();
    for key in 0..20 {
        cache.begin_frame();
        let mut requests = 0;
        let place = loop {
            match granting(requests, || cache.insert(key, size2(6, 5))) {
                Ok(inserted) => break inserted.place().unwrap(),
                Err(error) => assert_eq!(error, CacheError::Memory),
            }
            assert_eq!(cache.peek(key), None);
            requests += 1;
        };
        assert_eq!(cache.get(key), Some(place));
    }
    assert!(cache.len() < 20 && cache.pages() == 2);
}

// What a call answers as soon as its requests are granted, of which there are at least so many; before that it says this.
fn granted_in_the_end<T, E: PartialEq + std::fmt::Debug>(
    least: usize,
    call: impl Fn() -> Result<T, E>,
    refusal: E,
) -> T {
    let mut requests = 0;
    loop {
        match granting(requests, &call) {
            Ok(answer) => {
                assert!(requests >= least);
                return answer;
            }
            Err(error) => assert_eq!(error, refusal),
        }
        requests += 1;
    }
}

#[test]
fn copies_are_refused() {
    let mut simple = SimpleAtlasAllocator::new(size2(9, 9));
    assert!(simple.allocate(size2(9, 9)).is_some());
    // Its list of free rectangles is empty, and takes room for one all the same; its table of lists takes none.
    let mut copy = granted_in_the_end(1, || simple.try_clone(), AtlasError::Memory);
    assert_eq!(copy.allocate(size2(1, 1)), None);
    granting(0, || copy.clear());
    assert!(copy.is_empty());
    let mut divided = SimpleAtlasAllocator::new(size2(99, 99));
    for side in 1..10 {
        assert!(divided.allocate(size2(side, side)).is_some()); // one more free rectangle
    }
    // With a ninth free rectangle the table takes memory too.
    let copy = granted_in_the_end(2, || divided.try_clone(), AtlasError::Memory);
    assert_eq!(copy.slots(), divided.slots());
    assert!(copy.slots().used > 8);
    let atlas = recorded(RECORDED_CALLS.len());
    let copy = granted_in_the_end(4, || atlas.try_clone(), AtlasError::Memory);
    assert_eq!(copy.recording(), atlas.recording());
    assert_eq!(copy.allocations(), atlas.allocations());
    let mut cache = TextureCache::<u64>::new(&CacheOptions::new(size2(16, 16))).unwrap();
    assert!(cache.insert(7, size2(6, 5)).is_ok());
    // Its map, its entries, their order, its pages, what is known of them, an atlas, and the changes.
    let mut copy = granted_in_the_end(7, || cache.try_clone(), CacheError::Memory);
    assert_eq!(copy.get(7), cache.get(7));
}
