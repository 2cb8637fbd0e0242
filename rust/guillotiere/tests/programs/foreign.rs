//! An atlas behind functions for C, whose structs have the layout of the crate's values.
use guillotiere::{
    point2, size2, AllocId, Allocation, AllocatorOptions, AtlasAllocator, Change, Rectangle,
    DEFAULT_OPTIONS,
};
use std::mem::{size_of, transmute};

#[repr(C)]
#[derive(Clone, Copy, Debug, PartialEq)]
struct CRectangle {
    left: i32,
    top: i32,
    right: i32,
    bottom: i32,
}

#[repr(C)]
#[derive(Clone, Copy, Debug, PartialEq)]
struct CAllocation {
    id: u32,
    rectangle: CRectangle,
}

#[repr(C)]
#[derive(Clone, Copy, Debug, PartialEq)]
struct COptions {
    alignment: [i32; 2],
    small: i32,
    large: i32,
}

extern "C" fn atlas_new(width: i32, height: i32, options: COptions) -> *mut AtlasAllocator {
    let options: AllocatorOptions = unsafe { transmute(options) };
    let atlas = AtlasAllocator::with_options(size2(width, height), &options);
    Box::into_raw(Box::new(atlas))
}

unsafe extern "C" fn atlas_allocate(
    atlas: *mut AtlasAllocator,
    width: i32,
    height: i32,
    out: *mut CAllocation,
) -> bool {
    match (*atlas).allocate(size2(width, height)) {
        Some(granted) => {
            out.write(transmute::<Allocation, CAllocation>(granted));
            true
        }
        None => false,
    }
}

unsafe extern "C" fn atlas_deallocate(atlas: *mut AtlasAllocator, id: u32) {
    (*atlas).deallocate(AllocId::deserialize(id));
}

unsafe extern "C" fn atlas_rectangle(atlas: *const AtlasAllocator, id: u32) -> CRectangle {
    let rectangle: Rectangle = (&(*atlas))[AllocId::deserialize(id)];
    transmute(rectangle)
}

unsafe extern "C" fn atlas_drop(atlas: *mut AtlasAllocator) {
    drop(Box::from_raw(atlas));
}

#[test]
fn values_have_the_layout_of_structs_of_c() {
    let sizes = [
        size_of::<AllocId>(),
        size_of::<Allocation>(),
        size_of::<Change>(),
        size_of::<AllocatorOptions>(),
        size_of::<Rectangle>(),
    ];
    assert_eq!(sizes, [4, 20, 40, 16, 16]);
    let options: COptions = unsafe { transmute(DEFAULT_OPTIONS) };
    let wanted = COptions {
        alignment: [1, 1],
        small: 32,
        large: 256,
    };
    assert_eq!(options, wanted);
    let allocation = Allocation {
        id: AllocId::deserialize(7),
        rectangle: Rectangle {
            min: point2(1, 2),
            max: point2(3, 4),
        },
    };
    let words: [u32; 5] = unsafe { transmute(allocation) };
    assert_eq!(words, [7, 1, 2, 3, 4]);
}

#[test]
fn an_atlas_goes_by_pointers() {
    let options = COptions {
        alignment: [4, 8],
        small: 16,
        large: 64,
    };
    let atlas = atlas_new(64, 32, options);
    let mut granted = CAllocation {
        id: 0,
        rectangle: CRectangle {
            left: 0,
            top: 0,
            right: 0,
            bottom: 0,
        },
    };
    unsafe {
        assert!(atlas_allocate(atlas, 61, 25, &mut granted));
        let wanted = CRectangle {
            left: 0,
            top: 0,
            right: 64,
            bottom: 32,
        };
        assert_eq!(granted.rectangle, wanted);
        assert_eq!(atlas_rectangle(atlas, granted.id), wanted);
        assert!(!atlas_allocate(atlas, 1, 1, &mut granted));
        atlas_deallocate(atlas, granted.id);
        assert!(atlas_allocate(atlas, 64, 32, &mut granted));
        atlas_drop(atlas);
    }
}
