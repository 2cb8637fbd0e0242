//! What fits: into sheets, and into memory.
use crate::fault::Fault;
use crate::folder::Named;
use crate::head;
use crate::memory::Bytes;
use crate::packing::{fits, greatest};
use crate::scale::Scale;
use crate::sheet::Sprite;
use crate::words::Words;
use guillotiere::sheet::Allowed;
use guillotiere::{size2, Size};
use std::collections::HashSet;
use std::sync::Arc;

/// The place that a picture needs, with what is repeated around it. Sides beyond those of any sheet are as good as endless.
pub fn size((width, height): (u64, u64), extrude: u16) -> Size {
    let side = |pixels: u64| (pixels + 2 * u64::from(extrude)).min(1 << 30) as i32;
    size2(side(width), side(height))
}

/// What is told of a picture that no sheet takes.
pub fn too_large(name: &str, size: Size, words: &Words) -> String {
    let room = greatest(words.options().allowed);
    let around = match words.border {
        Some(border) => format!("padding {} and border {}", words.padding, border),
        None => format!("padding {}", words.padding),
    };
    let bare = Words {
        border: Some(0),
        ..words.clone()
    };
    let border = match words.align.is_none() && words.border != Some(0) && fits(size, &bare.ways())
    {
        true => "--border 0, ",
        false => "",
    };
    format!(
        "{}: {}x{} with {} doesn't fit a sheet of {}x{}; a larger sheet, {}--leave-out or --exclude would do",
        name, size.width, size.height, around, room.width, room.height, border
    )
}

/// Why no sheet takes a picture, by its size alone; none where one may.
pub fn no_place(
    (name, path): &Named,
    (width, height): (u64, u64),
    words: &Words,
) -> Option<String> {
    if width == 0 || height == 0 {
        return None;
    }
    let at = |scale: &Scale| size((scale.of(width), scale.of(height)), words.extrude);
    let sizes: Vec<Size> = words.scale.iter().map(at).collect();
    let fits = |size: &Size| fits(*size, &words.ways());
    let first = sizes.iter().find(|size| !fits(size))?;
    // Without it a single one that doesn't fit is a fault.
    let is_wanted = words.leave_out && sizes.iter().any(fits);
    // What is transparent around it doesn't count.
    if words.trim && !head::is_opaque(path) {
        return None;
    }
    (!is_wanted).then(|| too_large(name, *first, words))
}

/// Whether the pictures that were read, and these sheets, may take so much memory.
pub fn check_memory(found: &[Sprite], sizes: &[Size], words: &Words) -> Result<(), Fault> {
    let mut counted = HashSet::new();
    let once = found
        .iter()
        .filter(|one| counted.insert(Arc::as_ptr(&one.picture)));
    let of_pictures = once.fold(Bytes(0), |sum, one| {
        sum.and(Bytes::of(
            one.picture.width.into(),
            one.picture.height.into(),
        ))
    });
    let of_all = sizes.iter().fold(of_pictures, |sum, size| {
        sum.and(Bytes::of(size.width as u64, size.height as u64))
    });
    words.memory().allow(of_all, "the pictures and the sheets")
}

/// A sheet of one size is known to be too large before a picture is read.
pub fn check_size(words: &Words) -> Result<(), Fault> {
    match words.options().allowed {
        Allowed::One(size) => check_memory(&[], &[size], words),
        _ => Ok(()),
    }
}
