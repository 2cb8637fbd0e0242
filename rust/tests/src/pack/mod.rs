//! Tests of the lines of `atlas_pack`: what is read and what is written, worked by hand.

mod reading;
mod writing;

use atlas_pack::sprites::Sprite;
use wollemigo_core::atlas_model::size2;
use wollemigo_support::alloc::Global;
use wollemigo_support::string::String;

fn sprite(name: &str, width: i32, height: i32) -> Sprite {
    Sprite {
        name: String::from_str(Global, name).expect("memory"),
        size: size2(width, height),
    }
}
