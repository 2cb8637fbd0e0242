//! serde of an atlas: a struct of its size, its options and its slots. The slots are the limit, the unused slot that is taken next, and a
//! list: what each slot is used for, whether its sequence runs down, its generation, the numbers of its container, of the slot before it
//! and of the one after it, and its rectangle. The number of no slot is 4294967295; after an unused slot comes the next unused one. A simple
//! allocator is a struct of its size, its options and its free rectangles, whose order has no meaning. What is read is tested: only what
//! describes an allocator becomes one.
use super::fields;
use super::lists::{size_form, size_of, Formed, List, SizeForm, Written};
use crate::{
    convert, AllocatorOptions, AtlasAllocator, AtlasError, NodeKind, SimpleAtlasAllocator,
};
use serde::de::{Deserialize, Deserializer, Error as _};
use serde::ser::{Error as _, Serialize, SerializeStruct, Serializer};
use wollemigo_core::atlas_search::cut::Orientation;
use wollemigo_core::atlas_search::link::Link;
use wollemigo_core::atlas_store::slots::{Node, NodeKind as Kind};
use wollemigo_core::guillotiere as library;
use wollemigo_support::alloc::Global;
use wollemigo_support::vec::Vec;

type SlotForm = (NodeKind, bool, u8, (u32, u32, u32), (i32, i32, i32, i32));
type SlotsForm = (u32, u32, List<Node>);

fn kind_form(kind: Kind) -> NodeKind {
    match kind {
        Kind::Container => NodeKind::Container,
        Kind::Alloc => NodeKind::Alloc,
        Kind::Free => NodeKind::Free,
        Kind::Unused => NodeKind::Unused,
    }
}

fn kind_of(kind: NodeKind) -> Kind {
    match kind {
        NodeKind::Container => Kind::Container,
        NodeKind::Alloc => Kind::Alloc,
        NodeKind::Free => Kind::Free,
        NodeKind::Unused => Kind::Unused,
    }
}

fn slot_form(node: &Node) -> SlotForm {
    let library::Rectangle { min, max } = node.area;
    (
        kind_form(node.kind),
        node.axis == Orientation::Vertical,
        node.generation,
        (node.parent.number, node.previous.number, node.next.number),
        (min.x, min.y, max.x, max.y),
    )
}

impl Formed for Node {
    type Form = SlotForm;

    fn of((kind, runs_down, generation, links, corners): SlotForm) -> Self {
        let (parent, previous, next) = links;
        let (left, top, right, bottom) = corners;
        Node {
            parent: Link { number: parent },
            previous: Link { number: previous },
            next: Link { number: next },
            area: library::Rectangle {
                min: library::point2(left, top),
                max: library::point2(right, bottom),
            },
            kind: kind_of(kind),
            axis: if runs_down {
                Orientation::Vertical
            } else {
                Orientation::Horizontal
            },
            generation,
        }
    }
}

// In the library's list, whose memory may be refused.
fn listed<T: Copy>(items: &[T]) -> Result<Vec<T, Global>, AtlasError> {
    let mut list = Vec::with_capacity(Global, items.len()).map_err(|_| AtlasError::Memory)?;
    for item in items {
        list.push_reserved(*item);
    }
    Ok(list)
}

const FIELDS: &[&str] = &["size", "options", "slots"];

impl Serialize for AtlasAllocator {
    fn serialize<S: Serializer>(&self, serializer: S) -> Result<S::Ok, S::Error> {
        let image = self.image().map_err(S::Error::custom)?;
        let slots = Written(&image.nodes[..], slot_form);
        let mut fields = serializer.serialize_struct("AtlasAllocator", FIELDS.len())?;
        fields.serialize_field(FIELDS[0], &size_form(&convert::size(image.size)))?;
        fields.serialize_field(FIELDS[1], &convert::options(&image.options))?;
        fields.serialize_field(FIELDS[2], &(image.limit, image.unused.number, slots))?;
        fields.end()
    }
}

impl<'de> Deserialize<'de> for AtlasAllocator {
    fn deserialize<D: Deserializer<'de>>(deserializer: D) -> Result<Self, D::Error> {
        let visitor = fields("an atlas", FIELDS);
        let (size, options, slots): (SizeForm, AllocatorOptions, SlotsForm) =
            deserializer.deserialize_struct("AtlasAllocator", FIELDS, visitor)?;
        let (limit, unused, List(list)) = slots;
        let image = library::AtlasImage {
            size: convert::library_size(size_of(size)),
            options: convert::library_options(&options),
            limit,
            unused: Link { number: unused },
            nodes: listed(&list).map_err(D::Error::custom)?,
        };
        let found = AtlasAllocator::of_image(&image).map_err(D::Error::custom)?;
        found.ok_or_else(|| D::Error::custom("the slots are not those of an atlas"))
    }
}

type CornersForm = (i32, i32, i32, i32);

fn corners_form(rectangle: &library::Rectangle) -> CornersForm {
    let library::Rectangle { min, max } = *rectangle;
    (min.x, min.y, max.x, max.y)
}

impl Formed for library::Rectangle {
    type Form = CornersForm;

    fn of((left, top, right, bottom): CornersForm) -> Self {
        library::Rectangle {
            min: library::point2(left, top),
            max: library::point2(right, bottom),
        }
    }
}

const SIMPLE_FIELDS: &[&str] = &["size", "options", "free"];

impl Serialize for SimpleAtlasAllocator {
    fn serialize<S: Serializer>(&self, serializer: S) -> Result<S::Ok, S::Error> {
        let image = self.image().map_err(S::Error::custom)?;
        let free = Written(&image.free[..], corners_form);
        let mut fields =
            serializer.serialize_struct("SimpleAtlasAllocator", SIMPLE_FIELDS.len())?;
        fields.serialize_field(SIMPLE_FIELDS[0], &size_form(&convert::size(image.size)))?;
        fields.serialize_field(SIMPLE_FIELDS[1], &convert::options(&image.options))?;
        fields.serialize_field(SIMPLE_FIELDS[2], &free)?;
        fields.end()
    }
}

impl<'de> Deserialize<'de> for SimpleAtlasAllocator {
    fn deserialize<D: Deserializer<'de>>(deserializer: D) -> Result<Self, D::Error> {
        let visitor = fields("a simple allocator", SIMPLE_FIELDS);
        let (size, options, free): (SizeForm, AllocatorOptions, List<library::Rectangle>) =
            deserializer.deserialize_struct("SimpleAtlasAllocator", SIMPLE_FIELDS, visitor)?;
        let image = library::SimpleImage {
            size: convert::library_size(size_of(size)),
            options: convert::library_options(&options),
            free: listed(&free.0).map_err(D::Error::custom)?,
        };
        let found = SimpleAtlasAllocator::of_image(&image).map_err(D::Error::custom)?;
        found.ok_or_else(|| D::Error::custom("the free rectangles are not those of an allocator"))
    }
}
