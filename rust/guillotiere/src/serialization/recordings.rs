//! serde of recordings and events, as `recording` describes their form, and of allocators by their recordings.
use super::lists::{size_form, size_of, Formed, List, Written};
use super::{fields, Among};
use crate::recording::{Event, Recording, RecordingAllocator};
use crate::{point2, AllocId, Allocation, Change, ChangeList, Rectangle};
use core::fmt;
use serde::de::{Deserialize, Deserializer, EnumAccess, Error as _, VariantAccess, Visitor};
use serde::ser::{Error as _, Serialize, SerializeStruct, Serializer};

type AllocationForm = (u32, (i32, i32, i32, i32));
type ChangeForm = (AllocationForm, AllocationForm);

fn allocation_form(allocation: &Allocation) -> AllocationForm {
    let Rectangle { min, max } = allocation.rectangle;
    (allocation.id.0, (min.x, min.y, max.x, max.y))
}

fn change_form(change: &Change) -> ChangeForm {
    (allocation_form(&change.old), allocation_form(&change.new))
}

fn written(list: &ChangeList) -> impl Serialize + '_ {
    (
        Written(&list.changes, change_form),
        Written(&list.failures, allocation_form),
    )
}

impl Formed for Allocation {
    type Form = AllocationForm;

    fn of((name, (left, top, right, bottom)): AllocationForm) -> Self {
        Allocation {
            id: AllocId(name),
            rectangle: Rectangle {
                min: point2(left, top),
                max: point2(right, bottom),
            },
        }
    }
}

impl Formed for Change {
    type Form = ChangeForm;

    fn of((old, new): ChangeForm) -> Self {
        Change {
            old: Allocation::of(old),
            new: Allocation::of(new),
        }
    }
}

impl Formed for Event {
    type Form = Event;

    fn of(event: Event) -> Self {
        event
    }
}

type Lists = (List<Change>, List<Allocation>);

fn change_list((changes, failures): Lists) -> ChangeList {
    ChangeList {
        changes: changes.0,
        failures: failures.0,
    }
}

const EVENTS: &[&str] = &[
    "Allocate",
    "Deallocate",
    "Grow",
    "Rearrange",
    "ResizeAndRearrange",
];

impl Serialize for Event {
    fn serialize<S: Serializer>(&self, serializer: S) -> Result<S::Ok, S::Error> {
        fn write<S: Serializer>(
            serializer: S,
            number: u32,
            value: &impl Serialize,
        ) -> Result<S::Ok, S::Error> {
            serializer.serialize_newtype_variant("Event", number, EVENTS[number as usize], value)
        }
        match self {
            Event::Allocate(size, granted) => {
                let granted = granted.as_ref().map(allocation_form);
                write(serializer, 0, &(size_form(size), granted))
            }
            Event::Deallocate(name) => write(serializer, 1, &name.0),
            Event::Grow(size) => write(serializer, 2, &size_form(size)),
            Event::Rearrange(list) => write(serializer, 3, &written(list)),
            Event::ResizeAndRearrange(size, list) => {
                write(serializer, 4, &(size_form(size), written(list)))
            }
        }
    }
}

struct EventVisitor;

impl<'de> Visitor<'de> for EventVisitor {
    type Value = Event;

    fn expecting(&self, f: &mut fmt::Formatter<'_>) -> fmt::Result {
        f.write_str("an event")
    }

    fn visit_enum<A: EnumAccess<'de>>(self, input: A) -> Result<Event, A::Error> {
        let (number, value) = input.variant_seed(Among(EVENTS))?;
        Ok(match number {
            0 => {
                let (size, granted): (_, Option<AllocationForm>) = value.newtype_variant()?;
                Event::Allocate(size_of(size), granted.map(Allocation::of))
            }
            1 => Event::Deallocate(AllocId(value.newtype_variant()?)),
            2 => Event::Grow(size_of(value.newtype_variant()?)),
            3 => Event::Rearrange(change_list(value.newtype_variant()?)),
            4 => {
                let (size, lists) = value.newtype_variant()?;
                Event::ResizeAndRearrange(size_of(size), change_list(lists))
            }
            _ => return Err(A::Error::custom("there is no event of this kind")),
        })
    }
}

impl<'de> Deserialize<'de> for Event {
    fn deserialize<D: Deserializer<'de>>(deserializer: D) -> Result<Self, D::Error> {
        deserializer.deserialize_enum("Event", EVENTS, EventVisitor)
    }
}

const FIELDS: &[&str] = &["size", "options", "events"];

impl Serialize for Recording {
    fn serialize<S: Serializer>(&self, serializer: S) -> Result<S::Ok, S::Error> {
        let mut fields = serializer.serialize_struct("Recording", FIELDS.len())?;
        fields.serialize_field(FIELDS[0], &size_form(&self.size))?;
        fields.serialize_field(FIELDS[1], &self.options)?;
        fields.serialize_field(FIELDS[2], &self.events[..])?;
        fields.end()
    }
}

impl<'de> Deserialize<'de> for Recording {
    fn deserialize<D: Deserializer<'de>>(deserializer: D) -> Result<Self, D::Error> {
        let visitor = fields("a recording", FIELDS);
        let (size, options, events): (_, _, List<Event>) =
            deserializer.deserialize_struct("Recording", FIELDS, visitor)?;
        Ok(Recording {
            size: size_of(size),
            options,
            events: events.0,
        })
    }
}

impl Serialize for RecordingAllocator {
    fn serialize<S: Serializer>(&self, serializer: S) -> Result<S::Ok, S::Error> {
        let recording = self.try_recording().map_err(S::Error::custom)?;
        recording.serialize(serializer)
    }
}

impl<'de> Deserialize<'de> for RecordingAllocator {
    fn deserialize<D: Deserializer<'de>>(deserializer: D) -> Result<Self, D::Error> {
        let recording = Recording::deserialize(deserializer)?;
        recording.resume().map_err(D::Error::custom)
    }
}
