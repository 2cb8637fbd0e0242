//! A program for lines whose atlas is kept between two of them, with names for what is allocated. Its allocator is one that records: the
//! names that it hands out stand where ids stood.
use crate::tree::{written, Fault, Tree};
use guillotiere::recording::RecordingAllocator;
use guillotiere::serde::de::Deserialize;
use guillotiere::{size2, AllocId, Size};
use std::collections::BTreeMap;

struct Session {
    atlas: RecordingAllocator,
    names: BTreeMap<String, AllocId>,
}

fn size(words: &[&str]) -> Size {
    size2(words[0].parse().unwrap(), words[1].parse().unwrap())
}

/// Carries out a line, and gives what the program prints.
fn run(session: &mut Option<Session>, line: &str) -> String {
    let words: Vec<&str> = line.split(' ').collect();
    if words[0] == "init" {
        let atlas = RecordingAllocator::new(size(&words[1..]));
        let names = BTreeMap::new();
        *session = Some(Session { atlas, names });
        return "made".into();
    }
    let held = session.as_mut().unwrap();
    match words[0] {
        "allocate" => match held.atlas.allocate(size(&words[2..])) {
            Some(granted) => {
                held.names.insert(words[1].into(), granted.id);
                let size = granted.rectangle.size();
                format!("{} by {}", size.width, size.height)
            }
            None => "no room".into(),
        },
        "deallocate" => {
            held.atlas.deallocate(held.names.remove(words[1]).unwrap());
            "freed".into()
        }
        "grow" => {
            held.atlas.grow(size(&words[1..]));
            "grown".into()
        }
        "rearrange" => {
            let list = held.atlas.rearrange();
            held.names
                .retain(|_, id| !list.failures.iter().any(|gone| gone.id == *id));
            format!("{} lie anew", list.changes.len())
        }
        "list" => held.names.keys().cloned().collect::<Vec<_>>().join(" "),
        _ => "unknown".into(),
    }
}

/// The program ends after each line, and the next begins with what it has kept.
fn kept_and_read(session: Session) -> Result<Session, Fault> {
    let tree: Tree = written(&session.atlas);
    let names = session.names;
    let atlas = RecordingAllocator::deserialize(tree)?;
    Ok(Session { atlas, names })
}

#[test]
fn a_session_goes_on_from_what_is_kept() {
    let lines = [
        ("init 64 64", "made"),
        ("allocate a 64 20", "64 by 20"),
        ("allocate b 64 20", "64 by 20"),
        ("allocate c 64 40", "no room"),
        ("deallocate a", "freed"),
        ("allocate c 64 24", "64 by 24"),
        ("rearrange", "2 lie anew"),
        ("allocate d 64 21", "no room"),
        ("grow 64 65", "grown"),
        ("allocate d 64 21", "64 by 21"),
        ("list", "b c d"),
        ("deallocate b", "freed"),
        ("deallocate c", "freed"),
        ("deallocate d", "freed"),
        ("allocate e 64 65", "64 by 65"),
        ("list", "e"),
    ];
    let mut session = None;
    for (line, wanted) in lines {
        assert_eq!(run(&mut session, line), wanted, "{}", line);
        session = Some(kept_and_read(session.unwrap()).unwrap());
    }
}
