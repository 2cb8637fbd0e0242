//! Images in the layers of a texture array, as a toolkit for windows keeps them: a layer is empty, full or cut into boxes, and an image
//! that is larger than a layer lies in pieces.
use crate::Random;
use guillotiere::{size2, AllocId, AtlasAllocator, Rectangle, Size};
use std::collections::HashMap;

const SIDE: i32 = 256;

// An atlas has its options and bands of sides in place, some 1,200 bytes.
#[allow(clippy::large_enum_variant)]
enum Layer {
    Empty,
    Busy {
        allocator: AtlasAllocator,
        live: u32,
    },
    Full,
}

#[derive(Debug)]
enum Piece {
    Whole { layer: usize },
    Part { layer: usize, id: AllocId },
}

struct Atlas {
    layers: Vec<Layer>,
}

impl Atlas {
    fn piece(&mut self, size: Size) -> Piece {
        if size == size2(SIDE, SIDE) {
            let layer = self.empty_layer();
            self.layers[layer] = Layer::Full;
            return Piece::Whole { layer };
        }
        for (layer, held) in self.layers.iter_mut().enumerate() {
            if let Layer::Busy { allocator, live } = held {
                if let Some(granted) = allocator.allocate(size) {
                    *live += 1;
                    let id = granted.id;
                    return Piece::Part { layer, id };
                }
            }
        }
        let layer = self.empty_layer();
        let mut allocator = AtlasAllocator::new(size2(SIDE, SIDE));
        let id = allocator.allocate(size).unwrap().id;
        self.layers[layer] = Layer::Busy { allocator, live: 1 };
        Piece::Part { layer, id }
    }

    fn empty_layer(&mut self) -> usize {
        let found = self.layers.iter().position(|x| matches!(x, Layer::Empty));
        found.unwrap_or_else(|| {
            self.layers.push(Layer::Empty);
            self.layers.len() - 1
        })
    }

    /// Each piece with its place in the image.
    fn upload(&mut self, size: Size) -> Vec<(Size, Piece)> {
        let mut pieces = Vec::new();
        for top in (0..size.height).step_by(SIDE as usize) {
            for left in (0..size.width).step_by(SIDE as usize) {
                let piece = size2(SIDE.min(size.width - left), SIDE.min(size.height - top));
                pieces.push((piece, self.piece(piece)));
            }
        }
        pieces
    }

    fn remove(&mut self, piece: &Piece) {
        match *piece {
            Piece::Whole { layer } => self.layers[layer] = Layer::Empty,
            Piece::Part { layer, id } => {
                if let Layer::Busy { allocator, live } = &mut self.layers[layer] {
                    allocator.deallocate(id);
                    *live -= 1;
                    assert_eq!(*live == 0, allocator.is_empty());
                    if allocator.is_empty() {
                        self.layers[layer] = Layer::Empty;
                    }
                }
            }
        }
    }

    fn place(&self, piece: &Piece) -> (usize, Rectangle) {
        match *piece {
            Piece::Whole { layer } => (layer, Rectangle::from(size2(SIDE, SIDE))),
            Piece::Part { layer, id } => match &self.layers[layer] {
                Layer::Busy { allocator, .. } => (layer, allocator[id]),
                _ => panic!("{:?} lies in no layer", piece),
            },
        }
    }
}

#[test]
fn images_come_and_go_in_layers() {
    let mut atlas = Atlas { layers: Vec::new() };
    let mut random = Random(1);
    let mut images: HashMap<u32, Vec<(Size, Piece)>> = HashMap::new();
    for turn in 0..3000 {
        let number = random.below(120);
        match images.remove(&number) {
            Some(pieces) => pieces.iter().for_each(|(_, piece)| atlas.remove(piece)),
            None => {
                let most = if turn % 40 == 0 { 2 * SIDE } else { 70 };
                let size = size2(random.side(1, most), random.side(1, most));
                images.insert(number, atlas.upload(size));
            }
        }
    }
    let mut owners: HashMap<(usize, i32, i32), u32> = HashMap::new();
    for (number, pieces) in &images {
        for (size, piece) in pieces {
            let (layer, place) = atlas.place(piece);
            assert_eq!(place.size(), *size);
            for y in place.min.y..place.max.y {
                for x in place.min.x..place.max.x {
                    assert_eq!(owners.insert((layer, x, y), *number), None);
                }
            }
        }
    }
    assert!(images.len() > 20 && atlas.layers.len() > 1);
    for (_, pieces) in images {
        pieces.iter().for_each(|(_, piece)| atlas.remove(piece));
    }
    assert!(atlas.layers.iter().all(|x| matches!(x, Layer::Empty)));
}
