//! Pictures as the bytes of PNG files.
use crate::colour::Chunk;
use crate::picture::{Picture, Pixel};
use png::{AdaptiveFilterType, BitDepth, ColorType, Compression, FilterType};
use std::collections::BTreeMap;

// How the same pixels can be stored.
struct Stored {
    kind: ColorType,
    samples: Vec<u8>,
    // Of a palette: the colours, and their alphas.
    palette: Vec<u8>,
    alphas: Vec<u8>,
}

fn plain(picture: &Picture) -> Stored {
    Stored {
        kind: ColorType::Rgba,
        samples: picture.pixels.concat(),
        palette: Vec::new(),
        alphas: Vec::new(),
    }
}

// Without alpha; none where a pixel is transparent.
fn opaque(picture: &Picture) -> Option<Stored> {
    let is_opaque = picture.pixels.iter().all(|pixel| pixel[3] == 255);
    is_opaque.then(|| Stored {
        kind: ColorType::Rgb,
        samples: picture
            .pixels
            .iter()
            .flat_map(|pixel| [pixel[0], pixel[1], pixel[2]])
            .collect(),
        palette: Vec::new(),
        alphas: Vec::new(),
    })
}

// With a palette, the transparent colours first; none where there are more than 256 colours.
fn indexed(picture: &Picture) -> Option<Stored> {
    let mut numbers: BTreeMap<(u8, Pixel), u8> = BTreeMap::new();
    for pixel in &picture.pixels {
        numbers.insert((pixel[3], *pixel), 0);
        if numbers.len() > 256 {
            return None;
        }
    }
    let (mut palette, mut alphas) = (Vec::new(), Vec::new());
    for (number, ((alpha, pixel), place)) in numbers.iter_mut().enumerate() {
        *place = number as u8;
        palette.extend(&pixel[..3]);
        if *alpha < 255 {
            alphas.push(*alpha);
        }
    }
    Some(Stored {
        kind: ColorType::Indexed,
        samples: picture
            .pixels
            .iter()
            .map(|pixel| numbers[&(pixel[3], *pixel)])
            .collect(),
        palette,
        alphas,
    })
}

// How the lines are filtered; none for what fits each line best.
type Way = (Option<FilterType>, Compression);

fn encoded(
    picture: &Picture,
    stored: &Stored,
    chunks: &[Chunk],
    (filter, compression): Way,
) -> Result<Vec<u8>, png::EncodingError> {
    let mut bytes = Vec::new();
    let mut encoder = png::Encoder::new(&mut bytes, picture.width, picture.height);
    encoder.set_color(stored.kind);
    encoder.set_depth(BitDepth::Eight);
    encoder.set_compression(compression);
    match filter {
        Some(filter) => encoder.set_filter(filter),
        None => encoder.set_adaptive_filter(AdaptiveFilterType::Adaptive),
    }
    if stored.kind == ColorType::Indexed {
        encoder.set_palette(&stored.palette[..]);
        if !stored.alphas.is_empty() {
            encoder.set_trns(&stored.alphas[..]);
        }
    }
    let mut writer = encoder.write_header()?;
    for (name, data) in chunks {
        writer.write_chunk(png::chunk::ChunkType(*name), data)?;
    }
    writer.write_image_data(&stored.samples)?;
    writer.finish()?;
    Ok(bytes)
}

/// The bytes of a PNG: of eight bits with alpha; where it is to be small, the smallest of several ways to store the same pixels.
pub fn bytes(picture: &Picture, chunks: &[Chunk], is_small: bool) -> Result<Vec<u8>, String> {
    let told = |error: png::EncodingError| error.to_string();
    if !is_small {
        // Sheets of two icon themes are as small as with the best filter for each row, in half the time.
        let way = (Some(FilterType::Paeth), Compression::Default);
        return encoded(picture, &plain(picture), chunks, way).map_err(told);
    }
    let filters = [
        FilterType::NoFilter,
        FilterType::Sub,
        FilterType::Up,
        FilterType::Avg,
        FilterType::Paeth,
    ];
    let ways = filters.into_iter().map(Some).chain([None]);
    // Chunks of colours stand before a palette, which isn't written here in that order.
    let indexed = indexed(picture).filter(|_| chunks.is_empty());
    let stored = indexed
        .or_else(|| opaque(picture))
        .unwrap_or_else(|| plain(picture));
    let mut best: Option<Vec<u8>> = None;
    for filter in ways {
        let bytes = encoded(picture, &stored, chunks, (filter, Compression::Best)).map_err(told)?;
        if best.as_ref().map_or(true, |best| bytes.len() < best.len()) {
            best = Some(bytes);
        }
    }
    best.ok_or_else(|| "it can't be written as a PNG".to_string())
}
