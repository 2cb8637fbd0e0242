//! Pictures from the bytes of their files.
use crate::colour::Colour;
use crate::head;
use crate::heap;
use crate::picture::{Picture, Pixel};
use crate::webp;
use image::{ImageError, ImageFormat};
use std::fmt::Display;
use std::io::Cursor;
use std::path::Path;

const PNG: [u8; 8] = [0x89, b'P', b'N', b'G', 13, 10, 26, 10];
/// At four bytes a pixel, more than a picture may have.
pub const GREATEST: usize = 1 << 31;
pub const NO_MEMORY: &str = "there is no memory for it";
pub const TOO_LARGE: &str = "it is too large";

/// Whether a file is a TGA, which has no bytes that tell it, by its ending.
pub fn is_targa(path: &Path) -> bool {
    path.extension()
        .map_or(false, |ending| ending.eq_ignore_ascii_case("tga"))
}

// By the first bytes.
fn format(path: &Path, bytes: &[u8]) -> Option<ImageFormat> {
    let begins: [(&[u8], ImageFormat); 6] = [
        (&[0xff, 0xd8, 0xff], ImageFormat::Jpeg),
        (b"GIF87a", ImageFormat::Gif),
        (b"GIF89a", ImageFormat::Gif),
        (b"BM", ImageFormat::Bmp),
        (b"II\x2a\0", ImageFormat::Tiff),
        (b"MM\0\x2a", ImageFormat::Tiff),
    ];
    let known = begins.iter().find(|(begin, _)| bytes.starts_with(begin));
    if bytes.starts_with(b"RIFF") && bytes.get(8..12) == Some(b"WEBP") {
        Some(ImageFormat::WebP)
    } else {
        let targa = Some(ImageFormat::Tga).filter(|_| is_targa(path));
        known.map(|(_, format)| *format).or(targa)
    }
}

// Whether a file says something of its colours by a profile.
fn has_profile(format: ImageFormat, bytes: &[u8]) -> bool {
    let mark: &[u8] = match format {
        ImageFormat::Jpeg => b"ICC_PROFILE\0",
        ImageFormat::WebP => b"ICCP",
        _ => return false,
    };
    bytes.windows(mark.len()).any(|window| window == mark)
}

/// A picture and what its file says of colours, or why there is none. What reads it may take about `most` bytes.
pub fn decoded(path: &Path, bytes: &[u8], most: u64) -> Result<(Picture, Colour), String> {
    if bytes.starts_with(&PNG) {
        return Ok((from_png(bytes, most)?, Colour::of_png(bytes)));
    }
    let mut limits = image::io::Limits::default();
    limits.max_alloc = Some(most);
    // No larger than its first bytes say, by which it was counted.
    if let Some((width, height)) = head::size_of(path, Cursor::new(bytes)) {
        limits.max_image_width = u32::try_from(width).ok();
        limits.max_image_height = u32::try_from(height).ok();
    }
    let format = format(path, bytes).ok_or("not a PNG, JPEG, WebP, GIF, BMP, TIFF or TGA")?;
    let colour = Colour::of_others(has_profile(format, bytes));
    let picture = match format {
        ImageFormat::WebP => from_webp(bytes, limits)?,
        _ => by_library(format, bytes, limits)?,
    };
    Ok((non_empty(picture)?, colour))
}

// The library decodes all before it asks for the limits.
fn from_webp(bytes: &[u8], limits: image::io::Limits) -> Result<Picture, String> {
    let first = webp::first(bytes);
    let file = first.as_ref().map_or(bytes, |first| &first.file);
    if let Some((width, height)) = webp::inner(file) {
        if limits.check_dimensions(width, height).is_err() {
            return Err("the file is damaged (its picture is larger than it says)".to_string());
        }
    }
    let picture = by_library(ImageFormat::WebP, file, limits)?;
    match &first {
        Some(first) => first.put(&picture),
        None => Ok(picture),
    }
}

fn by_library(
    format: ImageFormat,
    bytes: &[u8],
    limits: image::io::Limits,
) -> Result<Picture, String> {
    let mut reader = image::io::Reader::with_format(Cursor::new(bytes), format);
    reader.limits(limits);
    let pixels = reader.decode().map_err(|error| match error {
        ImageError::Decoding(_) | ImageError::IoError(_) => damaged(&error),
        ImageError::Limits(_) => TOO_LARGE.to_string(),
        error => one_line(&error.to_string()),
    })?;
    let rgba = pixels.into_rgba8();
    Ok(Picture {
        width: rgba.width(),
        height: rgba.height(),
        pixels: listed(rgba.pixels().map(|pixel| pixel.0))?,
    })
}

// With a refusal where there is no memory for them.
fn listed<T>(items: impl ExactSizeIterator<Item = T>) -> Result<Vec<T>, String> {
    let mut list = heap::list(items.len()).map_err(|_| NO_MEMORY)?;
    list.extend(items);
    Ok(list)
}

fn one_line(text: &str) -> String {
    text.split_whitespace().collect::<Vec<_>>().join(" ")
}

// The words in brackets are those of the library that reads it.
fn damaged(error: &impl Display) -> String {
    format!("the file is damaged ({})", one_line(&error.to_string()))
}

fn non_empty(picture: Picture) -> Result<Picture, String> {
    if picture.width == 0 || picture.height == 0 {
        return Err("it has no pixels".to_string());
    }
    Ok(picture)
}

fn from_png(bytes: &[u8], most: u64) -> Result<Picture, String> {
    let most = usize::try_from(most).unwrap_or(usize::MAX);
    let limits = png::Limits { bytes: most };
    let mut decoder = png::Decoder::new_with_limits(bytes, limits);
    decoder.set_transformations(png::Transformations::EXPAND);
    let told = |error: png::DecodingError| match error {
        png::DecodingError::Format(_) | png::DecodingError::IoError(_) => damaged(&error),
        png::DecodingError::LimitsExceeded => TOO_LARGE.to_string(),
        error => one_line(&error.to_string()),
    };
    let mut reader = decoder.read_info().map_err(told)?;
    let size = reader.output_buffer_size();
    if size > most {
        return Err(TOO_LARGE.to_string());
    }
    let mut buffer = heap::list(size).map_err(|_| NO_MEMORY)?;
    buffer.resize(size, 0);
    let info = reader.next_frame(&mut buffer).map_err(told)?;
    buffer.truncate(info.buffer_size());
    if info.bit_depth == png::BitDepth::Sixteen {
        buffer = eight_bits(&buffer)?;
    }
    non_empty(Picture {
        width: info.width,
        height: info.height,
        pixels: pixels(&buffer, info.color_type)?,
    })
}

// Samples of sixteen bits, rounded.
fn eight_bits(samples: &[u8]) -> Result<Vec<u8>, String> {
    let rounded =
        |two: &[u8]| (u32::from(u16::from_be_bytes([two[0], two[1]])) * 255 + 32767) / 65535;
    listed(samples.chunks_exact(2).map(|two| rounded(two) as u8))
}

fn pixels(samples: &[u8], kind: png::ColorType) -> Result<Vec<Pixel>, String> {
    let of = |count| samples.chunks_exact(count);
    match kind {
        png::ColorType::Grayscale => listed(of(1).map(|s| [s[0], s[0], s[0], 255])),
        png::ColorType::GrayscaleAlpha => listed(of(2).map(|s| [s[0], s[0], s[0], s[1]])),
        png::ColorType::Rgb => listed(of(3).map(|s| [s[0], s[1], s[2], 255])),
        png::ColorType::Rgba => listed(of(4).map(|s| [s[0], s[1], s[2], s[3]])),
        png::ColorType::Indexed => Err("its palette can't be read".to_string()),
    }
}
