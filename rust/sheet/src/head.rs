//! The size of a picture from the first bytes of its file.
use image::ImageFormat;
use imagesize::ImageType;
use std::fs::File;
use std::io::{BufRead, BufReader, Read, Seek, SeekFrom};
use std::path::Path;

// What isn't a file may never end.
fn opened(path: &Path) -> Option<BufReader<File>> {
    let is_file = path.metadata().ok()?.is_file();
    File::open(path)
        .ok()
        .filter(|_| is_file)
        .map(BufReader::new)
}

fn by_decoder(file: impl BufRead + Seek, format: ImageFormat) -> Option<(u64, u64)> {
    let (width, height) = image::io::Reader::with_format(file, format)
        .into_dimensions()
        .ok()?;
    Some((width.into(), height.into()))
}

/// The width and the height; none where the first bytes don't tell them.
pub fn size(path: &Path) -> Option<(u64, u64)> {
    size_of(path, opened(path)?)
}

/// Whether no pixel can be transparent, as the first bytes tell: a JPEG, or a PNG without alpha.
pub fn is_opaque(path: &Path) -> bool {
    let mut first = [0; 12];
    let file = opened(path).and_then(|mut file| {
        file.read_exact(&mut first).ok()?;
        file.seek(SeekFrom::Start(0)).ok()?;
        Some(file)
    });
    match (imagesize::image_type(&first), file) {
        (Ok(ImageType::Jpeg), Some(_)) => true,
        (Ok(ImageType::Png), Some(file)) => {
            let reader = png::Decoder::new(file).read_info();
            reader.map_or(false, |reader| {
                let info = reader.info();
                let is_plain = !matches!(
                    info.color_type,
                    png::ColorType::Rgba | png::ColorType::GrayscaleAlpha
                );
                is_plain && info.trns.is_none()
            })
        }
        _ => false,
    }
}

/// Of a file's bytes.
pub fn size_of(path: &Path, mut file: impl BufRead + Seek) -> Option<(u64, u64)> {
    let mut first = [0; 12];
    file.read_exact(&mut first).ok()?;
    file.seek(SeekFrom::Start(0)).ok()?;
    match imagesize::image_type(&first) {
        Ok(ImageType::Png | ImageType::Jpeg | ImageType::Webp) => {
            let size = imagesize::reader_size(file).ok()?;
            Some((size.width as u64, size.height as u64))
        }
        Ok(ImageType::Gif) => by_decoder(file, ImageFormat::Gif),
        Ok(ImageType::Bmp) => by_decoder(file, ImageFormat::Bmp),
        Ok(ImageType::Tiff) => by_decoder(file, ImageFormat::Tiff),
        _ if crate::decode::is_targa(path) => by_decoder(file, ImageFormat::Tga),
        _ => None,
    }
}
