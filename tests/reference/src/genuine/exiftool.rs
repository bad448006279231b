//! What ExifTool has to say of a file.

use super::creator::Field;
use crate::psp::chunks::ImageChunk;

/// The lines of `exiftool -n -S -PSP:all`, in the file's order.
pub fn text(image: &ImageChunk, creator: &[Field]) -> String {
    let numbers = [
        ("ImageWidth", image.width.to_string()),
        ("ImageHeight", image.height.to_string()),
        ("ImageResolution", image.resolution.value.to_string()),
        ("ResolutionUnit", image.resolution.metric.to_string()),
        ("Compression", image.compression.to_string()),
        ("BitsPerSample", image.depth.to_string()),
        ("Planes", image.planes.to_string()),
        ("NumColors", image.colours.to_string()),
    ];
    let mut text = String::from("FileVersion: 3 0\n");
    for (name, value) in &numbers {
        text.push_str(&format!("{}: {}\n", name, value));
    }
    for field in creator {
        text.push_str(&field.line);
    }
    text
}
