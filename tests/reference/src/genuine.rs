//! Files for the genuine programs, GIMP and ExifTool, each with what the
//! program has to say of it. The writer of test files and the reading of
//! document 01 come from one understanding of the format; these programs have
//! their own.

mod areas;
mod creator;
mod exiftool;
mod gimp;
mod layers;
mod pictures;

use crate::psp::views;
use crate::random::Random;
use std::fs;
use std::io;
use std::path::Path;

/// Entries of the largest file: 64 layers with five channels, and the rest.
const ROOM: usize = 512;

/// Writes into the folder, for each file NAME, NAME.psp and the expected texts
/// NAME.gimp and NAME.exiftool.
pub fn write(seed: u64, folder: &str) -> io::Result<bool> {
    for file in pictures::all(&mut Random::new(seed)) {
        let bytes = file.picture.bytes();
        let refused = |number| refused(&file.name, number);
        let image = views::image_facts(&bytes, ROOM).map_err(refused)?;
        let gimp = gimp::text(&bytes, &image).map_err(refused)?;
        let exiftool = exiftool::text(&image, &file.creator);
        let path = |kind: &str| Path::new(folder).join(format!("{}.{}", file.name, kind));
        fs::write(path("psp"), &bytes)?;
        fs::write(path("gimp"), gimp)?;
        fs::write(path("exiftool"), exiftool)?;
    }
    Ok(true)
}

fn refused(name: &str, number: u32) -> io::Error {
    let words = format!("{} is refused with {}", name, number);
    io::Error::new(io::ErrorKind::InvalidData, words)
}
