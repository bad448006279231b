//! From a layer to a placed plane: placed_plane_rs FILE LAYER BITMAP CHANNEL. LAYER counts from 0,
//! the bottom one; bitmap and channel are those of `psp::Entry`.

use psp::{Entry, ImageChunk, Rect, Refusal, RefusedListing, RefusedPlane};
use psp::{ENTRY_NUMBERS, INPUT_LIMIT};
use std::error::Error;
use std::fs::File;
use std::io::{self, Read};

const CHANNEL_BLOCK: u32 = 5;
const IMAGE: u32 = 0;
const USER_MASK: u32 = 2;

fn main() {
    let words: Vec<String> = std::env::args().skip(1).collect();
    let result = match &words[..] {
        [file, layer, bitmap, channel] => run(file, layer, bitmap, channel),
        _ => Err("placed_plane_rs FILE LAYER BITMAP CHANNEL".into()),
    };
    if let Err(error) = result {
        eprintln!("{error}");
        std::process::exit(1);
    }
}

fn run(file: &str, layer: &str, bitmap: &str, channel: &str) -> Result<(), Box<dyn Error>> {
    let (k, bitmap, channel) = (layer.parse()?, bitmap.parse()?, channel.parse()?);
    let input = contents(file)?;
    let entries = entries(&input)?;

    // Each of these lists the input again: ask once, not once a plane.
    let image = psp::image_facts(&input, usize::MAX)?;
    let layer = match psp::layer_facts(&input, usize::MAX, k) {
        Err(Refusal::NoLayer) => return Err("no such layer".into()),
        answer => answer?,
    };

    let wanted = wanted(&entries, k, bitmap, channel).ok_or("the layer has no such channel")?;
    if wanted.bitmap == IMAGE && image.depth < 8 {
        return Err("several pixels a byte: spread them before placing".into());
    }
    let plane = plane(&input, wanted, image.compression)?;
    let saved = match wanted.bitmap {
        USER_MASK => layer.mask.saved,
        _ => layer.image.saved,
    };
    place(image, saved, &plane, wanted.row)
}

/// One byte over the limit is enough to be refused.
fn contents(file: &str) -> io::Result<Vec<u8>> {
    let mut input = Vec::new();
    let limit = INPUT_LIMIT as u64 + 1;
    File::open(file)?.take(limit).read_to_end(&mut input)?;
    Ok(input)
}

/// Lists the file. The count says how much room the entries need; a refused listing has one too.
fn entries(input: &[u8]) -> Result<Vec<Entry>, String> {
    let room = psp::count(input, usize::MAX).map_err(listing)?;
    let mut table = vec![0; room * ENTRY_NUMBERS];
    let mut entries = vec![Entry::default(); room];
    psp::list_records(input, &mut table, &mut entries).map_err(listing)?;
    Ok(entries)
}

/// Shows the layer's channels, and finds the one that is wanted. Bitmaps 3 and 4 are those of the
/// selection and of alpha channels.
fn wanted(entries: &[Entry], k: u32, bitmap: u32, channel: u32) -> Option<&Entry> {
    let mut wanted = None;
    for entry in entries {
        let is_channel = entry.skipped == 0 && entry.id == CHANNEL_BLOCK;
        if !is_channel || entry.layer != k || entry.bitmap > USER_MASK {
            continue;
        }
        println!(
            "layer {}: bitmap {} channel {}",
            entry.layer, entry.bitmap, entry.channel
        );
        if (entry.bitmap, entry.channel) == (bitmap, channel) {
            wanted = Some(entry);
        }
    }
    wanted
}

fn plane(input: &[u8], wanted: &Entry, compression: u16) -> Result<Vec<u8>, String> {
    let mut plane = vec![0; wanted.plane as usize];
    let bytes = psp::read_plane(
        input,
        wanted.start as usize,
        wanted.stored as usize,
        wanted.plane as usize,
        compression.into(),
        &mut plane,
    )
    .map_err(plane_refused)?;
    println!(
        "plane of {} by {} pixels, {} bytes",
        wanted.width, wanted.height, bytes
    );
    Ok(plane)
}

/// Places a plane where its layer has it, on a black canvas of the image's size; the entry's row
/// says whether rows are padded.
fn place(image: ImageChunk, saved: Rect, plane: &[u8], row: u32) -> Result<(), Box<dyn Error>> {
    let [width, height] = [image.width, image.height].map(i32::unsigned_abs);
    let mut canvas = vec![0; width as usize * height as usize];
    let placed = psp::place(width, height, &mut canvas, saved, plane, row);
    placed.map_err(|refusal| format!("the plane cannot be placed: {}", refusal))?;
    let lit = canvas.iter().filter(|&&pixel| pixel != 0).count();
    println!(
        "placed at ({},{}) on {} by {}: {} pixels are not 0",
        saved.left, saved.top, width, height, lit
    );
    Ok(())
}

fn listing(refused: RefusedListing) -> String {
    refused_at("listing", refused.refusal, refused.place)
}

fn plane_refused(refused: RefusedPlane) -> String {
    refused_at("plane", refused.refusal, refused.place)
}

fn refused_at(what: &str, refusal: Refusal, place: usize) -> String {
    format!("{}: refused, {} at {}", what, refusal.number(), place)
}
