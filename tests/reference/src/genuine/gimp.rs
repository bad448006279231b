//! What GIMP has to say of a file, in the lines of tests/genuine/dump.scm.

use super::ROOM;
use crate::opened::{open, Channel, Opened};
use crate::psp::chunks::{ImageChunk, LayerChunk};
use crate::psp::{part, views};

/// A channel's plane, of which single pixels are asked.
struct Plane<'a> {
    bytes: &'a [u8],
    row: u64,
    bits: u64,
}

impl Plane<'_> {
    /// Below 8 bits the leftmost pixel has the highest bits of its byte.
    fn pixel(&self, x: u64, y: u64) -> u8 {
        let bit = x * self.bits;
        let byte = self.bytes[(y * self.row + bit / 8) as usize];
        (byte << (bit % 8)) >> (8 - self.bits)
    }
}

pub fn text(input: &[u8], image: &ImageChunk) -> Result<String, u32> {
    let mut text = format!("image {} {}\n", image.width, image.height);
    text.push_str(&format!("resolution {}\n", hundredths_an_inch(image)));
    text.push_str(&base(input, image));
    let file = open(input, ROOM)?;
    for k in 0..u32::from(image.layer_count) {
        let layer = views::layer_facts(input, ROOM, u64::from(k))?;
        text.push_str(&layer_lines(&layer));
        text.push_str(&pixel_lines(&planes(&file, k), &layer));
    }
    // The selection and the alpha channels would be channels of GIMP's: it
    // passes over both.
    text.push_str("channels 0\nselected 0\n");
    Ok(text)
}

/// Dots an inch, which GIMP also takes a value without a metric for. It divides
/// dots a centimetre by 2.54, where it should multiply.
fn hundredths_an_inch(image: &ImageChunk) -> f64 {
    let divisor = match image.resolution.metric {
        2 => 2.54,
        _ => 1.0,
    };
    (100.0 * image.resolution.value / divisor).round()
}

/// How pixels give colours. GIMP takes the palette's byte 0 as blue, where
/// document 000 says red: so the two change places.
fn base(input: &[u8], image: &ImageChunk) -> String {
    if !image.is_paletted() {
        let word = if image.is_grey() { "grey" } else { "colours" };
        return format!("{}\n", word);
    }
    let view = views::palette_view(input, ROOM, 0);
    let entries = part(input, view.start, view.length).unwrap_or_default();
    let mut line = String::from("palette");
    for entry in entries.chunks(4) {
        line.push_str(&format!(" {} {} {}", entry[2], entry[1], entry[0]));
    }
    line + "\n"
}

fn layer_lines(layer: &LayerChunk) -> String {
    let saved = layer.image_saved;
    format!(
        "layer {}\ncorner {} {}\nsize {} {}\nvisible {}\nopacity {}\nprotected {}\n",
        String::from_utf8_lossy(&layer.name[..layer.name_length()]),
        saved.left,
        saved.top,
        saved.width(),
        saved.height(),
        u8::from(layer.visible),
        layer.opacity,
        u8::from(layer.protected),
    )
}

/// The planes of a layer's pixels: its colours, then its transparency. GIMP
/// leaves the user mask out.
fn planes(file: &Opened, k: u32) -> Vec<Plane<'_>> {
    let shown = |channel: &&Channel| channel.entry.layer_number == k && channel.entry.bitmap < 2;
    let mut channels: Vec<&Channel> = file.channels.iter().filter(shown).collect();
    channels.sort_by_key(|channel| (channel.entry.bitmap, channel.entry.channel));
    let mut planes = Vec::new();
    for channel in channels {
        planes.push(Plane {
            bytes: &channel.plane,
            row: u64::from(channel.entry.row),
            bits: match channel.entry.bitmap {
                0 => file.image.colour_bits(),
                _ => 8,
            },
        });
    }
    planes
}

fn pixel_lines(planes: &[Plane], layer: &LayerChunk) -> String {
    let saved = layer.image_saved;
    let mut text = String::new();
    for y in 0..saved.height() as u64 {
        text.push_str("row");
        for x in 0..saved.width() as u64 {
            for plane in planes {
                text.push_str(&format!(" {}", plane.pixel(x, y)));
            }
        }
        text.push('\n');
    }
    text
}
