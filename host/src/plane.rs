//! `psp plane`: one plane, placed on a canvas of the image's size.

use crate::accepted::{self, Input};
use crate::answer;
use crate::arguments::{Arguments, Known};
use crate::artwork::Artwork;
use crate::blocks::Holding;
use crate::destination;
use crate::failure::Failure;
use crate::memory;
use crate::output;
use crate::psp::ffi::{ImageChunk, Rect, ACCEPTED};
use crate::psp::{self, Entry};
use crate::shape;
use crate::wanted::{self, Number, Wanted};
use crate::widen::{self, Plane};
use crate::words::{self, grouped};
use crate::working::Working;
use std::ffi::{OsStr, OsString};

pub const HELP: &str = "\
psp plane FILE LAYER BITMAP CHANNEL -o OUT.pgm
psp plane FILE selection -o OUT.pgm
psp plane FILE alpha RANK -o OUT.pgm

Reads one plane, places it on a black canvas of the image's size and writes a binary PGM, one byte
a pixel; -o - writes it to standard output. LAYER counts from 0, the bottom layer. BITMAP is 0 the
image, 1 the transparency mask, 2 the user mask. CHANNEL is 0 for masks and below depth 24, and 1
red, 2 green, 3 blue at depth 24. RANK counts alpha channels from 0, as psp alphas shows them; each
has one plane, and so has a selection. Pixels of a paletted image are palette indices. The greatest
value (maxval) is 1 for an image bitmap of depth 1, 15 at depth 4, and otherwise 255. Rows of
8-bit pixels may be padded or not: the plane's length tells, and nothing has to be chosen. OUT.pgm
is written beside its place and renamed when it is complete, so a file that stood there survives a
failure; FILE is never written over, but of a pipe nobody can tell which file it comes from.
The plane and the canvas take a byte of memory a pixel each. Where they take more than 33,554,432
bytes together, how many is said on standard error before they are asked for; where these are not
there, that is said, and nothing is written.
";

const LINE: &str = "plane FILE (LAYER BITMAP CHANNEL | selection | alpha RANK) -o OUT.pgm";

pub fn run(words: &[OsString]) -> Result<(), Failure> {
    let arguments = Arguments::parse(words, &[Known::Valued("-o")])?;
    let wrong = || Failure::Use(format!("the command is psp {}", LINE));
    let words = Words::of(&arguments)?.ok_or_else(wrong)?;
    let file = Artwork::accepted(Input::artwork(words.file, "plane")?)?;
    let holding = file.holdings().find(|of| words.wanted.is(of.which));
    let holding = holding.ok_or_else(|| words.wanted.absent(file.there()))?;
    let channel = *channel(&holding, words.codes.as_ref())?;
    let saved = file.chunk(&holding)?.area(channel.bitmap).saved;
    let identity = file.identity;
    let picture = Picture::of(file, saved, &channel)?;
    let parts = [picture.header.as_bytes(), &picture.canvas];
    destination::write(words.out, &parts, identity)
}

/// Bitmap and channel of a layer.
type Codes = [Number; 2];

/// The words of the command, by what they mean.
struct Words<'a> {
    file: &'a OsStr,
    wanted: Wanted,
    codes: Option<Codes>,
    out: &'a OsStr,
}

impl<'a> Words<'a> {
    /// None where there are too few or too many.
    fn of(arguments: &'a Arguments) -> Result<Option<Words<'a>>, Failure> {
        let (file, words, out) = match (arguments.all(), arguments.option("-o")) {
            ([file, words @ ..], Some(out)) => (file, words, out),
            _ => return Ok(None),
        };
        let (wanted, codes) = match Wanted::of(words)? {
            Some((layer @ Wanted::Layer(_), [bitmap, channel])) => {
                let bitmap = Number::of(bitmap, "BITMAP")?;
                (layer, Some([bitmap, Number::of(channel, "CHANNEL")?]))
            }
            Some((mask @ (Wanted::Selection | Wanted::Alpha(_)), [])) => (mask, None),
            _ => return Ok(None),
        };
        Ok(Some(Words {
            file,
            wanted,
            codes,
            out,
        }))
    }
}

/// The channel that is wanted: of a layer the one with these codes, otherwise the only one.
fn channel<'a>(holding: &Holding<'a>, codes: Option<&Codes>) -> Result<&'a Entry, Failure> {
    let mut channels = holding.channels.iter();
    match codes {
        Some([bitmap, channel]) => {
            let is_it = |entry: &&Entry| bitmap.is(entry.bitmap) && channel.is(entry.channel);
            channels.find(is_it).ok_or_else(|| {
                let channels = holding.channels.iter();
                let has: Vec<_> = channels.map(|of| (of.bitmap, of.channel)).collect();
                wanted::no_channel(holding.which, &has, [bitmap, channel])
            })
        }
        None => {
            let none = || Failure::Absent(format!("{} has no channel", holding.which));
            channels.next().ok_or_else(none)
        }
    }
}

/// A PGM. Its parts are written one behind the other, and the canvas is not copied behind a header.
struct Picture {
    header: String,
    canvas: Vec<u8>,
}

impl Picture {
    /// The picture of a channel. The file is let go as soon as its plane is read, since it may be as
    /// long as a canvas, and the plane as soon as it is placed.
    fn of(file: Artwork, saved: Rect, entry: &Entry) -> Result<Picture, Failure> {
        let image = file.image().ok_or_else(no_image)?;
        let bits = shape::bits(&image, entry.bitmap);
        if let Some(sentence) = memory::sentence(entry, sides(&image), bits) {
            output::say(&sentence);
        }
        let plane = plane(&file, entry, &image, bits)?;
        drop(file);
        let greatest = (1u32 << bits) - 1;
        Ok(Picture {
            header: format!("P5\n{} {}\n{}\n", image.width, image.height, greatest),
            canvas: canvas(&image, saved, &plane)?,
        })
    }
}

/// By the proof an accepted file has one; were it otherwise, there would be no canvas.
fn no_image() -> Failure {
    Failure::Unreadable("the listing has no image".to_string())
}

/// Width and height of an image.
fn sides(image: &ImageChunk) -> [u32; 2] {
    [image.width, image.height].map(i32::unsigned_abs)
}

/// The plane at one byte a pixel.
fn plane(file: &Artwork, entry: &Entry, image: &ImageChunk, bits: u16) -> Result<Plane, Failure> {
    let [start, stored, length] =
        [entry.start, entry.stored, entry.plane].map(|number| number as usize);
    let mut plane = accepted::zeros(length)?;
    let bytes = words::grouped_bytes(length as u64);
    let working = Working::on(format!("reading the plane, {}", bytes));
    let code = u32::from(image.compression);
    let answer = psp::read_plane(&file.bytes, start, stored, length, code, &mut plane);
    drop(working);
    if answer.number != ACCEPTED {
        let sentence = answer::refusal_inside(answer.number, answer.place, start);
        return Err(Failure::Refused(sentence));
    }
    let _working = Working::on(format!("spreading the plane, {}", bytes));
    let wide = widen::widen(plane, entry.row, entry.width, bits);
    let spread = entry.width as usize * entry.height as usize;
    wide.ok_or_else(|| Failure::Unreadable(words::no_memory(spread)))
}

/// The plane at its saved rectangle, black around it.
fn canvas(image: &ImageChunk, saved: Rect, plane: &Plane) -> Result<Vec<u8>, Failure> {
    let [width, height] = sides(image);
    let mut canvas = accepted::zeros(width as usize * height as usize)?;
    let pixels = format!("{} by {} pixels", grouped(width), grouped(height));
    let _working = Working::on(format!("placing the plane on {}", pixels));
    let number = psp::place(width, height, &mut canvas, saved, &plane.bytes, plane.row);
    accepted::good(number, canvas)
}
