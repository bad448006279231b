//! `psp facts`: every field of the image and of what holds planes.

use crate::accepted::Input;
use crate::arguments::Arguments;
use crate::failure::Failure;
use crate::found::Found;
use crate::holder::{Chunk, Holder};
use crate::name;
use crate::output;
use crate::psp;
use crate::psp::ffi::{Area, ImageChunk, LayerChunk, Rect};
use crate::wanted::Wanted;
use crate::words::hexadecimal;
use std::ffi::{OsStr, OsString};
use std::io::{self, Write};

pub const HELP: &str = "\
psp facts FILE [LAYER | selection | alpha RANK]

Shows every field of the image chunk, with dots per centimetre where there are any, and then every
field of each layer's chunk, the selection's and each alpha channel's in file order; or the fields
of one of these alone. LAYER counts from 0, the bottom layer, and RANK alpha channels from 0. A
rectangle is left, top, right, bottom, the lower right corner exclusive. Of a refused file the
fields of what was found before its place are shown, below a first line that says so.
";

pub fn run(words: &[OsString]) -> Result<(), Failure> {
    let arguments = Arguments::parse(words, &[])?;
    let (file, wanted) = asked(&arguments)?;
    let is_wanted = |which| wanted.as_ref().map_or(true, |wanted| wanted.is(which));
    let found = Found::of(Input::artwork(file, "facts")?, is_wanted)?;
    let sections = sections(&found, wanted.is_none());
    let mut out = output::standard();
    if !sections.is_empty() {
        found.mark(&mut out)?;
    }
    for section in &sections {
        show(&mut out, section)?;
    }
    out.flush()?;
    match wanted {
        Some(wanted) if sections.is_empty() => {
            let absent = wanted.absent(found.there.iter().copied());
            found.end().and(Err(absent))
        }
        _ => found.end(),
    }
}

/// The file, and what is wanted of it if not all.
fn asked(arguments: &Arguments) -> Result<(&OsStr, Option<Wanted>), Failure> {
    let wrong = "the command is psp facts FILE [LAYER | selection | alpha RANK]";
    match arguments.all() {
        [file] => return Ok((file, None)),
        [file, words @ ..] => {
            if let Some((wanted, [])) = Wanted::of(words)? {
                return Ok((file, Some(wanted)));
            }
        }
        [] => {}
    }
    Err(Failure::Use(wrong.to_string()))
}

type Fact = (&'static str, String);

/// A title, and what stands below it.
type Section = (String, Vec<Fact>);

fn sections(found: &Found, with_image: bool) -> Vec<Section> {
    let image = found.image.iter().filter(|_| with_image);
    let image = image.map(|image| ("image".to_string(), image_facts(image)));
    image.chain(found.holders.iter().map(section)).collect()
}

fn section(holder: &Holder) -> Section {
    let name = name::quoted(holder.name.as_deref().unwrap_or_default());
    let facts = match &holder.chunk {
        Chunk::Layer(layer) => layer_facts(name, layer),
        Chunk::Selection(of) => mask_facts(of.area, of.bitmaps, of.channels),
        Chunk::Alpha(of) => {
            let mut facts = vec![("name", name)];
            facts.extend(mask_facts(of.area, of.bitmaps, of.channels));
            facts
        }
    };
    (holder.which.to_string(), facts)
}

fn show(out: &mut dyn Write, (title, facts): &Section) -> io::Result<()> {
    writeln!(out, "{}", title)?;
    for (field, value) in facts {
        writeln!(out, "  {:<23} {}", field, value)?;
    }
    Ok(())
}

fn image_facts(image: &ImageChunk) -> Vec<Fact> {
    let resolution = image.resolution;
    let dots = psp::dots_per_centimetre(resolution.value, resolution.metric);
    let dots = match dots.known {
        0 => "none".to_string(),
        _ => format!("{:?}", dots.value),
    };
    vec![
        ("width", image.width.to_string()),
        ("height", image.height.to_string()),
        ("resolution", format!("{:?}", resolution.value)),
        ("resolution bits", format!("{:016X}", image.bits)),
        ("metric", coded(resolution.metric.into(), &METRICS)),
        ("dots per centimetre", dots),
        ("compression", coded(image.compression, &COMPRESSIONS)),
        ("depth", image.depth.to_string()),
        ("planes", image.planes.to_string()),
        ("colours", image.colours.to_string()),
        ("grey", image.grey.to_string()),
        ("total size", image.total.to_string()),
        ("active layer", image.active.to_string()),
        ("layers", image.layers.to_string()),
    ]
}

fn layer_facts(name: String, layer: &LayerChunk) -> Vec<Fact> {
    vec![
        ("name", name),
        ("type", layer.kind.to_string()),
        ("image border", corners(&layer.image.border)),
        ("saved image", corners(&layer.image.saved)),
        ("opacity", layer.opacity.to_string()),
        ("blending", layer.blending.to_string()),
        ("visible", layer.visible.to_string()),
        (
            "transparency protected",
            layer.transparency_protected.to_string(),
        ),
        ("group", layer.group.to_string()),
        ("mask border", corners(&layer.mask.border)),
        ("saved mask", corners(&layer.mask.saved)),
        ("mask linked", layer.linked.to_string()),
        ("mask disabled", layer.disabled.to_string()),
        ("mask inverted", layer.inverted.to_string()),
        ("blend ranges", layer.blends.to_string()),
        ("blend range bytes", hexadecimal(&layer.ranges, BLEND_RANGE)),
        ("bitmaps", layer.bitmaps.to_string()),
        ("channels", layer.channels.to_string()),
    ]
}

/// What a selection and an alpha channel have in common.
fn mask_facts(area: Area, bitmaps: u16, channels: u16) -> Vec<Fact> {
    vec![
        ("border", corners(&area.border)),
        ("saved", corners(&area.saved)),
        ("bitmaps", bitmaps.to_string()),
        ("channels", channels.to_string()),
    ]
}

/// Bytes of a blend range.
const BLEND_RANGE: usize = 8;

const METRICS: [&str; 3] = ["unknown", "dots an inch", "dots a centimetre"];
const COMPRESSIONS: [&str; 2] = ["raw", "run lengths"];

/// A code, and what it means where that is known.
fn coded(code: u16, meanings: &[&str]) -> String {
    match meanings.get(usize::from(code)) {
        Some(meaning) => format!("{} {}", code, meaning),
        None => code.to_string(),
    }
}

fn corners(r: &Rect) -> String {
    format!("{} {} {} {}", r.left, r.top, r.right, r.bottom)
}
