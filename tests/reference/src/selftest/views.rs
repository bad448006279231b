//! Checks of the views, and of the listings into records and of counts.

use super::Checks;
use crate::answers::{count, records};
use crate::library::Reference;
use crate::psp::chunks::LayerChunk;
use crate::psp::views::{image_facts, layer_facts, layer_name, palette_view, Lender};
use crate::samples;
use crate::write::Picture;

pub fn all(checks: &mut Checks) {
    palette_views(checks);
    facts(checks);
    records_and_counts(checks);
}

/// A listed palette wins over the ramp.
fn palette_views(checks: &mut Checks) {
    let view = |picture: &Picture, ramp: u64| {
        let view = palette_view(&picture.bytes(), 512, ramp);
        (view.number, view.lender, view.start, view.length)
    };
    let grey = samples::grey521();
    checks.equal("the ramp", view(&grey, 1_024), (0, Lender::Ramp, 0, 1_024));
    checks.equal(
        "a short ramp",
        view(&grey, 1_023),
        (44, Lender::Input, 0, 0),
    );
    let listed = samples::greys();
    checks.equal(
        "a listed palette wins",
        view(&listed, 3),
        (0, Lender::Input, 106, 4),
    );
    checks.equal(
        "depth 24",
        view(&samples::skips(), 1_024),
        (43, Lender::Input, 0, 0),
    );
    checks.equal(
        "paletted",
        view(&samples::palette(), 0),
        (0, Lender::Input, 125, 16),
    );
}

/// A small room, the last layer, signed and long fields.
fn facts(checks: &mut Checks) {
    let eleven = samples::layers11().bytes();
    let number = |result: Result<LayerChunk, u32>| result.map(|_| 0);
    checks.equal("a small room", number(layer_facts(&eleven, 56, 0)), Err(12));
    checks.equal("layer 10", number(layer_facts(&eleven, 57, 10)), Ok(0));
    checks.equal("no layer 11", number(layer_facts(&eleven, 57, 11)), Err(45));
    let facts = image_facts(&samples::greys().bytes(), 512);
    let active = facts.map(|image| (image.active_layer, image.width, image.layer_count));
    checks.equal("image facts", active, Ok((-2, 4_096, 3)));
    let long = layer_name(&samples::greys().bytes(), 512, 2).map(|name| name.1);
    checks.equal("a name of 256", long, Ok(256));
}

/// Records take part in the room, and a count is the listing's answer.
fn records_and_counts(checks: &mut Checks) {
    let eleven = samples::layers11().bytes();
    let line = |numbers, room| {
        let line = records(&Reference, numbers, room, &eleven).line;
        line.split(' ').take(4).collect::<Vec<_>>().join(" ")
    };
    checks.equal(
        "records",
        line(57 * 14, 57),
        format!("E 0 {} 57", eleven.len()),
    );
    checks.equal("few records", line(57 * 14, 3), line(3 * 14 + 13, 57));
    let counted = count(&Reference, usize::MAX, &eleven).line;
    checks.equal("counted", counted, format!("T 0 {} 57", eleven.len()));
}
