//! Checks of the generator: it gives the same cases for a seed, keeps its own
//! limits, and its binary form comes back.

use super::{unpacked, Checks};
use crate::answers::answer;
use crate::case::{Case, CANVAS_LIMIT, DESTINATION_LIMIT, PAYLOAD_LIMIT, ROOM_LIMIT};
use crate::cases;
use crate::library::Reference;
use crate::psp::listing::ENTRY_NUMBERS;
use crate::random::Random;

pub fn all(checks: &mut Checks, systematic: &[Case]) {
    // Eight of fifteen.
    let few_enough = systematic.len() <= 228_000 / 15 * 8;
    checks.that("228,000 cases hold all systematic ones", few_enough);
    let family = || cases::family(&mut Random::new(7), 20);
    checks.that("the same family again", family() == family());
    edges(checks);
    let random = made();
    checks.that("the same cases again", random == made());
    for case in random.iter().chain(systematic) {
        one(checks, case);
    }
}

/// Packets near an end are accepted and refused for every reason.
fn edges(checks: &mut Checks) {
    let mut numbers = [0, 21, 22, 23].map(|number| (number, 0));
    let mut others = 0;
    cases::edges::every(|case| {
        let Case::Packets { plane, stream, .. } = case else {
            return;
        };
        let (answer, _) = unpacked(&stream, plane);
        match numbers
            .iter_mut()
            .find(|(number, _)| *number == answer.number)
        {
            Some((_, times)) => *times += 1,
            None => others += 1,
        }
    });
    let often = numbers.iter().all(|(_, times)| *times > 1_000);
    checks.that(
        "packets near an end meet every answer",
        often && others == 0,
    );
}

fn made() -> Vec<Case> {
    let mut all = Vec::new();
    let _ = cases::generate(7, 3_000, |case, _| {
        all.push(case.clone());
        Ok(())
    });
    all
}

fn one(checks: &mut Checks, case: &Case) {
    let payload = case.payload();
    checks.that("a payload's length", payload.len() <= PAYLOAD_LIMIT);
    let back = Case::decode(case.kind(), &payload);
    checks.that("a payload comes back", back.as_ref() == Some(case));
    let (room, input, buffer) = sizes(case);
    checks.that("a room", room <= ROOM_LIMIT);
    checks.that("an input's length", input <= cases::INPUT_LIMIT);
    let most = match case {
        Case::Canvas { .. } => CANVAS_LIMIT,
        _ => DESTINATION_LIMIT,
    };
    checks.that("a buffer's length", buffer <= most);
    let line = answer(&Reference, case).line;
    checks.that("a plain line", line.is_ascii() && !line.contains('\n'));
}

/// Room, input and buffer that a case asks for.
fn sizes(case: &Case) -> (u32, usize, u32) {
    // The longest table, of 7,181 numbers, has one too few for another entry.
    let entries = |numbers| (numbers / ENTRY_NUMBERS) as u32;
    match case {
        Case::Listing { room, input }
        | Case::Count { room, input }
        | Case::PaletteView { room, input, .. }
        | Case::ImageFacts { room, input }
        | Case::LayerFacts { room, input, .. }
        | Case::LayerName { room, input, .. }
        | Case::SelectionFacts { room, input }
        | Case::AlphaFacts { room, input, .. }
        | Case::AlphaName { room, input, .. } => (*room, input.len(), 0),
        Case::Place { input, .. } => (0, input.len(), 0),
        Case::Plane {
            input, destination, ..
        } => (0, input.len(), *destination),
        Case::Packets {
            destination,
            stream,
            ..
        } => (0, stream.len(), *destination),
        Case::Pack { destination, plane } => (0, plane.len(), *destination),
        Case::Canvas { canvas, .. } => (0, 0, canvas.len() as u32),
        Case::Intersection { .. } | Case::Dots { .. } => (0, 0, 0),
        Case::WriteTable {
            destination,
            numbers,
        } => (entries(numbers.len() / 4), numbers.len(), *destination),
        Case::ReadTable { numbers, file } => (entries(*numbers as usize), file.len(), 0),
    }
}
