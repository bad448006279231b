//! Refusals in words: what was found, and what to do next.

use crate::fields::{self, Block, MARK};
use crate::holder::Which;
use crate::judged::Judged;
use crate::name;
use crate::named;
use crate::psp::ffi::*;

/// A listing's refusal: its number and place, the table of what was found before it, the input as
/// far as it was read, and the size of the file where that is known.
#[derive(Clone, Copy)]
pub struct Refused<'a> {
    pub number: u32,
    pub place: usize,
    pub table: &'a [u32],
    pub input: &'a [u8],
    pub size: Option<u64>,
}

impl Refused<'_> {
    pub fn sentence(&self) -> String {
        let (found, next) = self.words();
        // What is found of a field has commas of its own.
        let sign = if self.number == WRONG_FIELD { ':' } else { ',' };
        format!(
            "refused: {} at {}{} {}; {}",
            self.number, self.place, sign, found, next
        )
    }

    /// What was found, and what to do next.
    fn words(&self) -> (String, &'static str) {
        match self.number {
            OVER_LIMIT => (
                self.over_limit(),
                "save it with run-length compression, or with fewer layers",
            ),
            ENDS_TOO_SOON => (self.ends_too_soon(), "more may come, else fetch it again"),
            WRONG_SIGNATURE => (
                self.wrong_signature(),
                "it is of another kind, or its beginning is damaged: ask for the file again",
            ),
            WRONG_VERSION => (
                self.wrong_version(),
                "save it again in format 3.0, which Paint Shop Pro 5 and 6 can write",
            ),
            WRONG_FIELD => self.wrong_field(),
            NOT_READABLE => (
                "it is compressed by LZ77 (compression code 2), which is not read".to_string(),
                "save it again with run-length compression, or uncompressed",
            ),
            TABLE_FULL => (
                "the table has no room for the block here".to_string(),
                "list again in a larger table",
            ),
            _ => self.damage(),
        }
    }

    /// What a program that writes Paint Shop Pro files does not do.
    fn damage(&self) -> (String, &'static str) {
        match self.number {
            WRONG_MARK => (
                self.wrong_mark(),
                "bytes were lost or changed: fetch the file again",
            ),
            WRONG_LENGTH => (
                self.wrong_length(),
                "the file is damaged: fetch it again, or save it again",
            ),
            OUT_OF_PLACE => (
                format!("{} is out of place here", self.block()),
                "open it in Paint Shop Pro and save it again",
            ),
            NOT_EXPECTED => (
                self.not_expected(),
                "the file contradicts itself: open it in Paint Shop Pro and save it again",
            ),
            MISSING => (
                "the block that ends here lacks layers or channels that were announced".to_string(),
                "look in Paint Shop Pro whether any were lost, and save it again",
            ),
            _ => (UNKNOWN.0.to_string(), UNKNOWN.1),
        }
    }

    fn over_limit(&self) -> String {
        let size = match self.size {
            Some(size) => format!("the file has {} bytes", size),
            None => format!("the file has more than {} bytes", INPUT_LIMIT),
        };
        format!("{}, and at most {} are read", size, INPUT_LIMIT)
    }

    fn ends_too_soon(&self) -> String {
        let missing = if self.place < self.input.len() {
            "what begins here is not whole"
        } else {
            "a part is missing behind them"
        };
        format!(
            "it ends too soon: {} bytes are there, and {}",
            self.input.len(),
            missing
        )
    }

    fn wrong_signature(&self) -> String {
        let beginning = self.input.get(..32).unwrap_or(self.input);
        format!(
            "it begins with {} and not with the signature of Paint Shop Pro",
            name::quoted(beginning)
        )
    }

    fn wrong_version(&self) -> String {
        match fields::version(self.input) {
            Some((major, minor)) => {
                format!("its version is {}.{}, and only 3.0 is read", major, minor)
            }
            None => "its version is not 3.0".to_string(),
        }
    }

    fn wrong_mark(&self) -> String {
        let found = self.header().map(|block| name::quoted(&block.mark));
        format!(
            "no block begins here: {} stands in place of the mark {}",
            found.unwrap_or_default(),
            name::quoted(&MARK)
        )
    }

    /// The place is the header with the length, or the next byte where too few are left of the
    /// block around it; either may look like a header.
    fn wrong_length(&self) -> String {
        match self.header() {
            Some(block) if block.mark == MARK => format!(
                "the lengths of {}, {} and {}, do not fit, or those of the block around it",
                self.block(),
                block.initial,
                block.total
            ),
            _ => "the length of the block around this place leaves too few bytes for another block"
                .to_string(),
        }
    }

    fn wrong_field(&self) -> (String, &'static str) {
        let unnamed = || {
            let found = "a field here has a value that is not permitted";
            (found.to_string(), named::SAVE_AGAIN)
        };
        named::field(self.place, self.table, self.input).unwrap_or_else(unnamed)
    }

    fn not_expected(&self) -> String {
        let id = self.header().map(|block| block.id);
        let channel = fields::channel(self.input, self.place).filter(|_| id == Some(5));
        let codes = channel.map(|channel| {
            let (bitmap, code) = (channel.bitmap, channel.channel);
            format!(", bitmap {} channel {},", bitmap, code)
        });
        let why = match id {
            Some(5) => self.other_channels(),
            Some(8) => "the alpha bank has fewer alpha channels by its own count",
            _ => "the image has fewer layers by its own count",
        };
        let block = self.block();
        format!(
            "{}{} is not expected: {}",
            block,
            codes.unwrap_or_default(),
            why
        )
    }

    /// Which channels there are where the channel at the place is not expected.
    fn other_channels(&self) -> &'static str {
        let judged = Judged::behind(self.table, self.input);
        match judged.and_then(|judged| judged.which()) {
            Some(Which::Selection) => "a selection has one channel, bitmap 3 channel 0",
            Some(Which::Alpha(_)) => "an alpha channel has one channel, bitmap 4 channel 0",
            _ => "its layer has it already, has all its channels, or cannot have it",
        }
    }

    /// The block whose header stands at the place.
    fn block(&self) -> String {
        by_kind(self.header())
    }

    fn header(&self) -> Option<Block> {
        fields::block(self.input, self.place)
    }
}

/// The kinds of blocks by their ids.
const KINDS: [&str; 12] = [
    "an image",
    "a creator",
    "a palette",
    "a bank",
    "a layer",
    "a channel",
    "a selection",
    "an alpha bank",
    "an alpha channel",
    "a thumbnail",
    "an extended",
    "a tube",
];

/// A block by its kind and id.
pub fn by_kind(block: Option<Block>) -> String {
    match block {
        Some(block) => {
            let kind = KINDS.get(usize::from(block.id)).unwrap_or(&"an unknown");
            format!("{} block (id {})", kind, block.id)
        }
        None => "a block".to_string(),
    }
}

/// The refusal of a plane: what was found, and what to do next.
fn of_plane(number: u32) -> (String, &'static str) {
    let (found, next) = match number {
        PLANE_NO_ROOM => ("the plane is longer than the room for it", "give it more"),
        PLANE_COUNT_128 => ("a packet's count is 128, which means nothing", SAVE_AGAIN),
        PLANE_DATA_MISSING => ("the packets end before the plane is full", SAVE_AGAIN),
        PLANE_TOO_MUCH => ("the packets hold more than the plane", SAVE_AGAIN),
        PLANE_UNKNOWN_CODE => (
            "the compression code is neither 0, raw, nor 1, run lengths",
            "save it again with one of them",
        ),
        PLANE_RAW_LENGTH => (
            "the raw channel is not as long as its plane",
            "save it again with run-length compression",
        ),
        PLANE_OVER_LIMIT => {
            let found = format!("the plane has more than {} bytes, the limit", PLANE_LIMIT);
            return (found, "save the image in smaller parts");
        }
        PLANE_OUTSIDE => (
            "the stored channel does not lie inside the file",
            "fetch the file again",
        ),
        _ => UNKNOWN,
    };
    (found.to_string(), next)
}

/// The refusal of a canvas or a view, likewise.
fn of_view(number: u32) -> (String, &'static str) {
    let (found, next) = match number {
        CANVAS_WRONG => return (wrong_canvas(), "give it others"),
        RECT_WRONG => (
            "the rectangle breaks a rule of coordinates, order or sides",
            "give it one that a listing has passed",
        ),
        PLANE_WRONG => (
            "the row is neither the rectangle's width nor that padded to 4, \
             or the plane is not row times height",
            "give the whole plane and the entry's row",
        ),
        NO_PALETTE => (
            "an image of depth 24 has no palette",
            "psp plane shows its colours",
        ),
        NO_RAMP => (
            "a grey image without a palette wants a ramp of 1024 bytes",
            "give it one",
        ),
        NO_LAYER => (
            "there is no such layer",
            "psp layers shows those that there are",
        ),
        NO_SELECTION => (
            "there is no selection",
            "psp alphas shows what there is besides",
        ),
        NO_ALPHA => (
            "there is no such alpha channel",
            "psp alphas shows those that there are",
        ),
        _ => UNKNOWN,
    };
    (found.to_string(), next)
}

fn wrong_canvas() -> String {
    format!(
        "a side of the canvas is not 1 to {}, or its length is not their product",
        SIDE_LIMIT
    )
}

const SAVE_AGAIN: &str = "the channel is damaged: fetch the file again, or save it again";
const UNKNOWN: (&str, &str) = (
    "for a reason that has no number in document 01",
    "this is a fault of psp",
);

/// The refusal of a plane at a place inside its stored channel, and where in the file that is.
pub fn refusal_inside(number: u32, place: usize, start: usize) -> String {
    let (found, next) = of_plane(number);
    let in_file = start.saturating_add(place);
    format!(
        "refused: {} at {} inside the stored channel, {} in the file, {}; {}",
        number, place, in_file, found, next
    )
}

/// A refusal that has no place.
pub fn refusal(number: u32) -> String {
    let (found, next) = of_view(number);
    format!("refused: {}, {}; {}", number, found, next)
}

#[cfg(test)]
mod tests {
    use super::*;

    fn refused(number: u32, place: usize, input: &[u8]) -> String {
        let refused = Refused {
            number,
            place,
            table: &[],
            input,
            size: Some(input.len() as u64),
        };
        refused.sentence()
    }

    /// Bytes of no file, with a block header of this id at 36.
    fn with_block(id: u8) -> Vec<u8> {
        let mut input = vec![0; 36];
        input.extend_from_slice(b"~BK\0");
        input.extend_from_slice(&[id, 0, 12, 0, 0, 0, 16, 1, 0, 0]);
        input.extend_from_slice(&[9, 9, 9, 9, 8, 8, 8, 8, 2, 0, 1, 0]);
        input
    }

    fn holds(sentence: &str, parts: &[&str]) {
        for part in parts {
            assert!(sentence.contains(part), "{} in {}", part, sentence);
        }
    }

    #[test]
    fn every_number_has_its_own_sentence() {
        let input = with_block(5);
        let listing = (1..=12).map(|number| refused(number, 36, &input));
        let planes = (20..=27).map(|number| refusal_inside(number, 0, 0));
        let others = planes.chain((40..=47).map(refusal));
        let unknown = [refused(99, 36, &input), refusal(99)];
        // Behind number and place, so that these make no difference.
        let words = |sentence: String| {
            let said = sentence.strip_prefix("refused: ")?;
            said.splitn(2, &[',', ':'][..]).nth(1).map(str::to_string)
        };
        let mut all: Vec<Option<String>> =
            listing.chain(others).chain(unknown).map(words).collect();
        assert!(all.iter().flatten().all(|words| words.len() > 20));
        all.sort();
        all.dedup();
        // The unknown number is one sentence, with a place or without.
        assert_eq!(all.len(), 12 + 8 + 8 + 1);
    }

    #[test]
    fn a_size_and_the_limit_are_told() {
        let mut over = Refused {
            number: 1,
            place: 0,
            table: &[],
            input: &[],
            size: Some(2_000_000_000),
        };
        holds(
            &over.sentence(),
            &["refused: 1 at 0", " 2000000000 ", " 1073741824 "],
        );
        over.size = None;
        holds(&over.sentence(), &["more than 1073741824 bytes"]);
    }

    #[test]
    fn an_end_tells_how_many_bytes_there_are() {
        let sentence = refused(2, 36, &[0; 40]);
        holds(
            &sentence,
            &[
                "2 at 36",
                "40 bytes are there",
                "begins here",
                "more may come",
            ],
        );
        holds(
            &refused(2, 40, &[0; 40]),
            &["missing behind them", "more may come"],
        );
    }

    #[test]
    fn a_beginning_is_told_as_it_stands() {
        let mut input = b"\x89PNG\r\n\x1A\n \"".to_vec();
        input.resize(40, b'.');
        let quoted = "\"‰PNG\\x0D\\x0A\\x1A\\x0A \\\"......................\"";
        holds(&refused(3, 0, &input), &[quoted]);
        input[32..36].copy_from_slice(&[5, 0, 1, 0]);
        holds(&refused(4, 32, &input), &["version is 5.1", "format 3.0"]);
    }

    #[test]
    fn a_block_is_told_as_it_stands() {
        let input = with_block(9);
        holds(&refused(7, 36, &input), &["a thumbnail block (id 9)"]);
        holds(
            &refused(6, 36, &input),
            &["a thumbnail block (id 9), 12 and 272"],
        );
        holds(&refused(6, 20, &input), &["leaves too few bytes"]);
        holds(
            &refused(5, 37, &input),
            &["\"BK\\x00\\x09\"", "\"~BK\\x00\""],
        );
        holds(
            &refused(7, 36, &with_block(77)),
            &["an unknown block (id 77)"],
        );
    }

    #[test]
    fn a_channel_too_many_is_told_by_its_codes() {
        let channel = with_block(5);
        holds(&refused(9, 36, &channel), &["(id 5), bitmap 2 channel 1,"]);
        holds(
            &refused(9, 36, &channel[..55]),
            &["a channel block (id 5) is not expected"],
        );
        holds(
            &refused(9, 36, &with_block(4)),
            &["fewer layers by its own count"],
        );
        holds(
            &refused(9, 36, &with_block(8)),
            &["fewer alpha channels by its own count"],
        );
    }

    #[test]
    fn a_channel_is_not_expected_by_what_it_lies_in() {
        let told = [
            (4, "its layer has it already"),
            (6, "a selection has one channel, bitmap 3 channel 0"),
            (8, "an alpha channel has one channel, bitmap 4 channel 0"),
        ];
        for (id, why) in told {
            let mut table = vec![id, 0, 0, 0, 36];
            table.resize(ENTRY_NUMBERS, 0);
            let refused = Refused {
                number: 9,
                place: 36,
                table: &table,
                input: &with_block(5),
                size: None,
            };
            holds(&refused.sentence(), &["bitmap 2 channel 1,", why]);
        }
    }

    #[test]
    fn a_field_is_told_behind_a_colon() {
        let mut input = with_block(0);
        input.resize(36 + 52, 0);
        let sentence =
            "refused: 8 at 50: image block, image width 151587081: it must be 1 to 30,000; \
                        open it in Paint Shop Pro and save it again in format 3.0";
        assert_eq!(refused(8, 50, &input), sentence);
    }

    #[test]
    fn a_field_that_is_not_found_has_no_name() {
        let sentence = "refused: 8 at 116: a field here has a value that is not permitted; \
                        open it in Paint Shop Pro and save it again in format 3.0";
        assert_eq!(refused(8, 116, &with_block(0)), sentence);
        assert_eq!(refused(8, 116, &[]), sentence);
    }

    #[test]
    fn lz77_is_told_by_its_name() {
        let next = "save it again with run-length compression, or uncompressed";
        holds(&refused(11, 50, &[]), &["LZ77", next]);
    }

    #[test]
    fn limits_are_told() {
        holds(&refusal_inside(26, 0, 0), &["more than 900000000 bytes"]);
        holds(&refusal(40), &["not 1 to 30000, "]);
    }

    #[test]
    fn a_plane_is_refused_inside_its_channel() {
        let sentence = refusal_inside(21, 3, 731);
        holds(
            &sentence,
            &["21 at 3 inside the stored channel, 734 in the file, "],
        );
    }
}
