//! Where a block may stand: the rule for its id, by what it lies in and by what stood before it.

use crate::parent::Parent;
use crate::psp::ffi::{Entry, ImageChunk, ENDS_TOO_SOON};
use crate::sheet::Sheet;

/// Ids of format 3.0 are below this one.
const UNKNOWN: usize = 12;

const IMAGE: u32 = 0;
const PALETTE: u32 = 2;
const BANK: u32 = 3;

/// Where the first block of each known id stands at the main level.
#[derive(Default)]
pub struct Main([Option<usize>; UNKNOWN]);

impl Main {
    pub fn add(&mut self, entry: &Entry) {
        if let Some(first) = self.0.get_mut(entry.id as usize) {
            first.get_or_insert(entry.place as usize);
        }
    }

    fn first(&self, id: u32) -> Option<usize> {
        self.0.get(id as usize).copied().flatten()
    }

    /// Writes what must be there where the input ends; none where the listing stopped at that.
    pub fn end(&self, place: usize, image: Option<ImageChunk>, sheet: &mut Sheet) -> Option<()> {
        let at = (ENDS_TOO_SOON, place);
        sheet.line("no byte is left, at the main level".to_string());
        let bank = self.first(BANK);
        let words = format!("a bank is wanted, and {}", stands(bank));
        sheet.test_one(bank.is_some(), at, words)?;
        let ImageChunk { depth, grey, .. } = image?;
        let palette = self.first(PALETTE);
        let is_wanted = depth < 24 && grey == 0;
        let words = match is_wanted {
            true => format!("a palette is wanted, and {}", stands(palette)),
            false => "no palette is wanted".to_string(),
        };
        let words = format!("bit depth {} and greyscale flag {}: {}", depth, grey, words);
        sheet.test_one(palette.is_some() || !is_wanted, at, words)
    }

    fn words(&self, id: u32) -> String {
        let before = stands(self.first(id));
        match id {
            _ if self.first(IMAGE).is_none() => {
                "the first block must be an image (id 0)".to_string()
            }
            IMAGE => format!("an image may only be the first block, and {}", before),
            PALETTE | BANK | 6 | 7 => format!("one may stand at the main level, and {}", before),
            4 | 5 | 8 => "none may stand at the main level".to_string(),
            9 => {
                let bank = stands(self.first(BANK));
                format!("it may stand before a bank, and {}", bank)
            }
            _ => "it may stand anywhere at the main level".to_string(),
        }
    }
}

fn stands(place: Option<usize>) -> String {
    match place {
        Some(place) => format!("one stands at {}", place),
        None => "none stands before it".to_string(),
    }
}

/// The rule for a block's id.
pub fn rule(id: u32, parent: Option<&Parent>, main: &Main) -> String {
    let is_known = (id as usize) < UNKNOWN;
    match parent {
        Some(parent) if is_known => {
            let (member, id) = parent.member();
            format!(
                "of known blocks only {}s (id {}) may stand in {}",
                member,
                id,
                parent.words()
            )
        }
        _ if is_known || main.first(IMAGE).is_none() => main.words(id),
        _ => "an unknown block may stand anywhere behind the image".to_string(),
    }
}

/// Whether a block that stands where it may is skipped, at a bit depth.
pub fn is_skipped(id: u32, depth: u16) -> bool {
    match id {
        PALETTE => depth == 24,
        _ => !matches!(id, IMAGE | BANK..=8),
    }
}

#[cfg(test)]
mod tests {
    use super::*;

    /// The main level behind blocks of these ids, one every hundred bytes.
    fn behind(ids: &[u32]) -> Main {
        let mut main = Main::default();
        for (at, &id) in ids.iter().enumerate() {
            main.add(&Entry {
                id,
                place: 36 + 100 * at as u32,
                ..Entry::default()
            });
        }
        main
    }

    #[test]
    fn the_first_block_must_be_an_image() {
        for id in [0, 1, 3, 9, 12, 65_535] {
            let rule = rule(id, None, &behind(&[]));
            assert_eq!(rule, "the first block must be an image (id 0)");
        }
    }

    #[test]
    fn a_block_is_told_by_what_stood_before_it() {
        let main = behind(&[0, 2, 1, 1, 3, 12]);
        let told = [
            (
                0,
                "an image may only be the first block, and one stands at 36",
            ),
            (2, "one may stand at the main level, and one stands at 136"),
            (3, "one may stand at the main level, and one stands at 436"),
            (
                6,
                "one may stand at the main level, and none stands before it",
            ),
            (5, "none may stand at the main level"),
            (9, "it may stand before a bank, and one stands at 436"),
            (1, "it may stand anywhere at the main level"),
            (12, "an unknown block may stand anywhere behind the image"),
        ];
        for (id, words) in told {
            assert_eq!(rule(id, None, &main), words);
        }
        let early = rule(9, None, &behind(&[0, 9]));
        assert_eq!(
            early,
            "it may stand before a bank, and none stands before it"
        );
    }

    #[test]
    fn what_has_no_chunk_to_judge_is_skipped() {
        let skipped = |depth| {
            let ids = 0..14;
            ids.filter(move |&id| is_skipped(id, depth))
                .collect::<Vec<u32>>()
        };
        assert_eq!(skipped(8), [1, 9, 10, 11, 12, 13]);
        assert_eq!(skipped(24), [1, 2, 9, 10, 11, 12, 13]);
    }
}
