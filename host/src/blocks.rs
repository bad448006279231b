//! The blocks of a table that hold channels, and the channels that lie in them.

use crate::holder::Which;
use crate::lines;
use crate::psp::ffi::Entry;

/// The ids of the image and of a channel.
const IMAGE: u32 = 0;
const CHANNEL: u32 = 5;

/// Those of a table that are not skipped. Of several in a row that neither are channels nor hold any
/// only the first is kept: it ends what lies before it, and a table may have millions of them.
pub struct Blocks(Vec<Entry>);

/// A layer, the selection or an alpha channel: its entry, and the channels in it, in file order.
#[derive(Clone, Copy)]
pub struct Holding<'a> {
    pub which: Which,
    pub entry: &'a Entry,
    pub channels: &'a [Entry],
}

impl Blocks {
    pub fn of(table: &[u32]) -> Blocks {
        let mut blocks: Vec<Entry> = Vec::new();
        for entry in lines::entries(table).filter(|entry| entry.skipped == 0) {
            let ends_the_same = blocks.last().map_or(false, is_other);
            if !(is_other(&entry) && ends_the_same) {
                blocks.push(entry);
            }
        }
        Blocks(blocks)
    }

    /// The image, which in a listing comes before every other block.
    pub fn image(&self) -> Option<&Entry> {
        self.0.first().filter(|entry| entry.id == IMAGE)
    }

    /// Layers, selection and alpha channels, in file order.
    pub fn holdings(&self) -> impl Iterator<Item = Holding<'_>> + '_ {
        self.0.iter().enumerate().filter_map(move |(index, entry)| {
            Some(Holding {
                which: Which::of(entry)?,
                entry,
                channels: self.behind(index),
            })
        })
    }

    /// The channels in the one at an index: those behind it up to the next known block, since it
    /// holds nothing else that is known.
    fn behind(&self, index: usize) -> &[Entry] {
        let behind = self.0.get(index.saturating_add(1)..).unwrap_or(&[]);
        let other = behind.iter().position(|entry| entry.id != CHANNEL);
        behind.get(..other.unwrap_or(behind.len())).unwrap_or(&[])
    }
}

/// Whether a block is neither a channel nor holds channels.
fn is_other(entry: &Entry) -> bool {
    entry.id != CHANNEL && Which::of(entry).is_none()
}

#[cfg(test)]
mod tests {
    use super::*;
    use crate::psp::ffi::ENTRY_NUMBERS;

    /// The numbers of entries by id, whether they are skipped, layer number and bitmap.
    fn table(entries: &[[u32; 4]]) -> Vec<u32> {
        let numbers = |&[id, skipped, layer, bitmap]: &[u32; 4]| {
            let mut numbers = vec![id, skipped, 0, 0, 0, layer, bitmap];
            numbers.resize(ENTRY_NUMBERS, 0);
            numbers
        };
        entries.iter().flat_map(numbers).collect()
    }

    fn found(entries: &[[u32; 4]]) -> Vec<(Which, Vec<u32>)> {
        let blocks = Blocks::of(&table(entries));
        let found = blocks.holdings().map(|holding| {
            assert_eq!(Which::of(holding.entry), Some(holding.which));
            let channels = holding.channels.iter();
            (
                holding.which,
                channels.map(|channel| channel.bitmap).collect(),
            )
        });
        found.collect()
    }

    #[test]
    fn channels_lie_in_the_block_before_them() {
        let found = found(&[
            [0, 0, 0, 0],
            [3, 0, 0, 0],
            [4, 0, 0, 0],
            [5, 0, 0, 0],
            [12, 1, 0, 0],
            [5, 0, 0, 1],
            [4, 0, 1, 0],
            [6, 0, 0, 0],
            [5, 0, 0, 3],
            [7, 0, 0, 0],
            [8, 0, 0, 0],
            [5, 0, 0, 4],
        ]);
        let expected = [
            (Which::Layer(0), vec![0, 1]),
            (Which::Layer(1), vec![]),
            (Which::Selection, vec![3]),
            (Which::Alpha(0), vec![4]),
        ];
        assert_eq!(found, expected);
    }

    #[test]
    fn of_others_in_a_row_one_is_kept() {
        let others = [[0, 0, 0, 0]; 9];
        let layer = [[4, 0, 0, 0], [5, 0, 0, 2]];
        let table = table(&[&others[..], &layer, &others, &[[5, 0, 0, 7]]].concat());
        let blocks = Blocks::of(&table);
        assert_eq!(blocks.0.len(), 5);
        let lengths: Vec<_> = blocks.holdings().map(|of| of.channels.len()).collect();
        assert_eq!(lengths, [1]);
    }

    #[test]
    fn the_image_is_the_first_block() {
        let image = |entries: &[[u32; 4]]| {
            let blocks = Blocks::of(&table(entries));
            blocks.image().copied()
        };
        let first = Entry {
            layer: 7,
            ..Entry::default()
        };
        assert_eq!(image(&[[0, 0, 7, 0], [3, 0, 0, 0]]), Some(first));
        assert_eq!(image(&[[12, 1, 0, 0], [0, 0, 7, 0]]), Some(first));
        assert_eq!(image(&[[4, 0, 0, 0], [0, 0, 7, 0]]), None);
        assert_eq!(image(&[[0, 1, 7, 0]]), None);
        assert_eq!(image(&[]), None);
    }

    #[test]
    fn what_is_skipped_holds_nothing() {
        let found = found(&[[6, 1, 0, 0], [5, 0, 0, 3], [5, 1, 0, 0], [2, 0, 0, 0]]);
        assert_eq!(found, []);
    }
}
