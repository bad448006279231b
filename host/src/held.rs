//! What a table holds of layers, selection and alpha channels, where the artwork is not there.

use crate::blocks::{Blocks, Holding};
use crate::holder::{self, Which};

/// One of them, as its channels tell of it.
#[derive(Clone, Debug, PartialEq, Eq)]
pub struct Held {
    pub which: Which,
    /// Width and height, those of its planes; not known where it has none, or of several sizes.
    pub size: Option<[u32; 2]>,
    /// The masks of a layer, known where an image channel is there.
    pub masks: Option<Vec<&'static str>>,
}

impl Held {
    /// Those that are asked for, in file order. Any table may come, since nobody has judged it.
    pub fn of(table: &[u32], is_asked: impl Fn(Which) -> bool) -> Vec<Held> {
        let blocks = Blocks::of(table);
        let asked = blocks.holdings().filter(|holding| is_asked(holding.which));
        asked.map(|holding| Held::told(&holding)).collect()
    }

    fn told(holding: &Holding) -> Held {
        let own = holding.which.bitmap();
        let planes = holding.channels.iter().filter(|of| of.bitmap == own);
        let mut sizes = planes.map(|plane| [plane.width, plane.height]);
        let first = sizes.next();
        let is_one = sizes.all(|size| Some(size) == first);
        let bitmaps: Vec<u32> = holding.channels.iter().map(|of| of.bitmap).collect();
        Held {
            which: holding.which,
            size: first.filter(|_| is_one),
            masks: first.map(|_| holder::masks(&bitmaps)),
        }
    }

    /// Width and height as they are shown.
    pub fn sides(&self) -> [String; 2] {
        match self.size {
            Some(size) => size.map(|side| side.to_string()),
            None => [holder::NOT_KNOWN; 2].map(str::to_string),
        }
    }
}

#[cfg(test)]
mod tests {
    use super::*;
    use crate::psp::ffi::ENTRY_NUMBERS;

    /// The numbers of a block by its id and layer number.
    fn block(id: u32, layer: u32) -> Vec<u32> {
        let mut numbers = vec![id, 0, 0, 0, 0, layer];
        numbers.resize(ENTRY_NUMBERS, 0);
        numbers
    }

    fn channel(bitmap: u32, [width, height]: [u32; 2]) -> Vec<u32> {
        vec![5, 0, 2, 0, 0, 0, bitmap, 0, 0, 0, width, height, 0, 0]
    }

    fn all(table: &[Vec<u32>]) -> Vec<Held> {
        Held::of(&table.concat(), |_| true)
    }

    fn only(channels: &[Vec<u32>]) -> (Option<[u32; 2]>, Option<Vec<&'static str>>) {
        let held = all(&[&[block(4, 0)], channels].concat());
        assert_eq!(held.len(), 1);
        (held[0].size, held[0].masks.clone())
    }

    #[test]
    fn a_layer_has_the_size_of_its_image_channels() {
        let [red, green] = [[8, 4]; 2].map(|size| channel(0, size));
        assert_eq!(
            only(&[red.clone(), green.clone()]),
            (Some([8, 4]), Some(vec![]))
        );
        // A user mask has a rectangle of its own.
        let [mask, user] = [channel(1, [8, 4]), channel(2, [3, 2])];
        let masks = Some(vec!["transparency", "user"]);
        assert_eq!(only(&[red, user, mask, green]), (Some([8, 4]), masks));
        let empty = channel(0, [5, 0]);
        assert_eq!(only(&[empty]), (Some([5, 0]), Some(vec![])));
    }

    #[test]
    fn what_no_channel_tells_is_not_known() {
        assert_eq!(only(&[]), (None, None));
        assert_eq!(only(&[channel(1, [8, 4])]), (None, None));
        let two = [channel(0, [8, 4]), channel(0, [8, 5]), channel(2, [1, 1])];
        assert_eq!(only(&two), (None, Some(vec!["user"])));
    }

    #[test]
    fn a_selection_and_alpha_channels_have_planes_of_their_own() {
        let table = [
            block(6, 0),
            channel(3, [6, 5]),
            block(7, 0),
            block(8, 0),
            channel(4, [4, 3]),
            block(8, 1),
            channel(3, [9, 9]),
        ];
        let found: Vec<_> = all(&table)
            .into_iter()
            .map(|of| (of.which, of.size))
            .collect();
        let expected = [
            (Which::Selection, Some([6, 5])),
            (Which::Alpha(0), Some([4, 3])),
            (Which::Alpha(1), None),
        ];
        assert_eq!(found, expected);
        let layers = Held::of(&table.concat(), Which::is_layer);
        assert_eq!(layers, []);
    }

    #[test]
    fn any_numbers_are_a_table() {
        for number in [0, 1, 4, 5, 6, 8, u32::MAX] {
            for length in [0, 1, 13, 14, 15, 140] {
                all(&[vec![number; length]]);
            }
        }
        let odd = all(&[
            channel(0, [u32::MAX; 2]),
            block(4, u32::MAX),
            channel(0, [u32::MAX; 2]),
            block(4, u32::MAX),
        ]);
        let sides: Vec<_> = odd.iter().map(Held::sides).collect();
        assert_eq!(sides, [["4294967295"; 2], ["not known"; 2]]);
    }
}
