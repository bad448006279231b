//! What the lengths in a block's header must be, by its id.

use crate::words::or;

pub struct Lengths {
    /// The initial lengths that may be; where there are none it is not judged.
    initial: &'static [u32],
    /// The least total, which is the size of the information chunk, and the greatest.
    total: [u32; 2],
}

const SKIPPED: Lengths = at_least(&[], 0);

/// A block with a chunk of this size, and whatever follows.
const fn at_least(initial: &'static [u32], size: u32) -> Lengths {
    Lengths {
        initial,
        total: [size, u32::MAX],
    }
}

impl Lengths {
    /// The lengths of a block that is entered, or skipped.
    pub fn of(id: u32, is_skipped: bool) -> Lengths {
        match id {
            _ if is_skipped => SKIPPED,
            0 => Lengths {
                initial: &[38],
                total: [38; 2],
            },
            2 => at_least(&[4], 4),
            3 => at_least(&[0], 0),
            // Two tables of document 000 differ.
            4 => at_least(&[375, 0], 375),
            5 => at_least(&[12], 12),
            6 => at_least(&[36], 36),
            7 => at_least(&[2], 2),
            8 => at_least(&[292], 292),
            _ => SKIPPED,
        }
    }

    /// Bytes of the information chunk.
    pub fn size(&self) -> usize {
        self.total[0] as usize
    }

    pub fn is_initial(&self, initial: u32) -> bool {
        self.initial.is_empty() || self.initial.contains(&initial)
    }

    pub fn is_total(&self, total: u32) -> bool {
        let [least, most] = self.total;
        (least..=most).contains(&total)
    }

    pub fn initial_words(&self) -> String {
        match self.initial {
            [] => "it is not judged".to_string(),
            initial => format!("it must be {}", or(initial)),
        }
    }

    pub fn total_words(&self) -> String {
        match self.total {
            [0, _] => "it may be any".to_string(),
            [least, most] if least == most => format!("it must be {}", least),
            [least, _] => format!("it must be at least {}", least),
        }
    }
}

#[cfg(test)]
mod tests {
    use super::*;

    /// The initial lengths that fit, and the first and the last total that do.
    fn fitting(id: u32, is_skipped: bool) -> (Vec<u32>, [u32; 2]) {
        let lengths = Lengths::of(id, is_skipped);
        let initial = (0..400).filter(|&of| lengths.is_initial(of)).collect();
        let totals = || {
            (0..400)
                .chain([u32::MAX])
                .filter(|&of| lengths.is_total(of))
        };
        let ends = [totals().min(), totals().max()].map(|of| of.expect("a total"));
        assert_eq!(lengths.size(), ends[0] as usize);
        (initial, ends)
    }

    #[test]
    fn a_block_that_is_entered_has_lengths_of_its_own() {
        let most = u32::MAX;
        assert_eq!(fitting(0, false), (vec![38], [38, 38]));
        assert_eq!(fitting(4, false), (vec![0, 375], [375, most]));
        let others = [(2, 4), (3, 0), (5, 12), (6, 36), (7, 2), (8, 292)];
        for (id, size) in others {
            assert_eq!(fitting(id, false), (vec![size], [size, most]));
        }
    }

    #[test]
    fn a_block_that_is_skipped_has_any() {
        for id in [1, 2, 9, 10, 11, 12, 65_535] {
            assert_eq!(fitting(id, true), ((0..400).collect(), [0, u32::MAX]));
        }
    }

    #[test]
    fn lengths_are_told() {
        let told = |id, is_skipped| {
            let lengths = Lengths::of(id, is_skipped);
            [lengths.initial_words(), lengths.total_words()]
        };
        assert_eq!(told(0, false), ["it must be 38", "it must be 38"]);
        assert_eq!(told(3, false), ["it must be 0", "it may be any"]);
        assert_eq!(
            told(4, false),
            ["it must be 375 or 0", "it must be at least 375"]
        );
        assert_eq!(told(1, true), ["it is not judged", "it may be any"]);
    }
}
