//! Document 01's listing lines, and entries out of a table of numbers.

use crate::psp::ffi::{Entry, Listed, ENTRY_NUMBERS};

/// The first line of a listing.
pub fn answer_line(answer: &Listed) -> String {
    format!(
        "answer {} place {} entries {}",
        answer.number, answer.place, answer.count
    )
}

/// The first line of a saved table, which holds neither the answer of a refused listing nor the
/// length of the artwork, the place of an accepted one.
pub fn saved_line(count: usize) -> String {
    format!("answer 0 place - entries {}", count)
}

/// The line of an entry: index, kind, level, place, bytes owned, and what its kind has besides.
pub fn entry_line(index: usize, entry: &Entry) -> String {
    let e = entry;
    let [start, stored] = [e.start, e.stored];
    let plane = [
        e.layer, e.bitmap, e.channel, start, stored, e.width, e.height, e.plane, e.row,
    ];
    let content = [start, stored, e.id];
    let (kind, own) = match e.id {
        _ if e.skipped != 0 => ("skip", &content[..]),
        0 => ("image", &[][..]),
        2 => ("palette", &content[..2]),
        3 => ("bank", &[][..]),
        4 => ("layer", &plane[..1]),
        6 => ("selection", &[][..]),
        7 => ("alphabank", &[][..]),
        8 => ("alpha", &plane[..1]),
        _ => ("channel", &plane[..]),
    };
    let mut line = format!("{} {} {} {} {}", index, kind, e.level, e.place, e.owned);
    for number in own {
        line.push(' ');
        line.push_str(&number.to_string());
    }
    line
}

/// The entries of a table, fourteen numbers each; numbers too few for an entry are left out.
pub fn entries(table: &[u32]) -> impl Iterator<Item = Entry> + '_ {
    table.chunks_exact(ENTRY_NUMBERS).filter_map(entry)
}

fn entry(numbers: &[u32]) -> Option<Entry> {
    let n: [u32; ENTRY_NUMBERS] = numbers.try_into().ok()?;
    Some(Entry {
        id: n[0],
        skipped: n[1],
        level: n[2],
        place: n[3],
        owned: n[4],
        layer: n[5],
        bitmap: n[6],
        channel: n[7],
        start: n[8],
        stored: n[9],
        width: n[10],
        height: n[11],
        plane: n[12],
        row: n[13],
    })
}

#[cfg(test)]
mod tests {
    use super::*;

    fn only(table: &[u32]) -> Entry {
        entries(table).next().expect("one entry")
    }

    /// Document 01's worked listing, each channel with its row.
    #[test]
    fn lines_are_those_of_document_01() {
        let answer = Listed {
            number: 0,
            place: 521,
            count: 4,
        };
        assert_eq!(answer_line(&answer), "answer 0 place 521 entries 4");
        assert_eq!(saved_line(4), "answer 0 place - entries 4");
        let image = only(&[0, 0, 0, 36, 52, 0, 0, 0, 0, 0, 0, 0, 0, 0]);
        assert_eq!(entry_line(0, &image), "0 image 0 36 52");
        let bank = only(&[3, 0, 0, 88, 14, 0, 0, 0, 0, 0, 0, 0, 0, 0]);
        assert_eq!(entry_line(1, &bank), "1 bank 0 88 14");
        let layer = only(&[4, 0, 1, 102, 389, 0, 0, 0, 0, 0, 0, 0, 0, 0]);
        assert_eq!(entry_line(2, &layer), "2 layer 1 102 389 0");
        let channel = only(&[5, 0, 2, 491, 30, 0, 0, 0, 517, 4, 1, 1, 4, 4]);
        assert_eq!(
            entry_line(3, &channel),
            "3 channel 2 491 30 0 0 0 517 4 1 1 4 4"
        );
    }

    #[test]
    fn an_alpha_channel_has_its_rank() {
        let selection = only(&[6, 0, 0, 521, 50, 0, 0, 0, 0, 0, 0, 0, 0, 0]);
        assert_eq!(entry_line(4, &selection), "4 selection 0 521 50");
        let bank = only(&[7, 0, 0, 601, 16, 0, 0, 0, 0, 0, 0, 0, 0, 0]);
        assert_eq!(entry_line(6, &bank), "6 alphabank 0 601 16");
        let alpha = only(&[8, 0, 1, 617, 306, 2, 0, 0, 0, 0, 0, 0, 0, 0]);
        assert_eq!(entry_line(7, &alpha), "7 alpha 1 617 306 2");
        let channel = only(&[5, 0, 2, 923, 30, 2, 4, 0, 949, 4, 1, 1, 4, 4]);
        let line = "8 channel 2 923 30 2 4 0 949 4 1 1 4 4";
        assert_eq!(entry_line(8, &channel), line);
        // What is skipped is a skip, whatever its id.
        let skip = only(&[6, 1, 0, 521, 18, 0, 0, 0, 535, 4, 0, 0, 0, 0]);
        assert_eq!(entry_line(4, &skip), "4 skip 0 521 18 535 4 6");
    }

    #[test]
    fn a_channel_ends_with_its_row() {
        let channel = only(&[5, 0, 2, 564, 47, 3, 1, 0, 590, 21, 7, 3, 21, 7]);
        let line = "5 channel 2 564 47 3 1 0 590 21 7 3 21 7";
        assert_eq!(entry_line(5, &channel), line);
    }

    #[test]
    fn palette_and_skip_show_their_content() {
        let palette = only(&[2, 0, 0, 88, 34, 0, 0, 0, 106, 16, 0, 0, 0, 0]);
        assert_eq!(entry_line(1, &palette), "1 palette 0 88 34 106 16");
        let skip = only(&[9, 1, 0, 88, 19, 0, 0, 0, 102, 5, 0, 0, 0, 0]);
        assert_eq!(entry_line(1, &skip), "1 skip 0 88 19 102 5 9");
    }

    #[test]
    fn numbers_too_few_for_an_entry_are_left_out() {
        assert_eq!(entries(&[0; 3 * ENTRY_NUMBERS - 1]).count(), 2);
    }
}
