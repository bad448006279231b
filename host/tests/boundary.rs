//! Every function of the boundary, through the safe wrapper and the archive: document 01's worked
//! values, its file of 521 bytes, document 02's saved tables, and slices of length 0; with numbers,
//! and with results. Built and run by host/check.

use psp::{numbers, Asked, Entry, Rect, Refusal, RefusedListing, RefusedPlane};
use psp::{ENTRY_NUMBERS, SAVED_ENTRY, SAVED_HEAD};

/// Document 01's file: a 1 by 1 grey image, raw, with one layer and one channel.
fn grey() -> Vec<u8> {
    grey_with(&[9, 0, 0, 0])
}

/// The same with another plane.
fn grey_with(plane: &[u8]) -> Vec<u8> {
    let length = plane.len() as u32;
    let mut file = b"Paint Shop Pro Image File\n\x1a\0\0\0\0\0\x03\0\0\0".to_vec();
    file.extend(block(0, 38, 38));
    let mut image = [0; 38];
    for (place, byte) in [(0, 1), (4, 1), (19, 8), (21, 1), (24, 1), (27, 1), (36, 1)] {
        image[place] = byte;
    }
    file.extend_from_slice(&image);
    file.extend(block(3, 0, 415 + length));
    file.extend(block(4, 375, 401 + length));
    let mut layer = [0; 375];
    for (place, byte) in [
        (0, b'a'),
        (265, 1),
        (269, 1),
        (281, 1),
        (285, 1),
        (371, 1),
        (373, 1),
    ] {
        layer[place] = byte;
    }
    file.extend_from_slice(&layer);
    file.extend(block(5, 12, 12 + length));
    file.extend([length, length, 0].map(u32::to_le_bytes).concat());
    file.extend_from_slice(plane);
    file
}

/// The header of a block.
fn block(id: u8, initial: u32, total: u32) -> Vec<u8> {
    let mut header = b"~BK\0".to_vec();
    header.extend_from_slice(&[id, 0]);
    header.extend_from_slice(&initial.to_le_bytes());
    header.extend_from_slice(&total.to_le_bytes());
    header
}

const SQUARE: Rect = Rect {
    left: 0,
    top: 0,
    right: 1,
    bottom: 1,
};

#[test]
fn the_listing_is_one_in_table_and_records() {
    let file = grey();
    let mut table = vec![7; 4 * ENTRY_NUMBERS + 5];
    let listed = numbers::list(&file, &mut table);
    assert_eq!((listed.number, listed.place, listed.count), (0, 521, 4));
    assert_eq!(table[4 * ENTRY_NUMBERS..], [7; 5]);
    assert_eq!(numbers::count(&file, usize::MAX), listed);
    assert_eq!(numbers::count(&file, 3).number, 12);

    let mut again = vec![7; table.len()];
    let mut records = [Entry::default(); 5];
    assert_eq!(
        numbers::list_records(&file, &mut again, &mut records),
        listed
    );
    assert_eq!(again, table);
    let channel = &records[3];
    assert_eq!((channel.id, channel.start), (5, 517));
    assert_eq!((channel.plane, channel.row), (4, 4));
    assert!(records[..3].iter().all(|entry| entry.row == 0));
    assert_eq!(records[4], Entry::default());
}

#[test]
fn a_plane_length_gives_the_row() {
    let of = |file: &[u8]| {
        let mut table = [0; 4 * ENTRY_NUMBERS];
        let listed = numbers::list(file, &mut table);
        let [plane, row] = [1, 0].map(|back| table[4 * ENTRY_NUMBERS - 1 - back]);
        (listed.number, listed.place, plane, row)
    };
    assert_eq!(of(&grey()), (0, 521, 4, 4));
    assert_eq!(of(&grey_with(&[9])), (0, 518, 1, 1));
    assert_eq!(of(&grey_with(&[9, 0])), (8, 509, 0, 0));
    assert_eq!(of(&grey_with(&[9; 5])), (8, 509, 0, 0));
}

#[test]
fn packets_are_read_and_written() {
    let mut dest = [0xEE; 4];
    let read = numbers::unpack(&[0x83, 0x41], &mut dest, 3);
    assert_eq!((read.number, read.place, read.bytes), (0, 2, 3));
    assert_eq!(dest, [0x41, 0x41, 0x41, 0xEE]);
    assert_eq!(numbers::unpack(&[0x81, 7, 0], &mut dest, 1).number, 23);

    let packed = numbers::pack(&[0x41, 0x42, 0x42, 0x42], &mut dest);
    assert_eq!((packed.number, packed.length), (0, 4));
    assert_eq!(dest, [1, 0x41, 0x83, 0x42]);
    assert_eq!(numbers::pack(&[1, 2], &mut []).number, 30);
}

#[test]
fn a_plane_is_read_and_placed() {
    let mut plane = [0; 4];
    let read = numbers::read_plane(&grey(), 517, 4, 4, 0, &mut plane);
    assert_eq!((read.number, read.place, read.bytes), (0, 4, 4));
    assert_eq!(plane, [9, 0, 0, 0]);
    assert_eq!(
        numbers::read_plane(&grey(), 518, 4, 4, 0, &mut plane).number,
        27
    );

    let mut canvas = [0; 6];
    let r = Rect {
        left: -1,
        top: 1,
        right: 1,
        bottom: 2,
    };
    let number = numbers::place(3, 2, &mut canvas, r, &[0x10, 0x11, 0, 0], 4);
    assert_eq!((number, canvas), (0, [0, 0, 0, 0x11, 0, 0]));
    assert_eq!(numbers::place(3, 3, &mut canvas, r, &[], 4), 40);
    let none = Rect::default();
    assert_eq!(numbers::intersect(r, SQUARE), none);
    let wide = Rect { right: 9, ..SQUARE };
    assert_eq!(numbers::intersect(SQUARE, wide), SQUARE);
}

/// Two rows of three pixels, the first of them left of a canvas of 3 by 2.
const WIDE: Rect = Rect {
    left: -1,
    top: 0,
    right: 2,
    bottom: 2,
};

#[test]
fn a_row_is_padded_or_not() {
    let placed = |plane: &[u8], row| {
        let mut canvas = [7; 6];
        let number = numbers::place(3, 2, &mut canvas, WIDE, plane, row);
        (number, canvas)
    };
    let good = (0, [2, 3, 7, 5, 6, 7]);
    assert_eq!(placed(&[1, 2, 3, 99, 4, 5, 6, 99], 4), good);
    assert_eq!(placed(&[1, 2, 3, 4, 5, 6], 3), good);
    for (length, row) in [(8, 3), (6, 4), (4, 2), (10, 5), (0, 0), (8, 4 + (1 << 31))] {
        assert_eq!(placed(&[1; 16][..length], row), (42, [7; 6]));
    }
}

#[test]
fn an_empty_rectangle_has_a_row() {
    let mut canvas = [7; 6];
    let mut placed = |r, row| numbers::place(3, 2, &mut canvas, r, &[], row);
    let flat = Rect { bottom: 0, ..WIDE };
    assert_eq!([2, 3, 4, 5].map(|row| placed(flat, row)), [42, 0, 0, 42]);
    let thin = Rect { right: -1, ..WIDE };
    assert_eq!([0, 1, 4].map(|row| placed(thin, row)), [0, 42, 42]);
    assert_eq!(canvas, [7; 6]);
}

/// Document 02's file of the entries of a table, written here by hand; a side over 4,096 makes it one
/// of version 2.
fn saved(entries: &[[u32; ENTRY_NUMBERS]]) -> Vec<u8> {
    let count = entries.len() as u32;
    let length = (5 + 56 * count).to_be_bytes();
    let is_large = entries.iter().any(|of| of[10] > 4096 || of[11] > 4096);
    let version = 1 + u8::from(is_large);
    let mut file = [&length[..], &[version], &count.to_be_bytes()].concat();
    file.extend(entries.iter().flatten().flat_map(|of| of.to_be_bytes()));
    file
}

/// Entries of which no two bytes are one.
fn two_entries() -> [[u32; ENTRY_NUMBERS]; 2] {
    let number = |at: usize| u32::from_be_bytes([0, 1, 2, 3].map(|k| (4 * at + k) as u8 ^ 0xA5));
    [0, ENTRY_NUMBERS].map(|first| {
        let mut entry = [0; ENTRY_NUMBERS];
        entry
            .iter_mut()
            .enumerate()
            .for_each(|(at, of)| *of = number(first + at));
        entry
    })
}

#[test]
fn a_table_is_written_and_read_back() {
    let entries = two_entries();
    for count in 0..=2 {
        let file = saved(&entries[..count]);
        assert_eq!(file.len(), SAVED_HEAD + count * SAVED_ENTRY);
        let mut table = entries[..count].concat();
        for part in [0, 1, 13] {
            // Numbers that make no whole entry are not written.
            let table = [&table[..], &vec![7; part]].concat();
            let mut dest = vec![0xEE; file.len() + 3];
            let written = numbers::write_table(&table, &mut dest);
            assert_eq!((written.number, written.length), (0, file.len()));
            assert_eq!(dest, [&file[..], &[0xEE; 3]].concat());
        }
        table.extend([7; 5]);
        let mut again = vec![7; table.len()];
        let read = numbers::read_table(&file, &mut again);
        assert_eq!((read.number, read.count), (0, count));
        assert_eq!(again, table);
    }
}

#[test]
fn a_saved_table_has_the_version_of_its_sides() {
    for number in 0..ENTRY_NUMBERS {
        for value in [4_096, 4_097, 30_000, u32::MAX] {
            let mut entries = [[7; ENTRY_NUMBERS]; 2];
            entries[1][number] = value;
            let is_large = (number == 10 || number == 11) && value > 4_096;
            let (version, other) = if is_large { (2, 1) } else { (1, 2) };
            let mut file = saved(&entries);
            let mut dest = vec![0; file.len()];
            let written = numbers::write_table(&entries.concat(), &mut dest);
            assert_eq!((written.number, &dest), (0, &file));
            assert_eq!(file[4], version);
            let mut table = [7; 2 * ENTRY_NUMBERS];
            assert_eq!(numbers::read_table(&file, &mut table).number, 0);
            // A version that it has not comes before the room that is missing, and behind the count.
            file[4] = other;
            assert_eq!(numbers::read_table(&file, &mut table).number, 74);
            assert_eq!(numbers::read_table(&file, &mut []).number, 74);
            file[8] += 1;
            assert_eq!(numbers::read_table(&file, &mut table).number, 72);
        }
    }
    let mut none = saved(&[]);
    assert_eq!(numbers::read_table(&none, &mut []).number, 0);
    none[4] = 2;
    assert_eq!(numbers::read_table(&none, &mut []).number, 74);
}

#[test]
fn a_saved_table_is_refused_in_document_02_s_order() {
    // Room for fewer entries than there are, so that each is refused at the least.
    let refused = |file: &[u8]| {
        let mut table = [7; 2 * ENTRY_NUMBERS - 1];
        let answer = numbers::read_table(file, &mut table);
        assert_eq!((answer.count, table), (0, [7; 2 * ENTRY_NUMBERS - 1]));
        answer.number
    };
    let whole = saved(&two_entries());
    assert_eq!(refused(&whole), 73);
    for length in 0..whole.len() {
        assert_eq!(refused(&whole[..length]), 70, "{}", length);
    }
    assert_eq!(refused(&[&whole[..], &[0]].concat()), 70);
    for (at, number) in [70, 70, 70, 70, 71, 72, 72, 72, 72].into_iter().enumerate() {
        let mut wrong = whole.clone();
        wrong[at..SAVED_HEAD]
            .iter_mut()
            .for_each(|byte| *byte ^= 0xFF);
        assert_eq!(refused(&wrong), number, "{}", at);
    }
    let mut part = [&whole[..], &[0; 55]].concat();
    part[..4].copy_from_slice(&(whole.len() as u32 - 4 + 55).to_be_bytes());
    assert_eq!(refused(&part), 72);

    let mut dest = [0xEE; SAVED_HEAD + SAVED_ENTRY - 1];
    let written = numbers::write_table(&two_entries()[0], &mut dest);
    assert_eq!((written.number, written.length), (73, 0));
    assert_eq!(dest, [0xEE; SAVED_HEAD + SAVED_ENTRY - 1]);
}

#[test]
fn views_show_parts_of_what_is_lent() {
    let file = grey();
    let ramp: Vec<u8> = (0..=255).flat_map(|grey| [grey; 4]).collect();
    let palette = numbers::palette(&file, usize::MAX, &ramp);
    assert_eq!((palette.number, palette.bytes), (0, ramp.as_slice()));
    assert_eq!(numbers::palette(&file, usize::MAX, &[]).number, 44);
    let name = numbers::name(&file, usize::MAX, 0);
    assert_eq!((name.number, name.bytes), (0, &b"a"[..]));
    let missing = numbers::name(&file, usize::MAX, 1);
    assert_eq!((missing.number, missing.bytes), (45, &b""[..]));
}

#[test]
fn facts_are_the_fields() {
    let file = grey();
    let facts = numbers::image_facts(&file, usize::MAX);
    let image = facts.image;
    assert_eq!((facts.number, image.width, image.height), (0, 1, 1));
    assert_eq!((image.depth, image.colours, image.grey), (8, 256, 1));
    assert_eq!((image.planes, image.layers, image.bits), (1, 1, 0));
    assert_eq!(numbers::image_facts(&file, 0).number, 12);

    let facts = numbers::layer_facts(&file, usize::MAX, 0);
    let layer = facts.layer;
    assert_eq!((facts.number, layer.name[0], layer.name[1]), (0, b'a', 0));
    assert_eq!((layer.image.border, layer.image.saved), (SQUARE, SQUARE));
    assert_eq!((layer.bitmaps, layer.channels), (1, 1));
    assert_eq!(numbers::layer_facts(&file, usize::MAX, 1).number, 45);
}

/// The file with a selection and two alpha channels behind it, each of one pixel and without
/// padding.
fn grey_with_masks() -> Vec<u8> {
    let mut file = grey();
    file.extend(mask(6, &[], 3));
    let alphas = [mask(8, b"a", 4), mask(8, b"Varnish", 4)].concat();
    file.extend(block(7, 2, 2 + alphas.len() as u32));
    file.extend([2, 0]);
    file.extend(alphas);
    file
}

/// The block of a selection, or of an alpha channel, which has a name.
fn mask(id: u8, name: &[u8], bitmap: u8) -> Vec<u8> {
    let mut chunk = name.to_vec();
    chunk.resize(if id == 8 { 256 } else { 0 }, 0);
    let corners = [0, 0, 1, 1].map(u32::to_le_bytes).concat();
    chunk.extend([&corners[..], &corners, &[1, 0, 1, 0]].concat());
    let mut channel = block(5, 12, 13);
    channel.extend([1, 1, u32::from(bitmap)].map(u32::to_le_bytes).concat());
    channel.push(9);
    let total = chunk.len() + channel.len();
    let header = block(id, chunk.len() as u32, total as u32);
    [header, chunk, channel].concat()
}

#[test]
fn a_selection_and_alpha_channels_are_listed() {
    let file = grey_with_masks();
    let mut table = [0; 11 * ENTRY_NUMBERS];
    let mut records = [Entry::default(); 11];
    let listed = numbers::list_records(&file, &mut table, &mut records);
    assert_eq!((listed.number, listed.count), (0, 11));
    let found = records.map(|e| [e.id, e.level, e.owned, e.layer, e.bitmap, e.row]);
    let expected = [
        [6, 0, 50, 0, 0, 0],
        [5, 1, 27, 0, 3, 1],
        [7, 0, 16, 0, 0, 0],
        [8, 1, 306, 0, 0, 0],
        [5, 2, 27, 0, 4, 1],
        [8, 1, 306, 1, 0, 0],
        [5, 2, 27, 1, 4, 1],
    ];
    assert_eq!(found[4..], expected);
    assert!(records.iter().all(|entry| entry.skipped == 0));
}

/// What stands beside an entry that was found.
const ZEROS: numbers::Listed = numbers::Listed {
    number: 0,
    place: 0,
    count: 0,
};

#[test]
fn an_entry_that_is_asked_for_is_the_one_that_is_listed() {
    let whole = grey_with_masks();
    let cut = whole.len() - 1;
    for length in [0, 36, 87, 88, 490, 520, 521, cut, whole.len()] {
        let input = &whole[..length];
        let mut records = [Entry::default(); 11];
        numbers::list_records(input, &mut [0; 11 * ENTRY_NUMBERS], &mut records);
        for room in [0, 1, 3, 10, 11, 12, usize::MAX] {
            let listed = numbers::count(input, room);
            for k in (0..14).chain([usize::MAX]) {
                let asked = numbers::entry_at(input, room, k);
                if k < listed.count {
                    assert_eq!((asked.found, asked.entry), (1, records[k]));
                    assert_eq!(asked.listed, ZEROS);
                } else {
                    assert_eq!((asked.found, asked.listed), (0, listed));
                    assert_eq!(asked.entry, Entry::default());
                }
            }
        }
    }
}

#[test]
fn nothing_is_looked_at_behind_the_entry_that_is_asked_for() {
    let mut file = grey();
    let layer = numbers::entry_at(&file, usize::MAX, 2);
    assert_eq!(
        (layer.found, layer.entry.id, layer.entry.owned),
        (1, 4, 389)
    );
    file[491..].fill(0xFF);
    for length in [491, 500, 521] {
        let asked = numbers::entry_at(&file[..length], usize::MAX, 2);
        assert_eq!(asked, layer);
    }
    assert_eq!(numbers::entry_at(&file, usize::MAX, 3).listed.number, 5);
    assert_eq!(numbers::entry_at(&file[..490], usize::MAX, 2).found, 0);
}

#[test]
fn a_selection_and_alpha_channels_have_facts() {
    let (file, room) = (grey_with_masks(), usize::MAX);
    let facts = numbers::selection_facts(&file, room);
    let selection = facts.selection;
    assert_eq!((facts.number, selection.area.saved), (0, SQUARE));
    assert_eq!(selection.area.border, SQUARE);
    assert_eq!((selection.bitmaps, selection.channels), (1, 1));
    let facts = numbers::alpha_facts(&file, room, 1);
    let alpha = facts.alpha;
    assert_eq!((facts.number, alpha.area), (0, selection.area));
    assert_eq!((&alpha.name[..8], alpha.name[255]), (&b"Varnish\0"[..], 0));
    assert_eq!((alpha.bitmaps, alpha.channels), (1, 1));
    let name = numbers::alpha_name(&file, room, 0);
    assert_eq!((name.number, name.bytes), (0, &b"a"[..]));

    let third = numbers::alpha_facts(&file, room, 2);
    assert_eq!((third.number, third.alpha.bitmaps), (47, 0));
    assert_eq!(numbers::alpha_name(&file, room, 2).number, 47);
    let none = numbers::selection_facts(&grey(), room);
    assert_eq!((none.number, none.selection.channels), (46, 0));
    assert_eq!(numbers::alpha_facts(&grey(), room, 0).number, 47);
    assert_eq!(numbers::selection_facts(&file, 3).number, 12);
}

#[test]
fn at_the_places_of_a_table_stand_the_facts_of_the_views() {
    let (file, room) = (grey_with_masks(), usize::MAX);
    let mut table = [0; 11 * ENTRY_NUMBERS];
    let mut records = [Entry::default(); 11];
    assert_eq!(psp::list_records(&file, &mut table, &mut records), Ok(11));
    for entry in records {
        let (place, k) = (entry.place as usize, entry.layer);
        let layer = numbers::layer_at(&file, place);
        let selection = numbers::selection_at(&file, place);
        let alpha = numbers::alpha_at(&file, place);
        let is = |id, missing| if entry.id == id { 0 } else { missing };
        assert_eq!(layer.number, is(4, 45));
        assert_eq!(selection.number, is(6, 46));
        assert_eq!(alpha.number, is(8, 47));
        let name = numbers::name_at(&file, place);
        let alpha_name = numbers::alpha_name_at(&file, place);
        match entry.id {
            4 => {
                let view = numbers::layer_facts(&file, room, k).layer;
                assert_eq!(format!("{:?}", layer.layer), format!("{:?}", view));
                assert_eq!(name, numbers::name(&file, room, k));
            }
            6 => assert_eq!(selection.selection.area.saved, SQUARE),
            8 => {
                let view = numbers::alpha_facts(&file, room, k).alpha;
                assert_eq!(format!("{:?}", alpha.alpha), format!("{:?}", view));
                assert_eq!(alpha_name, numbers::alpha_name(&file, room, k));
            }
            _ => {
                assert_eq!((name.number, name.bytes), (45, &[][..]));
                assert_eq!((alpha_name.number, alpha_name.bytes), (47, &[][..]));
            }
        }
    }
}

/// A refused listing has places too, and no place is too large.
#[test]
fn facts_at_a_place_need_no_accepted_file() {
    let file = grey();
    let cut = &file[..491];
    assert_eq!(psp::count(cut, usize::MAX).map_err(|r| r.count), Err(3));
    let saved = psp::layer_at(cut, 102).map(|layer| layer.image.saved);
    assert_eq!(saved, Ok(SQUARE));
    assert_eq!(psp::name_at(cut, 102), Ok(&b"a"[..]));
    for place in [0, 101, 103, 491, usize::MAX - 13, usize::MAX] {
        assert_eq!(psp::name_at(&file, place), Err(Refusal::NoLayer));
        let none = psp::selection_at(&file, place).map(|selection| selection.channels);
        assert_eq!(none, Err(Refusal::NoSelection));
        assert_eq!(psp::alpha_name_at(&file, place), Err(Refusal::NoAlpha));
    }
    let short = psp::layer_at(&file[..490], 102).map(|layer| layer.channels);
    assert_eq!(short, Err(Refusal::NoLayer));
    assert_eq!(
        psp::alpha_at(&[], 0).map(|a| a.channels),
        Err(Refusal::NoAlpha)
    );
}

#[test]
fn dots_per_centimetre_is_one_division() {
    let inch = numbers::dots_per_centimetre(300.0, 1);
    assert_eq!((inch.known, inch.value), (1, 300.0 / 2.54));
    let centimetre = numbers::dots_per_centimetre(300.0, 2);
    assert_eq!((centimetre.known, centimetre.value), (1, 300.0));
    let none = numbers::dots_per_centimetre(f64::NAN, 2);
    assert_eq!((none.known, none.value), (0, 0.0));
}

#[test]
fn slices_may_be_empty() {
    let listed = numbers::list(&[], &mut []);
    assert_eq!((listed.number, listed.place, listed.count), (2, 0, 0));
    assert_eq!(numbers::list_records(&[], &mut [], &mut []), listed);
    assert_eq!(numbers::entry_at(&[], 0, 0).listed, listed);
    assert_eq!(numbers::unpack(&[], &mut [], 0).number, 0);
    assert_eq!(numbers::pack(&[], &mut []).length, 0);
    assert_eq!(numbers::read_plane(&[], 0, 0, 0, 0, &mut []).number, 0);
    assert_eq!(numbers::write_table(&[], &mut []).number, 73);
    assert_eq!(numbers::read_table(&[], &mut []).number, 70);
    assert_eq!(numbers::name(&[], 0, 0).number, 2);
    assert_eq!(numbers::alpha_name(&[], 0, 0).number, 2);
    assert_eq!(numbers::alpha_facts(&[], 0, 0).number, 2);
    assert_eq!(numbers::selection_facts(&[], 0).number, 2);
    assert_eq!(numbers::palette(&[], 0, &[]).bytes, b"");
}

#[test]
fn the_library_is_the_header_s_and_the_crate_s() {
    assert_eq!(numbers::version(), psp::ffi::VERSION);
    assert_eq!(psp::version().to_string(), "0.9.0");
    // Where cargo builds this, its own manifest has the version too.
    if let Some(version) = option_env!("CARGO_PKG_VERSION") {
        assert_eq!(psp::version().to_string(), version);
    }
}

#[test]
fn a_listing_is_its_count_or_its_refusal() {
    let file = grey();
    let mut table = [0; 4 * ENTRY_NUMBERS];
    let mut records = [Entry::default(); 4];
    assert_eq!(psp::count(&file, usize::MAX), Ok(4));
    assert_eq!(psp::list(&file, &mut table), Ok(4));
    assert_eq!(psp::list_records(&file, &mut table, &mut records), Ok(4));
    let full = RefusedListing {
        refusal: Refusal::TableFull,
        place: 88,
        count: 1,
    };
    assert_eq!(psp::count(&file, 1), Err(full));
    assert_eq!(psp::entry_at(&file, 4, 3), Asked::Entry(records[3]));
    assert_eq!(psp::entry_at(&file, 4, 4), Asked::Final(Ok(4)));
    assert_eq!(psp::entry_at(&file, 1, 1), Asked::Final(Err(full)));
}

#[test]
fn a_wrong_field_is_refused_at_its_place() {
    // Of the image, the layer and the channel; and a byte of each that cannot be FF.
    let places = [
        50, 54, 66, 67, 69, 71, 73, 77, 86, 372, 373, 389, 410, 426, 445, 487, 489, 509, 513, 515,
    ];
    let bytes = [
        53, 57, 66, 68, 70, 72, 76, 77, 87, 372, 384, 400, 421, 437, 446, 488, 490, 512, 514, 516,
    ];
    for (place, at) in places.into_iter().zip(bytes) {
        let mut file = grey();
        file[at] = 0xFF;
        let refused = psp::count(&file, usize::MAX).expect_err("a wrong field");
        let found = (refused.refusal, refused.place);
        assert_eq!(found, (Refusal::WrongField, place));
    }
}

#[test]
fn a_refused_listing_tells_what_was_found_before() {
    let file = grey();
    let mut table = [7; 4 * ENTRY_NUMBERS];
    let mut records = [Entry::default(); 4];
    let refused = RefusedListing {
        refusal: Refusal::EndsTooSoon,
        place: 517,
        count: 3,
    };
    let cut = &file[..520];
    assert_eq!(psp::list(cut, &mut table), Err(refused));
    let [third, fourth] = [2, 3].map(|entry| table[entry * ENTRY_NUMBERS]);
    assert_eq!((third, fourth), (4, 7));
    let answer = psp::list_records(cut, &mut table, &mut records);
    assert_eq!(answer, Err(refused));
    let found = records.map(|entry| (entry.id, entry.owned));
    assert_eq!(found, [(0, 52), (3, 14), (4, 389), (0, 0)]);
    assert_eq!(refused.refusal.number(), 2);
}

#[test]
fn a_plane_is_its_length_or_its_refusal() {
    let mut dest = [0xEE; 4];
    assert_eq!(psp::unpack(&[0x83, 0x41], &mut dest, 3), Ok(3));
    let refused = RefusedPlane {
        refusal: Refusal::PlaneTooMuch,
        place: 2,
    };
    assert_eq!(psp::unpack(&[0x81, 7, 0], &mut dest, 1), Err(refused));
    assert_eq!(psp::read_plane(&grey(), 517, 4, 4, 0, &mut dest), Ok(4));
    assert_eq!(dest, [9, 0, 0, 0]);
    let outside = psp::read_plane(&grey(), 518, 4, 4, 0, &mut dest);
    let reason = outside.map_err(|refused| refused.refusal);
    assert_eq!(reason, Err(Refusal::PlaneOutside));
    assert_eq!(psp::pack(&[0x41, 0x41], &mut dest), Ok(3));
    assert_eq!(psp::pack(&[1, 2], &mut []), Err(Refusal::PackNoRoom));
    let canvas = &mut [0; 1];
    assert_eq!(psp::place(1, 1, canvas, SQUARE, &[9, 0, 0, 0], 4), Ok(()));
    assert_eq!(canvas, &[9]);
    assert_eq!(psp::place(1, 1, canvas, SQUARE, &[8], 1), Ok(()));
    assert_eq!(canvas, &[8]);
    let none = psp::place(1, 1, canvas, SQUARE, &[], 1);
    assert_eq!(none, Err(Refusal::PlaneWrong));
    assert_eq!(psp::intersect(SQUARE, SQUARE), SQUARE);
}

#[test]
fn a_saved_table_is_its_length_or_its_refusal() {
    let mut table = [0; 4 * ENTRY_NUMBERS];
    assert_eq!(psp::list(&grey(), &mut table), Ok(4));
    let mut file = [0; SAVED_HEAD + 4 * SAVED_ENTRY];
    assert_eq!(psp::write_table(&table, &mut file), Ok(file.len()));
    let mut again = [0; 4 * ENTRY_NUMBERS];
    assert_eq!(psp::read_table(&file, &mut again), Ok(4));
    assert_eq!(again, table);
    let no_room = Err(Refusal::SavedNoRoom);
    assert_eq!(psp::write_table(&table, &mut file[1..]), no_room);
    assert_eq!(psp::read_table(&file, &mut again[1..]), no_room);
    let refused = |at: usize, byte| {
        let mut wrong = file;
        wrong[at] = byte;
        psp::read_table(&wrong, &mut [0; 4 * ENTRY_NUMBERS])
    };
    assert_eq!(refused(3, 0), Err(Refusal::SavedLength));
    assert_eq!(refused(4, 2), Err(Refusal::SavedSides));
    assert_eq!(refused(4, 3), Err(Refusal::SavedVersion));
    assert_eq!(refused(8, 3), Err(Refusal::SavedCount));
}

#[test]
fn a_view_is_what_it_shows_or_its_refusal() {
    let file = grey();
    let room = usize::MAX;
    let ramp = [5; 1024];
    assert_eq!(psp::palette(&file, room, &ramp), Ok(&ramp[..]));
    assert_eq!(psp::palette(&file, room, &[]), Err(Refusal::NoRamp));
    assert_eq!(psp::name(&file, room, 0), Ok(&b"a"[..]));
    assert_eq!(psp::name(&file, room, 1), Err(Refusal::NoLayer));
    assert_eq!(psp::name(&file[..9], room, 0), Err(Refusal::EndsTooSoon));
    let depth = psp::image_facts(&file, room).map(|image| image.depth);
    assert_eq!(depth, Ok(8));
    let refused = psp::image_facts(&file, 0).map(|image| image.depth);
    assert_eq!(refused, Err(Refusal::TableFull));
    let saved = psp::layer_facts(&file, room, 0).map(|layer| layer.image.saved);
    assert_eq!(saved, Ok(SQUARE));
    let refused = psp::layer_facts(&file, room, 1).map(|layer| layer.channels);
    assert_eq!(refused, Err(Refusal::NoLayer));
    let masks = grey_with_masks();
    let saved = psp::selection_facts(&masks, room).map(|selection| selection.area.saved);
    assert_eq!(saved, Ok(SQUARE));
    let refused = psp::selection_facts(&file, room).map(|selection| selection.channels);
    assert_eq!(refused, Err(Refusal::NoSelection));
    let saved = psp::alpha_facts(&masks, room, 1).map(|alpha| alpha.area.saved);
    assert_eq!(saved, Ok(SQUARE));
    let refused = psp::alpha_facts(&masks, room, 2).map(|alpha| alpha.channels);
    assert_eq!(refused, Err(Refusal::NoAlpha));
    assert_eq!(psp::alpha_name(&masks, room, 1), Ok(&b"Varnish"[..]));
    assert_eq!(psp::alpha_name(&file, room, 0), Err(Refusal::NoAlpha));
    assert_eq!(psp::dots_per_centimetre(300.0, 2), Some(300.0));
    assert_eq!(psp::dots_per_centimetre(300.0, 0), None);
}
