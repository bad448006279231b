//! Saved tables: how a file is known for one, and its refusals in words.

use crate::failure::Failure;
use crate::name;
use crate::psp::ffi::{INPUT_LIMIT, SAVED_ENTRY, SAVED_HEAD, SAVED_SIDE};
use crate::psp::ffi::{SAVED_COUNT, SAVED_LENGTH, SAVED_NO_ROOM, SAVED_SIDES, SAVED_VERSION};
use crate::words::grouped;
use std::ffi::OsStr;

/// The versions that are read: without a side over 4,096, and with one.
const VERSIONS: [u8; 2] = [1, 2];

/// What artwork begins with. As a length it is 1,348,561,262, which is not that of whole entries, so
/// no saved table begins with it.
const ARTWORK: [u8; 4] = *b"Pain";

/// A length below this begins with a byte that is no letter, and hardly another kind of file does so.
const SHORT: u64 = 1 << 28;

/// Whether a file is taken for a saved table: its first four bytes say how many follow them. Or it
/// begins as one does, so that one that is cut off or damaged is told as such. Artwork never is,
/// however much of it there is: shorter than its first four bytes it says no length, and from there
/// on it is told apart by them.
pub fn is(file: &[u8]) -> bool {
    let is_whole = file.len() >= SAVED_HEAD && says(file) == Some(file.len() as u64);
    !file.starts_with(&ARTWORK) && (is_whole || begins(file))
}

/// Whether a file begins as a saved table does: with a version that is read, and with a length that
/// is its count's. A short length need not be, since a byte of it may be damaged, or the count cut
/// off; a long one must, since the fifth byte of a picture of another kind may be 1 or 2 as well.
fn begins(file: &[u8]) -> bool {
    let is_read = file
        .get(4)
        .map_or(false, |version| VERSIONS.contains(version));
    let is_short = says(file).map_or(false, |length| length < SHORT);
    is_read && (is_short || says(file) == counts(file))
}

/// How many more bytes to read of a file of which those of the longest artwork, and one, were read:
/// a saved table may be longer. It is known by its size where that is known, or by its beginning,
/// and artwork by its own. One byte over its own length is enough to be refused.
pub fn rest(file: &[u8], size: Option<u64>) -> u64 {
    let is_it = !file.starts_with(&ARTWORK) && (says(file) == size || begins(file));
    match says(file) {
        Some(length) if file.len() > INPUT_LIMIT && is_it => {
            (length + 1).saturating_sub(file.len() as u64)
        }
        _ => 0,
    }
}

/// How long the file is by its count.
fn counts(file: &[u8]) -> Option<u64> {
    let count = u64::from(number(file, 5)?);
    Some(SAVED_HEAD as u64 + count * SAVED_ENTRY as u64)
}

/// How long the file is by its own word.
fn says(file: &[u8]) -> Option<u64> {
    Some(4 + u64::from(number(file, 0)?))
}

/// The big-endian number at a place.
fn number(file: &[u8], place: usize) -> Option<u32> {
    let bytes = file.get(place..)?.get(..4)?;
    Some(u32::from_be_bytes(bytes.try_into().ok()?))
}

/// A command that needs more than a saved table holds.
pub fn needs_artwork(file: &OsStr, command: &str) -> Failure {
    Failure::Absent(format!(
        "{} is a saved table: {} needs the artwork",
        name::file(file),
        command
    ))
}

/// The refusal of a saved table, which has no place: what was found, and what to do next.
pub fn refusal(refused: u32, file: &[u8]) -> String {
    let again = "fetch it again, or save it again from the artwork";
    let (found, next) = match refused {
        SAVED_LENGTH => (wrong_length(file), again),
        SAVED_VERSION => (
            wrong_version(file),
            "save it again from the artwork, or take a newer psp",
        ),
        SAVED_COUNT => (wrong_count(file), again),
        SAVED_NO_ROOM => ("no room for its entries".to_string(), "give it more"),
        SAVED_SIDES => (wrong_sides(file), again),
        _ => (
            "for a reason that has no number".to_string(),
            "this is a fault of psp",
        ),
    };
    let taken = "taken for a saved table";
    format!("refused: {}, {}: {}; {}", refused, taken, found, next)
}

fn wrong_length(file: &[u8]) -> String {
    let (length, there) = (says(file).unwrap_or_default(), file.len());
    if there < SAVED_HEAD {
        let least = SAVED_HEAD;
        return format!("it has at least {} bytes, and {} are there", least, there);
    }
    // Of one that is longer, no more than a byte over its length may have been read.
    let there = match (there as u64) < length {
        true => there.to_string(),
        false => "more".to_string(),
    };
    format!(
        "by its length it has {} bytes, and {} are there",
        length, there
    )
}

fn wrong_version(file: &[u8]) -> String {
    let version = file.get(4).copied().unwrap_or_default();
    let [first, second] = VERSIONS;
    format!(
        "its version is {}, and {} and {} are read",
        version, first, second
    )
}

fn wrong_count(file: &[u8]) -> String {
    format!(
        "it counts {} entries, which take {} bytes, and it has {}",
        number(file, 5).unwrap_or_default(),
        counts(file).unwrap_or_default(),
        file.len()
    )
}

/// Which of the two disagreements it is.
fn wrong_sides(file: &[u8]) -> String {
    let version = file.get(4).copied().unwrap_or_default();
    let most = grouped(SAVED_SIDE);
    match large_side(file) {
        Some((entry, side, length)) => format!(
            "by its version, {}, no side is over {}, and entry {} has a {} of {}",
            version,
            most,
            entry,
            side,
            grouped(length)
        ),
        None => format!(
            "by its version, {}, some side is over {}, and none is",
            version, most
        ),
    }
}

/// The first side that makes a version 2: of which entry it is, its name and its length.
fn large_side(file: &[u8]) -> Option<(usize, &'static str, u32)> {
    // Width and height are the eleventh and the twelfth number.
    let sides = [("width", 40), ("height", 44)];
    let entries = file.get(SAVED_HEAD..)?.chunks_exact(SAVED_ENTRY);
    let sides = entries.enumerate().flat_map(|(index, entry)| {
        sides.map(|(side, place)| (index, side, number(entry, place).unwrap_or_default()))
    });
    let mut large = sides.filter(|&(_, _, length)| length > SAVED_SIDE);
    large.next()
}

#[cfg(test)]
mod tests {
    use super::*;

    /// A file that says a length of what follows, a version and a count, and so many zeros.
    fn file(length: u32, version: u8, count: u32, zeros: usize) -> Vec<u8> {
        let [length, count] = [length, count].map(u32::to_be_bytes);
        let head = [&length[..], &[version], &count].concat();
        let mut file = vec![0; SAVED_HEAD + zeros];
        file[..SAVED_HEAD].copy_from_slice(&head);
        file
    }

    #[test]
    fn a_saved_table_is_known_by_its_length() {
        assert!(is(&file(5, 1, 0, 0)));
        assert!(is(&file(61, 1, 1, SAVED_ENTRY)));
        assert!(is(&file(61, 2, 1, SAVED_ENTRY)));
        // Of another version, or with another count, it is one and is refused.
        assert!(is(&file(61, 3, 1, SAVED_ENTRY)));
        assert!(is(&file(61, 1, 7, SAVED_ENTRY)));
        let large = 1 << 30;
        assert!(is(&file(large + 5, 3, 0, large as usize)));
    }

    #[test]
    fn a_damaged_one_is_known_by_its_beginning() {
        for version in VERSIONS {
            let whole = file(61, version, 1, SAVED_ENTRY);
            for length in 5..whole.len() {
                assert!(is(&whole[..length]), "{}", length);
            }
            assert!(is(&[&whole[..], b"x"].concat()));
            assert!(is(&file(0x00FF_FFFF, version, 0, 0)));
            assert!(is(&file(SHORT as u32 - 5, version, 0, 0)));
            // A long one by its count too, up to the longest that four bytes can say.
            assert!(!is(&file(SHORT as u32 - 4, version, 0, 0)));
            for count in [19_173_962, MOST] {
                let length = 5 + 56 * count;
                assert!(is(&file(length, version, count, 0)));
                assert!(!is(&file(length, version, count - 1, 0)));
                assert!(!is(&file(length + 1, version, count, 0)));
            }
        }
        for version in [0, 3, 255] {
            assert!(!is(&file(62, version, 1, SAVED_ENTRY)));
            assert!(!is(&file(5 + 56 * MOST, version, MOST, 0)));
        }
    }

    #[test]
    fn no_other_file_is_taken_for_one() {
        let whole = file(61, 1, 1, SAVED_ENTRY);
        for length in 0..5 {
            assert!(!is(&whole[..length]), "{}", length);
        }
        // Files of other kinds whose fifth byte is 1 or 2.
        for beginning in [&b"BM\x36\0\x01\0\0\0\0\0"[..], b"\x7FELF\x02\x01\x01\0\0\0"] {
            assert!(!is(beginning));
        }
        // Zeros, which a file may have before its content.
        for length in 0..600 {
            assert!(!is(&vec![0; length]), "{}", length);
        }
        assert!(!is(b"order,name,left,top,width,height\n"));
        assert!(!is(b"\xEF\xBB\xBForder,name"));
    }

    #[test]
    fn artwork_is_not_taken_for_one_however_much_of_it_is_there() {
        let length = u32::from_be_bytes(ARTWORK);
        assert_ne!((length as usize - 5) % SAVED_ENTRY, 0);
        let artwork = *b"Paint Shop Pro Image File\n\x1a\0\0\0\0\0\x03\0\0\0";
        assert!(artwork.starts_with(&ARTWORK));
        for cut in 0..artwork.len() {
            assert!(!is(&artwork[..cut]), "{}", cut);
        }
        // As long as the longest, one byte longer, and as long as its first four bytes say; with a
        // fifth byte that is damaged, too.
        for long in [INPUT_LIMIT, INPUT_LIMIT + 1, length as usize + 4] {
            let mut file = vec![0; long];
            file[..artwork.len()].copy_from_slice(&artwork);
            for fifth in [b't', 1, 2] {
                file[4] = fifth;
                assert!(!is(&file));
                for size in [None, Some(long as u64), Some(u64::from(length) + 4)] {
                    assert_eq!(rest(&file, size), 0);
                }
            }
        }
    }

    /// Entries of the longest saved table, whose length four bytes can just say.
    const MOST: u32 = 76_695_844;

    #[test]
    fn no_more_is_read_than_it_says_and_one_byte() {
        // The first bytes of a file that has a count, as many of them as are read of artwork.
        let read = |count: u32, version, size: Option<u64>| {
            let zeros = INPUT_LIMIT + 1 - SAVED_HEAD;
            rest(&file(5 + 56 * count, version, count, zeros), size)
        };
        let longer = 19_173_962;
        let length = 9 + 56 * u64::from(longer);
        let most = 9 + 56 * u64::from(MOST);
        for version in VERSIONS {
            assert_eq!(read(longer - 1, version, None), 1);
            assert_eq!(read(longer - 2, version, None), 0);
            assert_eq!(read(longer, version, None), length - INPUT_LIMIT as u64);
            assert_eq!(read(MOST, version, Some(7)), most - INPUT_LIMIT as u64);
        }
        // Another version is known by the size of the file alone, and so is another count.
        assert_eq!(read(MOST, 3, None), 0);
        assert_eq!(read(MOST, 3, Some(most - 1)), 0);
        assert_eq!(read(MOST, 3, Some(most)), most - INPUT_LIMIT as u64);
        let other = file(5 + 56 * longer, 1, longer + 1, INPUT_LIMIT);
        assert_eq!(rest(&other, None), 0);
        assert!(rest(&other, Some(length)) > 0);
        // A file that has ended.
        assert_eq!(rest(&file(5 + 56 * longer, 1, longer, 0), None), 0);
        assert_eq!(rest(&[], None), 0);
    }

    #[test]
    fn a_refusal_tells_what_was_found() {
        let told = |number, file: &[u8]| {
            let sentence = refusal(number, file);
            let start = format!("refused: {}, taken for a saved table: ", number);
            let said = sentence.strip_prefix(start.as_str());
            said.and_then(|said| said.split(';').next())
                .unwrap_or_default()
                .to_string()
        };
        let whole = file(61, 1, 3, SAVED_ENTRY);
        assert_eq!(
            told(70, &whole[..8]),
            "it has at least 9 bytes, and 8 are there"
        );
        assert_eq!(
            told(70, &whole[..64]),
            "by its length it has 65 bytes, and 64 are there"
        );
        assert_eq!(
            told(70, &[&whole[..], b"xx"].concat()),
            "by its length it has 65 bytes, and more are there"
        );
        let other = file(61, 3, 1, SAVED_ENTRY);
        assert_eq!(told(71, &other), "its version is 3, and 1 and 2 are read");
        assert_eq!(
            told(72, &whole),
            "it counts 3 entries, which take 177 bytes, and it has 65"
        );
        let most = file(5, 1, u32::MAX, 0);
        assert_eq!(
            told(72, &most),
            "it counts 4294967295 entries, which take 240518168529 bytes, and it has 9"
        );
    }

    #[test]
    fn sides_and_version_that_do_not_agree_are_told() {
        let sides = |version, sides: &[(usize, u32)]| {
            let mut file = file(173, version, 3, 3 * SAVED_ENTRY);
            for &(number, length) in sides {
                let place = SAVED_HEAD + 4 * number;
                file[place..place + 4].copy_from_slice(&length.to_be_bytes());
            }
            wrong_sides(&file)
        };
        let none = "by its version, 2, some side is over 4,096, and none is";
        assert_eq!(sides(2, &[]), none);
        assert_eq!(sides(2, &[(10, 4_096), (14 + 11, 4_096)]), none);
        // Only width and height are sides.
        assert_eq!(sides(2, &[(9, 4_097), (12, 4_097), (14 + 9, 4_097)]), none);
        let entry = "by its version, 1, no side is over 4,096, and entry";
        let first = [(14 + 11, 4_097), (28 + 10, 30_000)];
        assert_eq!(
            sides(1, &first),
            format!("{} 1 has a height of 4,097", entry)
        );
        let both = [(38, u32::MAX), (39, 30_000)];
        let words = format!("{} 2 has a width of 4,294,967,295", entry);
        assert_eq!(sides(1, &both), words);
        let help = format!("is over {}, ", grouped(SAVED_SIDE));
        assert!(include_str!("save.rs").contains(&help), "{}", help);
    }

    #[test]
    fn every_number_has_its_own_sentence() {
        let file = file(61, 1, 1, SAVED_ENTRY);
        let words = |number: u32| {
            let sentence = refusal(number, &file);
            let said = sentence.strip_prefix(&format!("refused: {}, ", number));
            said.unwrap_or_default().to_string()
        };
        let mut all: Vec<String> = [70, 71, 72, 73, 74, 99].map(words).to_vec();
        assert!(all.iter().all(|words| words.len() > 20));
        all.sort();
        all.dedup();
        assert_eq!(all.len(), 6);
    }

    #[test]
    fn what_needs_the_artwork_is_absent() {
        let failure = needs_artwork(OsStr::new("job.table"), "facts");
        let sentence = "\"job.table\" is a saved table: facts needs the artwork";
        assert_eq!(failure.sentence().as_deref(), Some(sentence));
        assert_eq!(failure.status(), 1);
    }
}
