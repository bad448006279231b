//! Creator blocks: document 000's fields in keyword order, as genuine files
//! have them, each with what ExifTool has to print of it.

use crate::random::Random;

pub struct Field {
    keyword: u16,
    value: Vec<u8>,
    /// ExifTool's name of the field and its value; nothing for a repeated
    /// keyword, of which the first field holds.
    pub line: String,
}

impl Field {
    fn text(keyword: u16, name: &str, text: &str) -> Field {
        Field {
            keyword,
            value: text.as_bytes().to_vec(),
            line: format!("{}: {}\n", name, text),
        }
    }

    fn number(keyword: u16, name: &str, number: u32, shown: &str) -> Field {
        Field {
            keyword,
            value: number.to_le_bytes().to_vec(),
            line: format!("{}: {}\n", name, shown),
        }
    }
}

/// Seconds since 1970, and the moment as ExifTool writes it.
const MOMENTS: [(u32, &str); 4] = [
    (0, "0000:00:00 00:00:00"),
    (912_470_400, "1998:12:01 00:00:00+00:00"),
    (951_827_696, "2000:02:29 12:34:56+00:00"),
    (2_147_483_647, "2038:01:19 03:14:07+00:00"),
];

/// Texts with no closing zero, as genuine files have them. Limit of GIMP: none
/// is empty.
const TEXTS: [&str; 5] = [
    "x",
    "Tiles, second set",
    "A. B. Painter & Sons <tiles@example.com>",
    "\"quoted\": 100 % of it; it's all here",
    "A longer text that says what the picture shows, for whom it was made, and from which older tiles it was drawn again",
];

/// Some of the fields, or all, or none; all with a second title, too.
pub fn fields(random: &mut Random) -> Vec<Field> {
    let mut fields = all(random);
    match random.below(4) {
        0 => fields.clear(),
        1 => fields.retain(|_| random.one_in(2)),
        2 => fields.insert(1, second_title()),
        _ => {}
    }
    fields
}

fn all(random: &mut Random) -> Vec<Field> {
    let (created, created_shown) = random.pick(&MOMENTS);
    let (modified, modified_shown) = random.pick(&MOMENTS);
    let application = random.below(2) as u32;
    let version: [u8; 4] = [5, 0, 1, 4].map(|least| least + random.below(3) as u8);
    vec![
        Field::text(0, "Title", random.pick(&TEXTS)),
        Field::number(1, "CreateDate", created, created_shown),
        Field::number(2, "ModifyDate", modified, modified_shown),
        Field::text(3, "Artist", random.pick(&TEXTS)),
        Field::text(4, "Copyright", random.pick(&TEXTS)),
        Field::text(5, "Description", random.pick(&TEXTS)),
        Field::number(6, "CreatorAppID", application, &application.to_string()),
        Field::number(
            7,
            "CreatorAppVersion",
            u32::from_be_bytes(version),
            &version.map(|part| part.to_string()).join(" "),
        ),
    ]
}

fn second_title() -> Field {
    Field {
        line: String::new(),
        ..Field::text(0, "Title", "Not the title")
    }
}

/// The data of a creator block: for each field its mark, keyword, length and
/// value.
pub fn block(fields: &[Field]) -> Vec<u8> {
    let mut data = Vec::new();
    for field in fields {
        data.extend_from_slice(b"~FL\0");
        data.extend_from_slice(&field.keyword.to_le_bytes());
        data.extend_from_slice(&(field.value.len() as u32).to_le_bytes());
        data.extend_from_slice(&field.value);
    }
    data
}
