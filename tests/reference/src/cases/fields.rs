//! The fields of headers and chunks with their boundary values: below, at and
//! above each limit, and the numbers that wrap.

/// A little-endian field and the values to try in it.
#[derive(Clone, Copy)]
pub struct Field {
    pub offset: usize,
    pub size: usize,
    pub values: &'static [u64],
}

impl Field {
    pub fn set(&self, bytes: &mut [u8], value: u64) {
        set(bytes, self.offset, self.size, value);
    }
}

/// Overwrites a field in bytes that begin with its header or chunk. Bytes that
/// are not there stay away.
pub fn set(bytes: &mut [u8], offset: usize, size: usize, value: u64) {
    let value = value.to_le_bytes();
    let field = bytes.iter_mut().skip(offset).take(size);
    for (to, from) in field.zip(value) {
        *to = from;
    }
}

const fn field(offset: usize, size: usize, values: &'static [u64]) -> Field {
    Field {
        offset,
        size,
        values,
    }
}

const ANY: &[u64] = &[
    0,
    1,
    0x7F,
    0x80,
    0xFF,
    0x7FFF_FFFF,
    0x8000_0000,
    0xFFFF_FFFF,
];
const FLAG: &[u64] = &[0, 1, 2, 0x80, 0xFF];
const SIDES: &[u64] = &[
    0,
    1,
    2,
    4_096,
    4_097,
    29_999,
    30_000,
    30_001,
    65_537,
    0x7FFF_FFFF,
    0x8000_0000,
    0x8000_0001,
    0xFFFF_FFFF,
];
const COORDINATES: &[u64] = &[
    0,
    1,
    2,
    30_000,
    30_001,
    32_766,
    32_767,
    32_768,
    0x7FFF_FFFF,
    0x8000_0000,
    0xFFFF_7FFF,
    0xFFFF_8000,
    0xFFFF_8001,
    0xFFFF_FFFF,
];

/// Doubles around everything the resolution rule names.
pub const RESOLUTIONS: &[u64] = &[
    0,       // 0
    1 << 63, // -0
    1,       // the least subnormal
    2,
    (1 << 63) | 1,         // its negative
    0x000F_FFFF_FFFF_FFFF, // the greatest subnormal
    0x0010_0000_0000_0000, // the least normal
    0x0020_0000_0000_0000,
    0x3FF0_0000_0000_0000, // 1
    0xBFF0_0000_0000_0000, // -1
    0x4004_51EB_851E_B852, // 2.54
    0x4004_51EB_851E_B851,
    0x4004_51EB_851E_B853,
    0x4052_0000_0000_0000, // 72
    0x4072_C000_0000_0000, // 300
    0x7FEF_FFFF_FFFF_FFFF, // the greatest
    0xFFEF_FFFF_FFFF_FFFF,
    0x7FF0_0000_0000_0000, // infinities
    0xFFF0_0000_0000_0000,
    0x7FF0_0000_0000_0001, // NaNs with payloads, signalling and quiet
    0x7FF4_0000_0000_0000,
    0x7FF8_0000_0000_0000,
    0x7FF8_0000_DEAD_BEEF,
    0xFFF0_0000_0000_0001,
    0xFFFF_FFFF_FFFF_FFFF,
];

pub const IMAGE: &[Field] = &[
    field(0, 4, SIDES),
    field(4, 4, SIDES),
    field(8, 8, RESOLUTIONS),
    field(16, 1, &[0, 1, 2, 3, 4, 127, 128, 255]),
    field(17, 2, &[0, 1, 2, 3, 4, 255, 256, 257, 258, 65_535]),
    field(
        19,
        2,
        &[
            0, 1, 2, 3, 4, 5, 7, 8, 9, 16, 23, 24, 25, 31, 32, 33, 64, 264, 65_535,
        ],
    ),
    field(21, 2, &[0, 1, 2, 256, 257, 65_535]),
    field(
        23,
        4,
        &[
            0,
            1,
            2,
            3,
            15,
            16,
            17,
            255,
            256,
            257,
            16_777_215,
            16_777_216,
            16_777_217,
            0x8000_0000,
            0xFFFF_FFFF,
        ],
    ),
    field(27, 1, FLAG),
    field(28, 4, ANY),
    field(32, 4, ANY),
    field(36, 2, &[0, 1, 2, 3, 4, 63, 64, 65, 256, 257, 65_535]),
];

pub const PALETTE: &[Field] = &[field(
    0,
    4,
    &[
        0,
        1,
        2,
        3,
        4,
        5,
        15,
        16,
        17,
        255,
        256,
        257,
        65_536,
        16_777_216,
        0x3FFF_FFFF,
        0x4000_0000,
        0x4000_0001,
        0x8000_0001,
        0xFFFF_FFFF,
    ],
)];

pub const LAYER: &[Field] = &[
    field(0, 1, &[0, 1, 255]),
    field(1, 1, &[0, 1, 255]),
    field(254, 1, &[0, 1, 255]),
    field(255, 1, &[0, 1, 255]),
    field(256, 1, &[0, 1, 2, 3, 128, 255]),
    field(257, 4, COORDINATES),
    field(261, 4, COORDINATES),
    field(265, 4, COORDINATES),
    field(269, 4, COORDINATES),
    field(273, 4, COORDINATES),
    field(277, 4, COORDINATES),
    field(281, 4, COORDINATES),
    field(285, 4, COORDINATES),
    field(289, 1, FLAG),
    field(290, 1, FLAG),
    field(291, 1, FLAG),
    field(292, 1, FLAG),
    field(293, 1, FLAG),
    field(294, 4, COORDINATES),
    field(298, 4, COORDINATES),
    field(302, 4, COORDINATES),
    field(306, 4, COORDINATES),
    field(310, 4, COORDINATES),
    field(314, 4, COORDINATES),
    field(318, 4, COORDINATES),
    field(322, 4, COORDINATES),
    field(326, 1, FLAG),
    field(327, 1, FLAG),
    field(328, 1, FLAG),
    field(329, 2, &[0, 1, 4, 5, 6, 255, 256, 261, 65_535]),
    field(331, 4, ANY),
    field(367, 4, ANY),
    field(371, 2, &[0, 1, 2, 3, 4, 5, 256, 257, 258, 65_535]),
    field(373, 2, &[0, 1, 2, 3, 4, 5, 6, 7, 257, 259, 65_535]),
];

pub const CHANNEL: &[Field] = &[
    field(
        0,
        4,
        &[
            0,
            1,
            3,
            4,
            5,
            11,
            12,
            13,
            0x8000_0000,
            0xFFFF_FFF3,
            0xFFFF_FFF4,
            0xFFFF_FFFF,
        ],
    ),
    field(
        4,
        4,
        &[
            0,
            1,
            3,
            4,
            5,
            8,
            12,
            16,
            16_777_216,
            899_999_999,
            900_000_000,
            900_000_001,
            0x7FFF_FFFF,
            0x8000_0000,
            0xFFFF_FFFF,
        ],
    ),
    field(8, 2, &[0, 1, 2, 3, 4, 5, 6, 7, 255, 256, 257, 258, 65_535]),
    field(10, 2, &[0, 1, 2, 3, 4, 5, 255, 256, 257, 259, 65_535]),
];

/// Counts that have to be 1.
const ONE: &[u64] = &[0, 1, 2, 3, 256, 257, 65_535];

/// An alpha count is not judged, but held to what is there.
const ALPHA_BANK: &[Field] = &[field(0, 2, &[0, 1, 2, 3, 4, 5, 256, 259, 32_768, 65_535])];

const SELECTION: &[Field] = &[
    field(0, 4, COORDINATES),
    field(4, 4, COORDINATES),
    field(8, 4, COORDINATES),
    field(12, 4, COORDINATES),
    field(16, 4, COORDINATES),
    field(20, 4, COORDINATES),
    field(24, 4, COORDINATES),
    field(28, 4, COORDINATES),
    field(32, 2, ONE),
    field(34, 2, ONE),
];

const ALPHA_NAME: &[Field] = &[
    field(0, 1, &[0, 1, 255]),
    field(1, 1, &[0, 1, 255]),
    field(255, 1, &[0, 1, 255]),
];

/// A name, then the fields of a selection.
fn alpha() -> Vec<Field> {
    let behind = |field: &Field| Field {
        offset: 256 + field.offset,
        ..*field
    };
    let mut fields = ALPHA_NAME.to_vec();
    fields.extend(SELECTION.iter().map(behind));
    fields
}

/// Ids that are worth trying anywhere.
pub const IDS: &[u16] = &[
    0, 1, 2, 3, 4, 5, 6, 7, 8, 9, 10, 11, 12, 13, 256, 259, 65_535,
];

/// The block header; totals have values of their own, near the true one too.
pub const HEADER: &[Field] = &[
    field(0, 1, &[0, 0x7D, 0x7F, 0xFE]),
    field(1, 1, &[0, 0x41, 0x62]),
    field(2, 1, &[0, 0x4C, 0x6B]),
    field(3, 1, &[1, 0x20, 0xFF]),
    field(
        4,
        2,
        &[0, 1, 2, 3, 4, 5, 6, 7, 8, 9, 10, 11, 12, 256, 65_535],
    ),
    field(6, 4, LENGTHS),
    field(10, 4, LENGTHS),
];

/// Lengths around each size that the text names, and huge ones.
pub const LENGTHS: &[u64] = &[
    0,
    1,
    2,
    3,
    4,
    5,
    11,
    12,
    13,
    14,
    15,
    16,
    35,
    36,
    37,
    38,
    39,
    256,
    291,
    292,
    293,
    374,
    375,
    376,
    388,
    389,
    390,
    0x7FFF_FFFF,
    0x8000_0000,
    0xFFFF_FFF0,
    0xFFFF_FFF1,
    0xFFFF_FFF2,
    0xFFFF_FFF3,
    0xFFFF_FFFE,
    0xFFFF_FFFF,
];

/// The fields of a block's chunk, by its id.
pub fn of_chunk(id: u16) -> Vec<Field> {
    match id {
        0 => IMAGE.to_vec(),
        2 => PALETTE.to_vec(),
        4 => LAYER.to_vec(),
        5 => CHANNEL.to_vec(),
        6 => SELECTION.to_vec(),
        7 => ALPHA_BANK.to_vec(),
        8 => alpha(),
        _ => Vec::new(),
    }
}
