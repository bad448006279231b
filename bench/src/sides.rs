//! The library and its peers, behind functions of one shape.

use crate::library::numbers as library;
use crate::packing;
use crate::reference::psp as reference;
use crate::walker;

/// Numbers of an entry in a table.
pub const ENTRY_NUMBERS: usize = reference::listing::ENTRY_NUMBERS;

/// Number, place, and entries or bytes written.
pub type Answer = (u32, usize, usize);

/// Who lists, with a table or by a count alone.
#[derive(Clone, Copy, Debug, PartialEq, Eq)]
pub enum Lister {
    Library,
    Walker,
    /// The independent implementation.
    Reference,
    LibraryCount,
    WalkerCount,
}

impl Lister {
    pub const ALL: [Lister; 5] = [
        Lister::Library,
        Lister::Walker,
        Lister::Reference,
        Lister::LibraryCount,
        Lister::WalkerCount,
    ];

    /// The word of `figures list`.
    pub fn name(self) -> &'static str {
        match self {
            Lister::Library => "library",
            Lister::Walker => "walker",
            Lister::Reference => "reference",
            Lister::LibraryCount => "library-count",
            Lister::WalkerCount => "walker-count",
        }
    }

    pub fn is_count(self) -> bool {
        matches!(self, Lister::LibraryCount | Lister::WalkerCount)
    }

    /// A count takes the table's room alone.
    pub fn list(self, input: &[u8], table: &mut [u32]) -> Answer {
        let answer = |listed: library::Listed| (listed.number, listed.place, listed.count);
        let room = table.len() / ENTRY_NUMBERS;
        match self {
            Lister::Library => answer(library::list(input, table)),
            Lister::Walker => walker::list(input, table),
            Lister::Reference => {
                let (number, place, count) = reference::listing::list_into(input, table);
                (number, place as usize, count as usize)
            }
            Lister::LibraryCount => answer(library::count(input, room)),
            Lister::WalkerCount => walker::count(input, room),
        }
    }
}

#[derive(Clone, Copy, Debug)]
pub enum Side {
    Library,
    Peer,
}

pub const SIDES: [Side; 2] = [Side::Library, Side::Peer];

impl Side {
    /// The peer is the packer that carries its count. The packed length stands for the place too.
    pub fn pack(self, plane: &[u8], dest: &mut [u8]) -> Answer {
        match self {
            Side::Library => {
                let packed = library::pack(plane, dest);
                (packed.number, packed.length, packed.length)
            }
            Side::Peer => {
                let (number, length) = packing::pack(plane, dest);
                (number, length, length)
            }
        }
    }
}
