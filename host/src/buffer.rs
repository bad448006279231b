//! The bytes of a file in one buffer. They are read into its end and stay where they are: this is
//! the one copy that a command makes of a file.

use crate::words;
use std::io::{self, Read};

/// So many bytes are read at once, and what is done so far is told behind them.
pub const BLOCK: usize = 1 << 20;

/// Makes room for so many bytes more, and for no more than these.
pub fn reserve(bytes: &mut Vec<u8>, more: u64) -> io::Result<()> {
    let more = usize::try_from(more).unwrap_or(usize::MAX);
    let asked = bytes.len().saturating_add(more);
    let reserved = bytes.try_reserve_exact(more);
    reserved.map_err(|_| io::Error::new(io::ErrorKind::OutOfMemory, words::no_memory(asked)))
}

/// Reads on into the end of a buffer, until it has so many bytes or the input ends. Room that was
/// reserved is filled first; an input whose length nobody knows gets twice the room each time, but
/// no more than it may fill.
pub fn read_on(
    mut from: impl Read,
    bytes: &mut Vec<u8>,
    limit: u64,
    tell: impl Fn(u64),
) -> io::Result<()> {
    loop {
        let left = limit.saturating_sub(bytes.len() as u64);
        if bytes.len() == bytes.capacity() {
            let twice = bytes.len().max(BLOCK) as u64;
            reserve(bytes, twice.min(left))?;
        }
        // Never more than there is room for, so that reading takes no memory of its own.
        let room = bytes.capacity() - bytes.len();
        let block = left.min(room.min(BLOCK) as u64);
        if from.by_ref().take(block).read_to_end(bytes)? == 0 {
            return Ok(());
        }
        tell(bytes.len() as u64);
    }
}

#[cfg(test)]
mod tests {
    use super::*;
    use std::cell::RefCell;

    /// An input that gives at most so many bytes at a time.
    struct Slow<'a>(&'a [u8], usize);

    impl Read for Slow<'_> {
        fn read(&mut self, into: &mut [u8]) -> io::Result<usize> {
            let most = into.len().min(self.1);
            self.0.read(&mut into[..most])
        }
    }

    fn read(input: &[u8], at_a_time: usize, reserved: u64, limit: u64) -> Vec<u8> {
        let mut bytes = Vec::new();
        reserve(&mut bytes, reserved).expect("memory");
        read_on(Slow(input, at_a_time), &mut bytes, limit, |_| ()).expect("read");
        bytes
    }

    #[test]
    fn all_is_read_up_to_a_limit() {
        let input: Vec<u8> = (0..3000).map(|at| at as u8).collect();
        for at_a_time in [1, 7, 4096] {
            for reserved in [0, 1, 2999, 3000, 3001, 9000] {
                assert_eq!(read(&input, at_a_time, reserved, 9000), input);
                assert_eq!(read(&input, at_a_time, reserved, 3000), input);
                assert_eq!(read(&input, at_a_time, reserved, 2999), input[..2999]);
                assert_eq!(read(&input, at_a_time, reserved, 0), []);
            }
        }
    }

    #[test]
    fn room_for_an_input_and_a_byte_stays_as_it_is() {
        let input = vec![7; 3 * BLOCK + 5];
        let mut bytes = Vec::new();
        reserve(&mut bytes, input.len() as u64 + 1).expect("memory");
        let (room, start) = (bytes.capacity(), bytes.as_ptr());
        let told = RefCell::new(Vec::new());
        let tell = |done| told.borrow_mut().push(done);
        read_on(&input[..], &mut bytes, u64::MAX, tell).expect("read");
        assert_eq!((bytes.capacity(), bytes.as_ptr()), (room, start));
        assert_eq!(bytes, input);
        let block = BLOCK as u64;
        let expected = [block, 2 * block, 3 * block, 3 * block + 5];
        assert_eq!(told.into_inner(), expected);
    }

    #[test]
    fn an_unknown_length_takes_no_more_room_than_the_limit() {
        let input = vec![7; 2 * BLOCK + 9];
        for limit in [1, BLOCK, 2 * BLOCK + 8, 2 * BLOCK + 9, 3 * BLOCK] {
            let mut bytes = Vec::new();
            read_on(&input[..], &mut bytes, limit as u64, |_| ()).expect("read");
            assert_eq!(bytes.len(), limit.min(input.len()));
            assert!(bytes.capacity() <= limit);
        }
    }

    #[test]
    fn what_is_there_stays_in_front() {
        let mut bytes = b"ab".to_vec();
        read_on(&b"cdef"[..], &mut bytes, 5, |_| ()).expect("read");
        assert_eq!(bytes, b"abcde");
    }

    #[test]
    fn memory_that_is_missing_is_a_sentence() {
        let mut bytes = vec![1, 2];
        for more in [u64::MAX, 1 << 62] {
            let error = reserve(&mut bytes, more).expect_err("no memory");
            assert!(error.to_string().starts_with("no memory for "), "{}", error);
        }
        let error = reserve(&mut bytes, 1 << 62).expect_err("no memory");
        let sentence = "no memory for 4,611,686,018,427,387,906 bytes";
        assert_eq!(error.to_string(), sentence);
    }
}
