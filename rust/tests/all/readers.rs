//! A reader that implements gimli's trait as a user's does, and so is neither of gimli's.

use super::gimli::{self, EndianSlice, Format, LittleEndian, Reader, ReaderOffsetId, Result};
use std::borrow::Cow;
use std::cell::Cell;

thread_local! {
    /// How often this thread has cloned a reader.
    static CLONES: Cell<u32> = const { Cell::new(0) };
}

/// How many clones a call makes, and what it gives.
pub fn clones_of<T>(call: impl FnOnce() -> T) -> (u32, T) {
    CLONES.set(0);
    let result = call();
    (CLONES.get(), result)
}

/// A reader that counts its clones, and that adds to each address and offset its distance from the end. Splitting off a
/// part of it doesn't count.
#[derive(Debug, PartialEq)]
pub struct Own<'a>(pub EndianSlice<'a, LittleEndian>);

impl Clone for Own<'_> {
    fn clone(&self) -> Self {
        CLONES.set(CLONES.get() + 1);
        Own(self.0)
    }
}

pub fn own(bytes: &[u8]) -> Own<'_> {
    Own(EndianSlice::new(bytes, LittleEndian))
}

impl Reader for Own<'_> {
    type Endian = LittleEndian;
    type Offset = usize;

    fn endian(&self) -> LittleEndian {
        LittleEndian
    }

    fn len(&self) -> usize {
        self.0.len()
    }

    fn empty(&mut self) {
        self.0.empty();
    }

    fn truncate(&mut self, len: usize) -> Result<()> {
        self.0.truncate(len)
    }

    fn offset_from(&self, base: &Self) -> usize {
        self.0.offset_from(base.0)
    }

    fn offset_id(&self) -> ReaderOffsetId {
        self.0.offset_id()
    }

    fn lookup_offset_id(&self, id: ReaderOffsetId) -> Option<usize> {
        self.0.lookup_offset_id(id)
    }

    fn find(&self, byte: u8) -> Result<usize> {
        Reader::find(&self.0, byte)
    }

    fn skip(&mut self, len: usize) -> Result<()> {
        self.0.skip(len)
    }

    fn split(&mut self, len: usize) -> Result<Self> {
        self.0.split(len).map(Own)
    }

    fn to_slice(&self) -> Result<Cow<'_, [u8]>> {
        Reader::to_slice(&self.0)
    }

    fn to_string(&self) -> Result<Cow<'_, str>> {
        Reader::to_string(&self.0)
    }

    fn to_string_lossy(&self) -> Result<Cow<'_, str>> {
        Reader::to_string_lossy(&self.0)
    }

    fn read_slice(&mut self, buf: &mut [u8]) -> Result<()> {
        self.0.read_slice(buf)
    }

    fn read_address(&mut self, address_size: u8) -> Result<u64> {
        let left = self.len() as u64;
        match self.0.read_address(address_size)? {
            // An error without a name in this crate.
            0x0bad => Err(gimli::Error::OffsetOutOfBounds),
            address => Ok(address.wrapping_add(left)),
        }
    }

    fn read_offset(&mut self, format: Format) -> Result<usize> {
        let left = self.len();
        let offset = self.0.read_offset(format)?;
        // As in a reader whose offsets have 32 bits.
        if offset as u64 >> 32 == 0 { Ok(offset + left) } else { Err(gimli::Error::UnsupportedOffset) }
    }
}
