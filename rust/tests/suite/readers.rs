//! A reader of a user's, over bytes that are no slice.

use dwexpr::{Error, Reader, ReaderOffset, ReaderOffsetId, Result, RunTimeEndian};
use std::collections::VecDeque;
use std::marker::PhantomData;
use std::rc::Rc;

#[derive(Clone, Debug)]
pub struct Own<O> {
    bytes: Rc<VecDeque<u8>>,
    order: RunTimeEndian,
    next: u64,
    end: u64,
    offsets: PhantomData<O>,
}

impl<O> Own<O> {
    pub fn of(bytes: &[u8], order: RunTimeEndian) -> Own<O> {
        let end = bytes.len() as u64;
        Own { bytes: Rc::new(bytes.iter().copied().collect()), order, next: 0, end, offsets: PhantomData }
    }
}

impl<O: ReaderOffset> Reader for Own<O> {
    type Offset = O;

    fn len(&self) -> O {
        O::from_u64(self.end - self.next).unwrap()
    }

    fn is_empty(&self) -> bool {
        self.next == self.end
    }

    fn empty(&mut self) {
        self.next = self.end;
    }

    fn offset_from(&self, base: &Self) -> O {
        O::from_u64(self.next - base.next).unwrap()
    }

    fn skip(&mut self, len: O) -> Result<()> {
        self.split(len).map(drop)
    }

    fn split(&mut self, len: O) -> Result<Self> {
        if self.len().into_u64() < len.into_u64() {
            return Err(Error::UnexpectedEof(ReaderOffsetId(self.next)));
        }
        let front = Own { end: self.next + len.into_u64(), ..self.clone() };
        self.next = front.end;
        Ok(front)
    }

    fn read_fixed(&mut self, n: u8) -> Result<u64> {
        let part = self.split(O::from_u8(n))?;
        let bytes = self.bytes.range(part.next as usize..part.end as usize);
        let number = |number: u64, byte: &u8| number << 8 | u64::from(*byte);
        Ok(if self.order == RunTimeEndian::Big { bytes.fold(0, number) } else { bytes.rev().fold(0, number) })
    }
}
