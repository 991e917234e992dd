//! What the program's sources take of the Rattle kit's library, over Rust's. There an allocator is an argument, a call
//! says if memory is refused, and `main` is handed the process.

pub use std::fmt;

/// What the sources name without an import.
pub(crate) mod prelude {
    pub(crate) use super::alloc::AllocError;
    pub(crate) use super::{Drop, String, Vec};
    pub(crate) use crate::host::HostRuntime;
    pub(crate) use std::str;
}

/// Allocators.
pub mod alloc {
    /// What a list takes its memory from.
    pub trait Allocator {}

    /// The allocator of Rust's library, which is the only one here.
    #[derive(Clone, Copy)]
    pub struct Global;

    impl Allocator for Global {}

    /// Memory was refused.
    pub struct AllocError;

    impl From<AllocError> for std::io::Error {
        fn from(_: AllocError) -> Self {
            std::io::ErrorKind::OutOfMemory.into()
        }
    }
}

/// Bytes from hexadecimal digits.
pub mod hex {
    use super::Vec;

    /// Why a text gave no bytes.
    pub enum FromHexError {
        /// Memory for them was refused.
        OutOfMemory,
        /// It isn't pairs of digits.
        NoPairs,
    }

    /// The bytes that pairs of digits of either case spell.
    pub fn decode<A>(alloc: A, digits: &str) -> Result<Vec<u8, A>, FromHexError> {
        let (mut bytes, length) = (Vec::new(alloc), digits.len() / 2);
        bytes.try_reserve_exact(length).map_err(|_| FromHexError::OutOfMemory)?;
        bytes.resize(length, 0);
        ::hex::decode_to_slice(digits, &mut bytes).map_err(|_| FromHexError::NoPairs)?;
        Ok(bytes)
    }
}

/// The program's words.
pub mod env {
    use super::alloc::{AllocError, Global};
    use super::{String, Vec};
    use crate::host::HostRuntime;
    use std::io;

    /// The words that are left.
    pub struct Args(std::vec::IntoIter<String>);

    /// Copies all words, from the program's name on.
    ///
    /// # Errors
    ///
    /// `InvalidData` if a word isn't UTF-8, and `OutOfMemory` if memory is refused.
    pub fn args(host: &HostRuntime) -> io::Result<Args> {
        let mut words = Vec::new(Global);
        for word in host.words() {
            let word = std::str::from_utf8(word).map_err(|_| io::ErrorKind::InvalidData)?;
            words.push(String::copied(word)?).map_err(|_| AllocError)?;
        }
        Ok(Args(words.items.into_iter()))
    }

    impl Args {
        /// The next word.
        #[allow(clippy::should_implement_trait)]
        pub fn next(&mut self) -> Option<String> {
            self.0.next()
        }

        /// A list of those that are left.
        ///
        /// # Errors
        ///
        /// If memory is refused.
        pub fn collect(self, alloc: Global) -> Result<Vec<String>, AllocError> {
            let mut words = Vec::new(alloc);
            words.try_reserve_exact(self.0.len()).map_err(|_| AllocError)?;
            words.extend(self.0);
            Ok(words)
        }
    }
}

/// The end of the process.
pub mod process {
    /// Its status.
    pub type ExitCode = std::ffi::c_int;
}

/// Reading and writing.
pub mod io {
    use super::Vec;
    use crate::host::{HostRuntime, Stream};
    pub use std::io::{Error, ErrorKind, Result, Write};

    /// What may be a terminal.
    pub trait IsTerminal {
        /// Whether it is one.
        fn is_terminal(&self) -> bool;
    }

    /// The most bytes that `read_to_end` asks for at once.
    const CHUNK: usize = 1 << 13;

    /// A source of bytes.
    pub trait Read {
        /// Reads some bytes into the buffer, from its start. Returns how many; 0 at the end.
        ///
        /// # Errors
        ///
        /// If they can't be read. `Interrupted` may be tried again.
        fn read(&mut self, buffer: &mut [u8]) -> Result<usize>;

        /// Appends all bytes that are left, and returns how many. Rust's ends the process if memory is refused.
        ///
        /// # Errors
        ///
        /// If they can't be read, or memory is refused.
        fn read_to_end<A>(&mut self, bytes: &mut Vec<u8, A>) -> Result<usize> {
            let start = bytes.len();
            loop {
                let end = bytes.len();
                bytes.try_reserve(1)?;
                let room = (bytes.capacity() - end).min(CHUNK);
                bytes.resize(end + room, 0);
                let read = self.read(&mut bytes[end..]);
                bytes.truncate(end + read.as_ref().map_or(0, |count| *count));
                match read {
                    Ok(0) => return Ok(end - start),
                    Err(error) if error.kind() != ErrorKind::Interrupted => return Err(error),
                    _ => {}
                }
            }
        }
    }

    /// Standard output.
    pub fn writer(host: &HostRuntime) -> Stream {
        host.stdout()
    }
}

/// The lists of an evaluation.
pub mod store {
    use super::Vec;
    use crate::library::{Piece, Reader, Value};
    use std::marker::PhantomData;

    pub use crate::library::EvaluationStorage;

    /// Keeps them on the heap.
    pub struct StoreOnHeap<A>(PhantomData<A>);

    impl<R: Reader, A> EvaluationStorage<R> for StoreOnHeap<A> {
        type Stack = std::vec::Vec<Value>;
        type ExpressionStack = std::vec::Vec<(R, R)>;
        type Result = std::vec::Vec<Piece<R>>;
    }

    /// A list that may refuse an item.
    pub trait ArrayLike {
        /// What it has.
        type Item;

        /// Appends an item.
        ///
        /// # Errors
        ///
        /// The item, if the list has no room.
        fn push(&mut self, item: Self::Item) -> Result<(), Self::Item>;
    }

    impl<T, A> ArrayLike for Vec<T, A> {
        type Item = T;

        fn push(&mut self, item: T) -> Result<(), T> {
            Vec::push(self, item)
        }
    }
}

/// Any type may be dropped.
pub trait Drop {}

impl<T: ?Sized> Drop for T {}

/// A list on the heap.
pub struct Vec<T, A = alloc::Global> {
    items: std::vec::Vec<T>,
    allocator: std::marker::PhantomData<A>,
}

impl<T, A> Vec<T, A> {
    /// An empty list, which takes no memory yet.
    pub fn new(_: A) -> Self {
        Vec { items: std::vec::Vec::new(), allocator: std::marker::PhantomData }
    }

    /// Appends an item.
    ///
    /// # Errors
    ///
    /// The item, if memory is refused.
    pub fn push(&mut self, item: T) -> Result<(), T> {
        if self.items.try_reserve(1).is_err() {
            return Err(item);
        }
        self.items.push(item);
        Ok(())
    }

    /// The items, which are never freed.
    pub fn leak<'a>(self) -> &'a mut [T]
    where
        T: 'a,
    {
        self.items.leak()
    }
}

impl<T, A> std::ops::Deref for Vec<T, A> {
    type Target = std::vec::Vec<T>;

    fn deref(&self) -> &std::vec::Vec<T> {
        &self.items
    }
}

impl<T, A> std::ops::DerefMut for Vec<T, A> {
    fn deref_mut(&mut self) -> &mut std::vec::Vec<T> {
        &mut self.items
    }
}

/// A text on the heap.
pub struct String<A = alloc::Global> {
    text: std::string::String,
    allocator: std::marker::PhantomData<A>,
}

impl String {
    /// A copy of a text.
    ///
    /// # Errors
    ///
    /// If memory is refused.
    pub fn copied(text: &str) -> Result<Self, alloc::AllocError> {
        let mut copy = std::string::String::new();
        copy.try_reserve_exact(text.len()).map_err(|_| alloc::AllocError)?;
        copy.push_str(text);
        Ok(String { text: copy, allocator: std::marker::PhantomData })
    }
}

impl<A> String<A> {
    /// The text.
    pub fn as_str(&self) -> &str {
        &self.text
    }
}
