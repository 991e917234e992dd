//! What stands in for other crates, for gimli's own tests.

#![allow(unused_imports, non_snake_case)]

/// The type at offset 0.
pub fn generic_type() -> dwexpr::UnitOffset {
    dwexpr::UnitOffset(0)
}

pub mod leb128 {
    pub mod write {
        pub struct Leb128(Vec<u8>);

        impl Leb128 {
            pub fn unsigned(number: u64) -> Self {
                Leb128::of(number.into(), |rest, _| rest == 0)
            }

            pub fn signed(number: i64) -> Self {
                Leb128::of(number.into(), |rest, byte| rest == if byte & 0x40 == 0 { 0 } else { -1 })
            }

            fn of(number: i128, is_last: impl Fn(i128, u8) -> bool) -> Self {
                let (mut rest, mut bytes) = (number, Vec::new());
                loop {
                    let byte = (rest & 0x7f) as u8;
                    rest >>= 7;
                    if is_last(rest, byte) {
                        bytes.push(byte);
                        return Leb128(bytes);
                    }
                    bytes.push(byte | 0x80);
                }
            }

            pub fn bytes(&self) -> Vec<u8> {
                self.0.clone()
            }
        }
    }
}

pub mod test_assembler {
    pub enum Endian {
        Little,
    }

    pub struct Section(pub Vec<u8>);

    /// Calls that append a number, least significant byte first.
    macro_rules! numbers {
        ($($name:ident($type:ty),)+) => {
            impl Section {
                $(pub fn $name(self, number: $type) -> Self {
                    self.append_bytes(&number.to_le_bytes())
                })+
            }
        };
    }

    numbers! { D8(u8), L16(u16), L32(u32), L64(u64), D32(u32), D64(u64), }

    impl Section {
        pub fn with_endian(_: Endian) -> Self {
            Section(Vec::new())
        }

        pub fn append_bytes(mut self, bytes: &[u8]) -> Self {
            self.0.extend_from_slice(bytes);
            self
        }

        pub fn get_contents(self) -> Option<Vec<u8>> {
            Some(self.0)
        }
    }
}

pub mod test_util {
    use crate::leb128::write::Leb128;
    use crate::test_assembler::Section;

    pub trait GimliSectionMethods {
        fn uleb(self, number: u64) -> Self;
        fn sleb(self, number: i64) -> Self;
    }

    impl GimliSectionMethods for Section {
        fn uleb(self, number: u64) -> Self {
            self.append_bytes(&Leb128::unsigned(number).bytes())
        }

        fn sleb(self, number: i64) -> Self {
            self.append_bytes(&Leb128::signed(number).bytes())
        }
    }
}

#[cfg(test)]
mod op {
    include!(concat!(env!("OUT_DIR"), "/op.rs"));
}
#[cfg(test)]
mod value {
    include!(concat!(env!("OUT_DIR"), "/value.rs"));
}
