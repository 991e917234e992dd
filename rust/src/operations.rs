//! `Debug` for operations, with gimli's names, and their fields in gimli's order.

use crate::{Operation, Reader};
use core::fmt;

macro_rules! debug {
    ($type:ident: $($(@)? $name:ident $({ $($field:ident)+ })? $([$reader:ident])?,)+) => {
        impl<R: Reader + fmt::Debug, O: fmt::Debug> fmt::Debug for $type<R, O> {
            fn fmt(&self, f: &mut fmt::Formatter<'_>) -> fmt::Result {
                match self {
                    $($type::$name { $($($field,)+)? $($reader)? } => {
                        let said = &mut f.debug_struct(stringify!($name));
                        $($(said.field(stringify!($field), $field);)+)?
                        $(said.field(stringify!($reader), $reader);)?
                        said.finish()
                    })+
                }
            }
        }
    };
}

operations!(debug);
