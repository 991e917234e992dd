//! Conversions of operations and of requests, to gimli's and back.

use super::{GimliReader, gimli};
use crate::{EvaluationResult, Operation};

/// Conversions both ways between types of the same name, whose variants have the same fields. A name in brackets is a
/// reader.
macro_rules! as_gimlis {
    (
        $type:ident: $($name:ident $(($x:ident))? $({ $($field:ident)+ })? $([$reader:ident])?,)+
        @ $($newer:ident $({ $($newer_field:ident)+ })?,)+
    ) => {
        if_all_have_names!({
            impl<R: gimli::Reader> From<$type<GimliReader<R>>> for gimli::$type<R> {
                #[inline]
                fn from(ours: $type<GimliReader<R>>) -> Self {
                    match ours {
                        $($type::$name { $(0: $x,)? $($($field,)+)? $($reader,)? } => gimli::$type::$name {
                            $(0: $x.into(),)? $($($field: $field.into(),)+)? $($reader: $reader.0,)?
                        },)+
                        $($type::$newer { $($($newer_field,)+)? } => gimli::$type::$newer {
                            $($($newer_field: $newer_field.into(),)+)?
                        },)+
                    }
                }
            }

            impl<R: gimli::Reader> From<gimli::$type<R>> for $type<GimliReader<R>> {
                #[inline]
                fn from(theirs: gimli::$type<R>) -> Self {
                    match theirs {
                        $(gimli::$type::$name { $(0: $x,)? $($($field,)+)? $($reader,)? } => $type::$name {
                            $(0: $x.into(),)? $($($field: $field.into(),)+)? $($reader: GimliReader($reader),)?
                        },)+
                        $(gimli::$type::$newer { $($($newer_field,)+)? } => $type::$newer {
                            $($($newer_field: $newer_field.into(),)+)?
                        },)+
                    }
                }
            }
        } else {
            impl<R: gimli::Reader> TryFrom<$type<GimliReader<R>>> for gimli::$type<R> {
                type Error = crate::Error;

                /// `UnsupportedEvaluation`, if gimli has no name for it.
                #[inline]
                fn try_from(ours: $type<GimliReader<R>>) -> crate::Result<Self> {
                    match ours {
                        $($type::$name { $(0: $x,)? $($($field,)+)? $($reader,)? } => Ok(gimli::$type::$name {
                            $(0: $x.into(),)? $($($field: $field.into(),)+)? $($reader: $reader.0,)?
                        }),)+
                        $($type::$newer { .. } => Err(crate::Error::UnsupportedEvaluation),)+
                    }
                }
            }

            impl<R: gimli::Reader> TryFrom<gimli::$type<R>> for $type<GimliReader<R>> {
                type Error = crate::Error;

                /// `UnsupportedEvaluation`, if it has no name in gimli 0.32.
                #[inline]
                fn try_from(theirs: gimli::$type<R>) -> crate::Result<Self> {
                    match theirs {
                        $(gimli::$type::$name { $(0: $x,)? $($($field,)+)? $($reader,)? } => Ok($type::$name {
                            $(0: $x.into(),)? $($($field: $field.into(),)+)? $($reader: GimliReader($reader),)?
                        }),)+
                        // Only 0.33 may have such.
                        #[allow(unreachable_patterns)]
                        _ => Err(crate::Error::UnsupportedEvaluation),
                    }
                }
            }
        });
    };
}

operations!(as_gimlis);
replies!(as_gimlis);
