// SPDX-License-Identifier: Apache-2.0 OR MIT
//! Enums of the numbers of `include/bactool.h`.

/// Makes an enum whose variants have numbers, and its conversions from and to a number.
macro_rules! numbered {
    ($(#[$about:meta])* $enum:ident {
        $($(#[$says:meta])* $variant:ident = $number:literal,)*
    }) => {
        $(#[$about])*
        #[derive(Clone, Copy, Debug, PartialEq, Eq, Hash)]
        #[non_exhaustive]
        pub enum $enum {
            $(
                $(#[$says])*
                #[doc = concat!("Number ", $number, ".")]
                $variant,
            )*
            /// A number that this release of the crate has no name for, as a newer library may return it. The
            /// conversion from a number gives it for no other.
            Unknown(u32),
        }

        impl From<u32> for $enum {
            fn from(number: u32) -> $enum {
                match number {
                    $($number => $enum::$variant,)*
                    _ => $enum::Unknown(number),
                }
            }
        }

        impl From<$enum> for u32 {
            fn from(value: $enum) -> u32 {
                match value {
                    $($enum::$variant => $number,)*
                    $enum::Unknown(number) => number,
                }
            }
        }
    };
}
