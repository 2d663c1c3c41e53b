//! Enums of document 01: each variant with its number and its text.

/// Declares one, and the functions that give a variant's number, the variant of a number, and its text.
macro_rules! numbered {
    (
        $(#[$meta:meta])* $name:ident { $($variant:ident = $number:literal, $text:literal;)* }
        $(#[$number_meta:meta])* $number_of:ident
        $(#[$from_meta:meta])* $from_number:ident
        $(#[$text_meta:meta])* $text_of:ident
    ) => {
        $(#[$meta])*
        #[derive(Clone, Copy, Debug, PartialEq, Eq, Hash, PartialOrd, Ord)]
        #[repr(u8)]
        pub enum $name {
            $(#[doc = concat!(stringify!($number), ": ", $text)] $variant = $number,)*
        }

        impl $name {
            /// All of them, by ascending numbers.
            pub const ALL: &'static [$name] = &[$($name::$variant),*];

            $(#[$number_meta])*
            pub fn $number_of(self) -> u8 {
                self as u8
            }

            $(#[$from_meta])*
            pub fn $from_number(number: u8) -> Option<$name> {
                match number {
                    $($number => Some($name::$variant),)*
                    _ => None,
                }
            }

            $(#[$text_meta])*
            pub fn $text_of(self) -> &'static str {
                match self {
                    $($name::$variant => $text,)*
                }
            }
        }
    };
}

pub(crate) use numbered;
