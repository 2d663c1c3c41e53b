//! Declares a function of the library and lends it slices, from one line.

/// `fn EXPORT as NAME(PARAMETERS);` declares the library's EXPORT, which answers a number, and makes the
/// function NAME of it. A parameter is a number, a slice, `&[T]` or `&mut [T]`, which crosses as a pointer and a
/// length, or an array, `&[T; N]` or `&mut [T; N]`, which crosses as a pointer.
macro_rules! exported {
    ($($(#[$meta:meta])* fn $export:ident as $name:ident($($parameters:tt)*);)*) => {
        /// The name of every exported function, and its parameters as this crate declares them.
        pub const EXPORTS: &[(&str, &str)] =
            &[$((stringify!($export), stringify!($($parameters)*))),*];

        $(exported! {
            @crossing [$(#[$meta])*] $export $name [$($parameters)*] [] [] $($parameters)*,
        })*
    };

    (@crossing $head:tt $export:ident $name:ident $all:tt [$($declared:tt)*] [$($given:tt)*]
        $part:ident: &mut [$item:ty; $count:expr], $($rest:tt)*) => {
        exported! {
            @crossing $head $export $name $all
            [$($declared)* _: *mut [$item; $count],] [$($given)* $part,] $($rest)*
        }
    };

    (@crossing $head:tt $export:ident $name:ident $all:tt [$($declared:tt)*] [$($given:tt)*]
        $part:ident: &mut [$item:ty], $($rest:tt)*) => {
        exported! {
            @crossing $head $export $name $all
            [$($declared)* _: *mut $item, _: usize,]
            [$($given)* $part.as_mut_ptr(), $part.len(),] $($rest)*
        }
    };

    (@crossing $head:tt $export:ident $name:ident $all:tt [$($declared:tt)*] [$($given:tt)*]
        $part:ident: &[$item:ty; $count:expr], $($rest:tt)*) => {
        exported! {
            @crossing $head $export $name $all
            [$($declared)* _: *const [$item; $count],] [$($given)* $part,] $($rest)*
        }
    };

    (@crossing $head:tt $export:ident $name:ident $all:tt [$($declared:tt)*] [$($given:tt)*]
        $part:ident: &[$item:ty], $($rest:tt)*) => {
        exported! {
            @crossing $head $export $name $all
            [$($declared)* _: *const $item, _: usize,]
            [$($given)* $part.as_ptr(), $part.len(),] $($rest)*
        }
    };

    (@crossing $head:tt $export:ident $name:ident $all:tt [$($declared:tt)*] [$($given:tt)*]
        $part:ident: $number:ty, $($rest:tt)*) => {
        exported! {
            @crossing $head $export $name $all
            [$($declared)* _: $number,] [$($given)* $part,] $($rest)*
        }
    };

    (@crossing [$($head:tt)*] $export:ident $name:ident [$($parameters:tt)*]
        [$($declared:tt)*] [$($given:tt)*]) => {
        $($head)*
        #[allow(clippy::too_many_arguments)]
        pub fn $name($($parameters)*) -> u8 {
            extern "C" {
                fn $export($($declared)*) -> u8;
            }
            // Safety: the function has no precondition but that slices do not overlap, and of two borrowed
            // ones that do neither would be mutable; it keeps nothing.
            unsafe { $export($($given)*) }
        }
    };
}
