//! Functions of a C library, declared and called by a line of a table.

use crate::call::Answer;
use crate::lent::{Lent, Numbers};

/// A function of the library, called with its numbers on its buffers.
pub type Export = fn(&Numbers, Lent) -> Answer;

/// Declares a function and gives how to call it: `export!(n lent NAME () ()
/// ARGUMENTS)`. The arguments, in the order of include/sweep.h, are read off
/// one by one into their types and values: `change BUFFER` and `look BUFFER`
/// lend a buffer (a pointer, then a length), `u32 PLACE` and `u8 PLACE` tell
/// the number at that place.
#[macro_export]
macro_rules! export {
    ($n:ident $lent:ident $name:ident ($($kind:ty),*) ($($value:expr),*)) => {{
        extern "C" {
            fn $name($(_: $kind),*) -> $crate::call::Answer;
        }
        // Sound as far as the library keeps to the buffers it is lent.
        #[allow(unused_variables)]
        let export: $crate::export::Export = |$n, $lent| unsafe { $name($($value),*) };
        export
    }};
    ($n:ident $lent:ident $name:ident ($($kind:ty),*) ($($value:expr),*)
        change $buffer:ident $(, $($rest:tt)*)?) => {
        $crate::export!($n $lent $name ($($kind,)* *mut u8, usize)
            ($($value,)* $lent.$buffer.as_mut_ptr(), $lent.$buffer.len()) $($($rest)*)?)
    };
    ($n:ident $lent:ident $name:ident ($($kind:ty),*) ($($value:expr),*)
        look $buffer:ident $(, $($rest:tt)*)?) => {
        $crate::export!($n $lent $name ($($kind,)* *const u8, usize)
            ($($value,)* $lent.$buffer.as_ptr(), $lent.$buffer.len()) $($($rest)*)?)
    };
    ($n:ident $lent:ident $name:ident ($($kind:ty),*) ($($value:expr),*)
        $width:ident $place:literal $(, $($rest:tt)*)?) => {
        $crate::export!($n $lent $name ($($kind,)* $width) ($($value,)* $n[$place] as $width)
            $($($rest)*)?)
    };
}
