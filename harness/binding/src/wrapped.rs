//! How each C function is wrapped, so that it is safe to call.

/// Declares C functions, named as here after `mj_`, each by the signature that Rust has it under, and
/// wraps it: a slice goes to C as a pointer and a length, a number to be written as a pointer, any other
/// number as it is, and a struct of slices part by part.
//
// Arguments are taken one by one: `own: type` as Rust lends it, `(part): type` as C is handed it. The
// three lists are of what Rust lends, of C's types, and of what is handed over.
macro_rules! wrapped {
    ($($(#[$doc:meta])* $name:ident($($own:tt)*) -> $answer:ty;)*) => {
        $(wrapped! { @ { $(#[$doc])* $name $answer } [] [] [] $($own)*, })*
    };

    (
        @ { $(#[$doc:meta])* $name:ident $answer:ty }
        [$($lent:tt)*] [$($types:ty,)*] [$($handed:expr,)*] $(,)?
    ) => {
        $(#[$doc])*
        pub fn $name($($lent)*) -> $answer {
            extern "C" {
                #[link_name = concat!("mj_", stringify!($name))]
                fn $name($(_: $types),*) -> $answer;
            }
            // SAFETY: pointers and lengths are those of live slices and numbers; what is written is
            // lent to the call alone, all else is only read, and none is kept.
            unsafe { $name($($handed),*) }
        }
    };

    (
        @ $head:tt $lent:tt [$($types:tt)*] [$($handed:tt)*]
        ($part:expr): &[$kind:ty], $($rest:tt)*
    ) => {
        wrapped! {
            @ $head $lent [$($types)* *const $kind, usize,] [$($handed)* $part.as_ptr(), $part.len(),]
            $($rest)*
        }
    };
    (
        @ $head:tt $lent:tt [$($types:tt)*] [$($handed:tt)*]
        ($part:expr): &mut [$kind:ty], $($rest:tt)*
    ) => {
        wrapped! {
            @ $head $lent [$($types)* *mut $kind, usize,] [$($handed)* $part.as_mut_ptr(), $part.len(),]
            $($rest)*
        }
    };
    (
        @ $head:tt $lent:tt [$($types:tt)*] [$($handed:tt)*]
        ($part:expr): &mut $kind:ty, $($rest:tt)*
    ) => {
        wrapped! {
            @ $head $lent [$($types)* *mut $kind,] [$($handed)* $part,]
            $($rest)*
        }
    };
    (
        @ $head:tt $lent:tt [$($types:tt)*] [$($handed:tt)*]
        ($part:expr): $kind:ty, $($rest:tt)*
    ) => {
        wrapped! {
            @ $head $lent [$($types)* $kind,] [$($handed)* $part,]
            $($rest)*
        }
    };

    (@ $head:tt [$($lent:tt)*] $types:tt $handed:tt $own:ident: Design, $($rest:tt)*) => {
        wrapped! {
            @ $head [$($lent)* $own: Design,] $types $handed
            ($own.scaffold): &[u8], ($own.marks): &[u8], ($own.glues): &[u8],
            ($own.dg): &[f64], ($own.ds): &[f64], ($own.amounts): &[f64], ($own.given): u32,
            ($own.rt): f64, ($own.strand_excess): f64, ($own.scaffold_excess): f64, $($rest)*
        }
    };
    (@ $head:tt [$($lent:tt)*] $types:tt $handed:tt $own:ident: Bonds, $($rest:tt)*) => {
        wrapped! {
            @ $head [$($lent)* $own: Bonds,] $types $handed
            ($own.strands): &[f64], ($own.scaffold): &[f64], $($rest)*
        }
    };
    (@ $head:tt [$($lent:tt)*] $types:tt $handed:tt $own:ident: Weights, $($rest:tt)*) => {
        wrapped! {
            @ $head [$($lent)* $own: Weights,] $types $handed
            ($own.place_digits): &[u32], ($own.place_powers): &[i32],
            ($own.pair_digits): &[u32], ($own.pair_powers): &[i32], $($rest)*
        }
    };
    (@ $head:tt [$($lent:tt)*] $types:tt $handed:tt $own:ident: Lists, $($rest:tt)*) => {
        wrapped! {
            @ $head [$($lent)* $own: Lists,] $types $handed
            ($own.numbers): &[u8], ($own.starts): &[usize], ($own.lengths): &[usize], $($rest)*
        }
    };
    (@ $head:tt [$($lent:tt)*] $types:tt $handed:tt $own:ident: Sheet, $($rest:tt)*) => {
        wrapped! {
            @ $head [$($lent)* $own: Sheet,] $types $handed
            ($own.jobs): &[u32], ($own.numbers): &mut [u32], ($own.energies): &mut [f64],
            ($own.counts): &mut [u64], ($own.stretches): &mut [u8], $($rest)*
        }
    };
    (@ $head:tt [$($lent:tt)*] $types:tt $handed:tt $own:ident: Params, $($rest:tt)*) => {
        wrapped! {
            @ $head [$($lent)* $own: Params,] $types $handed
            ($own.build): u32, ($own.text): &[u8], ($own.users): usize, ($own.strands): &[usize],
            ($own.scaffold): &[usize], ($own.entries): &[usize], ($own.energies): &[f64],
            ($own.penalty_dg): f64, ($own.penalty_ds): f64, ($own.quencher): usize,
            ($own.reporter): usize, $($rest)*
        }
    };
    (@ $head:tt [$($lent:tt)*] $types:tt $handed:tt $own:ident: Built, $($rest:tt)*) => {
        wrapped! {
            @ $head [$($lent)* $own: Built,] $types $handed
            ($own.strand_glues): &mut [u8], ($own.scaffold_glues): &mut [u8],
            ($own.dg): &mut [f64], ($own.ds): &mut [f64], $($rest)*
        }
    };

    (@ $head:tt [$($lent:tt)*] $types:tt $handed:tt $own:ident: &[$kind:ty], $($rest:tt)*) => {
        wrapped! {
            @ $head [$($lent)* $own: &[$kind],] $types $handed ($own): &[$kind],
            $($rest)*
        }
    };
    (@ $head:tt [$($lent:tt)*] $types:tt $handed:tt $own:ident: &mut [$kind:ty], $($rest:tt)*) => {
        wrapped! {
            @ $head [$($lent)* $own: &mut [$kind],] $types $handed ($own): &mut [$kind],
            $($rest)*
        }
    };
    (@ $head:tt [$($lent:tt)*] $types:tt $handed:tt $own:ident: &mut $kind:ty, $($rest:tt)*) => {
        wrapped! {
            @ $head [$($lent)* $own: &mut $kind,] $types $handed ($own): &mut $kind,
            $($rest)*
        }
    };
    (@ $head:tt [$($lent:tt)*] $types:tt $handed:tt $own:ident: $kind:ty, $($rest:tt)*) => {
        wrapped! {
            @ $head [$($lent)* $own: $kind,] $types $handed ($own): $kind,
            $($rest)*
        }
    };
}

pub(crate) use wrapped;
