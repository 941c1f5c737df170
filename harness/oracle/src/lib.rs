//! rgrow's files, unchanged, with the smallest surroundings in which they compile.
//!
//! Each file is taken in next to a child module `probe`, which sees its private items. What the
//! four files lean on and the comparison never runs is stood in for: modules of rgrow by
//! `surroundings.rs`, crates by `../shims`.

// The allowances are for rgrow's text and for what of it the surroundings leave unused.
#![allow(
    clippy::all,
    unexpected_cfgs,
    dead_code,
    unused_imports,
    unused_macros,
    unreachable_patterns
)]

mod surroundings;

pub use surroundings::{base, canvas, colors, state, system, tileset};

/// rgrow's macro for its feature `parallel`, which is never on here.
#[macro_export]
macro_rules! maybe_par_iter {
    ($items:expr) => {
        $items.iter()
    };
}

pub mod units {
    include!(concat!(env!("RGROW_FILES"), "/units.rs"));
    pub mod probe;
}

pub mod utils {
    include!(concat!(env!("RGROW_FILES"), "/utils.rs"));
    pub mod probe;
}

pub mod models {
    include!(concat!(env!("OUT_DIR"), "/sdc_common_module.rs"));

    pub mod sdc1d {
        include!(concat!(env!("RGROW_FILES"), "/models/sdc1d.rs"));
        pub mod probe;
    }
}
