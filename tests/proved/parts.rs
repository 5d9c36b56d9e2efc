//! Values, maps of names and holders, of which everything else is made: their bytes, and each
//! allocation failing in turn.

mod name_maps;
mod values;

// Those that count with lengths that only 64 bits hold.
#[cfg(target_pointer_width = "64")]
mod holder;
#[cfg(target_pointer_width = "64")]
mod kept;
#[cfg(target_pointer_width = "64")]
mod refusals;
#[cfg(target_pointer_width = "64")]
mod unfinished;
