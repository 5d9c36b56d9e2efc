//! Tests of the proved calls themselves, which no user of the crate sees: those that no call of the
//! facade makes, values that no component has, and sweeps in which each allocation fails in turn.
//! `tests/calls` has the others.

// Tables of rows have long types.
#![allow(clippy::type_complexity)]

mod calls;
mod commands;
mod components;
mod examples;
mod hex;
mod listing;
mod parts;
mod program;
pub(crate) mod refusing;
mod shim;
mod sweeping;
mod told;
