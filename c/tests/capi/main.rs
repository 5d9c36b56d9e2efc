//! Tests of the calls for C, which are made as C makes them.
#![allow(unsafe_code, reason = "calls for C are unsafe")]
#![allow(clippy::type_complexity)]

mod called;
mod causes;
mod declared;
mod edges;
mod errors;
mod nodes;
mod numbers;
mod sections;
mod sweeps;
#[allow(dead_code, reason = "some is for scripts alone")]
#[path = "../../../tests/proved/program/vectors.rs"]
mod vectors;
mod walk;
