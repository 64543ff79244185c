//! What the port is compared with: the unchanged Rust emitter over a record, the amended one where document 02 departs from it, and the
//! questions, rows, literals, command tables, looks, routes, columns and small routines of documents 01 and 02 written a second time.

pub mod columns;
pub mod compare;
pub mod damage;
pub mod demand3;
pub mod departures;
pub mod gen;
pub mod lines;
pub mod listing;
pub mod lists;
pub mod literals;
pub mod looks;
#[cfg(mutants)]
pub mod mutants;
pub mod pieces;
pub mod port;
pub mod questions;
pub mod record;
pub mod replay;
pub mod rng;
pub mod routes;
pub mod routines;
pub mod rows;
pub mod tables;

#[cfg(feature = "abi")]
pub mod bench;
mod binary;
mod emitter;
#[cfg(feature = "comparison")]
mod exports;
mod iced;
mod model;
mod protos;

include!(concat!(env!("OUT_DIR"), "/amended.rs"));

#[cfg(test)]
mod tests;
