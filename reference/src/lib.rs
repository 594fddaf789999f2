//! The independent second program of the calibration store: document 01 over ordinary Rust data,
//! for comparing whole images byte by byte.

#![deny(unsafe_code)]

pub mod audit;
pub mod bench;
pub mod calls;
pub mod check;
pub mod compare;
pub mod counting;
pub mod creating;
pub mod damage;
pub mod edit;
pub mod emit;
pub mod emptying;
pub mod encode;
pub mod entries;
pub mod events;
pub mod explain;
pub mod free;
pub mod fuzz;
pub mod generate;
pub mod layout;
pub mod ledger;
pub mod legal;
#[cfg(feature = "library")]
pub mod library;
pub mod numbers;
pub mod offsets;
pub mod page;
pub mod pairs;
pub mod program;
pub mod putting;
pub mod random;
pub mod reached;
pub mod reading;
pub mod removing;
pub mod request;
pub mod rule;
pub mod samples;
pub mod script;
pub mod sort;
pub mod theorems;
pub mod towers;
pub mod twin;
