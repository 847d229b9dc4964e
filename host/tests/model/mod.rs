//! A model of document 01 with requests E1, E2, E4 and E6 of document 02, and of the exported form of docs/LAYOUTS.md, written from
//! their words. How far it is independent, and where for E4 it is less so, stands in docs/DIFFERENCES.md, "Exported form".
//!
//! It shares no code and no design with the library: the tests hold the library against it call by call.
#![allow(dead_code)]

pub mod book;
pub mod bytes;
pub mod calls;
pub mod engine;
pub mod export;
pub mod header;
pub mod line;
pub mod settings;
pub mod told;
