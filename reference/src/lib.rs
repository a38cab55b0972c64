//! The sheets and calls of document 01, written a second time from the papers alone, to hold the engine against.
//!
//! - `plain` reads the paper in the most obvious way and is what the engine must agree with.
//! - `sequential_model` is what `plain` must come to after any history, the plain book of the paper.
//! - `replay` runs a history given as text over `plain`, on a joined sheet or on two.
//! - `compare` makes cases from seeds and holds an implementation against them.
//! - `exported` has the calls that the engine exports for C, over `plain`, and over `fast` those that are timed, and `conversions`
//!   sheets to numbers and back.
//! - `fast` gives the same answers as `plain` and is what the engine's time is compared with.
//! - `make` writes accepted, damaged and forged sheets, histories of calls and the scripts of replays.
//! - `seen` counts which refusals and steps a comparison has met.
//!
//! `cargo test --release` holds `fast` against `plain`, both against cases of the paper, and histories against the model.
//!
//! With `--features engine`, `cargo run --release --bin differ` holds the engine against `plain`, and `--bin bench` times it
//! beside `fast`. Both need the engine's static archive, `../target/staticlib/libc_api.a` or the one in the folder that
//! `RAPYHEO_ARCHIVE_DIR` names. The comparison needs the programs `replay`, `replay_two` and `visitor` too, from
//! `../target/bin` or the folder that `RAPYHEO_PROGRAMS_DIR` names; with `target/release` there, it is tried against
//! `plain` itself.
//!
//! With `--features faults`, `--bin faults` tries the comparison: `plain` and `replay` are built with the faults of `faults/`
//! as switches, and each must show as a difference.
#![forbid(unsafe_code)]

pub mod compare;
pub mod conversions;
pub mod exported;
pub mod fast;
#[cfg(feature = "faults")]
pub mod faults;
pub mod make;
#[cfg(not(feature = "faults"))]
pub mod plain;
#[cfg(not(feature = "faults"))]
pub mod replay;
pub mod seen;
pub mod sequential_model;

#[cfg(feature = "faults")]
include!(concat!(env!("OUT_DIR"), "/faulty.rs"));
