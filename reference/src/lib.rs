//! An ordinary Rust port of the serial boot protocol: document 01's base, with Items 3, 5 and 7 of
//! document 02.
//!
//! The port itself is [`start`], [`byte`] and [`run`] over a [`Unit`] and the caller's flash
//! image. Around it: the bench program's text ([`bench`]), the reader and answerer of batches of
//! cases ([`cases`]) and the twelve sessions at the edges ([`sessions`]).
//!
//! Beside it stands the planner for line rates ([`plan`]), with the reader and answerer of batches
//! of plans ([`plans`]).

#![forbid(unsafe_code)]

pub mod batch;
pub mod bench;
pub mod cases;
pub mod flash;
pub mod plan;
pub mod plans;
mod port;
pub mod record;
pub mod sessions;
mod unit;

pub use port::{byte, run, start, Answer, REPLY_ROOM};
pub use unit::{
    srd, srd1, Collected, Command, Phase, Unit, COLLECTED_LEN, MISMATCHES_MAX, WAKE_ZEROS,
};
