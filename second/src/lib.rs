//! The second program: the boards of the documents, the distribution board and the
//! battery board, as one machine that is changed in place, and the tongues it is
//! driven in (session sheet, replay script, text line).
//!
//! `board` and `command` are the machine; `model`, `settings`, `mode`, `channels`,
//! `readings`, `reply` and `crc` are its parts; `text`, `sheet` and `replay` lead to it;
//! `coverage` only watches, and `pace` runs it for its speed.

pub mod board;
pub mod channels;
mod command;
pub mod coverage;
pub mod crc;
pub mod hex;
pub mod input;
pub mod mode;
pub mod model;
pub mod pace;
pub mod readings;
pub mod replay;
pub mod reply;
pub mod settings;
pub mod sheet;
pub mod text;
