//! A second, plain implementation of the claims table, the load and the
//! listing of documents 01 and 02, of the planner's text, of questions about a
//! load, of the frame table with its dance shows and of the workload, with what
//! is needed to compare it with another: generators of loads, texts, questions
//! and shows, monitors of runs and a shrinker. It draws the picture of a load,
//! too.
//!
//! Words of this crate and of document 01: contention is its crowd, start
//! bound its ceiling, lookup its look, refusal and refused its call turned
//! down, overrun its overdue holder, scenario its plot. Document 02's
//! followspots are the units of a pool, its desks are clients, a desk's
//! guarantee is what is reserved for the client, its load for the workshop is
//! the workload, its chain that explains a start a blocking chain, or a chain.

#![deny(unsafe_code)]

pub mod answers;
pub mod ask;
pub mod dance;
pub mod frame_monitor;
pub mod frames;
pub mod generate;
pub mod generate_dance;
pub mod generate_question;
pub mod generate_text;
pub mod listing;
pub mod load;
pub mod monitor;
pub mod picture;
pub mod pool;
pub mod refusal;
pub mod shrink;
pub mod svg;
pub mod table;
pub mod text;
pub mod tries;
pub mod workload;
