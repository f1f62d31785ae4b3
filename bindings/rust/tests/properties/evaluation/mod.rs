//! What making tables, opening, a turn and merging answer, a report on registers, joining, serving and topping up a queue, writing a view and
//! growing a wood, and every buffer at exit: an evaluation written from the rules' text.
//!
//! It shares nothing with the engine nor with the crate under test. The uncut run is worked out whole; a turn is a part of it, and a
//! state is accepted when it is among the run's.

pub mod calls;
pub mod growing;
pub mod lists;
pub mod plan;
pub mod queues;
pub mod registers;
pub mod run;
pub mod tables;
pub mod uploads;
pub mod views;
pub mod words;
