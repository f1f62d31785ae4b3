//! Every call compared with the evaluation, on many inputs, long and short, valid and damaged: the answer, and each word of each
//! buffer, with guard words around it. Then what the crate adds to the calls: builder, readers, kept list and turns.
//!
//! SOTJARN_CASES sets how many woods and plans each test makes, SOTJARN_SEED where their seeds start.

mod checking;
mod client;
mod evaluation;
mod growing;
mod guarded;
mod inputs;
mod late;
mod long;
mod queues;
mod regions;
mod registers;
mod short;
mod surveys;
mod uploads;
mod views;
