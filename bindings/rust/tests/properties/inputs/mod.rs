//! Random inputs: woods, uploads, plans, queues, views and woods to be grown, calls of them, and damage.

pub mod calls;
pub mod damage;
pub mod growing;
pub mod plans;
pub mod queues;
pub mod random;
pub mod uploads;
pub mod views;
pub mod woods;
