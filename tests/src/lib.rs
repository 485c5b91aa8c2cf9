//! A second implementation, made to be compared with the proved library, and
//! the calls into that library.

pub mod blocks;
pub mod bodies;
pub mod boundaries;
pub mod by_hand;
pub mod by_iterations;
pub mod collisions;
pub mod damage;
pub mod dealt;
pub mod dependence;
pub mod encoder;
pub mod examples;
pub mod facts;
pub mod further;
pub mod interpreter;
pub mod join;
#[cfg(test)]
mod known;
pub mod large;
pub mod lent;
pub mod library;
#[cfg(feature = "planning")]
pub mod library_planning;
#[cfg(feature = "running")]
pub mod library_running;
pub mod limits;
pub mod line_lengths;
pub mod lined;
pub mod listing;
pub mod lists;
pub mod measure;
pub mod meeting;
pub mod memories;
pub mod misaligned;
pub mod misjudged;
pub mod misnamed;
pub mod misplanned;
pub mod misrun;
pub mod outcome;
pub mod outputs;
pub mod parts;
pub mod planner;
pub mod plans_by_hand;
pub mod processors;
pub mod random;
pub mod reader;
pub mod rows;
pub mod settings;
pub mod statements;
pub mod stepping;
pub mod sweeps;
pub mod table;
pub mod tables;
pub mod tally;
