//! A model of the flat tree, written from the documents: grammar, refusals, encoding, test trees.

pub mod check;
pub mod damage;
pub mod editions;
pub mod encode;
pub mod files;
pub mod fixed;
pub mod grammar;
pub mod grow;
pub mod jobs;
pub mod judge;
pub mod options;
pub mod outline;
pub mod profile;
pub mod random;
pub mod record;
pub mod row;
pub mod rowid;
pub mod samples;
pub mod shared;
pub mod source;
pub mod sources;
pub mod tally;
pub mod texts;
