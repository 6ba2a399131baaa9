//! A second reading of the papers, written from them alone: the plainest program that gives the
//! answers of document 01, with those requests of 02 that are met, to be compared with the library.
//!
//! `01` in a comment is the customer's specification, `02` the requests that followed it, `000` the description of the format that 01
//! cites, and the readings are what docs/DECISIONS.md has under 'What 01 leaves open'.

pub mod answer;
pub mod ask;
pub mod check;
pub mod damage;
pub mod direct;
pub mod examples;
pub mod extent;
pub mod generate;
pub mod layout;
pub mod list;
pub mod lister;
pub mod make;
pub mod model;
pub mod pipe;
pub mod plans;
pub mod random;
pub mod read;
pub mod session;
pub mod sheet;
pub mod table;
pub mod uptime;
pub mod version;
pub mod write;
