//! Damage to files, tables and sheets: single faults at known fields, and changes of every other sort; and cuts of files into pieces.

pub mod cuts;
pub mod faults;
pub mod fields;
pub mod files;
pub mod sheets;
pub mod tables;
