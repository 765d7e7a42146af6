//! An independent interpreter of document 01: table check, run, patch and
//! listing, and the cases on which it is compared with the definitions and
//! with the product.

pub mod answer;
pub mod case;
pub mod damage;
pub mod define;
pub mod execute;
pub mod generate;
pub mod interpret;
pub mod listing;
pub mod met;
pub mod output;
pub mod patch;
pub mod program;
pub mod random;
pub mod run;
pub mod sessions;
pub mod sharp;
pub mod table;
pub mod tally;
pub mod teeth;
pub mod text;
pub mod values;
