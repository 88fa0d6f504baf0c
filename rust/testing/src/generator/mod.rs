//! Packets and sheets for tests, each from a seed: the same seed gives the same bytes. Nothing here keeps state or panics.
//!
//! [`valid`] makes packets that the Edition 3 reading accepts, with dwells told apart by [`pairs`]; [`aimed`] packets to which a given row
//! applies or two of them; [`damage`] changes bytes blindly; and [`sheets`] does all three with sheets. HRR segments have files of their
//! own, [`hrr`] and [`hrr_sheets`].

pub mod aimed;
pub mod damage;
pub mod faults;
pub mod faulty;
pub mod hrr;
pub mod hrr_sheets;
pub mod pairs;
pub mod random;
pub mod records;
pub mod sheet_faults;
pub mod sheets;
pub mod spelling;
pub mod tables;
pub mod valid;

pub use random::Random;
