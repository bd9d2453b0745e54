//! A second program for the scope (docs/scope.md): from Boolean expression text to a Blist
//! table, and the run that reads such a table with one truth per gate. It is kept plain, so
//! that its tables and refusals can be compared with those of the proved program.

pub mod arrays;
pub mod check;
pub mod compiling;
pub mod layout;
pub mod old_way;
pub mod positive;
pub mod random;
pub mod reading;
pub mod refusal;
pub mod run;
pub mod series_parallel;
pub mod stored;
pub mod text;
pub mod turning;
pub mod typed;
pub mod weaving;

pub use compiling::{compile, listing};
pub use refusal::Refusal;
