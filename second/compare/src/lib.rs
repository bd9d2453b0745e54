//! Compares two programs that answer as the library's header says: the proved library and
//! the second program. A difference is shown with the shortest input found.

pub mod difference;
#[cfg(feature = "library")]
pub mod library;
pub mod material;
pub mod program;
pub mod tables;
pub mod texts;
