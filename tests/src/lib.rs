//! A second implementation of document 01, written from the document alone, and cases that compare with it.

pub mod cases;
pub mod ciphers;
pub mod commands;
pub mod fuzz;
pub mod hostile;
pub mod image;
#[cfg(feature = "library")]
pub mod library;
pub mod reference;
pub mod samples;
pub mod streams;

use fuzz::Implementation;

/// The static library, where the feature links it.
#[cfg(feature = "library")]
pub fn linked() -> Option<&'static dyn Implementation> {
    Some(&library::Library)
}

#[cfg(not(feature = "library"))]
pub fn linked() -> Option<&'static dyn Implementation> {
    None
}
