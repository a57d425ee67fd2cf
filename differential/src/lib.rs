//! Holds the proved reader to the original, and the proved writer too: what is called, on which texts and masks, and
//! what is compared.

pub mod integers;
pub mod interface;
pub mod library;
pub mod random;
pub mod starts;
pub mod texts;
pub mod writing;

#[cfg(has_original)]
pub mod classes;
#[cfg(has_original)]
pub mod comparison;
#[cfg(has_original)]
pub mod replay;
#[cfg(has_original)]
pub mod trials;

#[cfg(all(test, has_original))]
mod mock;

/// What a program says that was built without the original.
pub const ORIGINAL_MISSING: &str =
    "built without the original: set XBM_RS to the path of xbm.rs and build again";

#[cfg(all(test, not(has_original)))]
#[test]
#[ignore = "skipped: the original xbm.rs was not found, set XBM_RS to its path"]
fn comparison_with_the_original() {}
