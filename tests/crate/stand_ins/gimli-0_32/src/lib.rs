//! An empty crate, for Cargo to find while the features that need the real one are off.
