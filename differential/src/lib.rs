//! The proved library beside a model of its rules, and the model beside the original Rust.

pub mod answer;
#[cfg(original)]
pub mod beside;
pub mod compare;
#[cfg(original)]
pub mod departures;
pub mod escapes;
pub mod known_patches;
pub mod lent;
pub mod listings;
pub mod model;
#[cfg(original)]
pub mod original;
pub mod patch_call;
pub mod recorded;
#[cfg(original)]
pub mod recording;
#[cfg(original)]
pub mod respelled;
pub mod samples;
pub mod sources;
pub mod timing;
