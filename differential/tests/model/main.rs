//! The model by itself: what the rules say of their samples, and what must hold of their answers among themselves. Nothing here asks the
//! original.
mod known;
mod patches;
mod reads;
mod tokens;
mod words;
