//! The crate's calls, compared with document 01's cases and with a machine written on its own; and its declarations, held against the source.
mod builder;
mod cases;
mod declarations;
#[cfg(feature = "deques")]
mod deques;
#[cfg(feature = "tables")]
mod designs;
#[cfg(feature = "desk")]
mod desk;
#[cfg(feature = "marks")]
mod marks;
mod model;
mod owned;
#[cfg(feature = "pace")]
mod pace;
mod random;
