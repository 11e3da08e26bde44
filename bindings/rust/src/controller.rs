//! The calls of the camera's controller: those of the crate's root, with smaller limits.
//!
//! A tree has at most 2,000 bytes as records and 8 levels, a text at most 4,000 bytes; [`Refusal::TreeTooLong`],
//! [`Refusal::TooDeep`] and [`Refusal::TextTooLong`] mean these. All else is the same: where both callers accept, their texts
//! are equal, and what the planner's calls accept these refuse only by one of the three, or by [`Refusal::BufferTooShort`].
//!
//! ```
//! use wenduulig::{controller, to_sql, Op, Refusal, Settings, E};
//!
//! let s = Settings::default();
//! let after = E::dyadic(Op::TAfter, E::id("seen"), E::date(2024, 2, 29));
//! assert_eq!(controller::to_sql(&s, &after), to_sql(&s, &after));
//!
//! // Nine levels: the planner takes them, the controller does not.
//! let deep = (0..8).fold(E::Null, |e, _| E::monadic(Op::Neg, e));
//! assert!(to_sql(&s, &deep).is_ok());
//! assert_eq!(controller::to_sql(&s, &deep), Err(Refusal::TooDeep));
//! ```
use crate::ffi::Caller::Controller;
use crate::ffi::Writing;
use crate::{lower, lower_into, preview, Refusal, Settings, E};

/// The length of the longest text, in bytes.
pub const TEXT_MAX: usize = 4_000;

/// [`crate::to_sql`] within the controller's limits.
///
/// # Errors
/// The first refusal of 1 to 8 that document 01's order gives; 2, 4 and 8 by the controller's limits.
pub fn to_sql(settings: &Settings, filter: &E) -> Result<String, Refusal> {
    to_sql_bytes(&settings.encode(), &filter.encode())
}

/// [`crate::to_sql_bytes`] within the controller's limits.
///
/// # Errors
/// Those of [`to_sql`]. Any bytes may be handed in.
pub fn to_sql_bytes(settings: &[u8], tree: &[u8]) -> Result<String, Refusal> {
    lower(Controller, Writing::Rust, settings, tree)
}

/// [`crate::to_sql_into`] within the controller's limits.
///
/// # Errors
/// Those of [`to_sql_bytes`], and 9.
pub fn to_sql_into(settings: &[u8], tree: &[u8], out: &mut [u8]) -> Result<usize, Refusal> {
    lower_into(Controller, Writing::Rust, settings, tree, out)
}

/// [`crate::to_geopackage_sql`] within the controller's limits.
///
/// # Errors
/// Those of [`to_sql`]; 8 counts the text of this call.
pub fn to_geopackage_sql(settings: &Settings, filter: &E) -> Result<String, Refusal> {
    to_geopackage_sql_bytes(&settings.encode(), &filter.encode())
}

/// [`crate::to_geopackage_sql_bytes`] within the controller's limits.
///
/// # Errors
/// Those of [`to_sql_bytes`]; 8 counts the text of this call.
pub fn to_geopackage_sql_bytes(settings: &[u8], tree: &[u8]) -> Result<String, Refusal> {
    lower(Controller, Writing::GeoPackage, settings, tree)
}

/// [`crate::to_geopackage_sql_into`] within the controller's limits.
///
/// # Errors
/// Those of [`to_sql_into`]; 8 and 9 count the text of this call.
pub fn to_geopackage_sql_into(settings: &[u8], tree: &[u8], out: &mut [u8]) -> Result<usize, Refusal> {
    lower_into(Controller, Writing::GeoPackage, settings, tree, out)
}

/// [`crate::preview_sql`] within the controller's limits: what [`to_sql_into`] answers with a buffer of that size. With
/// [`TEXT_MAX`] or more it is never refused with [`Refusal::BufferTooShort`].
///
/// # Errors
/// The first refusal of 1 to 9 that document 01's order gives; 2, 4 and 8 by the controller's limits.
pub fn preview_sql(settings: &Settings, filter: &E, size: usize) -> Result<usize, Refusal> {
    preview_sql_bytes(&settings.encode(), &filter.encode(), size)
}

/// [`crate::preview_sql_bytes`] within the controller's limits.
///
/// # Errors
/// Those of [`preview_sql`]. Any bytes may be handed in.
pub fn preview_sql_bytes(settings: &[u8], tree: &[u8], size: usize) -> Result<usize, Refusal> {
    preview(Controller, Writing::Rust, settings, tree, size)
}

/// [`crate::preview_geopackage_sql`] within the controller's limits.
///
/// # Errors
/// Those of [`preview_sql`]; 8 and 9 count the text of [`to_geopackage_sql`].
pub fn preview_geopackage_sql(settings: &Settings, filter: &E, size: usize) -> Result<usize, Refusal> {
    preview_geopackage_sql_bytes(&settings.encode(), &filter.encode(), size)
}

/// [`crate::preview_geopackage_sql_bytes`] within the controller's limits.
///
/// # Errors
/// Those of [`preview_sql_bytes`]; 8 and 9 count the text of [`to_geopackage_sql_bytes`].
pub fn preview_geopackage_sql_bytes(settings: &[u8], tree: &[u8], size: usize) -> Result<usize, Refusal> {
    preview(Controller, Writing::GeoPackage, settings, tree, size)
}
