//! The ten C functions of include/wenduulig.h, and nothing else: the only unsafe code of this crate.
#![allow(unsafe_code)]

extern "C" {
    fn wenduulig_to_sql(
        settings: *const u8,
        settings_len: usize,
        tree: *const u8,
        tree_len: usize,
        out: *mut u8,
        out_len: usize,
    ) -> i64;
    fn wenduulig_to_geopackage_sql(
        settings: *const u8,
        settings_len: usize,
        tree: *const u8,
        tree_len: usize,
        out: *mut u8,
        out_len: usize,
    ) -> i64;
    fn wenduulig_preview_sql(
        settings: *const u8,
        settings_len: usize,
        tree: *const u8,
        tree_len: usize,
        size: usize,
    ) -> i64;
    fn wenduulig_preview_geopackage_sql(
        settings: *const u8,
        settings_len: usize,
        tree: *const u8,
        tree_len: usize,
        size: usize,
    ) -> i64;
    fn wenduulig_controller_to_sql(
        settings: *const u8,
        settings_len: usize,
        tree: *const u8,
        tree_len: usize,
        out: *mut u8,
        out_len: usize,
    ) -> i64;
    fn wenduulig_controller_to_geopackage_sql(
        settings: *const u8,
        settings_len: usize,
        tree: *const u8,
        tree_len: usize,
        out: *mut u8,
        out_len: usize,
    ) -> i64;
    fn wenduulig_controller_preview_sql(
        settings: *const u8,
        settings_len: usize,
        tree: *const u8,
        tree_len: usize,
        size: usize,
    ) -> i64;
    fn wenduulig_controller_preview_geopackage_sql(
        settings: *const u8,
        settings_len: usize,
        tree: *const u8,
        tree_len: usize,
        size: usize,
    ) -> i64;
    fn wenduulig_reduce(tree: *const u8, tree_len: usize, out: *mut u8, out_len: usize) -> i64;
    fn wenduulig_read(text: *const u8, text_len: usize, row: *const u8, row_len: usize) -> i32;
}

/// A function that writes.
type Writer = unsafe extern "C" fn(*const u8, usize, *const u8, usize, *mut u8, usize) -> i64;

/// A function that answers what one that writes would.
type Preview = unsafe extern "C" fn(*const u8, usize, *const u8, usize, usize) -> i64;

/// How timestamps and open ends are written: which of the functions that write, and of their previews, is called.
#[derive(Clone, Copy)]
pub(crate) enum Writing {
    /// The text of ogc-cql2.
    Rust,
    /// Timestamps as a GeoPackage stores them, open ends above every instant.
    GeoPackage,
}

/// Whose limits hold.
#[derive(Clone, Copy)]
pub(crate) enum Caller {
    /// 32,768 bytes, 32 levels, 65,535 bytes of text.
    Planner,
    /// 2,000 bytes, 8 levels, 4,000 bytes of text.
    Controller,
}

/// The text's length, or minus the refusal's number.
pub(crate) fn lower(caller: Caller, writing: Writing, settings: &[u8], tree: &[u8], out: &mut [u8]) -> i64 {
    let writer: Writer = match (caller, writing) {
        (Caller::Planner, Writing::Rust) => wenduulig_to_sql,
        (Caller::Planner, Writing::GeoPackage) => wenduulig_to_geopackage_sql,
        (Caller::Controller, Writing::Rust) => wenduulig_controller_to_sql,
        (Caller::Controller, Writing::GeoPackage) => wenduulig_controller_to_geopackage_sql,
    };
    // SAFETY: each pointer is a slice's, not null and valid for its length; `out` is lent exclusively, so it overlaps
    // neither of the others; no function keeps a pointer.
    unsafe { writer(settings.as_ptr(), settings.len(), tree.as_ptr(), tree.len(), out.as_mut_ptr(), out.len()) }
}

/// What [`lower`] answers with an `out` of this size.
pub(crate) fn preview(caller: Caller, writing: Writing, settings: &[u8], tree: &[u8], size: usize) -> i64 {
    let preview: Preview = match (caller, writing) {
        (Caller::Planner, Writing::Rust) => wenduulig_preview_sql,
        (Caller::Planner, Writing::GeoPackage) => wenduulig_preview_geopackage_sql,
        (Caller::Controller, Writing::Rust) => wenduulig_controller_preview_sql,
        (Caller::Controller, Writing::GeoPackage) => wenduulig_controller_preview_geopackage_sql,
    };
    // SAFETY: both pointers are slices', not null and valid for their lengths; the function only reads and keeps nothing.
    unsafe { preview(settings.as_ptr(), settings.len(), tree.as_ptr(), tree.len(), size) }
}

/// The reduced tree's length, or minus the refusal's number.
pub(crate) fn reduce(tree: &[u8], out: &mut [u8]) -> i64 {
    // SAFETY: each pointer is a slice's, not null and valid for its length; `out` is lent exclusively, so it does not overlap
    // the other; the function keeps no pointer.
    unsafe { wenduulig_reduce(tree.as_ptr(), tree.len(), out.as_mut_ptr(), out.len()) }
}

/// 1 true, 0 false, 2 unknown, or minus the refusal's number.
pub(crate) fn read(text: &[u8], row: &[u8]) -> i32 {
    // SAFETY: both pointers are slices', not null and valid for their lengths; the function only reads and keeps nothing.
    unsafe { wenduulig_read(text.as_ptr(), text.len(), row.as_ptr(), row.len()) }
}
