//! The calls of weltiyo.h, as they are.

/// What a handle points to, which is the library's own.
#[repr(C)]
#[derive(Debug)]
pub(crate) struct Handle {
    _private: [u8; 0],
}

/// `weltiyo_value`.
#[repr(C)]
#[derive(Clone, Copy, Debug, Default)]
pub(crate) struct Cell {
    pub(crate) kind: u32,
    pub(crate) integer: i64,
    pub(crate) at: usize,
    pub(crate) length: usize,
}

pub(crate) const INT: u32 = 0;
pub(crate) const TEXT: u32 = 1;
pub(crate) const FALSE: u32 = 2;
pub(crate) const TRUE: u32 = 3;

/// `weltiyo_edit`.
#[repr(C)]
#[derive(Clone, Copy, Debug)]
pub(crate) struct CellEdit {
    pub(crate) kind: u32,
    pub(crate) column: usize,
    pub(crate) value: Cell,
}

pub(crate) const PUT: u32 = 0;
pub(crate) const ADD: u32 = 1;

/// The ends of a range.
pub(crate) const OPEN: u32 = 0;
pub(crate) const INCLUDED: u32 = 1;
pub(crate) const EXCLUDED: u32 = 2;

/// `weltiyo_told`.
#[repr(C)]
#[derive(Clone, Copy, Debug)]
pub(crate) struct Told {
    pub(crate) status: u32,
    pub(crate) index: u32,
    pub(crate) number: u64,
}

/// `weltiyo_field`.
#[repr(C)]
#[derive(Clone, Copy, Debug)]
pub(crate) struct Field {
    pub(crate) status: u32,
    pub(crate) kind: u32,
    pub(crate) integer: i64,
}

/// The statuses that are told apart here: there is no such column, or no such row, a unique index refuses, there is no room for what is answered, and
/// no row is left.
pub(crate) const REFUSED_ROW: u32 = 8;
pub(crate) const REFUSED_ID: u32 = 10;
pub(crate) const REFUSED_UNIQUE: u32 = 14;
pub(crate) const NO_ROOM: u32 = 19;
pub(crate) const END: u32 = 20;

/// The most rows that a page has.
pub(crate) const MOST_ROWS: usize = 1000;

/// Room that any row fits.
pub(crate) const ROW_CELLS: usize = 16;
pub(crate) const ROW_TEXTS: usize = 16 * 1024;

extern "C" {
    pub(crate) fn weltiyo_open(schema: *const u8, length: usize, secret: u64, handle: *mut *mut Handle) -> u32;
    pub(crate) fn weltiyo_reply(handle: *mut Handle, from: usize, out: *mut u8, room: usize) -> usize;
    pub(crate) fn weltiyo_ask(handle: *mut Handle, connection: u64, line: *const u8, length: usize, out: *mut u8, room: usize) -> usize;
    pub(crate) fn weltiyo_release(handle: *mut Handle, connection: u64);
    pub(crate) fn weltiyo_close(handle: *mut Handle);

    pub(crate) fn weltiyo_insert(
        handle: *mut Handle, connection: u64, table: usize, row: *const Cell, count: usize, texts: *const u8, length: usize,
    ) -> Told;
    pub(crate) fn weltiyo_replace(
        handle: *mut Handle, connection: u64, table: usize, id: u64, row: *const Cell, count: usize, texts: *const u8, length: usize,
    ) -> Told;
    pub(crate) fn weltiyo_modify_add(
        handle: *mut Handle, connection: u64, table: usize, id: u64, column: usize, number: i64, rollback: u32,
    ) -> Told;
    pub(crate) fn weltiyo_erase(handle: *mut Handle, connection: u64, table: usize, id: u64) -> Told;
    pub(crate) fn weltiyo_get(
        handle: *mut Handle, table: usize, id: u64, row: *mut Cell, count: usize, texts: *mut u8, room: usize,
    ) -> Told;
    pub(crate) fn weltiyo_start(handle: *mut Handle, connection: u64) -> Told;
    pub(crate) fn weltiyo_undo(handle: *mut Handle, connection: u64) -> Told;
    pub(crate) fn weltiyo_squash(handle: *mut Handle, connection: u64) -> Told;
    pub(crate) fn weltiyo_commit(handle: *mut Handle, connection: u64, number: u64) -> Told;
    pub(crate) fn weltiyo_undo_all(handle: *mut Handle, connection: u64) -> Told;
    pub(crate) fn weltiyo_push(handle: *mut Handle, connection: u64) -> Told;
    pub(crate) fn weltiyo_insert_before(
        handle: *mut Handle, connection: u64, table: usize, row: *const Cell, count: usize, texts: *const u8, length: usize, index: usize,
        before: u64,
    ) -> Told;
    pub(crate) fn weltiyo_modify(
        handle: *mut Handle, connection: u64, table: usize, id: u64, edits: *const CellEdit, count: usize, texts: *const u8, length: usize,
        rollback: u32,
    ) -> Told;
    pub(crate) fn weltiyo_erase_key(
        handle: *mut Handle, connection: u64, table: usize, index: usize, key: *const Cell, count: usize, texts: *const u8, length: usize,
    ) -> Told;
    pub(crate) fn weltiyo_relocate(
        handle: *mut Handle, connection: u64, table: usize, index: usize, id: u64, has_before: u32, before: u64,
    ) -> Told;
    pub(crate) fn weltiyo_table(handle: *mut Handle, name: *const u8, length: usize) -> Told;
    pub(crate) fn weltiyo_index(handle: *mut Handle, table: usize, name: *const u8, length: usize) -> Told;
    pub(crate) fn weltiyo_column(handle: *mut Handle, table: usize, name: *const u8, length: usize) -> Told;
    pub(crate) fn weltiyo_schema(handle: *mut Handle, out: *mut u8, room: usize) -> Told;
    pub(crate) fn weltiyo_size(handle: *mut Handle, table: usize) -> Told;
    pub(crate) fn weltiyo_find(
        handle: *mut Handle, table: usize, index: usize, key: *const Cell, key_count: usize, key_texts: *const u8, key_length: usize,
        row: *mut Cell, count: usize, texts: *mut u8, room: usize,
    ) -> Told;
    pub(crate) fn weltiyo_count(
        handle: *mut Handle, table: usize, index: usize, key: *const Cell, count: usize, texts: *const u8, length: usize,
    ) -> Told;
    pub(crate) fn weltiyo_rank(handle: *mut Handle, table: usize, index: usize, id: u64) -> Told;
    pub(crate) fn weltiyo_lower_rank(
        handle: *mut Handle, table: usize, index: usize, key: *const Cell, count: usize, texts: *const u8, length: usize,
    ) -> Told;
    pub(crate) fn weltiyo_upper_rank(
        handle: *mut Handle, table: usize, index: usize, key: *const Cell, count: usize, texts: *const u8, length: usize,
    ) -> Told;
    pub(crate) fn weltiyo_nth(
        handle: *mut Handle, table: usize, index: usize, n: u64, row: *mut Cell, count: usize, texts: *mut u8, room: usize,
    ) -> Told;
    pub(crate) fn weltiyo_range(
        handle: *mut Handle, table: usize, index: usize, lower: u32, lower_key: *const Cell, lower_count: usize, upper: u32,
        upper_key: *const Cell, upper_count: usize, key_texts: *const u8, key_length: usize, reverse: u32, ids: *mut u64, most: usize,
        rows: *mut Cell, values: usize, texts: *mut u8, room: usize,
    ) -> Told;
    pub(crate) fn weltiyo_list(
        handle: *mut Handle, table: usize, index: usize, has_after: u32, after: u64, ids: *mut u64, most: usize, rows: *mut Cell,
        values: usize, texts: *mut u8, room: usize,
    ) -> Told;
    pub(crate) fn weltiyo_seek_id(
        handle: *mut Handle, table: usize, index: usize, key: *const Cell, count: usize, texts: *const u8, length: usize, beyond: u32,
    ) -> Told;
    pub(crate) fn weltiyo_first_id(handle: *mut Handle, table: usize, index: usize) -> Told;
    pub(crate) fn weltiyo_last_id(handle: *mut Handle, table: usize, index: usize) -> Told;
    pub(crate) fn weltiyo_step_id(handle: *mut Handle, table: usize, index: usize, id: u64, back: u32) -> Told;
    pub(crate) fn weltiyo_has_id(handle: *mut Handle, table: usize, id: u64) -> Told;
    pub(crate) fn weltiyo_field_of(handle: *mut Handle, table: usize, id: u64, column: usize) -> Field;
    pub(crate) fn weltiyo_text_in(handle: *mut Handle, table: usize, id: u64, column: usize, out: *mut u8, room: usize) -> Told;
}
