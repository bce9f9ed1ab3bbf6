//! Weltiyo in the process of its caller: a [`Database`] that is closed where it is dropped, and a [`Session`] that undoes what was done in it
//! unless it is squashed or pushed.
//!
//! ```
//! # use std::ops::Bound;
//! # fn main() -> Result<(), weltiyo::Error> {
//! let mut db = weltiyo::Database::open("")?; // the built-in table
//! db.ask(r#"{"cmd":"insert","row":{"owner":"ann","balance":50,"vip":false}}"#)?;
//! {
//!     let mut session = db.session()?;
//!     session.ask(r#"{"cmd":"modify","id":0,"add":{"balance":-20}}"#)?;
//!     session.squash()?; // without this the block is undone
//! }
//! let id = db.insert(0, &["bob".into(), 7.into(), true.into()])?; // the same commands with values in place of a line
//! db.add(0, id, 1, -2)?;
//! let mut page = weltiyo::Page::new(10);
//! db.range(&mut page, 0, 2, (Bound::Included(&[5.into()][..]), Bound::Unbounded), false)?; // (index 2 is `by_balance`; 0 is the one of ids)
//! for row in &page {
//!     println!("{} {:?} {:?}", row.id(), row.text(0), row.int(1));
//! }
//! # Ok(())
//! # }
//! ```
//!
//! A line is a JSON object with a command, and its reply the same bytes that the program `mi_server` answers to it. A database stays on the
//! thread that opened it, so it is neither `Send` nor `Sync`.
mod page;
mod raw;
mod scan;
mod sessions;

pub use page::{Page, Row, Rows};
pub use scan::{FromColumn, Named, Scan, Seen};

use sessions::Sessions;
use std::cell::RefCell;
use std::collections::hash_map::RandomState;
use std::error;
use std::fmt;
use std::hash::{BuildHasher, Hasher};
use std::marker::PhantomData;
use std::ops::{Bound, Deref, DerefMut, RangeBounds};
use std::ptr::{self, NonNull};
use std::rc::Rc;

/// The bytes that a line may have.
pub const LONGEST_LINE: usize = 65_536;

/// The connection that is asked as where none is named.
pub const OWN: u64 = 1;

/// The bytes of a reply that are fetched with it.
const USUAL: usize = 256;

/// How a refusal begins, and no other reply.
const REFUSAL: &str = "{\"error\":\"";

/// Why a database isn't opened, or a command not done.
#[derive(Clone, Debug, PartialEq, Eq)]
pub enum Error {
    /// The schema opens nothing; its word, as the program prints it behind `schema: `.
    Schema(&'static str),
    /// A command was refused; the whole reply. That of a call with values is the line's, but where a unique index refuses it has the index's
    /// number in place of its name, and no `lost`, since such a call rolls back.
    Refused(String),
}

impl Error {
    /// The word of it: `twice` of a schema, `busy` of a refusal. What is no refusal's reply has none.
    pub fn word(&self) -> &str {
        match self {
            Error::Schema(word) => word,
            Error::Refused(reply) => reply.strip_prefix(REFUSAL).and_then(|rest| rest.split('"').next()).unwrap_or(""),
        }
    }

    /// The id of the record that has the key, where a unique index refuses.
    pub fn id(&self) -> Option<u64> {
        self.member("\"id\":")?.parse().ok()
    }

    /// The unique index that refuses: its name, or its number where the command was a call with values.
    pub fn index(&self) -> Option<&str> {
        Some(self.member("\"index\":")?.trim_matches('"'))
    }

    /// Whether the record that was to be modified is erased.
    pub fn is_lost(&self) -> bool {
        self.member("\"lost\":") == Some("true")
    }

    /// What stands behind the name of a member in the reply of a refusal.
    fn member(&self, name: &str) -> Option<&str> {
        match self {
            Error::Refused(reply) if reply.starts_with(REFUSAL) => reply.split_once(name)?.1.split([',', '}']).next(),
            _ => None,
        }
    }
}

impl fmt::Display for Error {
    fn fmt(&self, f: &mut fmt::Formatter<'_>) -> fmt::Result {
        match self {
            Error::Schema(word) => write!(f, "schema: {word}"),
            Error::Refused(reply) => f.write_str(reply),
        }
    }
}

impl error::Error for Error {}

/// The word of a status of `weltiyo_open`.
fn word_of(status: u32) -> &'static str {
    const WORDS: [&str; 12] = ["ok", "memory", "file", "toml", "shape", "name", "twice", "type", "kind", "key", "limit", "number"];
    WORDS.get(status as usize).copied().unwrap_or("unknown")
}

/// The word of a refusal of a call with values.
fn refusal_of(status: u32) -> &'static str {
    const WORDS: [&str; 21] = [
        "ok", "line", "json", "form", "busy", "table", "index", "kind", "row", "key", "id", "range", "full", "spent", "unique", "unique", "depth",
        "session", "memory", "room", "end",
    ];
    WORDS.get(status as usize).copied().unwrap_or("unknown")
}

/// What a call with values told: a number, or why it was refused.
fn number_of(told: raw::Told) -> Result<u64, Error> {
    let members = match told.status {
        0 => return Ok(told.number),
        raw::REFUSED_UNIQUE => format!("\"id\":{},\"index\":{},", told.number, told.index),
        _ => String::new(),
    };
    Err(Error::Refused(format!("{REFUSAL}{}\",{members}\"ok\":false}}", refusal_of(told.status))))
}

/// A value of a row.
#[derive(Clone, Debug, PartialEq, Eq)]
pub enum Value {
    Int(i64),
    Flag(bool),
    Text(String),
}

impl From<i64> for Value {
    fn from(number: i64) -> Value {
        Value::Int(number)
    }
}

impl From<bool> for Value {
    fn from(flag: bool) -> Value {
        Value::Flag(flag)
    }
}

impl From<&str> for Value {
    fn from(text: &str) -> Value {
        Value::Text(text.to_owned())
    }
}

impl Value {
    /// The value as C takes it; a text goes behind the others.
    fn laid(&self, texts: &mut Vec<u8>) -> raw::Cell {
        match self {
            Value::Int(number) => raw::Cell { kind: raw::INT, integer: *number, ..Default::default() },
            Value::Flag(flag) => raw::Cell { kind: if *flag { raw::TRUE } else { raw::FALSE }, ..Default::default() },
            Value::Text(text) => {
                let at = texts.len();
                texts.extend_from_slice(text.as_bytes());
                raw::Cell { kind: raw::TEXT, at, length: text.len(), ..Default::default() }
            }
        }
    }

    /// The value of a cell that was filled, or none.
    fn of(cell: &raw::Cell, texts: &[u8]) -> Option<Value> {
        match cell.kind {
            raw::INT => Some(Value::Int(cell.integer)),
            raw::TEXT => Some(Value::Text(String::from_utf8_lossy(&texts[cell.at..cell.at + cell.length]).into_owned())),
            raw::FALSE | raw::TRUE => Some(Value::Flag(cell.kind == raw::TRUE)),
            _ => None,
        }
    }
}

/// An edit of a column, which goes by its number.
#[derive(Clone, Debug, PartialEq, Eq)]
pub enum Edit {
    /// The column gets a value.
    Put(usize, Value),
    /// A number is added to a column of whole numbers.
    Add(usize, i64),
}

impl Edit {
    /// The edit as C takes it; a text goes behind the others.
    fn laid(&self, texts: &mut Vec<u8>) -> raw::CellEdit {
        match self {
            Edit::Put(column, value) => raw::CellEdit { kind: raw::PUT, column: *column, value: value.laid(texts) },
            Edit::Add(column, number) => raw::CellEdit { kind: raw::ADD, column: *column, value: Value::Int(*number).laid(texts) },
        }
    }
}

/// Values as C takes them, and their texts one behind another.
fn laid(row: &[Value]) -> (Vec<raw::Cell>, Vec<u8>) {
    let mut texts = Vec::new();
    (row.iter().map(|value| value.laid(&mut texts)).collect(), texts)
}

/// The kind of an end of a range, and its key.
fn end_of(end: Bound<&[Value]>) -> (u32, &[Value]) {
    match end {
        Bound::Unbounded => (raw::OPEN, &[]),
        Bound::Included(key) => (raw::INCLUDED, key),
        Bound::Excluded(key) => (raw::EXCLUDED, key),
    }
}

/// What a call tells that copies a row, and the row where there is one.
fn copied(call: impl FnOnce(&mut [raw::Cell], &mut [u8]) -> raw::Told) -> (raw::Told, Vec<Value>) {
    // (what isn't written stays of a kind that there isn't)
    let mut cells = [raw::Cell { kind: raw::TRUE + 1, ..Default::default() }; raw::ROW_CELLS];
    let mut texts = [0; raw::ROW_TEXTS];
    let told = call(&mut cells, &mut texts);
    let row = if told.status == 0 { cells.iter().map_while(|cell| Value::of(cell, &texts)).collect() } else { Vec::new() };
    (told, row)
}

/// The id and the row that a call copies, or none where there is no such row.
fn if_there(call: impl FnOnce(&mut [raw::Cell], &mut [u8]) -> raw::Told) -> Result<Option<(u64, Vec<Value>)>, Error> {
    let (told, row) = copied(call);
    if told.status == raw::REFUSED_ID {
        return Ok(None);
    }
    Ok(Some((number_of(told)?, row)))
}

/// A step that ends the newest session.
type Step = unsafe extern "C" fn(*mut raw::Handle, u64) -> raw::Told;

/// A handle that is open until it is dropped.
#[derive(Debug)]
struct Opened {
    handle: NonNull<raw::Handle>,
    sessions: RefCell<Sessions>,
}

impl Opened {
    fn as_ptr(&self) -> *mut raw::Handle {
        self.handle.as_ptr()
    }

    /// Undoes or squashes the newest session.
    fn end_newest(&self, step: Step) -> Result<(), Error> {
        // SAFETY: the handle was opened on this thread, which it can't leave, and isn't closed; no other call is under way.
        let revision = number_of(unsafe { step(self.as_ptr(), OWN) })?;
        self.sessions.borrow_mut().ended(revision);
        Ok(())
    }

    /// Undoes or squashes the session of a guard, and ahead of it those that were begun in it.
    fn end(&self, guard: u64, step: Step) -> Result<(), Error> {
        let count = self.sessions.borrow().down_to(guard);
        let mut ended = if count == 0 { Err(Error::Refused(format!("{REFUSAL}session\",\"ok\":false}}"))) } else { Ok(()) };
        for _ in 0..count {
            ended = ended.and_then(|()| self.end_newest(step));
        }
        self.sessions.borrow_mut().disown(guard);
        ended
    }
}

impl Drop for Opened {
    fn drop(&mut self) {
        // SAFETY: as in `end_newest`; nothing uses the handle behind this.
        unsafe { raw::weltiyo_close(self.as_ptr()) }
    }
}

/// A database of its own tables. It is closed where it is dropped, but not before the sessions that were begun in it have ended.
///
/// ```compile_fail,E0277
/// let db = weltiyo::Database::open("").unwrap();
/// std::thread::spawn(move || drop(db)); // (a database stays on its thread)
/// ```
#[derive(Debug)]
pub struct Database {
    handle: Rc<Opened>,
    /// How many columns each table has, of those that were asked; a catalog has at most 16 tables.
    columns: [u32; 16],
    on_its_thread: PhantomData<*mut ()>,
}

impl Database {
    /// Opens the tables of a schema in TOML; no text stands for the built-in table. A random secret is mixed into the hashes of keys.
    pub fn open(schema: impl AsRef<[u8]>) -> Result<Database, Error> {
        Database::open_with(schema, RandomState::new().build_hasher().finish())
    }

    /// The same with a secret of the caller's. No answer depends on it.
    pub fn open_with(schema: impl AsRef<[u8]>, secret: u64) -> Result<Database, Error> {
        let (schema, mut handle) = (schema.as_ref(), ptr::null_mut());
        // SAFETY: the text is a slice, which is never null, and the handle a place of its own.
        let status = unsafe { raw::weltiyo_open(schema.as_ptr(), schema.len(), secret, &mut handle) };
        match NonNull::new(handle) {
            Some(handle) if status == 0 => {
                let opened = Opened { handle, sessions: RefCell::default() };
                Ok(Database { handle: Rc::new(opened), columns: [0; 16], on_its_thread: PhantomData })
            }
            _ => Err(Error::Schema(word_of(status))),
        }
    }

    /// The reply to a line of a connection, whatever it says. Connections differ in what sessions they hold; the other calls here ask as
    /// connection [`OWN`].
    pub fn answer(&mut self, connection: u64, line: impl AsRef<[u8]>) -> String {
        let line = line.as_ref();
        let mut reply = vec![0; USUAL];
        // SAFETY: the handle was opened on this thread, which it can't leave, and isn't closed; no other call is under way; the slices lie apart.
        let length =
            unsafe { raw::weltiyo_ask(self.handle.as_ptr(), connection, line.as_ptr(), line.len(), reply.as_mut_ptr(), reply.len()) };
        reply.resize(length, 0);
        if length > USUAL {
            let rest = &mut reply[USUAL..];
            // SAFETY: as above.
            unsafe { raw::weltiyo_reply(self.handle.as_ptr(), USUAL, rest.as_mut_ptr(), rest.len()) };
        }
        let reply = String::from_utf8(reply).expect("a reply is text");
        self.handle.sessions.borrow_mut().heard(connection, &reply);
        reply
    }

    /// The reply to a line that is accepted.
    pub fn ask(&mut self, line: impl AsRef<[u8]>) -> Result<String, Error> {
        let reply = self.answer(OWN, line);
        if reply.starts_with(REFUSAL) {
            return Err(Error::Refused(reply));
        }
        Ok(reply)
    }

    /// Adds a row, a value for each column, and answers its id. Tables and columns go by their numbers here, from 0 on; of the indexes the one
    /// of ids has the number 0, and those of the schema follow.
    pub fn insert(&mut self, table: usize, row: &[Value]) -> Result<u64, Error> {
        let (cells, texts) = laid(row);
        // SAFETY: as in `answer`; slices are never null.
        number_of(unsafe {
            raw::weltiyo_insert(self.handle.as_ptr(), OWN, table, cells.as_ptr(), cells.len(), texts.as_ptr(), texts.len())
        })
    }

    /// The same, and in the sequenced index of that number the row stands directly before the row `before`.
    pub fn insert_before(&mut self, table: usize, row: &[Value], index: usize, before: u64) -> Result<u64, Error> {
        let (cells, texts) = laid(row);
        // SAFETY: as in `insert`.
        number_of(unsafe {
            raw::weltiyo_insert_before(
                self.handle.as_ptr(), OWN, table, cells.as_ptr(), cells.len(), texts.as_ptr(), texts.len(), index, before,
            )
        })
    }

    /// Sets another row for an id.
    pub fn replace(&mut self, table: usize, id: u64, row: &[Value]) -> Result<(), Error> {
        let (cells, texts) = laid(row);
        // SAFETY: as in `insert`.
        number_of(unsafe {
            raw::weltiyo_replace(self.handle.as_ptr(), OWN, table, id, cells.as_ptr(), cells.len(), texts.as_ptr(), texts.len())
        })
        .map(drop)
    }

    /// Adds a number to a column. Where a unique index refuses the result, nothing changes.
    pub fn add(&mut self, table: usize, id: u64, column: usize, number: i64) -> Result<(), Error> {
        // SAFETY: as in `answer`.
        number_of(unsafe { raw::weltiyo_modify_add(self.handle.as_ptr(), OWN, table, id, column, number, 1) }).map(drop)
    }

    /// Makes edits, each of a column of its own. Where a unique index refuses the result, nothing changes.
    pub fn modify(&mut self, table: usize, id: u64, edits: &[Edit]) -> Result<(), Error> {
        let mut texts = Vec::new();
        let made: Vec<_> = edits.iter().map(|edit| edit.laid(&mut texts)).collect();
        // SAFETY: as in `insert`.
        number_of(unsafe {
            raw::weltiyo_modify(self.handle.as_ptr(), OWN, table, id, made.as_ptr(), made.len(), texts.as_ptr(), texts.len(), 1)
        })
        .map(drop)
    }

    /// Erases a row.
    pub fn erase(&mut self, table: usize, id: u64) -> Result<(), Error> {
        // SAFETY: as in `answer`.
        number_of(unsafe { raw::weltiyo_erase(self.handle.as_ptr(), OWN, table, id) }).map(drop)
    }

    /// Erases every row of a whole key, and answers how many.
    pub fn erase_key(&mut self, table: usize, index: usize, key: &[Value]) -> Result<u64, Error> {
        let (cells, texts) = laid(key);
        // SAFETY: as in `insert`.
        number_of(unsafe {
            raw::weltiyo_erase_key(
                self.handle.as_ptr(), OWN, table, index, cells.as_ptr(), cells.len(), texts.as_ptr(), texts.len(),
            )
        })
    }

    /// Moves a row of a sequenced index directly before another, or to its end.
    pub fn relocate(&mut self, table: usize, index: usize, id: u64, before: Option<u64>) -> Result<(), Error> {
        let (has_before, before) = (before.is_some().into(), before.unwrap_or(0));
        // SAFETY: as in `answer`.
        number_of(unsafe { raw::weltiyo_relocate(self.handle.as_ptr(), OWN, table, index, id, has_before, before) }).map(drop)
    }

    /// The number of the table of a name; an error, with the word `table`, where there is none.
    pub fn table(&mut self, name: &str) -> Result<usize, Error> {
        // SAFETY: as in `answer`.
        number_of(unsafe { raw::weltiyo_table(self.handle.as_ptr(), name.as_ptr(), name.len()) }).map(|it| it as usize)
    }

    /// The number of the index of a name; an error, with the word `table` or `index`, where there is none.
    pub fn index(&mut self, table: usize, name: &str) -> Result<usize, Error> {
        // SAFETY: as in `answer`.
        number_of(unsafe { raw::weltiyo_index(self.handle.as_ptr(), table, name.as_ptr(), name.len()) }).map(|it| it as usize)
    }

    /// The number of the column of a name; an error, with the word `table` or `row`, where there is none.
    pub fn column(&mut self, table: usize, name: &str) -> Result<usize, Error> {
        // SAFETY: as in `answer`.
        number_of(unsafe { raw::weltiyo_column(self.handle.as_ptr(), table, name.as_ptr(), name.len()) }).map(|it| it as usize)
    }

    /// The text of the schema: the one that was opened, and of the built-in table one that describes it.
    pub fn schema(&mut self) -> Result<String, Error> {
        let handle = self.handle.as_ptr();
        // SAFETY: as in `answer`; nothing is written where there is no room.
        let wanted = unsafe { raw::weltiyo_schema(handle, NonNull::dangling().as_ptr(), 0) };
        let mut text = vec![0; wanted.number as usize];
        // SAFETY: as in `answer`.
        number_of(unsafe { raw::weltiyo_schema(handle, text.as_mut_ptr(), text.len()) })?;
        Ok(String::from_utf8_lossy(&text).into_owned())
    }

    /// How many rows a table has.
    pub fn size(&mut self, table: usize) -> Result<u64, Error> {
        // SAFETY: as in `answer`.
        number_of(unsafe { raw::weltiyo_size(self.handle.as_ptr(), table) })
    }

    /// The row of an id.
    pub fn get(&mut self, table: usize, id: u64) -> Result<Vec<Value>, Error> {
        let handle = self.handle.as_ptr();
        // SAFETY: as in `insert`; the slices lie apart.
        let (told, row) = copied(|cells, texts| unsafe {
            raw::weltiyo_get(handle, table, id, cells.as_mut_ptr(), cells.len(), texts.as_mut_ptr(), texts.len())
        });
        number_of(told).map(|_| row)
    }

    /// The id and the row of the first that has a key, or in an ordered or ranked index the first values of one; none where there is none.
    pub fn find(&mut self, table: usize, index: usize, key: &[Value]) -> Result<Option<(u64, Vec<Value>)>, Error> {
        let (handle, (key, key_texts)) = (self.handle.as_ptr(), laid(key));
        // SAFETY: as in `get`.
        if_there(|cells, texts| unsafe {
            raw::weltiyo_find(
                handle, table, index, key.as_ptr(), key.len(), key_texts.as_ptr(), key_texts.len(), cells.as_mut_ptr(), cells.len(),
                texts.as_mut_ptr(), texts.len(),
            )
        })
    }

    /// The id and the row of a ranked index before which `n` others stand, if there is one.
    pub fn nth(&mut self, table: usize, index: usize, n: u64) -> Result<Option<(u64, Vec<Value>)>, Error> {
        let handle = self.handle.as_ptr();
        // SAFETY: as in `get`.
        if_there(|cells, texts| unsafe {
            raw::weltiyo_nth(handle, table, index, n, cells.as_mut_ptr(), cells.len(), texts.as_mut_ptr(), texts.len())
        })
    }

    /// How many rows have a key, or in an ordered or ranked index the first values of one.
    pub fn count(&mut self, table: usize, index: usize, key: &[Value]) -> Result<u64, Error> {
        let (cells, texts) = laid(key);
        // SAFETY: as in `insert`.
        number_of(unsafe {
            raw::weltiyo_count(self.handle.as_ptr(), table, index, cells.as_ptr(), cells.len(), texts.as_ptr(), texts.len())
        })
    }

    /// How many rows stand before the row of an id in a ranked index.
    pub fn rank(&mut self, table: usize, index: usize, id: u64) -> Result<u64, Error> {
        // SAFETY: as in `answer`.
        number_of(unsafe { raw::weltiyo_rank(self.handle.as_ptr(), table, index, id) })
    }

    /// How many rows of a ranked index have a key that is less than this one, or than the first values of one.
    pub fn lower_rank(&mut self, table: usize, index: usize, key: &[Value]) -> Result<u64, Error> {
        let (cells, texts) = laid(key);
        // SAFETY: as in `insert`.
        number_of(unsafe {
            raw::weltiyo_lower_rank(self.handle.as_ptr(), table, index, cells.as_ptr(), cells.len(), texts.as_ptr(), texts.len())
        })
    }

    /// How many rows of a ranked index have a key that isn't greater than this one, or than the first values of one.
    pub fn upper_rank(&mut self, table: usize, index: usize, key: &[Value]) -> Result<u64, Error> {
        let (cells, texts) = laid(key);
        // SAFETY: as in `insert`.
        number_of(unsafe {
            raw::weltiyo_upper_rank(self.handle.as_ptr(), table, index, cells.as_ptr(), cells.len(), texts.as_ptr(), texts.len())
        })
    }

    /// Fills a page with the first rows between two bounds of an ordered or ranked index: `..` or a pair of `Bound`s, whose keys may be the
    /// first values of one. In reverse it begins with the last of them. Refused, the page is empty.
    pub fn range(
        &mut self,
        page: &mut Page,
        table: usize,
        index: usize,
        bounds: impl RangeBounds<[Value]>,
        reverse: bool,
    ) -> Result<(), Error> {
        let ((lower, lower_key), (upper, upper_key)) = (end_of(bounds.start_bound()), end_of(bounds.end_bound()));
        let (mut keys, mut key_texts) = (std::mem::take(&mut page.keys), std::mem::take(&mut page.key_texts));
        keys.clear();
        key_texts.clear();
        keys.extend(lower_key.iter().chain(upper_key).map(|value| value.laid(&mut key_texts)));
        let (low, high) = keys.split_at(lower_key.len());
        // SAFETY: as in `get`.
        let filled = self.fill(page, table, |handle, to| unsafe {
            raw::weltiyo_range(
                handle, table, index, lower, low.as_ptr(), low.len(), upper, high.as_ptr(), high.len(), key_texts.as_ptr(), key_texts.len(),
                reverse.into(), to.ids.as_mut_ptr(), to.ids.len(), to.cells.as_mut_ptr(), to.cells.len(), to.texts.as_mut_ptr(),
                to.texts.len(),
            )
        });
        page.keys = keys;
        page.key_texts = key_texts;
        filled
    }

    /// Fills a page with the first rows of a sequenced index, or of those behind a row. Refused, the page is empty.
    pub fn list(&mut self, page: &mut Page, table: usize, index: usize, after: Option<u64>) -> Result<(), Error> {
        let (has_after, after) = (after.is_some().into(), after.unwrap_or(0));
        // SAFETY: as in `get`.
        self.fill(page, table, |handle, to| unsafe {
            raw::weltiyo_list(
                handle, table, index, has_after, after, to.ids.as_mut_ptr(), to.ids.len(), to.cells.as_mut_ptr(), to.cells.len(),
                to.texts.as_mut_ptr(), to.texts.len(),
            )
        })
    }

    /// Fills a page by a call, which is made again where it wants more room.
    fn fill(&mut self, page: &mut Page, table: usize, call: impl Fn(*mut raw::Handle, page::Room<'_>) -> raw::Told) -> Result<(), Error> {
        let handle = self.handle.as_ptr();
        let mut told = call(handle, page.room());
        if told.status == raw::NO_ROOM {
            page.grow(told.index as usize, told.number as usize);
            told = call(handle, page.room());
        }
        let count = number_of(told)? as usize;
        let columns = if count == 0 { 0 } else { self.column_count(table, page.first_id()) };
        page.set(count, columns, told.index != 0);
        Ok(())
    }

    /// How many columns a table has, which is asked once: the row of an id wants a value for each.
    fn column_count(&mut self, table: usize, id: u64) -> usize {
        if self.columns[table] == 0 {
            let (mut cells, mut texts): ([raw::Cell; 0], [u8; 0]) = ([], []);
            // SAFETY: as in `get`.
            let told = unsafe { raw::weltiyo_get(self.handle.as_ptr(), table, id, cells.as_mut_ptr(), 0, texts.as_mut_ptr(), 0) };
            self.columns[table] = told.index;
        }
        self.columns[table] as usize
    }

    /// Undoes the newest session. It takes no memory.
    pub fn undo(&mut self) -> Result<(), Error> {
        self.handle.end_newest(raw::weltiyo_undo)
    }

    /// Joins the newest session into the one below.
    pub fn squash(&mut self) -> Result<(), Error> {
        self.handle.end_newest(raw::weltiyo_squash)
    }

    /// Ends the sessions up to the one of this revision, and answers how many: what was done in them can't be undone any more.
    pub fn commit(&mut self, revision: u64) -> Result<u64, Error> {
        // SAFETY: as in `answer`.
        let count = number_of(unsafe { raw::weltiyo_commit(self.handle.as_ptr(), OWN, revision) })?;
        self.handle.sessions.borrow_mut().committed(count);
        Ok(count)
    }

    /// Undoes every open session, and answers how many. It takes no memory.
    pub fn undo_all(&mut self) -> Result<u64, Error> {
        // SAFETY: as in `answer`.
        let count = number_of(unsafe { raw::weltiyo_undo_all(self.handle.as_ptr(), OWN) })?;
        self.handle.sessions.borrow_mut().all_ended();
        Ok(count)
    }

    /// Lets go of the sessions that are held, which stay open, those of blocks too, and answers how many.
    pub fn push(&mut self) -> Result<u64, Error> {
        // SAFETY: as in `answer`.
        let count = number_of(unsafe { raw::weltiyo_push(self.handle.as_ptr(), OWN) })?;
        self.handle.sessions.borrow_mut().pushed(count);
        Ok(count)
    }

    /// A session for a block: it is undone where it is dropped, unless it was squashed or pushed before.
    pub fn session(&mut self) -> Result<Session<'_>, Error> {
        // SAFETY: as in `answer`.
        let revision = number_of(unsafe { raw::weltiyo_start(self.handle.as_ptr(), OWN) })?;
        let guard = self.handle.sessions.borrow_mut().begun_by_guard(OWN, revision);
        Ok(Session { began_in: Rc::clone(&self.handle), db: self, guard, is_over: false })
    }

    /// A connection goes away: the sessions that it holds are undone. It takes no memory.
    pub fn release(&mut self, connection: u64) {
        // SAFETY: as in `answer`.
        unsafe { raw::weltiyo_release(self.handle.as_ptr(), connection) }
        self.handle.sessions.borrow_mut().released(connection);
    }
}

/// A session of a block. What is asked of it is asked of its database, so sessions within it end before it does. Where another database is put
/// in the place of its own meanwhile, as by `mem::swap`, that one is asked; what ends is the session that was begun, with those that were begun in
/// it and are open still, and no other. Where a line or a call of the database has ended or pushed its own, it does nothing. Where one that was
/// begun in it was pushed, its own stays open as if it had been pushed too.
#[derive(Debug)]
pub struct Session<'a> {
    db: &'a mut Database,
    began_in: Rc<Opened>,
    guard: u64,
    is_over: bool,
}

impl Session<'_> {
    /// What was done is left to the session below, or stays where there is none. Refused with the word `session` where it ends none.
    pub fn squash(mut self) -> Result<(), Error> {
        self.is_over = true;
        self.began_in.end(self.guard, raw::weltiyo_squash)
    }

    /// All of it is undone now. Refused with the word `session` where it ends none.
    pub fn undo(mut self) -> Result<(), Error> {
        self.is_over = true;
        self.began_in.end(self.guard, raw::weltiyo_undo)
    }

    /// The session stays open behind the block; an undo, a squash or a commit of the database ends it.
    pub fn push(mut self) {
        self.is_over = true;
        self.began_in.sessions.borrow_mut().disown(self.guard);
    }
}

impl Drop for Session<'_> {
    fn drop(&mut self) {
        if !self.is_over {
            // (it takes no memory, so it is refused where it ends none alone)
            let _ = self.began_in.end(self.guard, raw::weltiyo_undo);
        }
    }
}

impl Deref for Session<'_> {
    type Target = Database;

    fn deref(&self) -> &Database {
        self.db
    }
}

impl DerefMut for Session<'_> {
    fn deref_mut(&mut self) -> &mut Database {
        self.db
    }
}
