//! Rows of an index one at a time: none is copied, and a column is read where it is asked for.
use crate::raw;
use crate::{end_of, laid, number_of, Database, Error, Value};
use std::fmt;
use std::iter::FusedIterator;
use std::ops::RangeBounds;

/// What a text's column is read with at first.
const USUAL_TEXT: usize = 256;

/// What names a column: its number, or its name, which is looked for in each call.
pub trait Named {
    /// The number of the column. An error, with the word `row`, where there is none.
    fn number(&self, db: &Database, table: usize) -> Result<usize, Error>;
}

impl Named for usize {
    fn number(&self, _db: &Database, _table: usize) -> Result<usize, Error> {
        Ok(*self)
    }
}

impl Named for &str {
    fn number(&self, db: &Database, table: usize) -> Result<usize, Error> {
        // SAFETY: as in `Database::answer`.
        number_of(unsafe { raw::weltiyo_column(db.handle.as_ptr(), table, self.as_ptr(), self.len()) }).map(|it| it as usize)
    }
}

/// A value that a column is read as. An error, with the word `row`, where there is no such column or it is of another type.
pub trait FromColumn: Sized {
    /// Reads it.
    fn read(row: &Seen<'_>, column: usize) -> Result<Self, Error>;
}

impl FromColumn for i64 {
    fn read(row: &Seen<'_>, column: usize) -> Result<i64, Error> {
        let field = row.field(column)?;
        if field.kind == raw::INT { Ok(field.integer) } else { Err(no_column()) }
    }
}

impl FromColumn for bool {
    fn read(row: &Seen<'_>, column: usize) -> Result<bool, Error> {
        match row.field(column)?.kind {
            raw::FALSE => Ok(false),
            raw::TRUE => Ok(true),
            _ => Err(no_column()),
        }
    }
}

impl FromColumn for String {
    fn read(row: &Seen<'_>, column: usize) -> Result<String, Error> {
        let mut text = vec![0; USUAL_TEXT];
        let mut told = row.text_in(column, &mut text);
        if told.status == raw::NO_ROOM {
            text.resize(told.number as usize, 0);
            told = row.text_in(column, &mut text);
        }
        text.truncate(number_of(told)? as usize);
        Ok(String::from_utf8(text).expect("a text is UTF-8"))
    }
}

/// What a call is refused with that names no column, or one of another type.
fn no_column() -> Error {
    number_of(raw::Told { status: raw::REFUSED_ROW, index: 0, number: 0 }).expect_err("it is refused")
}

/// A row by its id, as an index shows it. While it lives its database stays as it is, so the row is there.
#[derive(Clone, Copy)]
pub struct Seen<'a> {
    db: &'a Database,
    table: usize,
    index: usize,
    id: u64,
}

impl Seen<'_> {
    /// Its id.
    pub fn id(&self) -> u64 {
        self.id
    }

    /// A column by its name or its number: `row.get::<i64>("balance")`. Refused with the word `row` where there is none, or it is of another type.
    pub fn get<T: FromColumn>(&self, column: impl Named) -> Result<T, Error> {
        T::read(self, column.number(self.db, self.table)?)
    }

    /// How many rows stand before it, where its index is ranked.
    pub fn rank(&self) -> Result<u64, Error> {
        // SAFETY: as in `Database::answer`.
        number_of(unsafe { raw::weltiyo_rank(self.db.handle.as_ptr(), self.table, self.index, self.id) })
    }

    fn field(&self, column: usize) -> Result<raw::Field, Error> {
        // SAFETY: as in `Database::answer`.
        let field = unsafe { raw::weltiyo_field_of(self.db.handle.as_ptr(), self.table, self.id, column) };
        number_of(raw::Told { status: field.status, index: 0, number: 0 }).map(|_| field)
    }

    fn text_in(&self, column: usize, text: &mut [u8]) -> raw::Told {
        // SAFETY: as in `Database::answer`; the slice is nothing of the database's.
        unsafe { raw::weltiyo_text_in(self.db.handle.as_ptr(), self.table, self.id, column, text.as_mut_ptr(), text.len()) }
    }
}

impl fmt::Debug for Seen<'_> {
    fn fmt(&self, f: &mut fmt::Formatter<'_>) -> fmt::Result {
        f.debug_struct("Seen").field("table", &self.table).field("index", &self.index).field("id", &self.id).finish()
    }
}

/// The rows between two bounds, from both sides. It takes no memory.
#[derive(Clone)]
pub struct Scan<'a> {
    db: &'a Database,
    table: usize,
    index: usize,
    /// The next row, and the one behind the last; the end where there is none.
    from: Option<u64>,
    to: Option<u64>,
}

impl<'a> Scan<'a> {
    fn seen(&self, id: u64) -> Seen<'a> {
        Seen { db: self.db, table: self.table, index: self.index, id }
    }

    /// The id behind one, or before it. Nothing changes meanwhile, so none is refused.
    fn beside(&self, id: u64, back: bool) -> Option<u64> {
        // SAFETY: as in `Database::answer`.
        place_of(unsafe { raw::weltiyo_step_id(self.db.handle.as_ptr(), self.table, self.index, id, back.into()) }).unwrap_or(None)
    }
}

impl<'a> Iterator for Scan<'a> {
    type Item = Seen<'a>;

    fn next(&mut self) -> Option<Seen<'a>> {
        let id = self.from.filter(|_| self.from != self.to)?;
        self.from = self.beside(id, false);
        Some(self.seen(id))
    }
}

impl DoubleEndedIterator for Scan<'_> {
    fn next_back(&mut self) -> Option<Self::Item> {
        if self.from == self.to {
            return None;
        }
        self.to = match self.to {
            Some(id) => self.beside(id, true),
            // SAFETY: as in `Database::answer`.
            None => place_of(unsafe { raw::weltiyo_last_id(self.db.handle.as_ptr(), self.table, self.index) }).unwrap_or(None),
        };
        self.to.map(|id| self.seen(id))
    }
}

impl FusedIterator for Scan<'_> {}

/// The id that a call tells, or none where it tells the end.
fn place_of(told: raw::Told) -> Result<Option<u64>, Error> {
    if told.status == raw::END {
        return Ok(None);
    }
    number_of(told).map(Some)
}

impl Database {
    /// The rows of an index between two bounds, one at a time and from both sides: `..` or a pair of `Bound`s, whose keys may be the first values of
    /// one. A sequenced index has no keys, so it takes `..` alone. The database is lent meanwhile.
    ///
    /// ```
    /// # fn main() -> Result<(), weltiyo::Error> {
    /// # let mut db = weltiyo::Database::open("")?;
    /// # db.insert(0, &["ann".into(), 50.into(), false.into()])?;
    /// let (accounts, by_balance) = (db.table("accounts")?, db.index(0, "by_balance")?);
    /// for row in db.scan(accounts, by_balance, ..)? {
    ///     println!("{} {} {}", row.id(), row.get::<String>("owner")?, row.get::<i64>("balance")?);
    /// }
    /// # Ok(())
    /// # }
    /// ```
    pub fn scan(&self, table: usize, index: usize, bounds: impl RangeBounds<[Value]>) -> Result<Scan<'_>, Error> {
        let ((lower, lower_key), (upper, upper_key)) = (end_of(bounds.start_bound()), end_of(bounds.end_bound()));
        let mut from = match lower {
            // SAFETY: as in `answer`.
            raw::OPEN => place_of(unsafe { raw::weltiyo_first_id(self.handle.as_ptr(), table, index) })?,
            _ => self.sought(table, index, lower_key, lower == raw::EXCLUDED)?,
        };
        let to = match upper {
            raw::OPEN => None,
            _ => self.sought(table, index, upper_key, upper == raw::INCLUDED)?,
        };
        if lower != raw::OPEN && upper != raw::OPEN && self.has_none(table, index, (lower, lower_key), (upper, upper_key))? {
            from = to;
        }
        Ok(Scan { db: self, table, index, from, to })
    }

    /// The row of an id, as the index of ids shows it; none where there is none.
    pub fn seen(&self, table: usize, id: u64) -> Result<Option<Seen<'_>>, Error> {
        // SAFETY: as in `answer`.
        let told = unsafe { raw::weltiyo_has_id(self.handle.as_ptr(), table, id) };
        if told.status == raw::REFUSED_ID {
            return Ok(None);
        }
        number_of(told).map(|id| Some(Seen { db: self, table, index: 0, id }))
    }

    /// Where a key begins in an ordered or ranked index, or what stands behind it.
    fn sought(&self, table: usize, index: usize, key: &[Value], beyond: bool) -> Result<Option<u64>, Error> {
        let (cells, texts) = laid(key);
        // SAFETY: as in `insert`.
        place_of(unsafe {
            raw::weltiyo_seek_id(
                self.handle.as_ptr(), table, index, cells.as_ptr(), cells.len(), texts.as_ptr(), texts.len(), beyond.into(),
            )
        })
    }

    /// Whether no row is between two ends, by a page of no rows, which tells whether others follow.
    fn has_none(&self, table: usize, index: usize, lower: (u32, &[Value]), upper: (u32, &[Value])) -> Result<bool, Error> {
        let mut texts = Vec::new();
        let low: Vec<_> = lower.1.iter().map(|value| value.laid(&mut texts)).collect();
        let high: Vec<_> = upper.1.iter().map(|value| value.laid(&mut texts)).collect();
        let (mut ids, mut cells, mut room): ([u64; 0], [raw::Cell; 0], [u8; 0]) = ([], [], []);
        // SAFETY: as in `get`.
        let told = unsafe {
            raw::weltiyo_range(
                self.handle.as_ptr(), table, index, lower.0, low.as_ptr(), low.len(), upper.0, high.as_ptr(), high.len(), texts.as_ptr(),
                texts.len(), 0, ids.as_mut_ptr(), 0, cells.as_mut_ptr(), 0, room.as_mut_ptr(), 0,
            )
        };
        Ok(number_of(told)? == 0 && told.index == 0)
    }
}
