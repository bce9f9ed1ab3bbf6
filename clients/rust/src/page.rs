//! Pages: the first rows of a range or a list, copied into memory that is kept from page to page.
use crate::raw;
use crate::Value;

/// Room to begin with.
const USUAL_CELLS: usize = 64;
const USUAL_TEXTS: usize = 1024;

/// The first rows of a range or a list. It is filled by [`Database::range`](crate::Database::range) and
/// [`Database::list`](crate::Database::list), again and again: it keeps its memory, and takes more only for a page that is larger than those
/// before.
#[derive(Clone, Debug)]
pub struct Page {
    most: usize,
    count: usize,
    columns: usize,
    more: bool,
    ids: Vec<u64>,
    cells: Vec<raw::Cell>,
    texts: Vec<u8>,
    /// The cells of the keys that a range is asked between, the lower one's first, and the bytes of their texts.
    pub(crate) keys: Vec<raw::Cell>,
    pub(crate) key_texts: Vec<u8>,
}

/// Where the rows of a page are copied to.
pub(crate) struct Room<'a> {
    pub(crate) ids: &'a mut [u64],
    pub(crate) cells: &'a mut [raw::Cell],
    pub(crate) texts: &'a mut [u8],
}

impl Page {
    /// A page of at most so many rows, and at most 1,000.
    pub fn new(most: usize) -> Page {
        let most = most.min(raw::MOST_ROWS);
        Page {
            most,
            count: 0,
            columns: 0,
            more: false,
            ids: vec![0; most],
            cells: vec![raw::Cell::default(); USUAL_CELLS],
            texts: vec![0; USUAL_TEXTS],
            keys: Vec::new(),
            key_texts: Vec::new(),
        }
    }

    /// How many rows it has.
    pub fn len(&self) -> usize {
        self.count
    }

    /// Whether it has no rows.
    pub fn is_empty(&self) -> bool {
        self.count == 0
    }

    /// Whether others follow behind the last row.
    pub fn has_more(&self) -> bool {
        self.more
    }

    /// Row `n`, if it is there.
    pub fn get(&self, n: usize) -> Option<Row<'_>> {
        if n >= self.count {
            return None;
        }
        let cells = &self.cells[n * self.columns..(n + 1) * self.columns];
        Some(Row { id: self.ids[n], cells, texts: &self.texts })
    }

    /// The last row, if there is one.
    pub fn last(&self) -> Option<Row<'_>> {
        self.get(self.count.checked_sub(1)?)
    }

    /// The rows in their order.
    pub fn iter(&self) -> Rows<'_> {
        Rows { page: self, from: 0, to: self.count }
    }

    /// Makes it empty, and lends its memory.
    pub(crate) fn room(&mut self) -> Room<'_> {
        self.count = 0;
        self.more = false;
        Room { ids: &mut self.ids[..self.most], cells: &mut self.cells, texts: &mut self.texts }
    }

    /// Takes memory for so many values, and so many bytes of texts.
    pub(crate) fn grow(&mut self, cells: usize, texts: usize) {
        if cells > self.cells.len() {
            self.cells.resize(cells.max(2 * self.cells.len()), raw::Cell::default());
        }
        if texts > self.texts.len() {
            self.texts.resize(texts.max(2 * self.texts.len()), 0);
        }
    }

    /// The id of the first row, which was copied.
    pub(crate) fn first_id(&self) -> u64 {
        self.ids[0]
    }

    /// It has so many rows of so many columns now.
    pub(crate) fn set(&mut self, count: usize, columns: usize, more: bool) {
        self.count = count;
        self.columns = columns;
        self.more = more;
    }
}

impl Default for Page {
    /// A page of at most 1,000 rows, as a line's without a limit.
    fn default() -> Page {
        Page::new(raw::MOST_ROWS)
    }
}

impl<'a> IntoIterator for &'a Page {
    type Item = Row<'a>;
    type IntoIter = Rows<'a>;

    fn into_iter(self) -> Rows<'a> {
        self.iter()
    }
}

/// The rows of a page, in their order.
#[derive(Clone, Debug)]
pub struct Rows<'a> {
    page: &'a Page,
    from: usize,
    to: usize,
}

impl<'a> Iterator for Rows<'a> {
    type Item = Row<'a>;

    fn next(&mut self) -> Option<Row<'a>> {
        if self.from == self.to {
            return None;
        }
        self.from += 1;
        self.page.get(self.from - 1)
    }

    fn size_hint(&self) -> (usize, Option<usize>) {
        (self.to - self.from, Some(self.to - self.from))
    }
}

impl<'a> DoubleEndedIterator for Rows<'a> {
    fn next_back(&mut self) -> Option<Row<'a>> {
        if self.from == self.to {
            return None;
        }
        self.to -= 1;
        self.page.get(self.to)
    }
}

impl ExactSizeIterator for Rows<'_> {}

/// A row of a page, which lends it until it is filled again.
#[derive(Clone, Copy, Debug)]
pub struct Row<'a> {
    id: u64,
    cells: &'a [raw::Cell],
    texts: &'a [u8],
}

impl<'a> Row<'a> {
    /// Its id.
    pub fn id(&self) -> u64 {
        self.id
    }

    /// How many columns it has: at least one.
    #[allow(clippy::len_without_is_empty)]
    pub fn len(&self) -> usize {
        self.cells.len()
    }

    /// The whole number of a column, if there is such a column of whole numbers.
    pub fn int(&self, column: usize) -> Option<i64> {
        self.cells.get(column).filter(|cell| cell.kind == raw::INT).map(|cell| cell.integer)
    }

    /// Whether the flag of a column is set, if there is such a column of flags.
    pub fn flag(&self, column: usize) -> Option<bool> {
        match self.cells.get(column)?.kind {
            raw::FALSE => Some(false),
            raw::TRUE => Some(true),
            _ => None,
        }
    }

    /// The text of a column, if there is such a column of texts.
    pub fn text(&self, column: usize) -> Option<&'a str> {
        let cell = self.cells.get(column).filter(|cell| cell.kind == raw::TEXT)?;
        std::str::from_utf8(&self.texts[cell.at..cell.at + cell.length]).ok()
    }

    /// A copy of the value of a column, if there is such a column.
    pub fn value(&self, column: usize) -> Option<Value> {
        Value::of(self.cells.get(column)?, self.texts)
    }

    /// A copy of all values.
    pub fn to_vec(&self) -> Vec<Value> {
        self.cells.iter().filter_map(|cell| Value::of(cell, self.texts)).collect()
    }
}
