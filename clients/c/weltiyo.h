/* Weltiyo in the process of its caller: a database behind a handle, asked one line a call. docs/EMBEDDING.md tells what a caller owes and
   what is proved of these calls.

   A line is what docs/GUIDE.md calls one: a JSON object with a command, here given whole and without its newline. A reply is the same bytes
   that the program `mi_server` answers to that line, without its newline.

   Each of these is owed by the caller, and no call tests it:
   - A handle comes from `weltiyo_open`, is used by the thread that opened it alone, in one call at a time, and not after `weltiyo_close`.
     A process may have many handles, each on a thread of its own.
   - No pointer is null, also where its length is 0, and what a call writes to overlaps no other argument of it. Keys, rows and texts that are
     only read may be the same.
   - No call is made from a signal handler, or in the child of a fork of a process with threads.
   - A thread that calls has 256 KiB of stack left. */
#ifndef WELTIYO_H
#define WELTIYO_H

#include <stddef.h>
#include <stdint.h>

#define WELTIYO_VERSION "0.1.0"

/* The bytes that a line may have; a longer one is answered {"error":"line","ok":false}. */
#define WELTIYO_LONGEST_LINE 65536

#ifdef __cplusplus
extern "C" {
#endif

/* A database. */
typedef struct weltiyo_db weltiyo_db;

/* Why a schema opens nothing; docs/GUIDE.md has these words under the program's `schema: WORD`. */
typedef enum weltiyo_status {
    WELTIYO_OK = 0,
    WELTIYO_MEMORY = 1, /* a growth was refused */
    WELTIYO_FILE = 2,   /* the text has more than 65,536 bytes */
    WELTIYO_TOML = 3,
    WELTIYO_SHAPE = 4,
    WELTIYO_NAME = 5,
    WELTIYO_TWICE = 6,
    WELTIYO_TYPE = 7,
    WELTIYO_KIND = 8,
    WELTIYO_KEY = 9,
    WELTIYO_LIMIT = 10,
    WELTIYO_NUMBER = 11
} weltiyo_status;

/* Opens the tables that a schema in TOML describes; where its length is 0, the built-in table `accounts`. `secret` is mixed into the hashes
   of keys: take a random number where strangers choose keys, since who knows it can aim them at one bucket. No answer depends on it.
   WELTIYO_OK, and `*handle` is the database; else why it isn't opened, and `*handle` is null. */
uint32_t weltiyo_open(const void *schema, size_t length, uint64_t secret, weltiyo_db **handle);

/* Answers a line of a connection, which is any number that the caller chooses: connections differ in what sessions they hold. Returns the
   length of the reply, which stays until the next line. Each line has a reply, an empty one too. */
size_t weltiyo_execute(weltiyo_db *handle, uint64_t connection, const void *line, size_t length);

/* Copies the reply to the last line from this byte on, as much as there is room for, and returns how many bytes. */
size_t weltiyo_reply(weltiyo_db *handle, size_t from, void *out, size_t room);

/* Both: answers a line, copies as much of its reply as there is room for, and returns the length of the whole reply. */
size_t weltiyo_ask(weltiyo_db *handle, uint64_t connection, const void *line, size_t length, void *out, size_t room);

/* ---- The same commands with values in place of a line: no JSON is read or written.

   A table is named by its number in the order of the schema, from 0 on, and so is a column. Of the indexes the one of ids has the number 0, and
   those of the schema follow from 1 on. `weltiyo_table`, `weltiyo_index` and `weltiyo_column` tell the number of a name. A call answers what the line of its command answers to the same connection, and leaves what it leaves; but
   that a line has 65,536 bytes at most, which a row of many texts may pass once it is written as JSON. The reply to the last line stays. */

/* What a value is. */
enum { WELTIYO_INT = 0, WELTIYO_TEXT = 1, WELTIYO_FALSE = 2, WELTIYO_TRUE = 3 };

/* A value. A text isn't pointed to: it lies in the bytes that stand beside the values in a call, which may have many texts one behind another. */
typedef struct weltiyo_value {
    uint32_t kind;   /* one of those above; any other fits no column */
    int64_t integer; /* of WELTIYO_INT the number */
    size_t at;       /* of WELTIYO_TEXT where it begins in the bytes, */
    size_t length;   /* and how many it has; they are UTF-8 */
} weltiyo_value;

/* Why a call is refused: as the word of a line's reply, in its order. */
typedef enum weltiyo_refusal {
    WELTIYO_REFUSED_BUSY = 4,     /* another connection holds sessions */
    WELTIYO_REFUSED_TABLE = 5,    /* no table has this number */
    WELTIYO_REFUSED_INDEX = 6,    /* no index has this number */
    WELTIYO_REFUSED_KIND = 7,     /* the call isn't one of this index's kind */
    WELTIYO_REFUSED_ROW = 8,      /* the values or the edit don't fit the columns */
    WELTIYO_REFUSED_KEY = 9,      /* the values are no key of the index */
    WELTIYO_REFUSED_ID = 10,      /* there is no such record */
    WELTIYO_REFUSED_RANGE = 11,   /* a sum leaves 64 bits */
    WELTIYO_REFUSED_FULL = 12,    /* the table has its most rows */
    WELTIYO_REFUSED_SPENT = 13,   /* a counter is at its end */
    WELTIYO_REFUSED_UNIQUE = 14,  /* a unique index refuses: `index` is its number, and `number` the id of the record that has the key */
    WELTIYO_REFUSED_LOST = 15,    /* as that, of a modify without rollback, which has erased its record */
    WELTIYO_REFUSED_DEPTH = 16,   /* 1,024 sessions are open */
    WELTIYO_REFUSED_SESSION = 17, /* no session is open */
    WELTIYO_REFUSED_MEMORY = 18,  /* a growth was refused, and nothing has changed */
    WELTIYO_NO_ROOM = 19,         /* what is answered needs `index` values and `number` bytes of texts */
    WELTIYO_END = 20,             /* of a cursor: no row is left there */
    WELTIYO_GONE = 10             /* of a cursor: its row is gone, which is WELTIYO_REFUSED_ID of its id */
} weltiyo_refusal;

/* What a call tells. */
typedef struct weltiyo_told {
    uint32_t status; /* 0, or one of those above */
    uint32_t index;
    uint64_t number; /* where the status is 0: the id, the count, the rank or the revision that the line's reply has, and 0 where it has none */
} weltiyo_told;

/* Room that any row fits: its values, and the bytes of its texts. */
enum { WELTIYO_ROW_VALUES = 16, WELTIYO_ROW_TEXTS = 16 * 1024 };

/* The number of the table, the index or the column of a name is told. Where none has it: WELTIYO_REFUSED_TABLE, WELTIYO_REFUSED_INDEX or
   WELTIYO_REFUSED_ROW. They change nothing, take no memory, and compare one name after another: ask once, and keep the number. */
weltiyo_told weltiyo_table(weltiyo_db *handle, const void *name, size_t length);
weltiyo_told weltiyo_index(weltiyo_db *handle, size_t table, const void *name, size_t length);
weltiyo_told weltiyo_column(weltiyo_db *handle, size_t table, const void *name, size_t length);

/* The other way round: the name of an index is copied to the front of `out`, and its length is told. With WELTIYO_NO_ROOM nothing is copied, and
   `number` is how many bytes it has; WELTIYO_REFUSED_TABLE or WELTIYO_REFUSED_INDEX where there is none. */
weltiyo_told weltiyo_index_name(weltiyo_db *handle, size_t table, size_t index, void *out, size_t room);

/* The text of the schema is copied in the same way: byte for byte the one that was opened, and of the built-in table one that describes it. A
   `weltiyo_open` with this text, or `mi_server --schema` with a file of it, has the same tables, with nothing in them. */
weltiyo_told weltiyo_schema(weltiyo_db *handle, void *out, size_t room);

/* A key is values too, one for each part of the index in its order; the index of ids has one part, a whole number. Where it says so the first
   values of a key will do: they stand for every key that begins with them. */

/* ---- Changes. Each is refused with WELTIYO_REFUSED_BUSY first, while another connection holds sessions. */

/* Adds a row: a value for each column in order. Its id is told. */
weltiyo_told weltiyo_insert(weltiyo_db *handle, uint64_t connection, size_t table, const weltiyo_value *row, size_t count, const void *texts,
                            size_t length);

/* The same, and in the sequenced index of that number the row stands directly before the row of that id. */
weltiyo_told weltiyo_insert_before(weltiyo_db *handle, uint64_t connection, size_t table, const weltiyo_value *row, size_t count,
                                   const void *texts, size_t length, size_t index, uint64_t before);

/* Sets another row for an id. */
weltiyo_told weltiyo_replace(weltiyo_db *handle, uint64_t connection, size_t table, uint64_t id, const weltiyo_value *row, size_t count,
                             const void *texts, size_t length);

/* Adds a number to a column of whole numbers. Where a unique index refuses the result, nothing changes with `rollback`, and without it (0) the
   row is erased. */
weltiyo_told weltiyo_modify_add(weltiyo_db *handle, uint64_t connection, size_t table, uint64_t id, size_t column, int64_t number,
                                uint32_t rollback);

/* What an edit does with its value. */
enum {
    WELTIYO_PUT = 0, /* it is the column's */
    WELTIYO_ADD = 1  /* it is a whole number, and added to a column of whole numbers */
};

/* An edit of a column. */
typedef struct weltiyo_edit {
    uint32_t kind; /* one of those above; any other fits no column */
    size_t column;
    weltiyo_value value;
} weltiyo_edit;

/* Makes edits, each of a column of its own; no edits are accepted too. Where a unique index refuses the result it is as with
   `weltiyo_modify_add`. */
weltiyo_told weltiyo_modify(weltiyo_db *handle, uint64_t connection, size_t table, uint64_t id, const weltiyo_edit *edits, size_t count,
                            const void *texts, size_t length, uint32_t rollback);

/* Erases a row. */
weltiyo_told weltiyo_erase(weltiyo_db *handle, uint64_t connection, size_t table, uint64_t id);

/* Erases every row of a whole key; how many is told. */
weltiyo_told weltiyo_erase_key(weltiyo_db *handle, uint64_t connection, size_t table, size_t index, const weltiyo_value *key, size_t count,
                               const void *texts, size_t length);

/* Moves a row of a sequenced index directly before the row `before`, or to its end where `has_before` is 0. */
weltiyo_told weltiyo_relocate(weltiyo_db *handle, uint64_t connection, size_t table, size_t index, uint64_t id, uint32_t has_before,
                              uint64_t before);

/* Opens a session, which the connection then holds; the new revision is told. */
weltiyo_told weltiyo_start(weltiyo_db *handle, uint64_t connection);

/* Undoes the newest session, or joins it into the one below; the new revision is told. Neither takes memory. */
weltiyo_told weltiyo_undo(weltiyo_db *handle, uint64_t connection);
weltiyo_told weltiyo_squash(weltiyo_db *handle, uint64_t connection);

/* Ends the sessions up to a number and keeps their changes; how many is told. It takes no memory. */
weltiyo_told weltiyo_commit(weltiyo_db *handle, uint64_t connection, uint64_t number);

/* Undoes every open session; how many is told. It takes no memory. */
weltiyo_told weltiyo_undo_all(weltiyo_db *handle, uint64_t connection);

/* Lets go of the sessions that the connection holds, which stay open; how many is told. It takes no memory. */
weltiyo_told weltiyo_push(weltiyo_db *handle, uint64_t connection);

/* ---- Look-ups. They change nothing, and are answered whoever holds sessions. A key with a text, or of several values, takes memory for the time
   of the call, so one that is given a key may be refused with WELTIYO_REFUSED_MEMORY; the others take none, but for pages. */

/* How many rows a table has. */
weltiyo_told weltiyo_size(weltiyo_db *handle, size_t table);

/* Copies the row of an id: its values to the front of `row`, and their texts to the front of `texts`, where they lie as the values say. The id is
   told. With WELTIYO_NO_ROOM nothing is said of what `row` and `texts` hold. It takes no memory. */
weltiyo_told weltiyo_get(weltiyo_db *handle, size_t table, uint64_t id, weltiyo_value *row, size_t count, void *texts, size_t room);

/* The first row of a key; in an ordered or ranked index the first values of one will do. Its id is told, and it is copied as by `weltiyo_get`;
   where there is none, WELTIYO_REFUSED_ID. */
weltiyo_told weltiyo_find(weltiyo_db *handle, size_t table, size_t index, const weltiyo_value *key, size_t key_count, const void *key_texts,
                          size_t key_length, weltiyo_value *row, size_t count, void *texts, size_t room);

/* How many rows have a key; in an ordered or ranked index the first values of one will do. */
weltiyo_told weltiyo_count(weltiyo_db *handle, size_t table, size_t index, const weltiyo_value *key, size_t count, const void *texts,
                           size_t length);

/* How many rows stand before the row of an id in a ranked index. */
weltiyo_told weltiyo_rank(weltiyo_db *handle, size_t table, size_t index, uint64_t id);

/* How many rows of a ranked index have a key that is less than this one, or not greater; the first values of one will do. */
weltiyo_told weltiyo_lower_rank(weltiyo_db *handle, size_t table, size_t index, const weltiyo_value *key, size_t count, const void *texts,
                                size_t length);
weltiyo_told weltiyo_upper_rank(weltiyo_db *handle, size_t table, size_t index, const weltiyo_value *key, size_t count, const void *texts,
                                size_t length);

/* The row of a ranked index before which `n` others stand. Its id is told, and it is copied as by `weltiyo_get`; where there is none,
   WELTIYO_REFUSED_ID. */
weltiyo_told weltiyo_nth(weltiyo_db *handle, size_t table, size_t index, uint64_t n, weltiyo_value *row, size_t count, void *texts, size_t room);

/* An end of a range. */
enum {
    WELTIYO_OPEN = 0,     /* there is none, and the key isn't read */
    WELTIYO_INCLUDED = 1, /* the rows of the key are in the range: a line's `ge` and `le` */
    WELTIYO_EXCLUDED = 2  /* and here they aren't: a line's `gt` and `lt`; any other is refused with WELTIYO_REFUSED_KEY */
};

/* The most rows that a page has, as a line's. */
enum { WELTIYO_MOST_ROWS = 1000 };

/* The first rows between two ends of an ordered or ranked index, at most `most` of them and at most WELTIYO_MOST_ROWS: a page. The keys of both
   ends have their texts in the same bytes, and the first values of a key will do. With `reverse` the range is walked from its upper end down.

   The ids go to the front of `ids`, which has room for `most`; the values of the rows, one row behind another, to the front of `rows`; and their
   texts, one behind another, to the front of `texts`, where they lie as the values say. `number` is how many rows there are, and `index` is 1
   where others follow behind them and else 0. `weltiyo_row` and `weltiyo_text` walk a page.

   With WELTIYO_NO_ROOM `index` and `number` say what the page wants, and nothing is said of what `ids`, `rows` and `texts` hold. A page takes
   memory for the list of its rows while it is copied, so it may be refused with WELTIYO_REFUSED_MEMORY. */
weltiyo_told weltiyo_range(weltiyo_db *handle, size_t table, size_t index, uint32_t lower, const weltiyo_value *lower_key, size_t lower_count,
                           uint32_t upper, const weltiyo_value *upper_key, size_t upper_count, const void *key_texts, size_t key_length,
                           uint32_t reverse, uint64_t *ids, size_t most, weltiyo_value *rows, size_t values, void *texts, size_t room);

/* The first rows of a sequenced index, or with `has_after` of those behind the row `after`: a page as above. Where there is no such row,
   WELTIYO_REFUSED_ID. */
weltiyo_told weltiyo_list(weltiyo_db *handle, size_t table, size_t index, uint32_t has_after, uint64_t after, uint64_t *ids, size_t most,
                          weltiyo_value *rows, size_t values, void *texts, size_t room);

/* Row `n` of a page over a table of so many columns: its values. */
static inline const weltiyo_value *weltiyo_row(const weltiyo_value *rows, size_t columns, size_t n) { return rows + n * columns; }

/* Where the text of a value begins; it has `value->length` bytes, and no 0 behind them. */
static inline const char *weltiyo_text(const void *texts, const weltiyo_value *value) { return (const char *)texts + value->at; }

/* ---- Cursors. A cursor is a row by its id, seen under an index. It is plain data: it is copied by value, owes nothing, and stays what it is
   while rows change. A call finds its row anew, so a row that is gone is told (WELTIYO_GONE) and never read. One column of it is read at a
   time, and no row is copied. Of these calls the two that are given a key take memory as above, and the others take none. */

/* Where a cursor stands. */
typedef struct weltiyo_cursor {
    uint32_t status; /* 0 at a row; WELTIYO_END, WELTIYO_GONE, or why it was refused: then `id` is no row's */
    uint32_t table;
    uint32_t index;
    uint64_t id;
} weltiyo_cursor;

/* A column of a row. */
typedef struct weltiyo_field {
    uint32_t status; /* 0, or why it wasn't read: WELTIYO_GONE, WELTIYO_REFUSED_ROW where there is no such column */
    uint32_t kind;   /* as of a weltiyo_value; of a text it is all that is told here */
    int64_t integer; /* of WELTIYO_INT the number */
} weltiyo_field;

/* The ids that cursors stand at. Where there is none, WELTIYO_END. The first row of a key, as by `weltiyo_find`; */
weltiyo_told weltiyo_find_id(weltiyo_db *handle, size_t table, size_t index, const weltiyo_value *key, size_t count, const void *texts,
                             size_t length);

/* the first row of an ordered or ranked index whose key isn't less than this one, or with `beyond` is greater; the first values of one will do; */
weltiyo_told weltiyo_seek_id(weltiyo_db *handle, size_t table, size_t index, const weltiyo_value *key, size_t count, const void *texts,
                             size_t length, uint32_t beyond);

/* the first and the last row of any index but a hashed one; */
weltiyo_told weltiyo_first_id(weltiyo_db *handle, size_t table, size_t index);
weltiyo_told weltiyo_last_id(weltiyo_db *handle, size_t table, size_t index);

/* the row of a ranked index before which `n` others stand; */
weltiyo_told weltiyo_at_rank_id(weltiyo_db *handle, size_t table, size_t index, uint64_t n);

/* the row directly behind that of an id, or with `back` before it, in any index but a hashed one. WELTIYO_GONE where the id has no row. */
weltiyo_told weltiyo_step_id(weltiyo_db *handle, size_t table, size_t index, uint64_t id, uint32_t back);

/* The id itself, where it has a row; else WELTIYO_GONE. */
weltiyo_told weltiyo_has_id(weltiyo_db *handle, size_t table, uint64_t id);

/* A column of the row of an id. */
weltiyo_field weltiyo_field_of(weltiyo_db *handle, size_t table, uint64_t id, size_t column);

/* Copies a text of the row of an id to the front of `out`, and tells its length. With WELTIYO_NO_ROOM nothing is copied, and `number` is how many
   bytes it has; WELTIYO_REFUSED_ROW where the column is no text. */
weltiyo_told weltiyo_text_in(weltiyo_db *handle, size_t table, uint64_t id, size_t column, void *out, size_t room);

/* What was told, as a cursor. */
static inline weltiyo_cursor weltiyo_cursor_at(size_t table, size_t index, weltiyo_told told) {
    weltiyo_cursor at;
    at.status = told.status;
    at.table = (uint32_t)table;
    at.index = (uint32_t)index;
    at.id = told.number;
    return at;
}

/* A cursor at the first row of a key; where an ordered or ranked index has a key that isn't less, or is greater; at its first row, and at its
   last; at a rank; and at an id. `at.status` is 0 where it stands at a row. */
static inline weltiyo_cursor weltiyo_find_at(weltiyo_db *handle, size_t table, size_t index, const weltiyo_value *key, size_t count,
                                             const void *texts, size_t length) {
    return weltiyo_cursor_at(table, index, weltiyo_find_id(handle, table, index, key, count, texts, length));
}

static inline weltiyo_cursor weltiyo_seek(weltiyo_db *handle, size_t table, size_t index, const weltiyo_value *key, size_t count,
                                          const void *texts, size_t length) {
    return weltiyo_cursor_at(table, index, weltiyo_seek_id(handle, table, index, key, count, texts, length, 0));
}

static inline weltiyo_cursor weltiyo_seek_beyond(weltiyo_db *handle, size_t table, size_t index, const weltiyo_value *key, size_t count,
                                                 const void *texts, size_t length) {
    return weltiyo_cursor_at(table, index, weltiyo_seek_id(handle, table, index, key, count, texts, length, 1));
}

static inline weltiyo_cursor weltiyo_first(weltiyo_db *handle, size_t table, size_t index) {
    return weltiyo_cursor_at(table, index, weltiyo_first_id(handle, table, index));
}

static inline weltiyo_cursor weltiyo_last(weltiyo_db *handle, size_t table, size_t index) {
    return weltiyo_cursor_at(table, index, weltiyo_last_id(handle, table, index));
}

static inline weltiyo_cursor weltiyo_at_rank(weltiyo_db *handle, size_t table, size_t index, uint64_t n) {
    return weltiyo_cursor_at(table, index, weltiyo_at_rank_id(handle, table, index, n));
}

static inline weltiyo_cursor weltiyo_of_id(weltiyo_db *handle, size_t table, size_t index, uint64_t id) {
    return weltiyo_cursor_at(table, index, weltiyo_has_id(handle, table, id));
}

/* The cursor behind this one, or with `back` before it. From WELTIYO_END one steps back to the last row, and on to the end. One that was refused, or
   whose row is gone, stays so. */
static inline weltiyo_cursor weltiyo_step(weltiyo_db *handle, weltiyo_cursor at, uint32_t back) {
    if (at.status == WELTIYO_END)
        return back ? weltiyo_last(handle, at.table, at.index) : at;
    return at.status ? at : weltiyo_cursor_at(at.table, at.index, weltiyo_step_id(handle, at.table, at.index, at.id, back));
}

/* What is told of a cursor that stands at no row. */
static inline weltiyo_told weltiyo_no_row(weltiyo_cursor at) {
    weltiyo_told told;
    told.status = at.status;
    told.index = 0;
    told.number = 0;
    return told;
}

/* How many rows of a ranked index stand before it. At the end these are all. */
static inline weltiyo_told weltiyo_rank_of(weltiyo_db *handle, weltiyo_cursor at) {
    if (at.status == WELTIYO_END)
        return weltiyo_size(handle, at.table);
    return at.status ? weltiyo_no_row(at) : weltiyo_rank(handle, at.table, at.index, at.id);
}

/* Its id. Of a cursor that stands at no row it is none. */
static inline uint64_t weltiyo_id_of(weltiyo_cursor at) { return at.id; }

/* Whether two cursors stand at the same place: at the same row of a table, or both at the end. */
static inline int weltiyo_is_same(weltiyo_cursor one, weltiyo_cursor other) {
    return one.status == other.status && one.table == other.table && (one.status != 0 || one.id == other.id);
}

/* Whether one stands before another in their ranked index: 1 or 0 is told, or why not. */
static inline weltiyo_told weltiyo_is_before(weltiyo_db *handle, weltiyo_cursor one, weltiyo_cursor other) {
    weltiyo_told left = weltiyo_rank_of(handle, one), right = weltiyo_rank_of(handle, other);
    if (left.status || right.status)
        return left.status ? left : right;
    left.number = left.number < right.number;
    return left;
}

/* A column of its row. */
static inline weltiyo_field weltiyo_field_at(weltiyo_db *handle, weltiyo_cursor at, size_t column) {
    weltiyo_field none;
    if (!at.status)
        return weltiyo_field_of(handle, at.table, at.id, column);
    none.status = at.status;
    none.kind = WELTIYO_INT;
    none.integer = 0;
    return none;
}

/* The whole number of a column, which is put to `out`, or a flag as 1 or 0. The status is answered: 0, WELTIYO_REFUSED_ROW where the column is of
   another type, or that of the cursor; then `out` stays. */
static inline uint32_t weltiyo_int(weltiyo_db *handle, weltiyo_cursor at, size_t column, int64_t *out) {
    const weltiyo_field field = weltiyo_field_at(handle, at, column);
    if (field.status || field.kind != WELTIYO_INT)
        return field.status ? field.status : (uint32_t)WELTIYO_REFUSED_ROW;
    *out = field.integer;
    return 0;
}

static inline uint32_t weltiyo_flag(weltiyo_db *handle, weltiyo_cursor at, size_t column, int *out) {
    const weltiyo_field field = weltiyo_field_at(handle, at, column);
    if (field.status || field.kind < WELTIYO_FALSE)
        return field.status ? field.status : (uint32_t)WELTIYO_REFUSED_ROW;
    *out = field.kind == WELTIYO_TRUE;
    return 0;
}

/* The text of a column, which is copied as by `weltiyo_text_in`. */
static inline weltiyo_told weltiyo_text_of(weltiyo_db *handle, weltiyo_cursor at, size_t column, void *out, size_t room) {
    return at.status ? weltiyo_no_row(at) : weltiyo_text_in(handle, at.table, at.id, column, out, room);
}

/* ---- */

/* A connection goes away: the sessions that it holds are undone, as where a client of the program breaks off. It takes no memory. */
void weltiyo_release(weltiyo_db *handle, uint64_t connection);

/* Frees all that a database holds. Its handle is dead then. */
void weltiyo_close(weltiyo_db *handle);

/* The word of a refusal, as a line's reply has it. */
static inline const char *weltiyo_refusal_word(uint32_t status) {
    static const char *const words[] = {"ok",   "line",  "json",   "form", "busy",  "table",  "index",  "kind", "row",     "key",
                                        "id",   "range", "full",   "spent", "unique", "unique", "depth", "session", "memory", "room", "end"};
    return status < sizeof words / sizeof *words ? words[status] : "unknown";
}

/* The word of a status, as the program prints it behind `schema: `. */
static inline const char *weltiyo_word(uint32_t status) {
    static const char *const words[] = {"ok",   "memory", "file", "toml", "shape", "name",
                                        "twice", "type",  "kind", "key",  "limit", "number"};
    return status < sizeof words / sizeof *words ? words[status] : "unknown";
}

#ifdef __cplusplus
}
#endif

#endif
