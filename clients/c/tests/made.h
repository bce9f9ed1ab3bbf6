/* Random catalogs, rows, keys and edits for the tests: as values of a call, and as the JSON of the line of the same command. Table, column and
   index number N have the names tN, cN and iN, so that a number that isn't there has a name that isn't there. */
#include <inttypes.h>
#include <stdarg.h>
#include <stdio.h>
#include <stdlib.h>
#include <string.h>
#include <weltiyo.h>

enum { MOST_TABLES = 3, MOST_COLUMNS = 5, MOST_INDEXES = 7, MOST_PARTS = 3, MOST_VALUES = 8, LONGEST_TEXTS = 8192, LONGEST = 1 << 17 };

typedef enum { ORDERED, RANKED, HASHED, SEQUENCED } index_kind;

typedef struct {
    index_kind kind;
    size_t parts, columns[MOST_PARTS];
} made_index;

/* Its first index is the one of ids. */
typedef struct {
    size_t columns, indexes;
    uint32_t types[MOST_COLUMNS]; /* WELTIYO_INT, WELTIYO_TEXT or, of flags, WELTIYO_FALSE */
    made_index index[MOST_INDEXES];
    uint64_t first_id, inserts;
} made_table;

typedef struct {
    size_t tables;
    made_table table[MOST_TABLES];
    char text[LONGEST];
} made_catalog;

/* A text that is written piece by piece. */
typedef struct {
    size_t length;
    char text[LONGEST];
} written;

/* Values, and the bytes of their texts. */
typedef struct {
    size_t count, length;
    weltiyo_value values[MOST_VALUES];
    char texts[LONGEST_TEXTS];
} made_values;

static uint64_t drawn;

static uint64_t below(uint64_t n) {
    drawn ^= drawn << 13, drawn ^= drawn >> 7, drawn ^= drawn << 17;
    return drawn % n;
}

static void put(written *to, const char *format, ...) {
    va_list words;
    va_start(words, format);
    to->length += (size_t)vsnprintf(to->text + to->length, LONGEST - to->length, format, words);
    va_end(words);
    if (to->length >= LONGEST)
        abort();
}

static void start_text(written *to) { to->length = 0, to->text[0] = 0; }

/* ---- Catalogs */

static void make_index(made_table *table, size_t n, written *toml) {
    static const char *const kinds[] = {"ordered", "ranked", "hashed", "sequenced"};
    made_index *it = &table->index[n];
    it->kind = (index_kind)below(4);
    it->parts = 0;
    put(toml, "{ name = \"i%zu\", kind = \"%s\"", n, kinds[it->kind]);
    if (it->kind != SEQUENCED) {
        size_t first = below(table->columns), most = table->columns < MOST_PARTS ? table->columns : MOST_PARTS, parts = 1 + below(most);
        put(toml, ", unique = %s, key = [", below(5) ? "false" : "true");
        for (; it->parts < parts; it->parts++) {
            size_t column = (first + it->parts) % table->columns;
            it->columns[it->parts] = column;
            put(toml, "%s\"%sc%zu\"", it->parts ? ", " : "", it->kind != HASHED && !below(3) ? "-" : "", column);
        }
        put(toml, "]");
    }
    put(toml, " }, ");
}

static void make_table(made_table *table, size_t n, written *toml) {
    static const char *const types[] = {"int", "text", "flag"};
    *table = (made_table){0};
    table->columns = 1 + below(MOST_COLUMNS);
    table->indexes = 1 + below(MOST_INDEXES);
    table->first_id = below(10) ? below(2) * 100 : INT64_MAX - 20;
    table->index[0] = (made_index){RANKED, 1, {0, 0, 0}};
    put(toml, "[[table]]\nname = \"t%zu\"\nmax_rows = %s\nfirst_id = %" PRIu64 "\ncolumn = [", n, below(4) ? "1000" : "12", table->first_id);
    for (size_t c = 0; c < table->columns; c++) {
        table->types[c] = (uint32_t)below(3);
        put(toml, "{ name = \"c%zu\", type = \"%s\" }, ", c, types[table->types[c]]);
    }
    put(toml, "]\nindex = [");
    for (size_t i = 1; i < table->indexes; i++)
        make_index(table, i, toml);
    put(toml, "]\n");
}

static void make_catalog(made_catalog *catalog) {
    static written toml;
    start_text(&toml);
    put(&toml, "format = 2\n");
    catalog->tables = 1 + below(MOST_TABLES);
    for (size_t n = 0; n < catalog->tables; n++)
        make_table(&catalog->table[n], n, &toml);
    memcpy(catalog->text, toml.text, toml.length + 1);
}

/* ---- Values. They are few, so that keys are equal and unique indexes refuse; now and then one fits no column. */

static void start_values(made_values *to) { to->count = 0, to->length = (size_t)snprintf(to->texts, LONGEST_TEXTS, "##"); }

static void add_text(made_values *to, const char *text) {
    size_t length = strlen(text);
    to->values[to->count++] = (weltiyo_value){WELTIYO_TEXT, 77, to->length, length};
    memcpy(to->texts + to->length, text, length);
    to->length += length;
}

/* A value that no line can have: of no kind, a text that goes past the bytes or begins behind them, or one that is no UTF-8. */
static void add_no_value(made_values *to) {
    static const weltiyo_value none[] = {{4, 1, 0, 0}, {UINT32_MAX, 0, 0, 0}, {WELTIYO_TEXT, 0, 1, LONGEST_TEXTS}, {WELTIYO_TEXT, 0, SIZE_MAX, 2}};
    if (below(2))
        to->values[to->count++] = none[below(4)];
    else
        add_text(to, "\xff");
}

static void add_value(made_values *to, uint32_t type) {
    static const int64_t numbers[] = {0, 1, 2, 3, 5, -1, -5, 50, INT64_MAX, INT64_MIN};
    static const char *const texts[] = {"", "a", "b", "ann", "\xc3\xa9", "\xe6\xbc\xa2\xf0\x9f\x98\x80", "z\"\\\n", "a text that is longer than a few words"};
    if (!below(200))
        add_no_value(to);
    else if (!below(80))
        add_value(to, (uint32_t)below(3));
    else if (type == WELTIYO_INT)
        to->values[to->count++] = (weltiyo_value){WELTIYO_INT, numbers[below(10)], 99, 98};
    else if (type == WELTIYO_TEXT)
        add_text(to, texts[below(8)]);
    else
        to->values[to->count++] = (weltiyo_value){(uint32_t)(WELTIYO_FALSE + below(2)), 5, 6, 7};
}

/* A row of a table, now and then of one value less or more. */
static void add_row(made_values *to, const made_table *table) {
    size_t count = below(60) ? table->columns : below(table->columns + 2);
    for (size_t c = 0; c < count; c++)
        add_value(to, c < table->columns ? table->types[c] : WELTIYO_INT);
}

/* Mostly the id of a row that may be there. A line's numbers end with INT64_MAX. */
static uint64_t made_id(const made_table *table) {
    uint64_t id = table->first_id + below(table->inserts * 2 / 3 + 3);
    return id > INT64_MAX ? INT64_MAX : id;
}

/* A key of an index: mostly whole, else the first values of one, now and then one that is too long. */
static void add_key(made_values *to, const made_table *table, size_t index) {
    const made_index *it = index < table->indexes ? &table->index[index] : &table->index[0];
    size_t count = below(3) ? it->parts : below(it->parts + 2);
    for (size_t part = 0; part < count; part++) {
        if (it == &table->index[0] && below(20))
            to->values[to->count++] = (weltiyo_value){WELTIYO_INT, (int64_t)made_id(table), 0, 0};
        else
            add_value(to, part < it->parts ? table->types[it->columns[part]] : WELTIYO_INT);
    }
}

/* Mostly one of a kind that the command is for. */
static size_t pick_index(const made_table *table, unsigned kinds) {
    for (int tries = 0; tries < 10; tries++) {
        size_t index = below(table->indexes);
        if (kinds >> table->index[index].kind & 1)
            return index;
    }
    return below(table->indexes + 1);
}

/* ---- JSON */

static void put_text(written *to, const char *text, size_t length) {
    put(to, "\"");
    for (const char *at = text; at < text + length; at++)
        if (*at == '\n')
            put(to, "\\n");
        else
            put(to, *at == '"' || *at == '\\' ? "\\%c" : "%c", *at);
    put(to, "\"");
}

/* A value; one that is none as null, which fits no column either. */
static void put_value(written *to, const weltiyo_value *value, const char *texts, size_t length) {
    int is_in = value->kind == WELTIYO_TEXT && value->at <= length && value->length <= length - value->at;
    if (value->kind == WELTIYO_INT)
        put(to, "%" PRId64, value->integer);
    else if (is_in && !memchr(texts + value->at, '\xff', value->length))
        put_text(to, texts + value->at, value->length);
    else
        put(to, "%s", value->kind == WELTIYO_FALSE ? "false" : value->kind == WELTIYO_TRUE ? "true" : "null");
}

/* A row as a line has it: a member for each value, with the name of its column. */
static void put_members(written *to, const made_values *row) {
    put(to, "{");
    for (size_t c = 0; c < row->count; c++) {
        put(to, "%s\"c%zu\":", c ? "," : "", c);
        put_value(to, &row->values[c], row->texts, row->length);
    }
    put(to, "}");
}

static void put_key(written *to, const weltiyo_value *values, size_t count, const made_values *in) {
    put(to, "[");
    for (size_t n = 0; n < count; n++) {
        put(to, "%s", n ? "," : "");
        put_value(to, &values[n], in->texts, in->length);
    }
    put(to, "]");
}

/* A row as replies show it. */
static void put_shown(written *to, uint64_t id, const weltiyo_value *row, size_t columns, const char *texts, size_t length) {
    put(to, "{");
    for (size_t c = 0; c < columns; c++) {
        put(to, "\"c%zu\":", c);
        put_value(to, &row[c], texts, length);
        put(to, ",");
    }
    put(to, "\"id\":%" PRIu64 "}", id);
}
