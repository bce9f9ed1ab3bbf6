/* The calls with values beside lines, and cursors beside both: one database is asked by calls, another by the lines of the same commands, by the
   same connections, over random catalogs. What a call tells must be what the line's reply says, byte for byte; without room it must tell what it
   wants, and with just that room it must answer as with more. Behind each command a look-up is answered by cursors too. It prints `ok`, or what
   differs: typed [COMMANDS [SEED]]. */
#include "made.h"

enum { CONNECTIONS = 3, OF_A_CATALOG = 400, MOST_ROWS = 1000, KEYED = 1 << ORDERED | 1 << RANKED | 1 << HASHED, SORTED = 1 << ORDERED | 1 << RANKED };

static weltiyo_db *called, *asked;
static made_catalog catalog;
static made_values values;
static written line, reply;

/* ---- What a line's reply says */

/* What it says of a call that told this; `accepted` is the reply of an accepted one, with its number. */
static void said(weltiyo_told told, const char *accepted, int is_modify) {
    start_text(&reply);
    if (told.status == 0) {
        put(&reply, accepted, told.number);
    } else if (told.status == WELTIYO_REFUSED_UNIQUE || told.status == WELTIYO_REFUSED_LOST) {
        put(&reply, "{\"error\":\"unique\",\"id\":%" PRIu64 ",\"index\":\"", told.number);
        put(&reply, told.index ? "i%u" : "id", told.index);
        put(&reply, "\",%s\"ok\":false}", told.status == WELTIYO_REFUSED_LOST ? "\"lost\":true," : is_modify ? "\"lost\":false," : "");
    } else {
        put(&reply, "{\"error\":\"%s\",\"ok\":false}", weltiyo_refusal_word(told.status));
    }
}

static void begin(const char *command, size_t table) {
    start_text(&line);
    put(&line, "{\"cmd\":\"%s\",\"table\":\"t%zu\"", command, table);
}

/* Whether the line isn't answered with the reply. */
static int is_other(uint64_t conn) {
    static char came[LONGEST];
    put(&line, "}");
    size_t length = weltiyo_ask(asked, conn, line.text, line.length, came, sizeof came - 1);
    came[length < sizeof came ? length : 0] = 0;
    if (!strcmp(reply.text, came))
        return 0;
    printf("line %s\n  told %s\n  came %s\n", line.text, reply.text, came);
    return 1;
}

static void put_index(written *to, size_t index) { put(to, index ? ",\"index\":\"i%zu\"" : ",\"index\":\"id\"", index); }

static made_table *pick_table(size_t *number) {
    *number = below(60) ? below(catalog.tables) : below(2) ? catalog.tables : SIZE_MAX;
    return &catalog.table[*number < catalog.tables ? *number : 0];
}

/* ---- Changes */

static int insert(uint64_t conn) {
    size_t number, index;
    made_table *table = pick_table(&number);
    uint64_t before = made_id(table);
    weltiyo_told told;
    start_values(&values);
    add_row(&values, table);
    begin("insert", number);
    put(&line, ",\"row\":");
    put_members(&line, &values);
    if (below(4)) {
        told = weltiyo_insert(called, conn, number, values.values, values.count, values.texts, values.length);
    } else {
        index = pick_index(table, 1 << SEQUENCED);
        told = weltiyo_insert_before(called, conn, number, values.values, values.count, values.texts, values.length, index, before);
        put(&line, ",\"before\":{\"id\":%" PRIu64, before);
        put_index(&line, index);
        put(&line, "}");
    }
    table->inserts += told.status == 0;
    said(told, "{\"id\":%" PRIu64 ",\"ok\":true}", 0);
    return is_other(conn);
}

static int replace(uint64_t conn) {
    size_t number;
    made_table *table = pick_table(&number);
    uint64_t id = made_id(table);
    start_values(&values);
    add_row(&values, table);
    said(weltiyo_replace(called, conn, number, id, values.values, values.count, values.texts, values.length), "{\"ok\":true}", 0);
    begin("replace", number);
    put(&line, ",\"id\":%" PRIu64 ",\"row\":", id);
    put_members(&line, &values);
    return is_other(conn);
}

static int add(uint64_t conn) {
    size_t number;
    made_table *table = pick_table(&number);
    uint64_t id = made_id(table);
    size_t column = below(table->columns + (below(20) ? 0 : 1));
    int64_t more = below(30) ? (int64_t)below(11) - 5 : INT64_MAX;
    uint32_t rollback = (uint32_t)below(3);
    said(weltiyo_modify_add(called, conn, number, id, column, more, rollback), "{\"ok\":true}", 1);
    begin("modify", number);
    put(&line, ",\"id\":%" PRIu64 ",\"add\":{\"c%zu\":%" PRId64 "},\"rollback\":%s", id, column, more, rollback ? "true" : "false");
    return is_other(conn);
}

/* An edit as a member of `set` or of `add`; one of a column that has one already as members of both, which a line refuses for the same. */
static void put_edit(written *sets, written *adds, const weltiyo_edit *edits, size_t n) {
    int is_second = 0;
    for (size_t other = 0; other < n; other++)
        is_second |= edits[other].column == edits[n].column;
    for (uint32_t kind = WELTIYO_PUT; kind <= WELTIYO_ADD; kind++) {
        written *to = kind == WELTIYO_ADD ? adds : sets;
        if (!is_second && (edits[n].kind == WELTIYO_ADD) != (kind == WELTIYO_ADD))
            continue;
        put(to, "%s\"c%zu\":", to->length ? "," : "", edits[n].column);
        if (edits[n].kind > WELTIYO_ADD)
            put(to, "null");
        else
            put_value(to, &edits[n].value, values.texts, values.length);
    }
}

static int modify(uint64_t conn) {
    static written sets, adds;
    size_t number, count = below(4);
    made_table *table = pick_table(&number);
    uint64_t id = made_id(table);
    uint32_t rollback = (uint32_t)below(3);
    weltiyo_edit edits[3];
    start_values(&values), start_text(&sets), start_text(&adds);
    for (size_t n = 0, column = below(table->columns); n < count; n++, column = below(6) ? (column + 1) % table->columns : below(table->columns + 1)) {
        uint32_t type = column < table->columns ? table->types[column] : WELTIYO_INT;
        add_value(&values, type);
        uint32_t kind = !below(100) ? 2 : type == WELTIYO_INT ? (uint32_t)below(2) : below(40) ? WELTIYO_PUT : WELTIYO_ADD;
        edits[n] = (weltiyo_edit){kind, column, values.values[n]};
        put_edit(&sets, &adds, edits, n);
    }
    said(weltiyo_modify(called, conn, number, id, edits, count, values.texts, values.length, rollback), "{\"ok\":true}", 1);
    begin("modify", number);
    put(&line, ",\"id\":%" PRIu64 ",\"set\":{%s},\"add\":{%s},\"rollback\":%s", id, sets.text, adds.text, rollback ? "true" : "false");
    return is_other(conn);
}

/* Whether cursors tell that a row is gone, and read nothing of it. */
static int is_gone(size_t table, uint64_t id) {
    weltiyo_cursor at = weltiyo_of_id(called, table, 0, id), kept = {0, (uint32_t)table, 0, id};
    char none = 'n';
    int64_t number = 7;
    return at.status == WELTIYO_GONE && weltiyo_step(called, kept, 0).status == WELTIYO_GONE && weltiyo_step(called, kept, 1).status == WELTIYO_GONE &&
           weltiyo_rank_of(called, kept).status == WELTIYO_GONE && weltiyo_int(called, kept, 0, &number) == WELTIYO_GONE && number == 7 &&
           weltiyo_text_of(called, kept, 0, &none, 1).status == WELTIYO_GONE && none == 'n' && weltiyo_int(called, at, 0, &number) == WELTIYO_GONE;
}

static int erase(uint64_t conn) {
    size_t number;
    uint64_t id = made_id(pick_table(&number));
    weltiyo_told told = weltiyo_erase(called, conn, number, id);
    if (told.status == 0 && !is_gone(number, id))
        return 1;
    said(told, "{\"ok\":true}", 0);
    begin("erase", number);
    put(&line, ",\"id\":%" PRIu64, id);
    return is_other(conn);
}

static int relocate(uint64_t conn) {
    size_t number;
    made_table *table = pick_table(&number);
    size_t index = pick_index(table, 1 << SEQUENCED);
    uint64_t id = made_id(table), before = made_id(table);
    uint32_t has_before = (uint32_t)below(3);
    said(weltiyo_relocate(called, conn, number, index, id, has_before, before), "{\"ok\":true}", 0);
    begin("relocate", number);
    put_index(&line, index);
    put(&line, ",\"id\":%" PRIu64, id);
    if (has_before)
        put(&line, ",\"before\":%" PRIu64, before);
    return is_other(conn);
}

/* ---- Session steps */

static int step(uint64_t conn) {
    static weltiyo_told (*const calls[])(weltiyo_db *, uint64_t) = {weltiyo_start, weltiyo_undo, weltiyo_squash, weltiyo_undo_all, weltiyo_push};
    static const char *const lines[] = {"start", "undo", "squash", "undo_all", "push"};
    static const char *const numbers[] = {"revision", "revision", "revision", "undone", "pushed"};
    size_t which = below(6) ? below(3) : below(5);
    char accepted[64];
    snprintf(accepted, sizeof accepted, "{\"ok\":true,\"%s\":%%" PRIu64 "}", numbers[which]);
    said(calls[which](called, conn), accepted, 0);
    start_text(&line);
    put(&line, "{\"cmd\":\"%s\"", lines[which]);
    return is_other(conn);
}

static int commit(uint64_t conn) {
    uint64_t number = below(20);
    said(weltiyo_commit(called, conn, number), "{\"committed\":%" PRIu64 ",\"ok\":true}", 0);
    start_text(&line);
    put(&line, "{\"cmd\":\"commit\",\"revision\":%" PRIu64, number);
    return is_other(conn);
}

/* ---- Numbers of a key, or of a row */

static int of_key(uint64_t conn) {
    static const char *const commands[] = {"count", "lower_rank", "upper_rank", "erase_key"};
    static const char *const accepted[] = {
        "{\"count\":%" PRIu64 ",\"ok\":true}",
        "{\"ok\":true,\"rank\":%" PRIu64 "}",
        "{\"ok\":true,\"rank\":%" PRIu64 "}",
        "{\"erased\":%" PRIu64 ",\"ok\":true}",
    };
    size_t number, which = below(9) / 2 % 4;
    made_table *table = pick_table(&number);
    size_t index = pick_index(table, which % 3 ? 1 << RANKED : KEYED);
    weltiyo_told told;
    start_values(&values);
    add_key(&values, table, index);
    if (which == 3)
        told = weltiyo_erase_key(called, conn, number, index, values.values, values.count, values.texts, values.length);
    else
        told = (which == 0 ? weltiyo_count : which == 1 ? weltiyo_lower_rank : weltiyo_upper_rank)(
            called, number, index, values.values, values.count, values.texts, values.length);
    said(told, accepted[which], 0);
    begin(commands[which], number);
    put_index(&line, index);
    put(&line, ",\"key\":");
    put_key(&line, values.values, values.count, &values);
    return is_other(conn);
}

static int rank_or_size(uint64_t conn) {
    size_t number;
    made_table *table = pick_table(&number);
    if (!below(3)) {
        said(weltiyo_size(called, number), "{\"ok\":true,\"size\":%" PRIu64 "}", 0);
        begin("size", number);
        return is_other(conn);
    }
    size_t index = pick_index(table, 1 << RANKED);
    uint64_t id = made_id(table);
    said(weltiyo_rank(called, number, index, id), "{\"ok\":true,\"rank\":%" PRIu64 "}", 0);
    begin("rank", number);
    put_index(&line, index);
    put(&line, ",\"id\":%" PRIu64, id);
    return is_other(conn);
}

/* ---- Rows and pages */

typedef enum { GET, FIND, NTH, RANGE, LIST } look_up;

/* A look-up that answers rows. */
typedef struct {
    look_up which;
    size_t table, columns, index, most, lower_count;
    uint64_t number; /* an id, or a rank */
    uint32_t lower, upper, reverse, has_after;
    made_values keys; /* (of a range the lower one's values first) */
} query;

/* Where rows are copied to. */
typedef struct {
    uint64_t *ids;
    weltiyo_value *rows;
    char *texts;
    size_t values, room;
} place;

static weltiyo_told fetch(const query *it, const place *to) {
    const made_values *keys = &it->keys;
    size_t upper_count = keys->count - it->lower_count;
    switch (it->which) {
    case GET: return weltiyo_get(called, it->table, it->number, to->rows, to->values, to->texts, to->room);
    case NTH: return weltiyo_nth(called, it->table, it->index, it->number, to->rows, to->values, to->texts, to->room);
    case FIND:
        return weltiyo_find(called, it->table, it->index, keys->values, keys->count, keys->texts, keys->length, to->rows, to->values, to->texts, to->room);
    case LIST:
        return weltiyo_list(called, it->table, it->index, it->has_after, it->number, to->ids, it->most, to->rows, to->values, to->texts, to->room);
    default:
        return weltiyo_range(called, it->table, it->index, it->lower, keys->values, it->lower_count, it->upper, keys->values + it->lower_count, upper_count,
                             keys->texts, keys->length, it->reverse, to->ids, it->most, to->rows, to->values, to->texts, to->room);
    }
}

static int is_page(const query *it) { return it->which >= RANGE; }

static size_t row_count(const query *it, weltiyo_told told) { return is_page(it) ? told.number : 1; }

/* What the reply shows of rows that were copied. */
static void show(const query *it, weltiyo_told told, const place *from) {
    said(told, "", 0);
    if (told.status)
        return;
    put(&reply, is_page(it) ? "{\"more\":%s,\"ok\":true,\"rows\":[" : "{\"ok\":true,\"row\":", told.index ? "true" : "false");
    for (size_t n = 0; n < row_count(it, told); n++) {
        put(&reply, "%s", n ? "," : "");
        put_shown(&reply, is_page(it) ? from->ids[n] : told.number, weltiyo_row(from->rows, it->columns, n), it->columns, from->texts, from->room);
    }
    put(&reply, is_page(it) ? "]}" : "}");
}

/* How many bytes of texts the rows have. */
static size_t text_bytes(const weltiyo_value *rows, size_t count) {
    size_t bytes = 0;
    for (size_t n = 0; n < count; n++)
        bytes += rows[n].kind == WELTIYO_TEXT ? rows[n].length : 0;
    return bytes;
}

/* Asks with blocks of just these sizes, and answers whether it tells this and, where it is accepted, shows this. */
static int tells(const query *it, size_t wanted_values, size_t room, weltiyo_told wanted, const char *shown) {
    place to = {malloc(it->most * sizeof *to.ids + 1), malloc(wanted_values * sizeof *to.rows + 1), malloc(room + 1), wanted_values, room};
    to.texts += 1; /* (so that what is written behind any of them is seen) */
    weltiyo_told told = fetch(it, &to);
    int well = told.status == wanted.status && told.index == wanted.index && told.number == wanted.number;
    if (well && told.status == 0) {
        show(it, told, &to);
        well = !strcmp(reply.text, shown);
    }
    if (!well)
        printf("room %zu and %zu: told %u %u %" PRIu64 "\n", wanted_values, room, told.status, told.index, told.number);
    free(to.ids), free(to.rows), free(to.texts - 1);
    return well;
}

/* Whether rows that fit want what they take: with less it is told, and with just that they are the same. */
static int wants(const query *it, weltiyo_told told, const place *from) {
    static char shown[LONGEST];
    size_t count = row_count(it, told) * it->columns, bytes = text_bytes(from->rows, count);
    weltiyo_told without = {WELTIYO_NO_ROOM, (uint32_t)count, bytes};
    memcpy(shown, reply.text, reply.length + 1);
    return tells(it, count, bytes, told, shown) && (!count || tells(it, below(count), bytes, without, "")) &&
           (!bytes || tells(it, count, below(bytes), without, ""));
}

/* ---- The same by cursors */

/* A row as replies show it, read column by column. */
static void put_read(written *to, weltiyo_cursor at, size_t columns) {
    static char text[LONGEST_TEXTS];
    put(to, "{");
    for (size_t c = 0; c < columns; c++) {
        weltiyo_field field = weltiyo_field_at(called, at, c);
        put(to, field.status ? "?" : "\"c%zu\":", c);
        if (field.kind == WELTIYO_TEXT) {
            weltiyo_told without = weltiyo_text_of(called, at, c, text, 0), told = weltiyo_text_of(called, at, c, text, sizeof text);
            put(to, without.number == told.number && (without.status == WELTIYO_NO_ROOM || !told.number) ? "" : "?");
            put_text(to, text, told.number);
        } else {
            weltiyo_value value = {field.kind, field.integer, 0, 0};
            put_value(to, &value, "", 0);
        }
        put(to, ",");
    }
    put(to, weltiyo_field_at(called, at, columns).status == WELTIYO_REFUSED_ROW ? "\"id\":%" PRIu64 "}" : "?", weltiyo_id_of(at));
}

/* Where an end of a range stands. */
static weltiyo_cursor at_end(const query *it, uint32_t kind, const weltiyo_value *key, size_t count, uint32_t beyond) {
    const made_values *in = &it->keys;
    if (kind == WELTIYO_OPEN)
        return weltiyo_cursor_at(it->table, it->index, (weltiyo_told){WELTIYO_END, 0, 0});
    return (kind == beyond ? weltiyo_seek_beyond : weltiyo_seek)(called, it->table, it->index, key, count, in->texts, in->length);
}

/* The rows from one cursor up to another, or to the end where that isn't met and is no row. Answers how many, or -1 where it is a row that
   stands before the first. Steps back lead back, from the end too. */
static long walked(weltiyo_cursor from, weltiyo_cursor to, weltiyo_cursor *rows, long most) {
    long count = 0;
    for (; from.status == 0 && !weltiyo_is_same(from, to) && count < most; from = weltiyo_step(called, from, 0)) {
        if (count && !weltiyo_is_same(weltiyo_step(called, from, 1), rows[count - 1]))
            return -2;
        rows[count++] = from;
    }
    if (count && from.status == WELTIYO_END && !weltiyo_is_same(weltiyo_step(called, from, 1), rows[count - 1]))
        return -2;
    return weltiyo_is_same(from, to) || count == most ? count : -1;
}

/* What the reply to a page's line says, by cursors. */
static void put_walked(const query *it) {
    static weltiyo_cursor rows[MOST_ROWS + 1];
    weltiyo_cursor from = weltiyo_first(called, it->table, it->index), to = at_end(it, WELTIYO_OPEN, NULL, 0, 0);
    if (it->which == LIST && it->has_after)
        from = weltiyo_step(called, weltiyo_of_id(called, it->table, it->index, it->number), 0);
    if (it->which == RANGE && it->lower != WELTIYO_OPEN)
        from = at_end(it, it->lower, it->keys.values, it->lower_count, WELTIYO_EXCLUDED);
    if (it->which == RANGE)
        to = at_end(it, it->upper, it->keys.values + it->lower_count, it->keys.count - it->lower_count, WELTIYO_INCLUDED);
    long count = walked(from, to, rows, MOST_ROWS + 1), shown = count < 0 ? 0 : count < (long)it->most ? count : (long)it->most;
    int back = it->which == RANGE && it->reverse;
    start_text(&reply);
    put(&reply, count == -2 ? "?" : "{\"more\":%s,\"ok\":true,\"rows\":[", count > shown ? "true" : "false");
    for (long n = 0; n < shown; n++) {
        put(&reply, "%s", n ? "," : "");
        put_read(&reply, rows[back ? count - 1 - n : n], it->columns);
    }
    put(&reply, "]}");
}

/* What the reply to a row's line says, by a cursor. */
static void put_row_at(const query *it) {
    const made_values *key = &it->keys;
    weltiyo_cursor at = it->which == GET   ? weltiyo_of_id(called, it->table, 0, it->number)
                        : it->which == NTH ? weltiyo_at_rank(called, it->table, it->index, it->number)
                                           : weltiyo_find_at(called, it->table, it->index, key->values, key->count, key->texts, key->length);
    said((weltiyo_told){at.status == WELTIYO_END ? (uint32_t)WELTIYO_GONE : at.status, 0, 0}, "{\"ok\":true,\"row\":", 0);
    if (at.status)
        return;
    put_read(&reply, at, it->columns);
    put(&reply, "}");
    if (it->which == NTH && weltiyo_rank_of(called, at).number != it->number)
        put(&reply, "?");
}

/* Whether cursors read what the reply shows. (the calls of pages refuse more kinds of index) */
static int reads_alike(const query *it, weltiyo_told told) {
    static char shown[LONGEST];
    memcpy(shown, reply.text, reply.length + 1);
    if (is_page(it) && told.status)
        return 1;
    if (is_page(it))
        put_walked(it);
    else
        put_row_at(it);
    if (!strcmp(reply.text, shown))
        return 1;
    printf("by cursors %s\n  shown %s\n", reply.text, shown);
    return 0;
}

static int answer_rows(uint64_t conn, const query *it) {
    static uint64_t ids[MOST_ROWS];
    static weltiyo_value rows[MOST_ROWS * MOST_COLUMNS];
    static char texts[MOST_ROWS * 256];
    const place to = {ids, rows, texts, sizeof rows / sizeof *rows, sizeof texts};
    weltiyo_told told = fetch(it, &to);
    show(it, told, &to);
    return is_other(conn) || !reads_alike(it, told) || (told.status == 0 && (show(it, told, &to), !wants(it, told, &to)));
}

static int row(uint64_t conn) {
    static const char *const commands[] = {"get", "find", "nth"};
    static query it;
    made_table *table = pick_table(&it.table);
    it.which = (look_up)below(3);
    it.columns = table->columns, it.most = 0, it.lower_count = 0;
    it.index = pick_index(table, it.which == NTH ? 1 << RANKED : KEYED);
    it.number = it.which == NTH ? below(20) : made_id(table);
    start_values(&it.keys);
    begin(commands[it.which], it.table);
    if (it.which == GET)
        put(&line, ",\"id\":%" PRIu64, it.number);
    else
        put_index(&line, it.index);
    if (it.which == NTH)
        put(&line, ",\"n\":%" PRIu64, it.number);
    if (it.which == FIND) {
        add_key(&it.keys, table, it.index);
        put(&line, ",\"key\":");
        put_key(&line, it.keys.values, it.keys.count, &it.keys);
    }
    return answer_rows(conn, &it);
}

/* An end of a range: its key is added behind what is there. */
static uint32_t make_end(query *it, const made_table *table, const char *name, const char *included, const char *excluded) {
    uint32_t kind = (uint32_t)below(3);
    size_t from = it->keys.count;
    if (kind != WELTIYO_OPEN || !below(4))
        add_key(&it->keys, table, it->index);
    if (kind != WELTIYO_OPEN) {
        put(&line, ",\"%s\":{\"%s\":", name, kind == WELTIYO_INCLUDED ? included : excluded);
        put_key(&line, it->keys.values + from, it->keys.count - from, &it->keys);
        put(&line, "}");
    }
    return kind;
}

static int range(uint64_t conn) {
    static query it;
    made_table *table = pick_table(&it.table);
    it.which = RANGE;
    it.columns = table->columns, it.index = pick_index(table, SORTED), it.most = 1 + below(below(3) ? 5 : MOST_ROWS);
    it.reverse = (uint32_t)(below(3) ? 0 : below(3));
    start_values(&it.keys);
    begin("range", it.table);
    put_index(&line, it.index);
    it.lower = make_end(&it, table, "lower", "ge", "gt");
    it.lower_count = it.keys.count;
    it.upper = make_end(&it, table, "upper", "le", "lt");
    put(&line, ",\"reverse\":%s,\"limit\":%zu", it.reverse ? "true" : "false", it.most);
    return answer_rows(conn, &it);
}

static int list(uint64_t conn) {
    static query it;
    made_table *table = pick_table(&it.table);
    it.which = LIST;
    it.columns = table->columns, it.index = pick_index(table, 1 << SEQUENCED), it.most = 1 + below(below(3) ? 5 : MOST_ROWS);
    it.has_after = (uint32_t)below(3), it.number = made_id(table);
    start_values(&it.keys);
    begin("list", it.table);
    put_index(&line, it.index);
    if (it.has_after)
        put(&line, ",\"after\":%" PRIu64, it.number);
    put(&line, ",\"limit\":%zu", it.most);
    return answer_rows(conn, &it);
}

static int one_of(uint64_t conn) {
    switch (below(32)) {
    case 0: case 1: case 2: case 3: case 4: case 5: case 6: return insert(conn);
    case 7: return replace(conn);
    case 8: case 9: return add(conn);
    case 10: case 11: case 12: return modify(conn);
    case 13: return erase(conn);
    case 14: return relocate(conn);
    case 15: case 16: case 17: case 18: return of_key(conn);
    case 19: case 20: return rank_or_size(conn);
    case 21: case 22: case 23: return row(conn);
    case 24: case 25: case 26: return range(conn);
    case 27: return list(conn);
    case 28: return below(4) ? 0 : commit(conn);
    default: return step(conn);
    }
}

/* A look-up, which is answered by a call, by cursors and by a line. */
static int look(uint64_t conn) {
    uint64_t which = below(7);
    return which < 3 ? row(conn) : which < 6 ? range(conn) : list(conn);
}

/* Whether the database tells its schema as it was opened, and each index by its name and its number. */
static int are_named(void) {
    static char text[LONGEST];
    char wanted[24], name[24];
    const weltiyo_told schema = weltiyo_schema(called, text, sizeof text);
    int well = schema.status == 0 && schema.number == strlen(catalog.text) && !memcmp(text, catalog.text, schema.number);
    for (size_t t = 0; t < catalog.tables; t++) {
        snprintf(name, sizeof name, "t%zu", t);
        well &= weltiyo_table(called, name, strlen(name)).number == t;
        for (size_t i = 0; i < catalog.table[t].indexes; i++) {
            size_t length = (size_t)snprintf(wanted, sizeof wanted, i ? "i%zu" : "id", i);
            const weltiyo_told told = weltiyo_index_name(called, t, i, name, sizeof name);
            well &= told.status == 0 && told.number == length && !memcmp(name, wanted, length) && weltiyo_index(called, t, wanted, length).number == i;
        }
    }
    return well;
}

static int open_both(void) {
    make_catalog(&catalog);
    if (!weltiyo_open(catalog.text, strlen(catalog.text), below(UINT64_MAX), &called) &&
        !weltiyo_open(catalog.text, strlen(catalog.text), 1, &asked) && are_named())
        return 1;
    printf("not opened, or not told:\n%s", catalog.text);
    return 0;
}

static void close_both(void) {
    weltiyo_close(called);
    weltiyo_close(asked);
}

/* Commands over one catalog. */
static int are_well(long from, long count) {
    for (long n = from; n < from + count; n++) {
        uint64_t conn = below(8) ? 1 : below(CONNECTIONS);
        if (one_of(conn) || look(conn)) {
            printf("command %ld over\n%s", n, catalog.text);
            return 0;
        }
        if (!below(200)) {
            conn = below(CONNECTIONS);
            weltiyo_release(called, conn);
            weltiyo_release(asked, conn);
        }
    }
    return 1;
}

int main(int count, char **words) {
    long commands = count > 1 ? atol(words[1]) : 20000;
    drawn = count > 2 ? strtoull(words[2], NULL, 10) : 88172645463325252u;
    for (long n = 0; n < commands; n += OF_A_CATALOG) {
        if (!open_both() || !are_well(n, commands - n < OF_A_CATALOG ? commands - n : OF_A_CATALOG))
            return 1;
        close_both();
    }
    printf("ok\n");
    return 0;
}
