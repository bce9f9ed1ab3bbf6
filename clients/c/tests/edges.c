/* What no line can ask of the calls with values: values that are none, tables, columns and indexes that aren't there, rooms that are too small,
   pages of no row, and what stays where nothing is copied. It prints `ok`, or the line of what differs. */
#include <inttypes.h>
#include <stdio.h>
#include <stdlib.h>
#include <string.h>
#include <weltiyo.h>

enum { BY_ID, BY_OWNER, BY_BALANCE, BY_VIP, BY_CLASS, LINE, NONE };

static weltiyo_db *db;

static void expect(int holds, int line, const char *what) {
    if (!holds) {
        printf("line %d: %s\n", line, what);
        exit(1);
    }
}

static int is_told(weltiyo_told told, uint32_t status, uint32_t index, uint64_t number) {
    if (told.status == status && told.index == index && told.number == number)
        return 1;
    printf("told %u %u %" PRIu64 ", wanted %u %u %" PRIu64 "\n", told.status, told.index, told.number, status, index, number);
    return 0;
}

#define EXPECT(it) expect((it), __LINE__, #it)
#define TOLD(call, status, index, number) expect(is_told((call), (status), (index), (number)), __LINE__, #call)
#define TEXT(at, length) {WELTIYO_TEXT, 0, (at), (length)}
#define NUMBER(n) {WELTIYO_INT, (n), 0, 0}
#define FLAG(is) {(is) ? WELTIYO_TRUE : WELTIYO_FALSE, 0, 0, 0}

/* The built-in table with three rows: ann with 50 and bob with 7 and `vip`, eve with 7. */
static void open_filled(void) {
    const weltiyo_value ann[] = {TEXT(0, 3), NUMBER(50), FLAG(0)}, bob[] = {TEXT(3, 3), NUMBER(7), FLAG(1)}, eve[] = {TEXT(6, 3), NUMBER(7), FLAG(0)};
    EXPECT(weltiyo_open("", 0, 1, &db) == WELTIYO_OK);
    TOLD(weltiyo_insert(db, 1, 0, ann, 3, "annbobeve", 9), 0, 0, 0);
    TOLD(weltiyo_insert(db, 1, 0, bob, 3, "annbobeve", 9), 0, 0, 1);
    TOLD(weltiyo_insert(db, 1, 0, eve, 3, "annbobeve", 9), 0, 0, 2);
}

static void values_that_are_none(void) {
    weltiyo_value row[] = {TEXT(0, 3), NUMBER(-7), FLAG(1)};
    EXPECT(weltiyo_open("", 0, 1, &db) == WELTIYO_OK);
    TOLD(weltiyo_insert(db, 1, 1, row, 3, "ann", 3), WELTIYO_REFUSED_TABLE, 0, 0);
    TOLD(weltiyo_insert(db, 1, 0, row, 2, "ann", 3), WELTIYO_REFUSED_ROW, 0, 0);
    TOLD(weltiyo_insert(db, 1, 0, row, 3, "ann", 2), WELTIYO_REFUSED_ROW, 0, 0); /* (the text goes past the bytes) */
    row[0].at = SIZE_MAX;
    TOLD(weltiyo_insert(db, 1, 0, row, 3, "ann", 3), WELTIYO_REFUSED_ROW, 0, 0);
    row[0].at = 0;
    TOLD(weltiyo_insert(db, 1, 0, row, 3, "\xff\xff\xff", 3), WELTIYO_REFUSED_ROW, 0, 0);
    row[2].kind = 4;
    TOLD(weltiyo_insert(db, 1, 0, row, 3, "ann", 3), WELTIYO_REFUSED_ROW, 0, 0);
    row[2].kind = WELTIYO_FALSE;
    TOLD(weltiyo_insert(db, 1, 0, row, 3, "ann", 3), 0, 0, 0);
    TOLD(weltiyo_modify_add(db, 1, 0, 0, 3, 1, 1), WELTIYO_REFUSED_ROW, 0, 0);
    weltiyo_close(db);
}

static void rows_without_room(void) {
    weltiyo_value row[4];
    char texts[4];
    open_filled();
    TOLD(weltiyo_get(db, 1, 0, row, 4, texts, 4), WELTIYO_REFUSED_TABLE, 0, 0);
    TOLD(weltiyo_get(db, 0, 3, row, 4, texts, 4), WELTIYO_REFUSED_ID, 0, 0);
    TOLD(weltiyo_get(db, 0, UINT64_MAX, row, 4, texts, 4), WELTIYO_REFUSED_ID, 0, 0);
    TOLD(weltiyo_get(db, 0, 0, row, 2, texts, 4), WELTIYO_NO_ROOM, 3, 3);
    TOLD(weltiyo_get(db, 0, 0, row, 3, texts, 2), WELTIYO_NO_ROOM, 3, 3);
    row[3].integer = 42, texts[3] = '#';
    TOLD(weltiyo_get(db, 0, 0, row, 4, texts, 4), 0, 0, 0);
    EXPECT(!memcmp(texts, "ann#", 4) && row[0].kind == WELTIYO_TEXT && row[0].at == 0 && row[0].length == 3);
    EXPECT(row[1].kind == WELTIYO_INT && row[1].integer == 50 && row[2].kind == WELTIYO_FALSE && row[3].integer == 42);
    TOLD(weltiyo_nth(db, 0, BY_BALANCE, 0, row, 0, texts, 4), WELTIYO_NO_ROOM, 3, 3);
    TOLD(weltiyo_nth(db, 0, BY_BALANCE, 1, row, 3, texts, 3), 0, 0, 2);
    EXPECT(!memcmp(texts, "eve#", 4) && row[1].integer == 7 && row[3].integer == 42);
    TOLD(weltiyo_nth(db, 0, BY_BALANCE, UINT64_MAX, row, 4, texts, 4), WELTIYO_REFUSED_ID, 0, 0);
    weltiyo_close(db);
}

static void edits(void) {
    const weltiyo_edit three[] = {{WELTIYO_PUT, 2, FLAG(1)}, {WELTIYO_ADD, 1, NUMBER(-8)}, {WELTIYO_PUT, 0, TEXT(1, 2)}};
    weltiyo_edit one = {WELTIYO_PUT, 1, NUMBER(5)};
    weltiyo_value row[3];
    char texts[8];
    open_filled();
    TOLD(weltiyo_modify(db, 1, 0, 0, three, 3, "#An", 3, 1), 0, 0, 0);
    TOLD(weltiyo_get(db, 0, 0, row, 3, texts, 8), 0, 0, 0);
    EXPECT(row[0].length == 2 && !memcmp(texts, "An", 2) && row[1].integer == 42 && row[2].kind == WELTIYO_TRUE);
    TOLD(weltiyo_modify(db, 1, 0, 0, three, 0, "", 0, 1), 0, 0, 0);
    TOLD(weltiyo_modify(db, 1, 0, 9, three, 0, "", 0, 1), WELTIYO_REFUSED_ID, 0, 0);
    TOLD(weltiyo_modify(db, 1, 1, 0, three, 0, "", 0, 1), WELTIYO_REFUSED_TABLE, 0, 0);
    TOLD(weltiyo_modify(db, 1, 0, 9, three, 3, "#A", 2, 1), WELTIYO_REFUSED_ROW, 0, 0); /* (a row comes before an id) */
    one.kind = 2;
    TOLD(weltiyo_modify(db, 1, 0, 0, &one, 1, "", 0, 1), WELTIYO_REFUSED_ROW, 0, 0);
    one.kind = WELTIYO_ADD, one.column = SIZE_MAX;
    TOLD(weltiyo_modify(db, 1, 0, 0, &one, 1, "", 0, 1), WELTIYO_REFUSED_ROW, 0, 0);
    one.kind = WELTIYO_PUT, one.column = 0, one.value.kind = WELTIYO_TEXT, one.value.length = 3;
    TOLD(weltiyo_modify(db, 1, 0, 1, &one, 1, "eve", 3, 1), WELTIYO_REFUSED_UNIQUE, BY_OWNER, 2);
    TOLD(weltiyo_modify(db, 1, 0, 1, &one, 1, "eve", 3, 0), WELTIYO_REFUSED_LOST, BY_OWNER, 2);
    TOLD(weltiyo_size(db, 0), 0, 0, 2);
    weltiyo_close(db);
}

/* Names have the numbers that calls go by; what is the name of nothing, or no text, has none. */
static void names(void) {
    open_filled();
    TOLD(weltiyo_table(db, "accounts", 8), 0, 0, 0);
    TOLD(weltiyo_table(db, "accounts", 7), WELTIYO_REFUSED_TABLE, 0, 0);
    TOLD(weltiyo_table(db, "", 0), WELTIYO_REFUSED_TABLE, 0, 0);
    TOLD(weltiyo_index(db, 0, "id", 2), 0, 0, 0);
    TOLD(weltiyo_index(db, 0, "by_owner", 8), 0, 0, BY_OWNER);
    TOLD(weltiyo_index(db, 0, "by_balance", 10), 0, 0, BY_BALANCE);
    TOLD(weltiyo_index(db, 0, "owner", 5), WELTIYO_REFUSED_INDEX, 0, 0);
    TOLD(weltiyo_index(db, 0, "by_own\xc3", 7), WELTIYO_REFUSED_INDEX, 0, 0);
    TOLD(weltiyo_index(db, 1, "id", 2), WELTIYO_REFUSED_TABLE, 0, 0);
    TOLD(weltiyo_column(db, 0, "owner", 5), 0, 0, 0);
    TOLD(weltiyo_column(db, 0, "vip", 3), 0, 0, 2);
    TOLD(weltiyo_column(db, 0, "id", 2), WELTIYO_REFUSED_ROW, 0, 0);
    TOLD(weltiyo_column(db, SIZE_MAX, "vip", 3), WELTIYO_REFUSED_TABLE, 0, 0);
    weltiyo_close(db);
}

/* Refusals come in the order of lines: table, index, kind, row or key, and then the command's own. */
static void refusals_in_order(void) {
    const weltiyo_value good[] = {TEXT(0, 3)}, bad[] = {{9, 0, 0, 0}}, row[] = {TEXT(0, 3), NUMBER(1), FLAG(0)};
    weltiyo_value out[3];
    char texts[8];
    open_filled();
    TOLD(weltiyo_count(db, 1, NONE, bad, 1, "", 0), WELTIYO_REFUSED_TABLE, 0, 0);
    TOLD(weltiyo_count(db, 0, NONE, bad, 1, "", 0), WELTIYO_REFUSED_INDEX, 0, 0);
    TOLD(weltiyo_count(db, 0, SIZE_MAX, bad, 1, "", 0), WELTIYO_REFUSED_INDEX, 0, 0);
    TOLD(weltiyo_count(db, 0, LINE, bad, 1, "", 0), WELTIYO_REFUSED_KIND, 0, 0);
    TOLD(weltiyo_count(db, 0, BY_OWNER, bad, 1, "", 0), WELTIYO_REFUSED_KEY, 0, 0);
    TOLD(weltiyo_count(db, 0, BY_OWNER, good, 1, "eve", 2), WELTIYO_REFUSED_KEY, 0, 0);
    TOLD(weltiyo_count(db, 0, BY_OWNER, good, 1, "ev\xc3", 3), WELTIYO_REFUSED_KEY, 0, 0);
    TOLD(weltiyo_count(db, 0, BY_OWNER, good, 1, "eve", 3), 0, 0, 1);
    TOLD(weltiyo_find(db, 0, BY_CLASS, bad, 1, "", 0, out, 0, texts, 0), WELTIYO_REFUSED_KEY, 0, 0);
    TOLD(weltiyo_find(db, 0, BY_OWNER, good, 1, "ove", 3, out, 0, texts, 0), WELTIYO_REFUSED_ID, 0, 0);
    TOLD(weltiyo_find(db, 0, BY_OWNER, good, 1, "eve", 3, out, 2, texts, 8), WELTIYO_NO_ROOM, 3, 3);
    TOLD(weltiyo_lower_rank(db, 0, BY_CLASS, bad, 1, "", 0), WELTIYO_REFUSED_KIND, 0, 0);
    TOLD(weltiyo_upper_rank(db, 0, BY_BALANCE, bad, 1, "", 0), WELTIYO_REFUSED_KEY, 0, 0);
    TOLD(weltiyo_rank(db, 0, BY_CLASS, 9), WELTIYO_REFUSED_KIND, 0, 0);
    TOLD(weltiyo_rank(db, 0, BY_BALANCE, 9), WELTIYO_REFUSED_ID, 0, 0);
    TOLD(weltiyo_insert_before(db, 1, 0, row, 2, "eve", 3, NONE, 9), WELTIYO_REFUSED_INDEX, 0, 0);
    TOLD(weltiyo_insert_before(db, 1, 0, row, 2, "eve", 3, BY_CLASS, 9), WELTIYO_REFUSED_KIND, 0, 0);
    TOLD(weltiyo_insert_before(db, 1, 0, row, 2, "eve", 3, LINE, 9), WELTIYO_REFUSED_ROW, 0, 0);
    TOLD(weltiyo_insert_before(db, 1, 0, row, 3, "eve", 3, LINE, 9), WELTIYO_REFUSED_ID, 0, 0);
    TOLD(weltiyo_insert_before(db, 1, 0, row, 3, "eve", 3, LINE, 0), WELTIYO_REFUSED_UNIQUE, BY_OWNER, 2);
    TOLD(weltiyo_relocate(db, 1, 0, BY_VIP, 9, 0, 0), WELTIYO_REFUSED_KIND, 0, 0);
    TOLD(weltiyo_relocate(db, 1, 0, LINE, 0, 1, UINT64_MAX), WELTIYO_REFUSED_ID, 0, 0);
    TOLD(weltiyo_erase_key(db, 1, 0, BY_CLASS, bad, 1, "", 0), WELTIYO_REFUSED_KEY, 0, 0);
    TOLD(weltiyo_size(db, SIZE_MAX), WELTIYO_REFUSED_TABLE, 0, 0);
    TOLD(weltiyo_size(db, 0), 0, 0, 3);
    weltiyo_close(db);
}

static weltiyo_told all_of(uint64_t *ids, size_t most, weltiyo_value *rows, size_t values, char *texts, size_t room) {
    const weltiyo_value none[] = {{9, 0, 0, 0}}; /* (of an open end the key isn't read) */
    return weltiyo_range(db, 0, BY_BALANCE, WELTIYO_OPEN, none, 1, WELTIYO_OPEN, none, 0, "", 0, 0, ids, most, rows, values, texts, room);
}

static void pages(void) {
    uint64_t ids[4] = {0, 0, 0, 77};
    weltiyo_value rows[10] = {{0, 0, 0, 0}};
    const weltiyo_value seven[] = {NUMBER(7)}, owner[] = {TEXT(0, 1)};
    char texts[10] = "..........";
    open_filled();
    rows[9].integer = 42, texts[9] = '#';
    TOLD(all_of(ids, 4, rows, 10, texts, 10), 0, 0, 3);
    EXPECT(ids[0] == 1 && ids[1] == 2 && ids[2] == 0 && ids[3] == 77 && rows[9].integer == 42 && !memcmp(texts, "bobeveann#", 10));
    EXPECT(weltiyo_row(rows, 3, 1)[1].integer == 7 && weltiyo_row(rows, 3, 2)[1].integer == 50);
    EXPECT(!memcmp(weltiyo_text(texts, weltiyo_row(rows, 3, 2)), "ann", 3) && weltiyo_row(rows, 3, 2)->length == 3);
    TOLD(all_of(ids, 3, rows, 9, texts, 9), 0, 0, 3);
    TOLD(all_of(ids, 2, rows, 6, texts, 6), 0, 1, 2);
    TOLD(all_of(ids, 3, rows, 8, texts, 9), WELTIYO_NO_ROOM, 9, 9);
    TOLD(all_of(ids, 3, rows, 9, texts, 8), WELTIYO_NO_ROOM, 9, 9);
    TOLD(all_of(ids, 2, rows, 0, texts, 0), WELTIYO_NO_ROOM, 6, 6);
    TOLD(all_of(ids, 0, rows, 0, texts, 0), 0, 1, 0); /* (no row, and others follow) */
    TOLD(weltiyo_range(db, 0, BY_BALANCE, WELTIYO_EXCLUDED, seven, 1, WELTIYO_EXCLUDED, seven, 1, "", 0, 0, ids, 4, rows, 10, texts, 10), 0, 0, 0);
    TOLD(weltiyo_range(db, 0, BY_BALANCE, WELTIYO_INCLUDED, seven, 1, WELTIYO_INCLUDED, seven, 1, "", 0, 1, ids, 1, rows, 10, texts, 10), 0, 1, 1);
    EXPECT(ids[0] == 2);
    TOLD(weltiyo_range(db, 0, BY_BALANCE, WELTIYO_OPEN, seven, 0, WELTIYO_INCLUDED, owner, 1, "a", 1, 0, ids, 4, rows, 9, texts, 9), WELTIYO_REFUSED_KEY, 0, 0);
    TOLD(weltiyo_range(db, 0, BY_OWNER, WELTIYO_OPEN, seven, 0, WELTIYO_OPEN, owner, 0, "", 0, 0, ids, 4, rows, 10, texts, 10), WELTIYO_REFUSED_KIND, 0, 0);
    TOLD(weltiyo_range(db, 0, BY_BALANCE, 3, seven, 1, WELTIYO_OPEN, seven, 0, "", 0, 0, ids, 4, rows, 10, texts, 10), WELTIYO_REFUSED_KEY, 0, 0);
    TOLD(weltiyo_range(db, 0, BY_BALANCE, 1, seven, 1, UINT32_MAX, seven, 1, "", 0, 0, ids, 4, rows, 10, texts, 10), WELTIYO_REFUSED_KEY, 0, 0);
    TOLD(weltiyo_list(db, 0, LINE, 0, 0, ids, 0, rows, 0, texts, 0), 0, 1, 0);
    TOLD(weltiyo_list(db, 0, LINE, 1, 1, ids, 4, rows, 3, texts, 3), 0, 0, 1);
    EXPECT(ids[0] == 2 && rows[1].integer == 7);
    TOLD(weltiyo_list(db, 0, LINE, 1, 2, ids, 4, rows, 0, texts, 0), 0, 0, 0);
    TOLD(weltiyo_list(db, 0, LINE, 1, UINT64_MAX, ids, 4, rows, 10, texts, 10), WELTIYO_REFUSED_ID, 0, 0);
    TOLD(weltiyo_list(db, 0, BY_BALANCE, 0, 0, ids, 4, rows, 10, texts, 10), WELTIYO_REFUSED_KIND, 0, 0);
    weltiyo_close(db);
}

/* A page has at most 1,000 rows, however much room there is for them. */
static void long_pages(void) {
    static uint64_t ids[1200];
    static weltiyo_value rows[3600];
    static char texts[1 << 16];
    char owner[16];
    EXPECT(weltiyo_open("", 0, 1, &db) == WELTIYO_OK);
    for (uint64_t n = 0; n < 1100; n++) {
        const weltiyo_value row[] = {TEXT(0, (size_t)snprintf(owner, sizeof owner, "%" PRIu64, n)), NUMBER((int64_t)n), FLAG(0)};
        TOLD(weltiyo_insert(db, 1, 0, row, 3, owner, sizeof owner), 0, 0, n);
    }
    TOLD(all_of(ids, 1200, rows, 3600, texts, sizeof texts), 0, 1, WELTIYO_MOST_ROWS);
    TOLD(weltiyo_list(db, 0, LINE, 0, 0, ids, 1200, rows, 3600, texts, sizeof texts), 0, 1, WELTIYO_MOST_ROWS);
    EXPECT(ids[0] == 0 && ids[999] == 999 && ids[1000] == 0 && rows[2998].integer == 999);
    TOLD(weltiyo_list(db, 0, LINE, 1, 999, ids, 1200, rows, 3600, texts, sizeof texts), 0, 0, 100);
    EXPECT(ids[99] == 1099 && rows[297].length == 4 && !memcmp(weltiyo_text(texts, weltiyo_row(rows, 3, 99)), "1099", 4));
    weltiyo_close(db);
}

/* Look-ups are answered while another connection holds sessions, changes aren't; 1,024 sessions are the most. */
static void sessions(void) {
    const weltiyo_value key[] = {NUMBER(7)};
    const weltiyo_edit none[] = {{WELTIYO_PUT, 0, NUMBER(0)}};
    open_filled();
    TOLD(weltiyo_undo_all(db, 1), 0, 0, 0);
    for (uint64_t n = 1; n <= 1024; n++)
        TOLD(weltiyo_start(db, 7), 0, 0, n);
    TOLD(weltiyo_start(db, 7), WELTIYO_REFUSED_DEPTH, 0, 0);
    TOLD(weltiyo_erase_key(db, 7, 0, BY_BALANCE, key, 1, "", 0), 0, 0, 2);
    TOLD(weltiyo_erase_key(db, 1, 0, NONE, key, 1, "", 0), WELTIYO_REFUSED_BUSY, 0, 0);
    TOLD(weltiyo_relocate(db, 1, 9, 9, 9, 0, 0), WELTIYO_REFUSED_BUSY, 0, 0);
    TOLD(weltiyo_modify(db, 1, 9, 9, none, 1, "", 0, 1), WELTIYO_REFUSED_BUSY, 0, 0);
    TOLD(weltiyo_insert_before(db, 1, 9, key, 1, "", 0, 9, 9), WELTIYO_REFUSED_BUSY, 0, 0);
    TOLD(weltiyo_undo_all(db, 1), WELTIYO_REFUSED_BUSY, 0, 0);
    TOLD(weltiyo_push(db, 1), WELTIYO_REFUSED_BUSY, 0, 0);
    TOLD(weltiyo_count(db, 0, BY_BALANCE, key, 1, "", 0), 0, 0, 0);
    TOLD(weltiyo_push(db, 7), 0, 0, 1024);
    TOLD(weltiyo_push(db, 7), 0, 0, 0);
    TOLD(weltiyo_undo_all(db, 1), 0, 0, 1024);
    TOLD(weltiyo_count(db, 0, BY_BALANCE, key, 1, "", 0), 0, 0, 2);
    weltiyo_close(db);
}

/* The reply to the last line stays over calls. */
static void replies(void) {
    static const char size[] = "{\"cmd\":\"size\"}", wanted[] = "{\"ok\":true,\"size\":3}";
    const weltiyo_value key[] = {NUMBER(7)};
    uint64_t ids[3];
    weltiyo_value rows[9];
    char texts[9], out[64];
    open_filled();
    EXPECT(weltiyo_execute(db, 1, size, strlen(size)) == strlen(wanted));
    TOLD(all_of(ids, 3, rows, 9, texts, 9), 0, 0, 3);
    TOLD(weltiyo_relocate(db, 1, 0, LINE, 2, 1, 0), 0, 0, 0);
    TOLD(weltiyo_count(db, 0, BY_BALANCE, key, 1, "", 0), 0, 0, 2);
    EXPECT(weltiyo_reply(db, 0, out, sizeof out) == strlen(wanted) && !memcmp(out, wanted, strlen(wanted)));
    weltiyo_close(db);
}

int main(void) {
    values_that_are_none();
    rows_without_room();
    edits();
    names();
    refusals_in_order();
    pages();
    long_pages();
    sessions();
    replies();
    puts("ok");
    return 0;
}
