/* Accounts by cursors: a range is walked from a key on and back, and a column is read where a row stands. No row is copied.

   cc ranges.c $(pkg-config --cflags --libs weltiyo) && ./a.out */
#include <inttypes.h>
#include <stdio.h>
#include <string.h>
#include <weltiyo.h>

enum { NODE = 1, OWNER = 0, BALANCE = 1, VIP = 2 };

static weltiyo_db *db;
static size_t accounts, by_owner, by_balance;

static uint64_t add(const char *owner, int64_t balance, int is_vip) {
    const weltiyo_value row[] = {
        {WELTIYO_TEXT, 0, 0, strlen(owner)}, {WELTIYO_INT, balance, 0, 0}, {is_vip ? WELTIYO_TRUE : WELTIYO_FALSE, 0, 0, 0}};
    return weltiyo_insert(db, NODE, accounts, row, 3, owner, strlen(owner)).number;
}

static void show(weltiyo_cursor at) {
    char owner[64];
    int64_t balance = 0;
    int is_vip = 0;
    const weltiyo_told told = weltiyo_text_of(db, at, OWNER, owner, sizeof owner);
    if (told.status || weltiyo_int(db, at, BALANCE, &balance) || weltiyo_flag(db, at, VIP, &is_vip)) {
        printf("  no account: %s\n", weltiyo_refusal_word(told.status));
        return;
    }
    printf("  rank %" PRIu64 ": %.*s has %" PRId64 "%s\n", weltiyo_rank_of(db, at).number, (int)told.number, owner, balance, is_vip ? ", vip" : "");
}

/* The cursor at the first balance that isn't less. */
static weltiyo_cursor from(int64_t balance) {
    const weltiyo_value key = {WELTIYO_INT, balance, 0, 0};
    return weltiyo_seek(db, accounts, by_balance, &key, 1, "", 0);
}

int main(void) {
    const uint32_t status = weltiyo_open("", 0, 0, &db);
    if (status != WELTIYO_OK) {
        fprintf(stderr, "schema: %s\n", weltiyo_word(status));
        return 1;
    }
    accounts = weltiyo_table(db, "accounts", 8).number;
    by_owner = weltiyo_index(db, accounts, "by_owner", 8).number;
    by_balance = weltiyo_index(db, accounts, "by_balance", 10).number;
    const uint64_t ann = add("ann", 50, 0);
    add("bob", 7, 1);
    add("cid", 30, 0);

    printf("from 10 up to 100\n");
    const weltiyo_cursor end = from(100);
    for (weltiyo_cursor at = from(10); at.status == 0 && !weltiyo_is_same(at, end); at = weltiyo_step(db, at, 0))
        show(at);

    printf("from the last one back\n");
    for (weltiyo_cursor at = weltiyo_last(db, accounts, by_balance); at.status == 0; at = weltiyo_step(db, at, 1))
        show(at);

    printf("by owner\n");
    const weltiyo_value bob = {WELTIYO_TEXT, 0, 0, 3};
    const weltiyo_cursor found = weltiyo_find_at(db, accounts, by_owner, &bob, 1, "bob", 3);
    printf("  id %" PRIu64 "\n", weltiyo_id_of(found));

    printf("a row that is gone is told\n");
    const weltiyo_cursor kept = weltiyo_of_id(db, accounts, by_balance, ann);
    weltiyo_erase(db, NODE, accounts, ann);
    show(kept);
    weltiyo_close(db);
    return 0;
}
