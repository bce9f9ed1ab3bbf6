/* A block of transfers that is taken back: each transfer is a session, the block is the sessions between its first and its last one, and
   whoever rejects the block undoes them all. The balances are then what they were before it.

   cc unwind.c $(pkg-config --cflags --libs weltiyo) && ./a.out */
#include <inttypes.h>
#include <stdio.h>
#include <stdlib.h>
#include <string.h>
#include <weltiyo.h>

enum { NODE = 1, ROOM = 512 };

static weltiyo_db *db;
static char reply[ROOM];

/* Asks a line, and answers whether it was accepted. Its reply is in `reply`. */
static int ask(const char *line) {
    size_t length = weltiyo_ask(db, NODE, line, strlen(line), reply, ROOM - 1);
    if (length >= ROOM) {
        fprintf(stderr, "a reply of %zu bytes\n", length);
        exit(1);
    }
    reply[length] = 0;
    return strstr(reply, "\"ok\":true") != NULL;
}

static void show(const char *when) {
    printf("%s\n", when);
    for (int id = 0; id < 2; id++) {
        char line[64];
        snprintf(line, sizeof line, "{\"cmd\":\"get\",\"id\":%d}", id);
        ask(line);
        printf("  %s\n", reply);
    }
}

/* Moves an amount in a session of its own. Where a part of it is refused, all of it is undone. */
static int transfer(int from, int to, int64_t amount) {
    char take[128], give[128];
    snprintf(take, sizeof take, "{\"cmd\":\"modify\",\"id\":%d,\"add\":{\"balance\":%" PRId64 "},\"rollback\":true}", from, -amount);
    snprintf(give, sizeof give, "{\"cmd\":\"modify\",\"id\":%d,\"add\":{\"balance\":%" PRId64 "},\"rollback\":true}", to, amount);
    if (!ask("{\"cmd\":\"start\"}"))
        return 0;
    if (ask(take) && ask(give))
        return 1;
    printf("refused: %s\n", reply);
    ask("{\"cmd\":\"undo\"}");
    return 0;
}

int main(void) {
    uint32_t status = weltiyo_open("", 0, 0, &db);
    if (status != WELTIYO_OK) {
        fprintf(stderr, "schema: %s\n", weltiyo_word(status));
        return 1;
    }
    ask("{\"cmd\":\"insert\",\"row\":{\"owner\":\"ann\",\"balance\":50,\"vip\":true}}");
    ask("{\"cmd\":\"insert\",\"row\":{\"owner\":\"bob\",\"balance\":7,\"vip\":false}}");
    show("before the block");

    int transfers = transfer(0, 1, 20) + transfer(0, 1, 5) + transfer(1, 9, 1);
    show("in the block");

    while (transfers-- > 0)
        ask("{\"cmd\":\"undo\"}"); /* (it takes no memory, so it is never refused for want of it) */
    show("after it was taken back");

    weltiyo_close(db);
    return 0;
}
