/* Each call once and at its edges: connections and what they hold, copies of a reply, schemas that are refused, many handles. It prints
   `ok`, or the line of what differs. Run under valgrind and the sanitizers it shows what is freed. */
#include <stdio.h>
#include <stdlib.h>
#include <string.h>
#include <weltiyo.h>

static void expect(int holds, int line, const char *what) {
    if (!holds) {
        printf("line %d: %s\n", line, what);
        exit(1);
    }
}

#define EXPECT(it) expect((it), __LINE__, #it)
#define ASKED(db, conn, line, reply) expect(is_answered(db, conn, line, reply), __LINE__, line)

static int is_answered(weltiyo_db *db, uint64_t conn, const char *line, const char *wanted) {
    char out[1024];
    size_t length = weltiyo_ask(db, conn, line, strlen(line), out, sizeof out);
    if (length != strlen(wanted) || memcmp(out, wanted, length)) {
        printf("came %.*s\n", (int)(length < sizeof out ? length : sizeof out), out);
        return 0;
    }
    return 1;
}

static weltiyo_db *opened(const char *schema, uint64_t secret) {
    weltiyo_db *db = NULL;
    EXPECT(weltiyo_open(schema, strlen(schema), secret, &db) == WELTIYO_OK);
    EXPECT(db != NULL);
    return db;
}

static const char DONE[] = "{\"ok\":true}";
static const char BUSY[] = "{\"error\":\"busy\",\"ok\":false}";
static const char START[] = "{\"cmd\":\"start\"}", UNDO[] = "{\"cmd\":\"undo\"}", SIZE[] = "{\"cmd\":\"size\"}";
static const char ANN[] = "{\"cmd\":\"insert\",\"row\":{\"owner\":\"ann\",\"balance\":50,\"vip\":false}}";

/* A connection that holds a session keeps others out, until it goes away; what it did is undone then. */
static void connections(void) {
    weltiyo_db *db = opened("", 1);
    ASKED(db, 1, ANN, "{\"id\":0,\"ok\":true}");
    ASKED(db, UINT64_MAX, START, "{\"ok\":true,\"revision\":1}");
    ASKED(db, 1, "{\"cmd\":\"erase\",\"id\":0}", BUSY);
    ASKED(db, UINT64_MAX, "{\"cmd\":\"erase\",\"id\":0}", DONE);
    ASKED(db, 1, SIZE, "{\"ok\":true,\"size\":0}");
    weltiyo_release(db, 2); /* (it holds nothing) */
    ASKED(db, 1, UNDO, BUSY);
    weltiyo_release(db, UINT64_MAX);
    ASKED(db, 1, SIZE, "{\"ok\":true,\"size\":1}");
    ASKED(db, 1, UNDO, "{\"error\":\"session\",\"ok\":false}");
    weltiyo_close(db);
}

/* A reply is copied from any byte on, as much as fits, and stays until the next line. */
static void copies(void) {
    weltiyo_db *db = opened("", 2);
    char out[16];
    memset(out, '#', sizeof out);
    EXPECT(weltiyo_reply(db, 0, out, sizeof out) == 0);
    EXPECT(weltiyo_execute(db, 1, SIZE, strlen(SIZE)) == 20);
    EXPECT(weltiyo_reply(db, 0, out, 0) == 0);
    EXPECT(out[0] == '#');
    EXPECT(weltiyo_reply(db, 6, out, 4) == 4);
    EXPECT(!memcmp(out, "true#", 5));
    EXPECT(weltiyo_reply(db, 12, out, sizeof out) == 8);
    EXPECT(!memcmp(out, "size\":0}########", 16));
    weltiyo_release(db, 1);
    EXPECT(weltiyo_reply(db, 19, out, sizeof out) == 1);
    EXPECT(out[0] == '}');
    EXPECT(weltiyo_reply(db, 20, out, sizeof out) == 0);
    EXPECT(weltiyo_reply(db, SIZE_MAX, out, sizeof out) == 0);
    EXPECT(weltiyo_ask(db, 1, SIZE, strlen(SIZE), out, 3) == 20);
    EXPECT(!memcmp(out, "{\"ok", 3) && out[3] == 'e');
    weltiyo_close(db);
}

/* Lines that are none: an empty one, one with bytes that are no text, one at the limit and one above it. */
static void odd_lines(void) {
    weltiyo_db *db = opened("", 3);
    static char line[WELTIYO_LONGEST_LINE + 1];
    ASKED(db, 1, "", "{\"error\":\"json\",\"ok\":false}");
    ASKED(db, 1, "\xff", "{\"error\":\"json\",\"ok\":false}");
    ASKED(db, 1, "{\"cmd\":\"fly\"}", "{\"error\":\"form\",\"ok\":false}");
    memset(line, ' ', sizeof line);
    memcpy(line, SIZE, strlen(SIZE));
    EXPECT(weltiyo_execute(db, 1, line, sizeof line - 1) == strlen("{\"ok\":true,\"size\":0}"));
    EXPECT(weltiyo_execute(db, 1, line, sizeof line) == strlen("{\"error\":\"line\",\"ok\":false}"));
    weltiyo_close(db);
}

static void refuses(const char *schema, size_t length, uint32_t status, const char *word) {
    weltiyo_db *db = (weltiyo_db *)schema;
    EXPECT(weltiyo_open(schema, length, 0, &db) == status);
    EXPECT(db == NULL);
    EXPECT(!strcmp(weltiyo_word(status), word));
}

static void schemas(void) {
    static char text[65537];
    memset(text, ' ', sizeof text);
    refuses(text, sizeof text, WELTIYO_FILE, "file");
    refuses(text, sizeof text - 1, WELTIYO_SHAPE, "shape");
    refuses("table = ", 8, WELTIYO_TOML, "toml");
    const char twice[] = "table = \"t\"\ncolumn = [{name = \"a\", type = \"int\"}, {name = \"a\", type = \"int\"}]\n";
    refuses(twice, strlen(twice), WELTIYO_TWICE, "twice");
    const char type[] = "table = \"t\"\ncolumn = [{name = \"a\", type = \"real\"}]\n";
    refuses(type, strlen(type), WELTIYO_TYPE, "type");
    EXPECT(!strcmp(weltiyo_word(12), "unknown"));
}

/* Two databases know nothing of each other, and the secret is in no answer. */
static void handles(void) {
    weltiyo_db *one = opened("", 4), *two = opened("table = \"t\"\ncolumn = [{name = \"a\", type = \"int\"}]\n", 5);
    ASKED(one, 1, ANN, "{\"id\":0,\"ok\":true}");
    ASKED(two, 1, "{\"cmd\":\"insert\",\"row\":{\"a\":-3}}", "{\"id\":0,\"ok\":true}");
    ASKED(two, 1, "{\"cmd\":\"get\",\"id\":0}", "{\"ok\":true,\"row\":{\"a\":-3,\"id\":0}}");
    ASKED(one, 1, "{\"cmd\":\"get\",\"id\":0}", "{\"ok\":true,\"row\":{\"balance\":50,\"id\":0,\"owner\":\"ann\",\"vip\":false}}");
    weltiyo_close(one);
    ASKED(two, 1, SIZE, "{\"ok\":true,\"size\":1}");
    weltiyo_close(two);
}

static void has_schema(weltiyo_db *db, const char *wanted, size_t length) {
    static char text[4096];
    weltiyo_told told = weltiyo_schema(db, text, 0);
    EXPECT(told.status == (length ? WELTIYO_NO_ROOM : 0) && told.number == length);
    memset(text, '#', sizeof text);
    told = weltiyo_schema(db, text, length - 1);
    EXPECT(told.status == WELTIYO_NO_ROOM && told.number == length && text[0] == '#');
    told = weltiyo_schema(db, text, sizeof text);
    EXPECT(told.status == 0 && told.number == length && !memcmp(text, wanted, length) && text[length] == '#');
}

/* The text is the one that was opened, whatever was done since. That of the built-in table opens it, with the same index of each number. */
static void schema_texts(void) {
    const char own[] = "# with a remark\r\ntable = \"t\"\ncolumn = [{name = \"a\", type = \"int\"}]\n";
    char text[4096];
    weltiyo_db *db = opened(own, 5), *again = NULL;
    has_schema(db, own, strlen(own));
    ASKED(db, 1, START, "{\"ok\":true,\"revision\":1}");
    ASKED(db, 1, "{\"cmd\":\"insert\",\"row\":{\"a\":7}}", "{\"id\":0,\"ok\":true}");
    weltiyo_release(db, 1);
    has_schema(db, own, strlen(own));
    weltiyo_close(db);
    db = opened("", 6);
    const weltiyo_told told = weltiyo_schema(db, text, sizeof text);
    EXPECT(told.status == 0 && told.number > 0);
    EXPECT(weltiyo_open(text, told.number, 7, &again) == WELTIYO_OK);
    has_schema(again, text, told.number);
    ASKED(again, 1, ANN, "{\"id\":0,\"ok\":true}");
    static const char *const names[] = {"id", "by_owner", "by_balance", "by_vip", "by_class", "line"};
    for (size_t n = 0; n < 6; n++) {
        const weltiyo_told index = weltiyo_index(again, 0, names[n], strlen(names[n]));
        EXPECT(index.status == 0 && index.number == n);
    }
    weltiyo_close(db);
    weltiyo_close(again);
}

int main(void) {
    connections();
    copies();
    odd_lines();
    schemas();
    schema_texts();
    handles();
    puts("ok");
    return 0;
}
