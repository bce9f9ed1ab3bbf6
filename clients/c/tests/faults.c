/* Each request for memory that the library makes is refused in turn, and then every one that a line makes, while it answers the lines of
   standard input. A line may be answered {"error":"memory","ok":false} for that alone, and asked again it has the reply that it has where
   nothing is refused: so a refusal has changed nothing. The lines that take no memory are never refused so.

   It is linked with the archive and -Wl,--wrap=malloc,--wrap=realloc, so that the requests of the library, and of nothing else, come here. */
#include <stdint.h>
#include <stdio.h>
#include <stdlib.h>
#include <string.h>
#include <weltiyo.h>

enum { MOST_LINES = 4096, ROOM = 1 << 22 };

static const char MEMORY[] = "{\"error\":\"memory\",\"ok\":false}";
static const char *const TAKES_NONE[] = {
    "{\"cmd\":\"undo\"}", "{\"cmd\":\"squash\"}", "{\"cmd\":\"commit\",\"revision\":1000}", "{\"cmd\":\"undo_all\"}", "{\"cmd\":\"push\"}",
    "{\"cmd\":\"revision\"}", "{\"cmd\":\"size\"}", NULL,
};

static char text[ROOM], replies[ROOM], reply[ROOM];
static char *lines[MOST_LINES], *wanted[MOST_LINES];
static size_t count;

static long requests, refused, refuse_at, refuse_all;
static weltiyo_db *db;

extern void *__real_malloc(size_t size);
extern void *__real_realloc(void *block, size_t size);
void *__wrap_malloc(size_t size);
void *__wrap_realloc(void *block, size_t size);

static int refuses(void) {
    int it = ++requests == refuse_at || refuse_all;
    refused += it;
    return it;
}

void *__wrap_malloc(size_t size) { return refuses() ? NULL : __real_malloc(size); }

void *__wrap_realloc(void *block, size_t size) { return refuses() ? NULL : __real_realloc(block, size); }

static void stop(const char *why, size_t line) {
    printf("request %ld, line %zu: %s\n%s\n%s\n", refuse_at, line + 1, why, lines[line], reply);
    exit(1);
}

static void ask(size_t at) {
    size_t length = weltiyo_ask(db, 1, lines[at], strlen(lines[at]), reply, sizeof reply - 1);
    if (length >= sizeof reply)
        stop("the reply is too long for this test", at);
    reply[length] = 0;
}

static int takes_none(const char *line) {
    for (const char *const *it = TAKES_NONE; *it; it++)
        if (!strcmp(line, *it))
            return 1;
    return 0;
}

static void read_lines(void) {
    size_t length = fread(text, 1, sizeof text - 1, stdin);
    text[length] = 0;
    for (char *at = strtok(text, "\n"); at && count < MOST_LINES; at = strtok(NULL, "\n"))
        lines[count++] = at;
}

/* Opens the built-in table. Answers whether that was refused for memory, and then nothing is open. */
static int opens_not(void) {
    uint32_t status = weltiyo_open("", 0, 1, &db);
    if (status == WELTIYO_OK)
        return 0;
    if (status != WELTIYO_MEMORY || db || !refused)
        stop("opening fails for another reason", 0);
    return 1;
}

/* The replies where nothing is refused. */
static void without_refusals(void) {
    size_t used = 0;
    if (opens_not())
        stop("opening fails", 0);
    for (size_t at = 0; at < count; at++) {
        ask(at);
        wanted[at] = strcpy(replies + used, reply);
        used += strlen(reply) + 1;
    }
    weltiyo_close(db);
}

/* Asks a line whose requests may be refused; where it is refused for that it is asked again without. Answers whether it was. */
static int ask_again(size_t at) {
    long before = refused, all = refuse_all;
    ask(at);
    if (!strcmp(reply, wanted[at]))
        return 0;
    if (strcmp(reply, MEMORY))
        stop("a reply that is neither the wanted one nor a refusal for memory", at);
    if (refused == before)
        stop("refused for memory, and no request was", at);
    if (takes_none(lines[at]))
        stop("a line that takes no memory is refused for it", at);
    refuse_all = 0;
    ask(at);
    refuse_all = all;
    if (strcmp(reply, wanted[at]))
        stop("the refusal has changed something", at);
    return 1;
}

/* One request is refused. Answers whether there was one of this number. */
static int one_refused(long number) {
    requests = refused = 0, refuse_at = number;
    if (!opens_not()) {
        for (size_t at = 0; at < count; at++)
            ask_again(at);
        weltiyo_close(db);
    }
    return refused > 0;
}

/* Every request that a line makes is refused, once. Answers how many lines were refused for it. */
static long all_refused(void) {
    long lines_refused = 0;
    requests = refused = refuse_at = 0;
    if (opens_not())
        stop("opening fails", 0);
    for (size_t at = 0; at < count; at++) {
        refuse_all = 1;
        lines_refused += ask_again(at);
        refuse_all = 0;
    }
    weltiyo_close(db);
    return lines_refused;
}

int main(void) {
    read_lines();
    without_refusals();
    long number = 1;
    while (one_refused(number))
        number++;
    long lines_refused = all_refused();
    printf("%zu lines; %ld requests refused, one at a time; %ld lines refused where all requests are\n", count, number - 1, lines_refused);
    return number > 1 && lines_refused > 0 ? 0 : 1;
}
