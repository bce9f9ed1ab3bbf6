/* The processor time that lines take, in nanoseconds, over the built-in table with some rows: measure [ROWS]. Each is asked by `weltiyo_ask`,
   from lines that were written before. It prints a line for each kind: the least of five rounds. */
#define _POSIX_C_SOURCE 199309L
#include <stdio.h>
#include <stdlib.h>
#include <string.h>
#include <time.h>
#include <weltiyo.h>

enum { ASKED = 20000, ROUNDS = 5, LONGEST = 128 };

static weltiyo_db *db;
static char lines[ASKED][LONGEST];

static size_t ask(const char *line) {
    char out[4096];
    return weltiyo_ask(db, 1, line, strlen(line), out, sizeof out);
}

static double now(void) {
    struct timespec it;
    clock_gettime(CLOCK_PROCESS_CPUTIME_ID, &it);
    return (double)it.tv_sec * 1e9 + (double)it.tv_nsec;
}

/* The least time of five rounds over all lines, for each line; `before` and `after` stand round each, where they are given. */
static void measure(const char *name, const char *before, const char *after) {
    double least = 1e18;
    for (int round = 0; round < ROUNDS; round++) {
        double began = now();
        for (int n = 0; n < ASKED; n++) {
            if (before)
                ask(before);
            if (lines[n][0])
                ask(lines[n]);
            if (after)
                ask(after);
        }
        double took = (now() - began) / ASKED;
        least = took < least ? took : least;
    }
    printf("%-28s %8.0f\n", name, least);
}

int main(int count, char **words) {
    const char *start = "{\"cmd\":\"start\"}", *undo = "{\"cmd\":\"undo\"}";
    int rows = count > 1 ? atoi(words[1]) : 10000;
    char line[LONGEST];
    if (weltiyo_open("", 0, 1, &db))
        return 1;
    for (int n = 0; n < rows; n++) {
        snprintf(line, sizeof line, "{\"cmd\":\"insert\",\"row\":{\"owner\":\"o%d\",\"balance\":%d,\"vip\":%s}}", n, n * 7919 % 100003, n % 3 ? "true" : "false");
        ask(line);
    }
    for (int n = 0; n < ASKED; n++)
        snprintf(lines[n], LONGEST, "{\"cmd\":\"get\",\"id\":%d}", (int)(n * 7919L % rows));
    measure("get", NULL, NULL);
    for (int n = 0; n < ASKED; n++)
        snprintf(lines[n], LONGEST, "{\"cmd\":\"range\",\"index\":\"by_balance\",\"lower\":{\"ge\":[%d]},\"limit\":10}", (int)(n * 7919L % 90000));
    measure("range of ten", NULL, NULL);
    for (int n = 0; n < ASKED; n++)
        snprintf(lines[n], LONGEST, "{\"cmd\":\"modify\",\"id\":%d,\"add\":{\"balance\":1}}", (int)(n * 7919L % rows));
    measure("modify", NULL, NULL);
    for (int n = 0; n < ASKED; n++)
        snprintf(lines[n], LONGEST, "{\"cmd\":\"insert\",\"row\":{\"owner\":\"x%d\",\"balance\":%d,\"vip\":true}}", n, n);
    measure("start, insert, undo", start, undo);
    memset(lines, 0, sizeof lines);
    measure("start, undo", start, undo);
    weltiyo_close(db);
    return 0;
}
