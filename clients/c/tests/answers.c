/* Answers lines as the program does, for the tests: what stands in standard input between newlines is asked, an empty line is passed over,
   and one carriage return at the end of a line is dropped, as the program does with the bytes of a connection.

   answers [SCHEMA]     writes the replies
   answers --parts      writes them too, each fetched in pieces of 7 bytes */
#include <stdio.h>
#include <stdlib.h>
#include <string.h>
#include <weltiyo.h>

static weltiyo_db *db;

static void stop(const char *why) {
    fprintf(stderr, "%s\n", why);
    exit(1);
}

/* All bytes of a stream. */
static char *whole(FILE *stream, size_t *length) {
    size_t room = 1 << 16, have = 0, got;
    char *bytes = malloc(room);
    while (bytes && (got = fread(bytes + have, 1, room - have, stream)) > 0)
        if ((have += got) == room)
            bytes = realloc(bytes, room *= 2);
    if (!bytes)
        stop("no memory");
    *length = have;
    return bytes;
}

/* Writes the reply to a line, which is asked into a buffer on the stack; a longer one is fetched whole. */
static void by_ask(const char *line, size_t length) {
    char out[256];
    size_t all = weltiyo_ask(db, 1, line, length, out, sizeof out);
    fwrite(out, 1, all < sizeof out ? all : sizeof out, stdout);
    if (all > sizeof out) {
        size_t left = all - sizeof out;
        char *rest = malloc(left);
        if (!rest || weltiyo_reply(db, sizeof out, rest, left) != left)
            stop("the rest of a reply isn't there");
        fwrite(rest, 1, left, stdout);
        free(rest);
    }
}

static void by_parts(const char *line, size_t length) {
    char part[7];
    size_t all = weltiyo_execute(db, 1, line, length), at = 0, got;
    while ((got = weltiyo_reply(db, at, part, sizeof part)) > 0) {
        fwrite(part, 1, got, stdout);
        at += got;
    }
    if (at != all)
        stop("a reply has another length than was told");
}

static void answer(char *line, size_t length, int parts) {
    if (length <= WELTIYO_LONGEST_LINE && length && line[length - 1] == '\r')
        length--;
    if (!length)
        return;
    (parts ? by_parts : by_ask)(line, length);
    putchar('\n');
}

int main(int count, char **words) {
    int parts = count > 1 && !strcmp(words[1], "--parts");
    size_t length = 0, schema_length = 0;
    char *schema = NULL;
    if (count > 1 + parts) {
        FILE *file = fopen(words[1 + parts], "rb");
        if (!file)
            stop("the schema's file isn't there");
        schema = whole(file, &schema_length);
        fclose(file);
    }
    uint32_t status = weltiyo_open(schema ? schema : "", schema_length, 7, &db);
    free(schema);
    if (status) {
        fprintf(stderr, "schema: %s\n", weltiyo_word(status));
        return db == NULL ? 3 : 1;
    }
    char *lines = whole(stdin, &length);
    for (char *at = lines, *end = lines + length; at < end;) {
        char *newline = memchr(at, '\n', (size_t)(end - at));
        char *stop_at = newline ? newline : end;
        answer(at, (size_t)(stop_at - at), parts);
        at = stop_at + 1;
    }
    free(lines);
    weltiyo_close(db);
    return 0;
}
