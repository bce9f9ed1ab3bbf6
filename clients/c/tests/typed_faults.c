/* Each request for memory that the calls with values make is refused in turn, and then every one that a call makes. A call may tell
   WELTIYO_REFUSED_MEMORY for that alone, and called again it tells what it tells where nothing is refused: so a refusal has changed nothing. A
   size, a get, a rank, an nth, a step, a text, a seek of a number, an undo, a squash, a commit, an undo_all and a push are never refused so.

   It is linked with the archive and -Wl,--wrap=malloc,--wrap=realloc, so that the requests of the library, and of nothing else, come here. */
#include <inttypes.h>
#include <stdio.h>
#include <stdlib.h>
#include <string.h>
#include <weltiyo.h>

enum { CALLS = 480, LOOK_UPS = 12 };

static long requests, refused, refuse_at, refuse_all;
static weltiyo_db *db;
static weltiyo_told wanted[CALLS];

extern void *__real_malloc(size_t size);
extern void *__real_realloc(void *block, size_t size);
void *__wrap_malloc(size_t size);
void *__wrap_realloc(void *block, size_t size);

static int refuses(void) {
    int it = ++requests == refuse_at || refuse_all;
    refused += it;
    return it;
}

void *__wrap_malloc(size_t size) { return refuses() ? NULL : __real_malloc(size); }

void *__wrap_realloc(void *block, size_t size) { return refuses() ? NULL : __real_realloc(block, size); }

static void stop(const char *why, int n) {
    printf("request %ld, call %d: %s\n", refuse_at, n, why);
    exit(1);
}

/* What the calls take and copy: rows with texts of up to 150 bytes, edits, a key of a number, and pages of up to 30 rows. */
static char texts[256], page_texts[1 << 13];
static weltiyo_value page_rows[90];
static uint64_t page_ids[30];

/* The id of a row that is there, or 0 where there are too few; it takes no memory. */
static uint64_t id_of(uint64_t n) { return weltiyo_nth(db, 0, 0, n, page_rows, 90, page_texts, sizeof page_texts).number; }

static weltiyo_told look_up(int n) {
    const weltiyo_value key[] = {{WELTIYO_INT, n * 7919 % 101, 0, 0}, {WELTIYO_TEXT, 0, 0, (size_t)((n - 1) % 150)}};
    char owner[150]; /* (of the row that came last) */
    memset(owner, 'a' + (n - 1) % 26, sizeof owner);
    switch (n / 12 % LOOK_UPS) {
    case 0: return weltiyo_get(db, 0, id_of(2), page_rows, 90, page_texts, sizeof page_texts);
    case 1: return weltiyo_find(db, 0, 1, key + 1, 1, owner, sizeof owner, page_rows, 90, page_texts, sizeof page_texts);
    case 2: return weltiyo_nth(db, 0, 2, 2, page_rows, 90, page_texts, sizeof page_texts);
    case 3: return weltiyo_count(db, 0, 2, key, 1, texts, 0);
    case 4: return weltiyo_rank(db, 0, 2, id_of(1));
    case 5: return weltiyo_lower_rank(db, 0, 2, key, 1, texts, 0);
    case 6: return weltiyo_upper_rank(db, 0, 2, key, 1, texts, 0);
    case 7: return weltiyo_seek_id(db, 0, 2, key, 1, texts, 0, (uint32_t)(n % 2));
    case 8: return weltiyo_find_id(db, 0, 1, key + 1, 1, owner, sizeof owner);
    case 9: return weltiyo_step_id(db, 0, 5, id_of(1), (uint32_t)(n % 2));
    case 10: return weltiyo_text_in(db, 0, id_of(1), 0, page_texts, sizeof page_texts);
    default: return weltiyo_size(db, 0);
    }
}

static weltiyo_told page(int n) {
    const weltiyo_value key[] = {{n % 2 ? WELTIYO_TRUE : WELTIYO_FALSE, 0, 0, 0}, {WELTIYO_INT, n * 7919 % 101, 0, 0}};
    if (n % 36 < 12)
        return weltiyo_list(db, 0, 5, 0, 0, page_ids, 30, page_rows, 90, page_texts, sizeof page_texts);
    return weltiyo_range(db, 0, 4, WELTIYO_INCLUDED, key, 2, WELTIYO_OPEN, key, 0, texts, 0, n % 2, page_ids, 30, page_rows, 90, page_texts, sizeof page_texts);
}

static weltiyo_told change(int n, const weltiyo_value *row, size_t length) {
    const weltiyo_edit edits[] = {{WELTIYO_PUT, 0, {WELTIYO_TEXT, 0, 1, (size_t)(n % 140)}}, {WELTIYO_ADD, 1, {WELTIYO_INT, 3, 0, 0}}};
    switch (n / 12 % 4) {
    case 0: return weltiyo_modify(db, 1, 0, id_of(0), edits, 2, texts, sizeof texts, 1);
    case 1: return weltiyo_relocate(db, 1, 0, 5, id_of(1), 1, id_of(0));
    case 2: return weltiyo_insert_before(db, 1, 0, row, 3, texts, length, 5, id_of(1));
    default: return weltiyo_erase_key(db, 1, 0, 2, row + 1, 1, texts, 0);
    }
}

static int takes_none(int n) {
    static const int looks[LOOK_UPS] = {1, 0, 1, 0, 1, 0, 0, 1, 0, 1, 1, 1};
    return n % 12 == 9 || n % 12 == 11 || (n % 12 == 5 && looks[n / 12 % LOOK_UPS]);
}

/* The call of a number: rows come in, are changed, replaced and erased in sessions, which are undone, squashed, committed and let go of. */
static weltiyo_told call(int n) {
    static weltiyo_told (*const ends[])(weltiyo_db *, uint64_t) = {weltiyo_undo, weltiyo_push, weltiyo_undo, weltiyo_undo_all};
    size_t length = (size_t)(n % 150);
    weltiyo_value row[] = {{WELTIYO_TEXT, 0, 0, length}, {WELTIYO_INT, n * 7919 % 101, 0, 0}, {n % 3 ? WELTIYO_TRUE : WELTIYO_FALSE, 0, 0, 0}};
    memset(texts, 'a' + n % 26, sizeof texts);
    switch (n % 12) {
    case 1: return change(n, row, length);
    case 2: case 7: return weltiyo_start(db, 1);
    case 3: return weltiyo_modify_add(db, 1, 0, (uint64_t)(n / 12), 1, 5, 1);
    case 5: return look_up(n);
    case 6: return page(n);
    case 8: return weltiyo_erase(db, 1, 0, (uint64_t)(n / 12));
    case 9: return weltiyo_squash(db, 1);
    case 10: return weltiyo_replace(db, 1, 0, (uint64_t)(n / 12 + 1), row, 3, texts, length);
    case 11: return n % 24 == 23 ? weltiyo_commit(db, 1, 1000) : ends[n / 24 % 4](db, 1);
    default: return weltiyo_insert(db, 1, 0, row, 3, texts, length);
    }
}

static int is_same(weltiyo_told a, weltiyo_told b) { return a.status == b.status && a.index == b.index && a.number == b.number; }

/* Opens the built-in table. Answers whether that was refused for memory. */
static int opens_not(void) {
    uint32_t status = weltiyo_open("", 0, 1, &db);
    if (status != WELTIYO_OK && (status != WELTIYO_MEMORY || db || !refused))
        stop("opening fails for another reason", 0);
    return status != WELTIYO_OK;
}

/* Makes a call whose requests may be refused; where it is refused for that it is made again without. Answers whether it was. */
static int call_again(int n) {
    long before = refused, all = refuse_all;
    weltiyo_told told = call(n);
    if (is_same(told, wanted[n]))
        return 0;
    if (told.status != WELTIYO_REFUSED_MEMORY)
        stop("neither what is wanted nor a refusal for memory", n);
    if (refused == before)
        stop("refused for memory, and no request was", n);
    if (takes_none(n))
        stop("a call that takes no memory is refused for it", n);
    refuse_all = 0;
    told = call(n);
    refuse_all = all;
    if (!is_same(told, wanted[n]))
        stop("the refusal has changed something", n);
    return 1;
}

static int one_refused(long number) {
    requests = refused = 0, refuse_at = number;
    if (!opens_not()) {
        for (int n = 0; n < CALLS; n++)
            call_again(n);
        weltiyo_close(db);
    }
    return refused > 0;
}

static long all_refused(void) {
    long calls_refused = 0;
    requests = refused = refuse_at = 0;
    if (opens_not())
        stop("opening fails", 0);
    for (int n = 0; n < CALLS; n++) {
        refuse_all = 1;
        calls_refused += call_again(n);
        refuse_all = 0;
    }
    weltiyo_close(db);
    return calls_refused;
}

int main(void) {
    long number = 1, accepted = 0;
    if (opens_not())
        stop("opening fails", 0);
    for (int n = 0; n < CALLS; n++) {
        wanted[n] = call(n);
        accepted += wanted[n].status == 0;
    }
    weltiyo_close(db);
    while (one_refused(number))
        number++;
    long calls_refused = all_refused();
    printf("%d calls, %ld of them accepted; %ld requests refused, one at a time; %ld calls refused where all requests are\n", CALLS, accepted, number - 1,
           calls_refused);
    return number > 1 && calls_refused > 0 ? 0 : 1;
}
