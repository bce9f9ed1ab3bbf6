/* A library to load before a program: it refuses requests for memory that the program itself makes, and gives its input out a line at
   a time, so that it is known at which line each was made. `faults.py` compiles and uses it.

   A request is a call of malloc, calloc, realloc, aligned_alloc, posix_memalign, memalign or mmap whose return address lies in the
   program's own file. What the loader and the C library ask for (before main, for streams, for an address) comes from their files: it
   is counted apart and never refused. A realloc to 0 bytes is none.

   A program that was compiled without proofs has an allocator of its own in its file, the sanitizer's, so nothing of it comes here. In
   such a one (on x86-64) the calls of malloc and realloc inside `rattle_alloc` and `rattle_realloc`, by which all code in Rattle asks
   for memory, are turned to this library as it begins.

   REFUSE_REQUEST  the number of the request that is refused, from 1; 0 or none refuses nothing
   REFUSE_ALL      1 refuses those behind it too
   REFUSE_FROM     requests are counted and refused from this piece of input on, the first being 0; else from the start of the program
   REFUSE_UNTIL    and no more from this piece on
   REFUSE_MARK     requests are counted and refused only behind the first one for just so many bytes
   REFUSE_WITHIN   and only those made while a function is at work whose name has one of these texts, parted by `|`. It is known by
                   the frames on the stack, which only the program compiled without proofs has all of
   REFUSE_LOG      a file; it gets `refused PIECE` for each piece in which a request was refused, `marked` where the mark was,
                   `turned` where requests were turned here, `within N` where N functions have such a name, and at the end a line of
                   counts

   A piece is what one read of standard input or of a socket gives: the bytes up to a newline, or as many as were asked for; the end of
   the input is one too. It lasts until the next is read; before the first it is -1. Standard input must be a file. */
#define _GNU_SOURCE
#include <errno.h>
#include <fcntl.h>
#include <link.h>
#include <poll.h>
#include <stdint.h>
#include <stdio.h>
#include <stdlib.h>
#include <string.h>
#include <sys/mman.h>
#include <sys/socket.h>
#include <sys/stat.h>
#include <sys/syscall.h>
#include <unistd.h>

extern void *__libc_malloc(size_t);
extern void *__libc_calloc(size_t, size_t);
extern void *__libc_realloc(void *, size_t);
extern void *__libc_memalign(size_t, size_t);

extern void *__libc_stack_end;

static uintptr_t base, text_start, text_end;
static long request, refuse_all, from, until, mark;
static long requests, refused, others, piece = -1, told = -2;
static int out = -1;

static int find_text(struct dl_phdr_info *info, size_t size, void *data) {
    (void)size, (void)data;
    for (int i = 0; i < info->dlpi_phnum; i++) {
        const ElfW(Phdr) *part = &info->dlpi_phdr[i];
        base = info->dlpi_addr;
        if (part->p_type == PT_LOAD && (part->p_flags & PF_X)) {
            text_start = info->dlpi_addr + part->p_vaddr;
            text_end = text_start + part->p_memsz;
        }
    }
    return 1; /* (the program comes first) */
}

static long number(const char *name, long otherwise) {
    const char *text = getenv(name);
    return text ? atol(text) : otherwise;
}

/* (it has no buffer of its own, since a stream asks for memory) */
static void tell(const char *form, long a, long b, long c, long d) {
    char text[128];
    int length = snprintf(text, sizeof text, form, a, b, c, d);
    if (out >= 0 && write(out, text, length) != length)
        abort();
}

/* The functions of the program's file that have a name. */

#define MOST_WITHIN 4096
static struct function { uintptr_t start, end; } within[MOST_WITHIN];
static long within_count;
static const char *within_names;
static struct function own_alloc, own_realloc;

/* Whether the name has one of the texts that `|` parts. */
static int has_text(const char *name, const char *texts) {
    for (const char *at = texts; at;) {
        const char *end = strchr(at, '|');
        size_t length = end ? (size_t)(end - at) : strlen(at);
        if (length && memmem(name, strlen(name), at, length))
            return 1;
        at = end ? end + 1 : NULL;
    }
    return 0;
}

static void see_function(const char *name, struct function it) {
    if (!strcmp(name, "rattle_alloc"))
        own_alloc = it;
    if (!strcmp(name, "rattle_realloc"))
        own_realloc = it;
    if (within_names && within_count < MOST_WITHIN && has_text(name, within_names))
        within[within_count++] = it;
}

/* Looks at each function in the table of symbols of the program's file. */
static void see_functions(void) {
    struct stat about;
    int file = open("/proc/self/exe", O_RDONLY | O_CLOEXEC);
    if (file < 0 || fstat(file, &about) < 0)
        return;
    void *mapped = (void *)syscall(SYS_mmap, NULL, about.st_size, PROT_READ, MAP_PRIVATE, file, 0);
    close(file);
    if (mapped == MAP_FAILED)
        return;
    const char *bytes = mapped;
    const ElfW(Ehdr) *head = mapped;
    const ElfW(Shdr) *parts = (const void *)(bytes + head->e_shoff);
    for (int i = 0; i < head->e_shnum; i++) {
        if (parts[i].sh_type != SHT_SYMTAB)
            continue;
        const ElfW(Sym) *symbols = (const void *)(bytes + parts[i].sh_offset);
        const char *names = bytes + parts[parts[i].sh_link].sh_offset;
        for (size_t n = 0; n < parts[i].sh_size / sizeof *symbols; n++)
            if ((symbols[n].st_info & 15) == STT_FUNC && symbols[n].st_size)
                see_function(names + symbols[n].st_name, (struct function){base + symbols[n].st_value, base + symbols[n].st_value + symbols[n].st_size});
    }
    syscall(SYS_munmap, mapped, about.st_size);
}

static int is_within(uintptr_t at) {
    for (long i = 0; i < within_count; i++)
        if (within[i].start <= at && at < within[i].end)
            return 1;
    return 0;
}

/* Whether one of those functions is at work, by the frames from this one on. */
static int is_at_work(const uintptr_t *frame) {
    while ((uintptr_t)frame < (uintptr_t)__libc_stack_end && (uintptr_t)frame % sizeof *frame == 0) {
        if (is_within(frame[1]))
            return 1;
        const uintptr_t *next = (const uintptr_t *)frame[0];
        if (next <= frame)
            return 0;
        frame = next;
    }
    return 0;
}

static void *own_malloc(size_t size);
static void *own_resize(void *block, size_t size);
static void *(*their_malloc)(size_t);
static void *(*their_realloc)(void *, size_t);

#ifdef __x86_64__
/* Turns the call of one function inside another to the jump at `thunk`, which goes to `to`. Answers whether there was one. */
static int turn_call(struct function it, uintptr_t of, unsigned char *thunk, void *to) {
    for (unsigned char *at = (unsigned char *)it.start; at + 5 <= (unsigned char *)it.end; at++) {
        int32_t far;
        memcpy(&far, at + 1, 4);
        if (*at != 0xE8 || (uintptr_t)at + 5 + far != of)
            continue;
        uintptr_t page = (uintptr_t)at & -4096UL;
        if (mprotect((void *)page, 8192, PROT_READ | PROT_WRITE | PROT_EXEC) < 0)
            return 0;
        memcpy(thunk, "\x49\xBB", 2), memcpy(thunk + 2, &to, 8), memcpy(thunk + 10, "\x41\xFF\xE3", 3); /* mov r11, to; jmp r11 */
        far = (int32_t)(thunk - (at + 5));
        memcpy(at + 1, &far, 4);
        return mprotect((void *)page, 8192, PROT_READ | PROT_EXEC) == 0;
    }
    return 0;
}

/* Where the program has an allocator in its own file, its requests are turned here. */
static void turn_requests(void) {
    their_malloc = malloc, their_realloc = realloc;
    if ((uintptr_t)their_malloc < text_start || (uintptr_t)their_malloc >= text_end || !own_alloc.start || !own_realloc.start)
        return;
    for (uintptr_t near = (text_start & -4096UL) - 4096; near > text_start - (1UL << 30); near -= 1UL << 20) {
        void *page = (void *)syscall(SYS_mmap, near, 4096, PROT_READ | PROT_WRITE | PROT_EXEC, MAP_PRIVATE | MAP_ANONYMOUS | MAP_FIXED_NOREPLACE, -1, 0);
        if (page == MAP_FAILED)
            continue;
        if (turn_call(own_alloc, (uintptr_t)their_malloc, page, own_malloc) &&
            turn_call(own_realloc, (uintptr_t)their_realloc, (unsigned char *)page + 64, own_resize))
            tell("turned\n", 0, 0, 0, 0);
        return;
    }
}
#else
static void turn_requests(void) {}
#endif

__attribute__((constructor)) static void begin(void) {
    const char *log = getenv("REFUSE_LOG");
    if (log)
        out = open(log, O_WRONLY | O_CREAT | O_TRUNC | O_APPEND | O_CLOEXEC, 0600);
    request = number("REFUSE_REQUEST", 0);
    refuse_all = number("REFUSE_ALL", 0);
    from = number("REFUSE_FROM", -1);
    until = number("REFUSE_UNTIL", 1L << 62);
    mark = number("REFUSE_MARK", 0);
    within_names = getenv("REFUSE_WITHIN");
    dl_iterate_phdr(find_text, NULL);
    see_functions();
    turn_requests();
    if (within_names)
        tell("within %ld\n", within_count, 0, 0, 0);
}

__attribute__((destructor)) static void end(void) {
    tell("requests %ld refused %ld others %ld pieces %ld\n", requests, refused, others, piece + 1);
}

/* Whether a request of the program for so many bytes is to be refused. */
static int refuses_own(size_t size, const void *frame) {
    if (piece < from || piece >= until || (within_names && !is_at_work(frame)))
        return 0;
    if (mark) {
        if (size == (size_t)mark) {
            tell("marked %ld\n", mark, 0, 0, 0);
            mark = 0;
        }
        return 0;
    }
    requests++;
    if (!request || requests < request || (requests > request && !refuse_all))
        return 0;
    refused++;
    if (told != piece)
        tell("refused %ld\n", piece, 0, 0, 0);
    told = piece;
    return 1;
}

/* Whether a request of this caller is to be refused. */
static int refuses(const void *caller, size_t size, const void *frame) {
    uintptr_t at = (uintptr_t)caller;
    if (text_start <= at && at < text_end)
        return refuses_own(size, frame);
    others++;
    return 0;
}

#define REFUSES(size) refuses(__builtin_return_address(0), size, __builtin_frame_address(0))
#define REFUSED(otherwise) (errno = ENOMEM, otherwise)

static void *own_malloc(size_t size) { return refuses_own(size, __builtin_frame_address(0)) ? REFUSED(NULL) : their_malloc(size); }

static void *own_resize(void *block, size_t size) {
    return (size || !block) && refuses_own(size, __builtin_frame_address(0)) ? REFUSED(NULL) : their_realloc(block, size);
}

void *malloc(size_t size) { return REFUSES(size) ? REFUSED(NULL) : __libc_malloc(size); }
void *calloc(size_t count, size_t size) { return REFUSES(count * size) ? REFUSED(NULL) : __libc_calloc(count, size); }
void *memalign(size_t align, size_t size) { return REFUSES(size) ? REFUSED(NULL) : __libc_memalign(align, size); }
void *aligned_alloc(size_t align, size_t size) { return REFUSES(size) ? REFUSED(NULL) : __libc_memalign(align, size); }

void *realloc(void *block, size_t size) {
    if ((size || !block) && REFUSES(size))
        return REFUSED(NULL);
    return __libc_realloc(block, size);
}

int posix_memalign(void **block, size_t align, size_t size) {
    void *got = REFUSES(size) ? NULL : __libc_memalign(align, size);
    if (!got)
        return ENOMEM;
    *block = got;
    return 0;
}

void *mmap(void *at, size_t size, int may, int how, int file, off_t offset) {
    if (REFUSES(size))
        return REFUSED(MAP_FAILED);
    return (void *)syscall(SYS_mmap, at, size, may, how, file, offset);
}

/* The bytes up to and with the first newline, or all. */
static size_t line_in(const char *bytes, size_t length) {
    const char *newline = memchr(bytes, '\n', length);
    return newline ? (size_t)(newline - bytes) + 1 : length;
}

ssize_t read(int file, void *bytes, size_t size) {
    ssize_t got = syscall(SYS_read, file, bytes, size);
    if (file != 0 || got < 0)
        return got;
    size_t length = line_in(bytes, got);
    if (lseek(file, (off_t)length - got, SEEK_CUR) < 0)
        abort();
    piece++;
    return length;
}

/* Waits until a line, or as many bytes as were asked for, or the end has come. */
ssize_t recvfrom(int file, void *bytes, size_t size, int how, struct sockaddr *restrict from_whom, socklen_t *restrict length) {
    int ended = 0;
    for (;;) {
        struct pollfd wait = {file, POLLIN | POLLRDHUP, 0};
        ended = poll(&wait, 1, -1) == 1 && (wait.revents & (POLLRDHUP | POLLHUP | POLLERR));
        ssize_t got = syscall(SYS_recvfrom, file, bytes, size, how | MSG_PEEK, from_whom, length);
        if (got < 0)
            return got;
        size_t line = line_in(bytes, got);
        if (ended || line == size || (got > 0 && ((char *)bytes)[line - 1] == '\n')) {
            piece++;
            return syscall(SYS_recvfrom, file, bytes, line, how, from_whom, length);
        }
        usleep(50);
    }
}

ssize_t recv(int file, void *bytes, size_t size, int how) { return recvfrom(file, bytes, size, how, NULL, NULL); }
