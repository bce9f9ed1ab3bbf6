/* A library to load before a program: it counts the program's calls of the system by name, and refuses one of them once.
   `service_faults.py` compiles and uses it.

   A request for memory counts where its return address lies in the program's own file, under the name `memory`. The other calls count
   wherever they come from.

   REFUSE_COUNTS  a file: it gets 32 bytes for each name, 24 of the name and 8 of how often it was called, kept up to date
   REFUSE_CALL    the name of the call that is refused
   REFUSE_NTH     which of its calls, from 1
   REFUSE_ERROR   the number of the error; with 0 a write takes half of its bytes, at least one
   REFUSE_FROM    with REFUSE_TO: that call isn't refused; in front of it this file is moved there, as a backup does
   REFUSE_KILL    that call isn't refused; in front of it the program is killed
   REFUSE_RUN     that call isn't refused; in front of it this command of the shell runs, without this library, to its end
   REFUSE_KEEP    a folder: files of a journal that are unlinked are moved there */
#define _GNU_SOURCE
#include <dlfcn.h>
#include <errno.h>
#include <fcntl.h>
#include <link.h>
#include <poll.h>
#include <signal.h>
#include <spawn.h>
#include <stdio.h>
#include <stdarg.h>
#include <stdint.h>
#include <stdlib.h>
#include <string.h>
#include <sys/epoll.h>
#include <sys/file.h>
#include <sys/mman.h>
#include <sys/socket.h>
#include <sys/stat.h>
#include <sys/syscall.h>
#include <sys/uio.h>
#include <sys/wait.h>
#include <unistd.h>

extern void *__libc_malloc(size_t);
extern void *__libc_calloc(size_t, size_t);
extern void *__libc_realloc(void *, size_t);
extern void *__libc_memalign(size_t, size_t);

#define MOST 48

static struct counted { char name[24]; uint64_t calls; } own[MOST], *counts = own;
static const char *refused_name, *moved_from, *moved_to, *command, *kept_in;
static uint64_t refused_at;
static int refused_error, is_killed;
static uintptr_t text_start, text_end;

static int find_text(struct dl_phdr_info *info, size_t size, void *data) {
    (void)size, (void)data;
    for (int i = 0; i < info->dlpi_phnum; i++) {
        const ElfW(Phdr) *part = &info->dlpi_phdr[i];
        if (part->p_type == PT_LOAD && (part->p_flags & PF_X)) {
            text_start = info->dlpi_addr + part->p_vaddr;
            text_end = text_start + part->p_memsz;
        }
    }
    return 1; /* (the program comes first) */
}

__attribute__((constructor)) static void begin(void) {
    const char *named = getenv("REFUSE_COUNTS"), *nth = getenv("REFUSE_NTH"), *error = getenv("REFUSE_ERROR");
    int file = named ? (int)syscall(SYS_openat, AT_FDCWD, named, O_RDWR | O_CREAT | O_CLOEXEC, 0600) : -1;
    if (file >= 0 && syscall(SYS_ftruncate, file, sizeof own) == 0) {
        void *at = (void *)syscall(SYS_mmap, NULL, sizeof own, PROT_READ | PROT_WRITE, MAP_SHARED, file, 0);
        if (at != MAP_FAILED)
            counts = at;
        syscall(SYS_close, file);
    }
    refused_at = nth ? (uint64_t)atoll(nth) : 0;
    refused_error = error ? atoi(error) : 0;
    dl_iterate_phdr(find_text, NULL);
    moved_from = getenv("REFUSE_FROM");
    moved_to = getenv("REFUSE_TO");
    is_killed = getenv("REFUSE_KILL") != NULL;
    command = getenv("REFUSE_RUN");
    kept_in = getenv("REFUSE_KEEP");
    refused_name = getenv("REFUSE_CALL");
}

/* Runs a command of the shell to its end, with an environment that has a path alone. */
static void runs(const char *command) {
    char *const words[] = {"/bin/sh", "-c", (char *)command, NULL}, *const env[] = {"PATH=/usr/bin:/bin", NULL};
    pid_t child;
    if (posix_spawn(&child, words[0], NULL, NULL, words, env) == 0)
        waitpid(child, NULL, 0);
}

/* Counts a call; whether it is the one to be refused. */
static int refuses(const char *name) {
    struct counted *it = counts;
    while (it < counts + MOST - 1 && it->name[0] && strcmp(it->name, name))
        it++;
    if (!it->name[0])
        strncpy(it->name, name, sizeof it->name - 1);
    it->calls++;
    if (!refused_name || it->calls != refused_at || strcmp(refused_name, name))
        return 0;
    if (is_killed)
        syscall(SYS_kill, getpid(), SIGKILL);
    if (command)
        return runs(command), 0;
    if (moved_from && moved_to)
        return syscall(SYS_renameat2, AT_FDCWD, moved_from, AT_FDCWD, moved_to, 0), 0;
    return 1;
}

#define NEXT(name) ((__typeof__(&name))dlsym(RTLD_NEXT, #name))
#define CALL(type, name, params, ...)                                                                                                      \
    type name params {                                                                                                                     \
        static __typeof__(&name) next;                                                                                                     \
        if (!next)                                                                                                                         \
            next = NEXT(name);                                                                                                             \
        if (refuses(#name)) {                                                                                                              \
            errno = refused_error;                                                                                                         \
            return -1;                                                                                                                     \
        }                                                                                                                                  \
        return next(__VA_ARGS__);                                                                                                          \
    }
/* Of bytes that go out: half of them where no error is named. */
#define SENDS(name, params, size, whole, half)                                                                                             \
    ssize_t name params {                                                                                                                  \
        static __typeof__(&name) next;                                                                                                     \
        if (!next)                                                                                                                         \
            next = NEXT(name);                                                                                                             \
        if (!refuses(#name))                                                                                                               \
            return next whole;                                                                                                             \
        if (!refused_error && (size) > 1)                                                                                                  \
            return next half;                                                                                                              \
        errno = refused_error ? refused_error : EIO;                                                                                       \
        return -1;                                                                                                                         \
    }

CALL(int, socket, (int domain, int type, int protocol), domain, type, protocol)
CALL(int, bind, (int file, const struct sockaddr *at, socklen_t size), file, at, size)
CALL(int, listen, (int file, int most), file, most)
CALL(int, getsockname, (int file, struct sockaddr *restrict at, socklen_t *restrict size), file, at, size)
CALL(int, setsockopt, (int file, int level, int name, const void *value, socklen_t size), file, level, name, value, size)
CALL(int, accept, (int file, struct sockaddr *restrict at, socklen_t *restrict size), file, at, size)
CALL(int, accept4, (int file, struct sockaddr *restrict at, socklen_t *restrict size, int how), file, at, size, how)
CALL(int, shutdown, (int file, int how), file, how)
CALL(int, epoll_create1, (int how), how)
CALL(int, epoll_ctl, (int file, int what, int of, struct epoll_event *event), file, what, of, event)
CALL(int, epoll_wait, (int file, struct epoll_event *events, int most, int wait), file, events, most, wait)
CALL(int, poll, (struct pollfd *of, nfds_t count, int wait), of, count, wait)
CALL(int, fsync, (int file), file)
CALL(int, fdatasync, (int file), file)
CALL(int, ftruncate, (int file, off_t size), file, size)
CALL(int, ftruncate64, (int file, off64_t size), file, size)
CALL(int, rename, (const char *from, const char *to), from, to)

int unlink(const char *named) {
    static __typeof__(&unlink) next;
    char to[4096];
    const char *name = strrchr(named, '/');
    if (!next)
        next = NEXT(unlink);
    if (refuses("unlink")) {
        errno = refused_error;
        return -1;
    }
    if (!kept_in || strstr(named, ".base") || strstr(named, ".next"))
        return next(named);
    snprintf(to, sizeof to, "%s/%s", kept_in, name ? name + 1 : named);
    return (int)syscall(SYS_renameat2, AT_FDCWD, named, AT_FDCWD, to, 0);
}

CALL(off_t, lseek, (int file, off_t to, int from), file, to, from)
CALL(off64_t, lseek64, (int file, off64_t to, int from), file, to, from)
CALL(int, flock, (int file, int how), file, how)
CALL(int, fstat, (int file, struct stat *about), file, about)
CALL(int, stat, (const char *restrict named, struct stat *restrict about), named, about)
CALL(int, fstat64, (int file, struct stat64 *about), file, about)
CALL(int, stat64, (const char *restrict named, struct stat64 *restrict about), named, about)
CALL(ssize_t, read, (int file, void *bytes, size_t size), file, bytes, size)
CALL(ssize_t, readv, (int file, const struct iovec *parts, int count), file, parts, count)
CALL(ssize_t, pread, (int file, void *bytes, size_t size, off_t at), file, bytes, size, at)
CALL(ssize_t, recv, (int file, void *bytes, size_t size, int how), file, bytes, size, how)
CALL(ssize_t, recvfrom, (int file, void *restrict bytes, size_t size, int how, struct sockaddr *restrict at, socklen_t *restrict of), file, bytes, size, how, at, of)
SENDS(write, (int file, const void *bytes, size_t size), size, (file, bytes, size), (file, bytes, size / 2))
SENDS(pwrite, (int file, const void *bytes, size_t size, off_t at), size, (file, bytes, size, at), (file, bytes, size / 2, at))
SENDS(send, (int file, const void *bytes, size_t size, int how), size, (file, bytes, size, how), (file, bytes, size / 2, how))
SENDS(sendto, (int file, const void *bytes, size_t size, int how, const struct sockaddr *at, socklen_t of), size, (file, bytes, size, how, at, of), (file, bytes, size / 2, how, at, of))
SENDS(writev, (int file, const struct iovec *parts, int count), count, (file, parts, count), (file, parts, count / 2))

#define OPENS(name, params, first)                                                                                                         \
    int name params {                                                                                                                      \
        static __typeof__(&name) next;                                                                                                     \
        if (!next)                                                                                                                         \
            next = NEXT(name);                                                                                                             \
        va_list more;                                                                                                                      \
        va_start(more, how);                                                                                                               \
        mode_t rights = how & (O_CREAT | O_TMPFILE) ? va_arg(more, mode_t) : 0;                                                            \
        va_end(more);                                                                                                                      \
        if (refuses(#name)) {                                                                                                              \
            errno = refused_error;                                                                                                         \
            return -1;                                                                                                                     \
        }                                                                                                                                  \
        return next first;                                                                                                                 \
    }
OPENS(open, (const char *named, int how, ...), (named, how, rights))
OPENS(open64, (const char *named, int how, ...), (named, how, rights))
OPENS(openat, (int at, const char *named, int how, ...), (at, named, how, rights))

/* Requests for memory. */

static int refuses_memory(const void *caller) {
    uintptr_t at = (uintptr_t)caller;
    return text_start <= at && at < text_end && refuses("memory");
}

#define REFUSED(otherwise) refuses_memory(__builtin_return_address(0)) ? (errno = ENOMEM, (void *)0) : (otherwise)

void *malloc(size_t size) { return REFUSED(__libc_malloc(size)); }
void *calloc(size_t count, size_t size) { return REFUSED(__libc_calloc(count, size)); }
void *memalign(size_t align, size_t size) { return REFUSED(__libc_memalign(align, size)); }
void *aligned_alloc(size_t align, size_t size) { return REFUSED(__libc_memalign(align, size)); }
void *realloc(void *block, size_t size) { return !size ? __libc_realloc(block, size) : REFUSED(__libc_realloc(block, size)); }

int posix_memalign(void **block, size_t align, size_t size) {
    void *got = REFUSED(__libc_memalign(align, size));
    if (!got)
        return ENOMEM;
    *block = got;
    return 0;
}

void *mmap(void *at, size_t size, int may, int how, int file, off_t offset) {
    if (refuses_memory(__builtin_return_address(0)))
        return errno = ENOMEM, MAP_FAILED;
    return (void *)syscall(SYS_mmap, at, size, may, how, file, offset);
}
