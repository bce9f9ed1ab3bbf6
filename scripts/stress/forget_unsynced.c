/* A library to load before a program: one file of it lies on a disk that forgets what wasn't synced, once the program is killed.
   `crash.py` compiles and uses it.

   What is written to the file is kept in memory until fsync or fdatasync is called on it, and then written, in its order; a kill forgets the
   rest. Now and then a random front of what is kept is written early, so that after a kill the file may be as it was behind any byte that was
   written since the sync.

   FORGET_FILE   the file
   FORGET_SEED   of the random fronts
   FORGET_DELAY  microseconds that each sync takes
   FORGET_SYNC   the number of the sync, from 1, that fails with EIO, as each behind it does
   FORGET_WRITE  the number of the write over bytes that are there, from 1, that takes half of its bytes; each behind it fails with EIO */
#define _GNU_SOURCE
#include <errno.h>
#include <stdlib.h>
#include <string.h>
#include <sys/stat.h>
#include <sys/syscall.h>
#include <unistd.h>

#define ROOM (1 << 26)
#define MOST (1 << 16)

static char kept[ROOM];
static size_t length;
static struct { off_t at; size_t count; } parts[MOST];
static size_t count_of_parts;
static long syncs, writes;
static unsigned long seed;

static long number(const char *name) {
    const char *it = getenv(name);
    return it ? atol(it) : 0;
}

static unsigned long chance(unsigned long below) {
    if (!seed)
        seed = (unsigned long)number("FORGET_SEED") * 2862933555777941757UL + 3037000493UL;
    seed ^= seed << 13, seed ^= seed >> 7, seed ^= seed << 17;
    return seed % below;
}

/* Whether this is the file. It may be opened anew, so it is looked at each time. */
static int is_file(int fd) {
    struct stat named, opened;
    const char *it = getenv("FORGET_FILE");
    return it && !fstat(fd, &opened) && S_ISREG(opened.st_mode) && !stat(it, &named) && named.st_ino == opened.st_ino && named.st_dev == opened.st_dev;
}

/* Writes a front of what is kept, of so many bytes. */
static int flush(int fd, size_t most) {
    size_t done = 0, at = 0;
    while (done < most) {
        size_t count = parts[at].count < most - done ? parts[at].count : most - done;
        long n = syscall(SYS_pwrite64, fd, kept + done, count, parts[at].at);
        if (n <= 0)
            return -1;
        done += (size_t)n, parts[at].at += n, parts[at].count -= (size_t)n;
        if (!parts[at].count)
            at++;
    }
    memmove(kept, kept + most, length -= most);
    memmove(parts, parts + at, (count_of_parts -= at) * sizeof *parts);
    return 0;
}

/* Where the file ends, once all is written. */
static off_t end_of(int fd) {
    struct stat opened;
    off_t end = fstat(fd, &opened) ? 0 : opened.st_size;
    for (size_t i = 0; i < count_of_parts; i++)
        if (parts[i].at + (off_t)parts[i].count > end)
            end = parts[i].at + (off_t)parts[i].count;
    return end;
}

ssize_t pwrite(int fd, const void *bytes, size_t count, off_t at) {
    if (!is_file(fd))
        return syscall(SYS_pwrite64, fd, bytes, count, at);
    long bad = number("FORGET_WRITE");
    if (at < end_of(fd))
        writes++;
    if (bad && writes > bad)
        return errno = EIO, -1;
    if (bad && writes == bad)
        count = (count + 1) / 2;
    if ((count > ROOM - length || count_of_parts == MOST) && flush(fd, length))
        return -1;
    if (count > ROOM)
        count = ROOM;
    memcpy(kept + length, bytes, count);
    length += count;
    parts[count_of_parts].at = at, parts[count_of_parts++].count = count;
    if (chance(8) == 0 && flush(fd, chance(length + 1)))
        return -1;
    return (ssize_t)count;
}

ssize_t pwrite64(int fd, const void *bytes, size_t count, off_t at) {
    return pwrite(fd, bytes, count, at);
}

static int sync_one(int fd, long call) {
    if (!is_file(fd))
        return (int)syscall(call, fd);
    long bad = number("FORGET_SYNC"), delay = number("FORGET_DELAY");
    if (delay)
        usleep((useconds_t)delay);
    syncs++;
    if (bad && syncs >= bad)
        return errno = EIO, -1;
    return flush(fd, length);
}

int fsync(int fd) {
    return sync_one(fd, SYS_fsync);
}

int fdatasync(int fd) {
    return sync_one(fd, SYS_fdatasync);
}
