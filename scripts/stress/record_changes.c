/* A library to load before a program: it records what the program does to the files of one folder, in its order, and changes nothing of it.
   `disk_states.py` compiles and uses it.

   RECORD_FOLDER  the folder, by the path that the program names it by
   RECORD_FILE    a file: it gets a line for each change. A file is told by the number of its inode, a name without its folder:
                      open I NAME     a name that is opened, or made
                      write I AT HEX  bytes that are written
                      cut I SIZE      a size that is set
                      sync I          a file that is synced
                      names           the folder that is synced
                      rename FROM TO
                      remove NAME */
#define _GNU_SOURCE
#include <dlfcn.h>
#include <fcntl.h>
#include <stdarg.h>
#include <stdio.h>
#include <stdlib.h>
#include <string.h>
#include <sys/stat.h>
#include <sys/syscall.h>
#include <unistd.h>

static int record = -1;

__attribute__((constructor)) static void begin(void) {
    const char *named = getenv("RECORD_FILE");
    if (named)
        record = (int)syscall(SYS_openat, AT_FDCWD, named, O_WRONLY | O_CREAT | O_APPEND | O_CLOEXEC, 0600);
}

static void put(const char *text, size_t size) {
    while (record >= 0 && size) {
        long n = syscall(SYS_write, record, text, size);
        if (n <= 0)
            abort();
        text += n, size -= (size_t)n;
    }
}

#define SAY(...)                                                                                                                           \
    do {                                                                                                                                   \
        char said[8192];                                                                                                                   \
        int length = snprintf(said, sizeof said, __VA_ARGS__);                                                                             \
        if (length < 0 || (size_t)length >= sizeof said)                                                                                   \
            abort();                                                                                                                       \
        put(said, (size_t)length);                                                                                                         \
    } while (0)

/* The name of a path in the folder, or none. */
static const char *name_in(const char *path) {
    const char *folder = getenv("RECORD_FOLDER");
    size_t size = folder ? strlen(folder) : 0;
    return size && !strncmp(path, folder, size) && path[size] == '/' && !strchr(path + size + 1, '/') ? path + size + 1 : NULL;
}

/* The inode of a file of the folder, or 0; 1 for the folder itself. (An inode's number is above that.) */
static unsigned long inode_of(int file) {
    struct stat opened, folder;
    const char *named = getenv("RECORD_FOLDER");
    char path[64], to[4096];
    if (!named || fstat(file, &opened))
        return 0;
    if (S_ISDIR(opened.st_mode))
        return !stat(named, &folder) && folder.st_ino == opened.st_ino && folder.st_dev == opened.st_dev;
    if (!S_ISREG(opened.st_mode))
        return 0;
    snprintf(path, sizeof path, "/proc/self/fd/%d", file);
    long size = readlink(path, to, sizeof to - 1);
    if (size < 0)
        return 0;
    to[size] = 0;
    return name_in(to) ? opened.st_ino : 0;
}

static void say_written(int file, const char *bytes, size_t size, long at) {
    unsigned long inode = inode_of(file);
    char hex[2048];
    if (!inode)
        return;
    SAY("write %lu %ld ", inode, at);
    for (size_t i = 0; i < size;) {
        size_t n = 0;
        for (; n + 2 < sizeof hex && i < size; i++, n += 2)
            snprintf(hex + n, 3, "%02x", (unsigned char)bytes[i]);
        put(hex, n);
    }
    put("\n", 1);
}

static int say_opened(int file, const char *path) {
    const char *name = name_in(path);
    unsigned long inode = file >= 0 && name ? inode_of(file) : 0;
    if (inode > 1)
        SAY("open %lu %s\n", inode, name);
    return file;
}

#define OPENS(name, params, first, path)                                                                                                   \
    int name params {                                                                                                                      \
        static __typeof__(&name) next;                                                                                                     \
        if (!next)                                                                                                                         \
            next = (__typeof__(&name))dlsym(RTLD_NEXT, #name);                                                                             \
        va_list more;                                                                                                                      \
        va_start(more, how);                                                                                                               \
        mode_t rights = how & (O_CREAT | O_TMPFILE) ? va_arg(more, mode_t) : 0;                                                            \
        va_end(more);                                                                                                                      \
        return say_opened(next first, path);                                                                                               \
    }
OPENS(open, (const char *named, int how, ...), (named, how, rights), named)
OPENS(open64, (const char *named, int how, ...), (named, how, rights), named)
OPENS(openat, (int at, const char *named, int how, ...), (at, named, how, rights), named)
OPENS(openat64, (int at, const char *named, int how, ...), (at, named, how, rights), named)

ssize_t pwrite(int file, const void *bytes, size_t size, off_t at) {
    long n = syscall(SYS_pwrite64, file, bytes, size, at);
    if (n > 0)
        say_written(file, bytes, (size_t)n, at);
    return n;
}

ssize_t pwrite64(int file, const void *bytes, size_t size, off_t at) {
    return pwrite(file, bytes, size, at);
}

ssize_t write(int file, const void *bytes, size_t size) {
    long n = syscall(SYS_write, file, bytes, size);
    if (n > 0)
        say_written(file, bytes, (size_t)n, syscall(SYS_lseek, file, 0, SEEK_CUR) - n);
    return n;
}

int ftruncate(int file, off_t size) {
    int done = (int)syscall(SYS_ftruncate, file, size);
    unsigned long inode = inode_of(file);
    if (!done && inode)
        SAY("cut %lu %ld\n", inode, (long)size);
    return done;
}

int ftruncate64(int file, off_t size) {
    return ftruncate(file, size);
}

static int synced(int file, int done) {
    unsigned long inode = done ? 0 : inode_of(file);
    if (inode == 1)
        put("names\n", 6);
    else if (inode)
        SAY("sync %lu\n", inode);
    return done;
}

int fsync(int file) {
    return synced(file, (int)syscall(SYS_fsync, file));
}

int fdatasync(int file) {
    return synced(file, (int)syscall(SYS_fdatasync, file));
}

int rename(const char *from, const char *to) {
    int done = (int)syscall(SYS_rename, from, to);
    if (!done && name_in(from) && name_in(to))
        SAY("rename %s %s\n", name_in(from), name_in(to));
    return done;
}

int unlink(const char *named) {
    int done = (int)syscall(SYS_unlink, named);
    if (!done && name_in(named))
        SAY("remove %s\n", name_in(named));
    return done;
}
