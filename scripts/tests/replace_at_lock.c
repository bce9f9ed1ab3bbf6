/* A library to load before a program: once it locks a file for the first time, another file takes the place of one, as where a journal is
   made shorter between its open and its lock. `test_journal.py` compiles and uses it.

   REPLACE_FILE  the file
   REPLACE_BY    the one that takes its place */
#define _GNU_SOURCE
#include <stdio.h>
#include <stdlib.h>
#include <sys/syscall.h>
#include <unistd.h>

int flock(int fd, int how) {
    static int is_done;
    const char *file = getenv("REPLACE_FILE"), *by = getenv("REPLACE_BY");
    if (!is_done && file && by) {
        is_done = 1;
        if (rename(by, file))
            return -1;
    }
    return (int)syscall(SYS_flock, fd, how);
}
