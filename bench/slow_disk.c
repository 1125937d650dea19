/* For a bench alone: a disk that takes SYNC_MICROSECONDS longer for each sync, and with SYNC_EACH_WRITE a program that syncs
   a file after each write to it, while it writes. Loaded into the program by LD_PRELOAD. */
#define _GNU_SOURCE
#include <dlfcn.h>
#include <stdlib.h>
#include <sys/stat.h>
#include <time.h>
#include <unistd.h>

int fdatasync(int fd) {
    static int (*sync_data)(int);
    const char *longer = getenv("SYNC_MICROSECONDS");
    long microseconds = longer ? atol(longer) : 0;
    struct timespec t = {.tv_sec = microseconds / 1000000, .tv_nsec = microseconds % 1000000 * 1000};
    if (!sync_data) sync_data = (int (*)(int))dlsym(RTLD_NEXT, "fdatasync");
    int done = sync_data(fd);
    if (microseconds) nanosleep(&t, NULL);
    return done;
}

ssize_t write(int fd, const void *bytes, size_t count) {
    static ssize_t (*pass_on)(int, const void *, size_t);
    struct stat file;
    if (!pass_on) pass_on = (ssize_t (*)(int, const void *, size_t))dlsym(RTLD_NEXT, "write");
    ssize_t taken = pass_on(fd, bytes, count);
    if (taken > 0 && getenv("SYNC_EACH_WRITE") && !fstat(fd, &file) && S_ISREG(file.st_mode)) fdatasync(fd);
    return taken;
}
