// One sync that fails: a library that tools/held_pages_uml preloads into the program. Before the sync of number FAILED_SYNC (fsync and fdatasync,
// from 1 on) the shell runs SYNC_BEFORE, which has the device refuse writes, and after it SYNC_AFTER.
#define _GNU_SOURCE
#include <errno.h>
#include <stdlib.h>
#include <sys/syscall.h>
#include <unistd.h>

static int synced(int file, long call) {
    static int syncs;
    const char *number = getenv("FAILED_SYNC");
    int is_it = number && ++syncs == atoi(number);
    if (is_it && system(getenv("SYNC_BEFORE"))) _exit(78);
    int result = syscall(call, file), error = errno;
    if (is_it && system(getenv("SYNC_AFTER"))) _exit(78);
    errno = error;
    return result;
}

int fsync(int file) {
    return synced(file, SYS_fsync);
}

int fdatasync(int file) {
    return synced(file, SYS_fdatasync);
}
