// Syncs that take longer: a library that bench/relay.py preloads into a relay. Each sync (fsync and fdatasync) takes SLOW_SYNC milliseconds more.
#define _GNU_SOURCE
#include <stdlib.h>
#include <sys/syscall.h>
#include <unistd.h>

static int slowed(int file, long call) {
    const char *milliseconds = getenv("SLOW_SYNC");
    if (milliseconds) usleep(atoi(milliseconds) * 1000);
    return syscall(call, file);
}

int fsync(int file) {
    return slowed(file, SYS_fsync);
}

int fdatasync(int file) {
    return slowed(file, SYS_fdatasync);
}
