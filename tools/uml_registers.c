// Lets a user-mode Linux of before 6.14 run on processors whose registers take more room than it keeps for them (AMX): a library that
// tools/held_pages_uml preloads into it. Such a kernel sets the first part of a process's registers, which the host refuses since it wants all of
// them. The rest stays as it is.
#define _GNU_SOURCE
#include <elf.h>
#include <errno.h>
#include <stdarg.h>
#include <string.h>
#include <sys/ptrace.h>
#include <sys/syscall.h>
#include <sys/types.h>
#include <sys/uio.h>
#include <unistd.h>

long ptrace(enum __ptrace_request request, ...) {
    static char registers[1 << 16];
    va_list more;
    va_start(more, request);
    pid_t process = va_arg(more, pid_t);
    void *place = va_arg(more, void *), *data = va_arg(more, void *);
    va_end(more);
    if (request == PTRACE_SETREGSET && (long)place == NT_X86_XSTATE) {
        struct iovec *given = data, all = {registers, sizeof registers};
        if (!syscall(SYS_ptrace, PTRACE_GETREGSET, process, place, &all) && all.iov_len > given->iov_len) {
            memcpy(registers, given->iov_base, given->iov_len);
            return syscall(SYS_ptrace, request, process, place, &all);
        }
    }
    if (request != PTRACE_PEEKTEXT && request != PTRACE_PEEKDATA && request != PTRACE_PEEKUSER) return syscall(SYS_ptrace, request, process, place, data);
    // The kernel stores what these three find; the C library answers it.
    long found;
    if (syscall(SYS_ptrace, request, process, place, &found)) return -1;
    errno = 0;
    return found;
}
