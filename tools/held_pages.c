// A kernel that keeps pages which another program holds: a library that tools/held_pages.py preloads into the program.
//
// It is for the files whose names begin with that of the disk file. The file itself is what the kernel shows (its cache of pages). What a
// power loss would leave is in HELD_FOLDER, where it stays from one program to the next:
//
//     INODE.device   the octets of that file which the device has
//     INODE.dirty    an octet for each page, 1 if it was written since the last sync
//     NAME.inode     the file that has this name on the device
//
// The environment says what happens:
//
//     HELD_FOLDER=FOLDER  the folder above
//     HELD_NAME=NAME      the name of the disk file
//     HELD_PAGES=1        another program holds all pages: POSIX_FADV_DONTNEED drops none
//     HELD_FAIL=N         the N-th sync fails (EIO): as in Linux its pages are clean from then on, are shown, and are not on the device
//     HELD_END=N          the program ends with status 77 before the N-th call that is seen here. Of the writes of a copy beside the disk file
//                         the first two are counted: nothing reads that copy before it has the name
//
// A call that would change a file in a way that is not modelled ends the program with status 78.
#define _GNU_SOURCE
#include <errno.h>
#include <fcntl.h>
#include <stdarg.h>
#include <stdio.h>
#include <stdlib.h>
#include <string.h>
#include <sys/stat.h>
#include <sys/syscall.h>
#include <unistd.h>

enum { PAGE = 4096, PATH = 4096, ENDED = 77, NOT_MODELLED = 78 };

static void must(int holds, const char *what) {
    if (holds) return;
    fprintf(stderr, "held_pages: %s\n", what);
    _exit(NOT_MODELLED);
}

// A number of the environment, 0 if it is not there.
static int asked(const char *word) {
    const char *value = getenv(word);
    return value ? atoi(value) : 0;
}

static void count_call(void) {
    static int calls;
    if (++calls == asked("HELD_END")) _exit(ENDED);
}

// The files, by calls of the kernel that are not seen here.

static int open_unseen(const char *path, int flags) {
    return syscall(SYS_openat, AT_FDCWD, path, flags | O_CLOEXEC, 0600);
}

static ssize_t read_unseen(int file, void *octets, size_t count, off_t at) {
    return syscall(SYS_pread64, file, octets, count, at);
}

static void write_unseen(int file, const void *octets, ssize_t count, off_t at) {
    must(syscall(SYS_pwrite64, file, octets, count, at) == count, "no room");
}

static void path_of(int file, char *path) {
    char link[64];
    snprintf(link, sizeof link, "/proc/self/fd/%d", file);
    ssize_t count = readlink(link, path, PATH - 1);
    path[count < 0 ? 0 : count] = 0;
}

// The same file, opened once more.
static int again(int file, int flags) {
    char link[64];
    snprintf(link, sizeof link, "/proc/self/fd/%d", file);
    int it = open_unseen(link, flags);
    must(it >= 0, "a file cannot be opened again");
    return it;
}

static const char *name_in(const char *path) {
    const char *slash = strrchr(path, '/');
    return slash ? slash + 1 : path;
}

static int is_modelled(int file, struct stat *it) {
    const char *name = getenv("HELD_NAME");
    char path[PATH];
    if (!getenv("HELD_FOLDER") || !name || fstat(file, it) || !S_ISREG(it->st_mode)) return 0;
    path_of(file, path);
    return !strncmp(name_in(path), name, strlen(name));
}

// Whether it is a copy beside the disk file that has another name yet.
static int is_copy(int file) {
    char path[PATH];
    path_of(file, path);
    return strcmp(name_in(path), getenv("HELD_NAME")) != 0;
}

// What a power loss would leave.

static void kept_path(char *path, const struct stat *it, const char *kind) {
    snprintf(path, PATH, "%s/%lu.%s", getenv("HELD_FOLDER"), (unsigned long)it->st_ino, kind);
}

static int kept(const struct stat *it, const char *kind) {
    char path[PATH];
    kept_path(path, it, kind);
    int file = open_unseen(path, O_RDWR | O_CREAT);
    must(file >= 0, "HELD_FOLDER cannot be written");
    return file;
}

static void keep_name(const char *name, const struct stat *it) {
    char path[PATH], text[40];
    snprintf(path, sizeof path, "%s/%s.inode", getenv("HELD_FOLDER"), name);
    int file = open_unseen(path, O_WRONLY | O_CREAT | O_TRUNC);
    must(file >= 0, "HELD_FOLDER cannot be written");
    write_unseen(file, text, snprintf(text, sizeof text, "%lu\n", (unsigned long)it->st_ino), 0);
    close(file);
}

static void copy_page(int from, int to, off_t page) {
    char octets[PAGE];
    ssize_t count = read_unseen(from, octets, PAGE, page * PAGE);
    if (count > 0) write_unseen(to, octets, count, page * PAGE);
}

static int is_dirty(int marks, off_t page) {
    char mark = 0;
    return read_unseen(marks, &mark, 1, page) == 1 && mark;
}

static off_t pages_of(const struct stat *it) {
    return (it->st_size + PAGE - 1) / PAGE;
}

// A file that was there before is on the device as it is, with its name; of a new one the device has nothing, and no name.
static void begin(int file, int is_new) {
    struct stat it;
    char path[PATH];
    if (!is_modelled(file, &it)) return;
    kept_path(path, &it, "device");
    if (is_new) {
        unlink(path);
        kept_path(path, &it, "dirty");
        unlink(path);
    } else if (access(path, F_OK)) {
        int device = kept(&it, "device"), shown = again(file, O_RDONLY);
        for (off_t page = 0; page < pages_of(&it); page++) copy_page(shown, device, page);
        close(shown);
        close(device);
        path_of(file, path);
        keep_name(name_in(path), &it);
    }
}

static void mark_dirty(int file, off_t at, ssize_t count) {
    struct stat it;
    if (count <= 0 || !is_modelled(file, &it)) return;
    int marks = kept(&it, "dirty");
    for (off_t page = at / PAGE; page <= (at + count - 1) / PAGE; page++) write_unseen(marks, "\1", 1, page);
    close(marks);
}

// All dirty pages become clean; the device has them only if the sync does not fail.
static void write_back(int file, const struct stat *it, int fails) {
    int marks = kept(it, "dirty"), device = kept(it, "device"), shown = again(file, O_RDONLY);
    for (off_t page = 0; page < pages_of(it); page++) {
        if (!is_dirty(marks, page)) continue;
        if (!fails) copy_page(shown, device, page);
        write_unseen(marks, "\0", 1, page);
    }
    if (!fails) must(!syscall(SYS_ftruncate, device, it->st_size), "HELD_FOLDER cannot be written");
    close(shown);
    close(device);
    close(marks);
}

// A sync of the folder: the name is on the device.
static void write_back_name(int folder) {
    struct stat it;
    char path[PATH], named[2 * PATH];
    if (!getenv("HELD_FOLDER") || fstat(folder, &it) || !S_ISDIR(it.st_mode)) return;
    path_of(folder, path);
    snprintf(named, sizeof named, "%s/%s", path, getenv("HELD_NAME"));
    if (!stat(named, &it)) keep_name(getenv("HELD_NAME"), &it);
}

// Each clean page that nobody holds is dropped: the kernel shows from then on what the device has.
static void drop_pages(int file, const struct stat *it) {
    int marks = kept(it, "dirty"), device = kept(it, "device"), shown = again(file, O_RDWR);
    for (off_t page = 0; page < pages_of(it); page++)
        if (!is_dirty(marks, page)) copy_page(device, shown, page);
    close(shown);
    close(device);
    close(marks);
}

// The calls that are seen.

static int opened(int folder, const char *path, int flags, int mode) {
    count_call();
    struct stat it;
    int is_new = (flags & O_CREAT) && fstatat(folder, path, &it, 0);
    int file = syscall(SYS_openat, folder, path, flags, mode), error = errno;
    if (file >= 0) begin(file, is_new);
    errno = error;
    return file;
}

static int mode_of(va_list more) {
    int mode = va_arg(more, int);
    va_end(more);
    return mode;
}

int open(const char *path, int flags, ...) {
    va_list more;
    va_start(more, flags);
    return opened(AT_FDCWD, path, flags, mode_of(more));
}

int open64(const char *path, int flags, ...) {
    va_list more;
    va_start(more, flags);
    return opened(AT_FDCWD, path, flags, mode_of(more));
}

int openat(int folder, const char *path, int flags, ...) {
    va_list more;
    va_start(more, flags);
    return opened(folder, path, flags, mode_of(more));
}

int openat64(int folder, const char *path, int flags, ...) {
    va_list more;
    va_start(more, flags);
    return opened(folder, path, flags, mode_of(more));
}

static void count_write(int file) {
    static int copied;
    struct stat it;
    if (!is_modelled(file, &it) || !is_copy(file) || ++copied <= 2) count_call();
}

ssize_t pwrite(int file, const void *octets, size_t count, off_t at) {
    count_write(file);
    ssize_t written = syscall(SYS_pwrite64, file, octets, count, at);
    int error = errno;
    mark_dirty(file, at, written);
    errno = error;
    return written;
}

ssize_t pwrite64(int file, const void *octets, size_t count, off_t at) {
    return pwrite(file, octets, count, at);
}

ssize_t write(int file, const void *octets, size_t count) {
    struct stat it;
    if (!is_modelled(file, &it)) return syscall(SYS_write, file, octets, count);
    count_write(file);
    off_t at = lseek(file, 0, SEEK_CUR);
    ssize_t written = syscall(SYS_write, file, octets, count);
    int error = errno;
    mark_dirty(file, at, written);
    errno = error;
    return written;
}

int fsync(int file) {
    static int syncs;
    struct stat it;
    count_call();
    int fails = ++syncs == asked("HELD_FAIL");
    if (is_modelled(file, &it)) write_back(file, &it, fails);
    else if (!fails) write_back_name(file);
    if (fails) errno = EIO;
    return fails ? -1 : 0;
}

int fdatasync(int file) {
    return fsync(file);
}

int posix_fadvise(int file, off_t at, off_t count, int advice) {
    struct stat it;
    (void)at, (void)count;
    count_call();
    if (advice == POSIX_FADV_DONTNEED && !asked("HELD_PAGES") && is_modelled(file, &it)) drop_pages(file, &it);
    return 0;
}

int posix_fadvise64(int file, off_t at, off_t count, int advice) {
    return posix_fadvise(file, at, count, advice);
}

int rename(const char *old, const char *new) {
    count_call();
    return syscall(SYS_rename, old, new);
}

int unlink(const char *path) {
    count_call();
    return syscall(SYS_unlink, path);
}

// Calls that change a file, or what is shown of it, in ways that are not modelled.

static int no_modelled(int file, const char *what) {
    struct stat it;
    must(!is_modelled(file, &it), what);
    errno = ENOSYS;
    return -1;
}

int ftruncate(int file, off_t size) {
    no_modelled(file, "ftruncate is not modelled");
    return syscall(SYS_ftruncate, file, size);
}

int ftruncate64(int file, off_t size) {
    return ftruncate(file, size);
}

ssize_t copy_file_range(int from, off64_t *from_at, int to, off64_t *to_at, size_t count, unsigned flags) {
    (void)from, (void)from_at, (void)to_at, (void)count, (void)flags;
    return no_modelled(to, "copy_file_range is not modelled");
}

ssize_t sendfile64(int to, int from, off64_t *at, size_t count) {
    (void)from, (void)at, (void)count;
    return no_modelled(to, "sendfile is not modelled");
}
