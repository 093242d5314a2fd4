/* A disk in a file. A call that moves fewer octets than it should is one that failed.
 *
 * After a failed sync a system may show octets that the device does not have, and no later sync writes them. So each opening makes the file
 * anew: what it shows is copied into a new file, that is synced, and takes the name. If this fails too, nothing is opened. */
#define _GNU_SOURCE
#include "file_disk.h"

#include <errno.h>
#include <fcntl.h>
#include <libgen.h>
#include <limits.h>
#include <stdio.h>
#include <stdlib.h>
#include <string.h>
#include <sys/file.h>
#include <sys/stat.h>
#include <unistd.h>

enum { BLOCK = 4096, FILE_OCTETS = (MACS_SECTORS + 1) * BLOCK };

static const char MARK[MACS_SECTOR] = "MSEC4096";

/* A call that a signal interrupted moved nothing, and is made again. */
static bool get(int file, uint64_t sector, void *octets) {
    ssize_t count = pread(file, octets, MACS_SECTOR, (off_t)sector * BLOCK);
    return count == MACS_SECTOR || (count < 0 && errno == EINTR && get(file, sector, octets));
}

static bool put(int file, uint64_t sector, const void *octets) {
    ssize_t count = pwrite(file, octets, MACS_SECTOR, (off_t)sector * BLOCK);
    return count == MACS_SECTOR || (count < 0 && errno == EINTR && put(file, sector, octets));
}

static bool is_at(const char *path, const struct stat *file) {
    struct stat there;
    return lstat(path, &there) == 0 && there.st_ino == file->st_ino && there.st_dev == file->st_dev;
}

/* Opens a file that no other program has, and that still has its name: only who did so may remove or rename it. The descriptor is none of a
 * standard stream: a program that was started without these would print into the file. */
static int claim(const char *path, int flags, struct stat *about) {
    int low = open(path, flags | O_RDWR | O_NOFOLLOW | O_NONBLOCK | O_CLOEXEC, 0600), file = low < 0 ? -1 : fcntl(low, F_DUPFD_CLOEXEC, 3);
    if (low >= 0) close(low);
    if (file >= 0 && flock(file, LOCK_EX | LOCK_NB) == 0 && fstat(file, about) == 0 && S_ISREG(about->st_mode) && is_at(path, about)) return file;
    if (file >= 0) close(file);
    return -1;
}

/* The path of the new file. A name that ends in .new is refused: it may be that of the new file of another disk. */
static bool name_new(const char *path, char new[PATH_MAX]) {
    size_t length = strlen(path);
    return snprintf(new, PATH_MAX, "%s.new", path) < PATH_MAX && (length < 4 || strcmp(path + length - 4, ".new") != 0);
}

/* Removes a new file that an interrupted run left: it is empty, or has its whole length, and the mark or zeros in its place. */
static bool remove_left_over(const char *path) {
    char mark[MACS_SECTOR];
    struct stat about;
    int file = claim(path, 0, &about);
    if (file < 0) return errno == ENOENT;
    bool has_length = about.st_size == FILE_OCTETS && get(file, MACS_SECTORS, mark);
    bool is_gone = (about.st_size == 0 || (has_length && (*mark == 0 || memcmp(mark, MARK, 8) == 0))) && unlink(path) == 0;
    close(file);
    return is_gone;
}

/* Writes a new file, and makes it durable. The owner and the mode are those of the old one. The mark is last: a file without it is not whole. */
static bool fill(int file, const struct macs_sector *sectors, const struct stat *old) {
    bool is_good = !old || (fchown(file, old->st_uid, old->st_gid) == 0 && fchmod(file, old->st_mode & 07777) == 0);
    is_good = is_good && ftruncate(file, FILE_OCTETS) == 0;
    for (uint64_t n = 0; is_good && n < MACS_SECTORS; n++) is_good = put(file, n, &sectors[n]);
    return is_good && put(file, MACS_SECTORS, MARK) && fsync(file) == 0;
}

/* A new name is durable once its folder is synced. The path is changed: `dirname` cuts it. */
static bool sync_folder(char *path) {
    int folder = open(dirname(path), O_RDONLY | O_DIRECTORY | O_CLOEXEC);
    bool is_synced = folder >= 0 && fsync(folder) == 0;
    if (folder >= 0) close(folder);
    return is_synced;
}

/* Gives the name to a new file with these sectors, durably: its descriptor, or -1. Without an old file by `link`, which never replaces one. */
static int make_anew(const char *path, const struct macs_sector *sectors, const struct stat *old) {
    char new[PATH_MAX];
    struct stat about;
    int file = name_new(path, new) && remove_left_over(new) ? claim(new, O_CREAT | O_EXCL, &about) : -1;
    if (file < 0) return -1;
    bool is_named = fill(file, sectors, old) && (old ? rename(new, path) : link(new, path)) == 0;
    if (!is_named || !old) unlink(new);
    if (is_named && sync_folder(new)) return file;
    close(file);
    return -1;
}

bool file_disk_format(const char *name, const struct macs_identity *identity) {
    static struct macs_sector sectors[MACS_SECTORS];
    struct stat about;
    memset(sectors, 0, sizeof sectors);
    if (lstat(name, &about) == 0 || errno != ENOENT || macs_format(sectors, MACS_SECTORS, identity) != MACS_OK) return false;
    int file = make_anew(name, sectors, NULL);
    return file >= 0 && close(file) == 0;
}

int file_disk_open(const char *name, struct macs_sector *sectors) {
    char path[PATH_MAX], new[PATH_MAX], mark[MACS_SECTOR];
    struct stat about;
    int file = -1, old = realpath(name, path) && name_new(path, new) ? claim(path, 0, &about) : -1;
    if (old < 0) return -1;
    bool is_good = get(old, MACS_SECTORS, mark) && memcmp(mark, MARK, 8) == 0;
    /* A format that was cut short left the file both names. */
    if (is_good && is_at(new, &about)) is_good = unlink(new) == 0 && fstat(old, &about) == 0;
    is_good = is_good && about.st_nlink == 1;
    for (uint64_t n = 0; is_good && n < MACS_SECTORS; n++) is_good = get(old, n, &sectors[n]);
    if (is_good) file = make_anew(path, sectors, &about);
    close(old);
    return file;
}

uint32_t file_disk_make(int file, const struct macs_call *call, struct macs_sector *read) {
    if (call->kind == MACS_READ) return get(file, call->sector, read);
    if (call->kind == MACS_WRITE) return put(file, call->sector, call->octets);
    return call->kind == MACS_SYNC && fdatasync(file) == 0;
}
