/* The disk of an endpoint (macsec.h) in a file of Linux, as `macsecd format --block 4096` lays it out: each sector in a block of its own.
 *
 * NAME may be a symbolic link, but the file has no second hard link. NAME.new, in its folder, is the file that will replace it: so NAME itself
 * does not end in .new. A NAME.new that an interrupted run left is removed. If it is anything else, no file is made or opened. */
#ifndef FILE_DISK_H
#define FILE_DISK_H

#include "macsec.h"

#include <stdbool.h>

/* Makes a new file with the journal of a new endpoint. False if there is anything of this name already, or a call of the system fails. */
bool file_disk_format(const char *name, const struct macs_identity *identity);

/* Opens the file, and reads its MACS_SECTORS sectors: they hold keys. The descriptor of the file, or -1: it is not there, is in use, has a
 * second hard link, or a call failed. The file is made anew: close it after a call has failed, and open it again. */
int file_disk_open(const char *name, struct macs_sector *sectors);

/* Makes a device call of macs_next_call: 1 if it succeeded, else 0, as macs_did_call takes it. What was read is in `read`. */
uint32_t file_disk_make(int file, const struct macs_call *call, struct macs_sector *read);

#endif
