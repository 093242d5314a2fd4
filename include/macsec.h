/* MACsec (IEEE Std 802.1AE-2018) under GCM-AES-128 and GCM-AES-256: single frames, and endpoints that
 * keep their packet numbers through a power loss. Numbers in brackets are clauses of that standard.
 *
 * Single frames: macs_key_new, macs_read_tag, macs_seal_frame, macs_open_frame. They keep nothing
 * between two calls. The caller counts packet numbers and checks for replay: use each packet number
 * once under a key. The library does not notice a second use.
 *
 * An endpoint: macs_format, macs_open and the calls after them. It counts packet numbers, refuses
 * replayed frames, and keeps its configuration on a disk of the caller's.
 *
 * In every call:
 *
 *  - Memory is the caller's. The library allocates none, and has no static variables.
 *  - It makes no system call. Of the C library it uses memcpy, memmove and memset.
 *  - Every pointer is aligned for its type and not null, also where a length is 0, and points to at
 *    least as many elements as its length says. What a call writes overlaps nothing else that it is
 *    given. During a call nobody else reads or changes what it writes, or changes what it reads.
 *    What a call writes need not be initialised. The proofs assume all this: nothing checks it.
 *  - Calls on different memory may run concurrently. On one endpoint one call runs at a time, those
 *    that only read included.
 *  - Stack (x86-64): macs_open takes 385,016 octets, each other call less than 20,000. It is not
 *    cleared afterwards, and may hold keys.
 */
#ifndef MACSEC_H
#define MACSEC_H

#include <stdbool.h>
#include <stddef.h>
#include <stdint.h>

#define MACSEC_VERSION "0.1.0"

#ifdef __cplusplus
extern "C" {
#endif

/* Answers
 *
 * Each call that returns uint32_t returns one of these. Each code has one meaning, for single frames
 * and for an endpoint. */
#define MACS_ANSWERS(X)                                                                              \
    X(MACS_OK, 0, "it is done")                                                                      \
    X(MACS_KEY, 1, "the key has neither 16 nor 32 octets")                                           \
    X(MACS_FIELD, 2, "a field is out of its range")                                                  \
    X(MACS_RUNT, 3, "the frame has fewer than 14 octets")                                            \
    X(MACS_OVERSIZE, 4, "the frame has more than 9,216 octets, or would have once it is protected")  \
    X(MACS_ROOM, 5, "the buffer is too small")                                                       \
    X(MACS_NO_TAG, 6, "the EtherType is not 88-E5")                                                  \
    X(MACS_BAD_TAG, 7, "the SecTAG breaks a rule of 9.12, or has SCB set")                           \
    X(MACS_FOR_KAY, 8, "E is set and C clear: the frame is for the key agreement entity (9.5)")      \
    X(MACS_OTHER_SCI, 9, "the SecTAG names another SCI")                                             \
    X(MACS_NOT_VALID, 10, "the ICV is not that of the frame under this key, SCI and offset")         \
    /* an endpoint, and its disk */                                                                  \
    X(MACS_ABSENT, 31, "there is no such association")                                               \
    X(MACS_CLOSED, 32, "no endpoint is open there")                                                  \
    X(MACS_OPEN, 33, "an endpoint is open there already")                                            \
    X(MACS_NO_CALL, 34, "no device call is pending")                                                 \
    X(MACS_TOO_SMALL, 40, "the disk has fewer than 1,028 sectors")                                   \
    X(MACS_NOT_FORMATTED, 41, "the disk is not formatted: no head gate is open")                     \
    X(MACS_BAD_JOURNAL, 42, "the disk is formatted, but its journal is not valid")                   \
    X(MACS_FORMAT_ONE, 43, "the journal is of format one: macsecd migrates it, if it can")           \
    X(MACS_FORMATTED, 44, "the disk is formatted already: a head gate is open")                      \
    X(MACS_BLOCK, 45, "a block is not 1 to 65,536")                                                  \
    /* its work */                                                                                   \
    X(MACS_CALL, 50, "make the device call")                                                         \
    X(MACS_IDLE, 51, "no work is under way, and none is due")                                        \
    X(MACS_WORKED, 52, "the work is still under way")                                                \
    X(MACS_RESERVED, 53, "packet numbers were reserved: hand in the frames that waited again")       \
    X(MACS_DONE, 54, "a command is completed: see done")                                             \
    X(MACS_STOPPED, 55, "a device call failed before: the disk must be opened again")                \
    X(MACS_GENERATIONS_SPENT, 56, "no compaction is possible: the generation is 2^64 - 1")           \
    X(MACS_DISK, 57, "the device call failed")                                                       \
    X(MACS_QUEUE_FULL, 60, "16 commands are pending")                                                \
    X(MACS_TICKETS_SPENT, 61, "2^64 - 1 tickets were given")                                         \
    /* a plain frame that is not sent */                                                             \
    X(MACS_UNSENT_RUNT, 70, "the plain frame has fewer than 14 octets")                              \
    X(MACS_UNSENT_TOO_LONG, 71, "the protected frame would have more than 9,216 octets")             \
    X(MACS_UNSENT_FOREIGN_SOURCE, 72, "end-station mode: the source address is not that of the SCI") \
    X(MACS_UNSENT_NO_ENCODING_SA, 73, "no association is selected to send under")                    \
    X(MACS_UNSENT_EXHAUSTED, 74, "all packet numbers of the association are used")                   \
    X(MACS_UNSENT_NO_NUMBER, 75, "the next packet number is not reserved yet")                       \
    /* a received frame (10.6): delivered, discarded, or held back */                                \
    X(MACS_DELIVERED_OK, 80, "delivered: it verified")                                               \
    X(MACS_DELIVERED_DELAYED, 81, "delivered: it verified, below the lowest acceptable number")      \
    X(MACS_DELIVERED_INVALID, 82, "delivered: it did not verify, and C is clear")                    \
    X(MACS_DELIVERED_UNTAGGED, 83, "delivered: it has no SecTAG")                                    \
    X(MACS_DELIVERED_UNKNOWN_SCI, 84, "delivered: it names no channel that exists, and C is clear")  \
    X(MACS_DELIVERED_UNUSED_SA, 85, "delivered: its association does not exist, and C is clear")     \
    X(MACS_DISCARDED_RUNT, 86, "discarded: it has fewer than 14 octets")                             \
    X(MACS_DISCARDED_OVERSIZE, 87, "discarded: it has more than 9,216 octets")                       \
    X(MACS_DISCARDED_NO_TAG, 88, "discarded: it has no SecTAG")                                      \
    X(MACS_DISCARDED_BAD_TAG, 89, "discarded: its SecTAG breaks a rule of 9.12, or has SCB set")     \
    X(MACS_DISCARDED_FOR_KAY, 90, "discarded: it is for the key agreement entity")                   \
    X(MACS_DISCARDED_NO_SCI, 91, "discarded: it names no channel that exists")                       \
    X(MACS_DISCARDED_NOT_USING_SA, 92, "discarded: its association does not exist")                  \
    X(MACS_DISCARDED_LATE, 93, "discarded: its number is below the lowest acceptable one")           \
    X(MACS_DISCARDED_NOT_VALID, 94, "discarded: it did not verify")                                  \
    X(MACS_HELD_BACK, 95, "it verified, but its packet number is not reserved yet")                  \
    /* a command that does not fit the configuration */                                              \
    X(MACS_REFUSED_START_RANGE, 100, "refused: the first packet number is 0")                        \
    X(MACS_REFUSED_OFFSET_CHOICE, 101,                                                               \
      "refused: the offset is not 0, 30 or 50, or not 0 without confidentiality")                    \
    X(MACS_REFUSED_OWN_SCI, 102, "refused: the new channel has the endpoint's own SCI")              \
    X(MACS_REFUSED_END_STATION_SCI, 103, "refused: the port of the endpoint's SCI is not 00-01")     \
    X(MACS_REFUSED_NO_CHANNEL, 104, "refused: there is no such receive channel")                     \
    X(MACS_REFUSED_CHANNEL_TAKEN, 105, "refused: there is a receive channel of that SCI")            \
    X(MACS_REFUSED_CHANNELS_FULL, 106, "refused: there are 32 receive channels")                     \
    X(MACS_REFUSED_SLOT_TAKEN, 107, "refused: there is an association at that number")               \
    X(MACS_REFUSED_SLOT_EMPTY, 108, "refused: there is no association at that number")               \
    X(MACS_REFUSED_IN_USE, 109, "refused: frames go out under this association")                     \
    X(MACS_REFUSED_KEY_SPENT, 110, "refused: the key was installed before, to send or for this SCI") \
    X(MACS_REFUSED_SPENT_FULL, 111, "refused: 512 keys were installed on this side")

enum macs_answer {
#define MACS_ANSWER(name, code, text) name = code,
    MACS_ANSWERS(MACS_ANSWER)
#undef MACS_ANSWER
};

/* The words above of an answer. */
static inline const char *macs_answer_text(uint32_t answer) {
    switch (answer) {
#define MACS_ANSWER(name, code, text)                                                                \
    case code:                                                                                       \
        return text;
        MACS_ANSWERS(MACS_ANSWER)
#undef MACS_ANSWER
    }
    return "no answer has this code";
}

/* Single frames
 *
 * Any answer but MACS_OK leaves all that the call could write as it was. */

/* The most octets of a frame, plain or protected, without its frame check sequence; and the most
 * octets that protection adds. */
#define MACS_MAX_FRAME 9216
#define MACS_MAX_OVERHEAD 32

/* A key, as macs_key_new makes it. Overwrite it when it is no longer used: the library does not. A
 * key of 16 octets leaves the other 16 as they were. */
struct macs_key {
    uint8_t octets[32];
    uint32_t length; /* 16 or 32 octets */
};

/* A secure channel identifier: the 6 octets of a MAC address, then 2 of a port (9.9). */
struct macs_sci {
    uint8_t octets[8];
};

/* How a SecTAG names its channel (9.5, 9.9). */
enum macs_name {
    MACS_IMPLICIT = 0,   /* not at all: the receiver knows the channel */
    MACS_EXPLICIT = 1,   /* by its SCI, which takes 8 octets */
    MACS_END_STATION = 2 /* as the source address with port 00-01 */
};

/* What the SecTAG of a frame says (9.5 to 9.9), and the confidentiality offset (14.5). */
struct macs_tag {
    struct macs_sci sci; /* the transmit channel's, which is part of the initialisation vector */
    uint32_t pn;         /* the packet number, 1 to 2^32 - 1 */
    uint8_t an;          /* the association number, 0 to 3 */
    uint8_t name;        /* one of enum macs_name */
    uint8_t encrypted;   /* 1: User Data are encrypted. 0: they stay in the clear, under the ICV */
    uint8_t offset;      /* 0, 30 or 50 octets of User Data that stay in the clear if encrypted is 1 */
};

/* What is known of an opened frame. */
struct macs_opened {
    size_t octets; /* how many octets the plain frame has */
    uint32_t pn;   /* the packet number in the SecTAG */
    uint8_t an;    /* the association number in the SecTAG */
};

/* Stores a key of 16 or 32 octets in `key`. MACS_OK or MACS_KEY. */
uint32_t macs_key_new(const uint8_t *octets, size_t length, struct macs_key *key);

/* Reads the SecTAG of a protected frame (9.3 to 9.9), so that its key can be looked up. `sci` is the
 * SCI that it names: as an end station the source address with port 00-01, and zeros if `name` is
 * MACS_IMPLICIT. `offset` is 0, since a SecTAG does not carry it. Nothing is verified. MACS_OK, or
 * the first fault of MACS_RUNT, MACS_OVERSIZE, MACS_NO_TAG, MACS_BAD_TAG and MACS_FOR_KAY. */
uint32_t macs_read_tag(const uint8_t *frame, size_t length, struct macs_tag *tag);

/* Protects a plain frame (10.5) into `out`, which has `room` octets, and stores its length in
 * `written`. A room of `length` + MACS_MAX_OVERHEAD is enough. What follows the frame in `out` stays
 * as it was. MACS_OK, or the first of MACS_KEY, MACS_FIELD, MACS_RUNT, MACS_OVERSIZE and MACS_ROOM
 * that holds. With MACS_END_STATION the SCI has to be the frame's source address with port 00-01:
 * this is not checked, and otherwise no receiver verifies the frame.
 *
 * Each call expands the key anew, which takes most of the time for a short frame. */
uint32_t macs_seal_frame(const struct macs_key *key, const struct macs_tag *tag,
                         const uint8_t *plain, size_t length,
                         uint8_t *out, size_t room, size_t *written);

/* Opens a protected frame (10.6) into `out`, and stores in `opened` what is known of it. What follows
 * the plain frame in `out` stays as it was. MACS_OK, or the first that holds of MACS_KEY, MACS_FIELD,
 * MACS_RUNT, MACS_OVERSIZE, MACS_NO_TAG, MACS_BAD_TAG, MACS_FOR_KAY, MACS_OTHER_SCI and
 * MACS_NOT_VALID; or MACS_ROOM, if the frame is valid and `out` is too small.
 *
 * Each call expands the key anew, which takes most of the time for a short frame. */
uint32_t macs_open_frame(const struct macs_key *key, const struct macs_sci *sci, uint8_t offset,
                         const uint8_t *frame, size_t length,
                         uint8_t *out, size_t room, struct macs_opened *opened);

/* An endpoint
 *
 * An endpoint has one transmit channel and up to 32 receive channels. Its disk has at least 1,028
 * sectors of 512 octets: in flash, in an EEPROM, on a partition or in a file. The library never
 * accesses the device. It names each device call, and the caller makes it; without the other answers:
 *
 *     struct macs_endpoint e = {memory, false};
 *     if (macs_open(&e, sectors, MACS_SECTORS) != MACS_OK) ..
 *     for (;;) {
 *         macs_protect, macs_receive and macs_submit
 *         if (macs_next_call(&e, &call, &done) == MACS_CALL) {
 *             ok = the device call: 1 if it succeeded
 *             macs_did_call(&e, &read, ok, &done);
 *         }
 *     }
 *
 * Frames never wait for the disk, unless no packet number is reserved for them. Make one device call
 * after each frame: a reservation takes four, and begins when half a block is left. After 256 records
 * the journal is compacted, which takes up to 754 device calls more.
 *
 * After MACS_UNSENT_NO_NUMBER and MACS_HELD_BACK make device calls until MACS_RESERVED or MACS_IDLE,
 * and hand the frame in again. It may wait once more, if another association had its turn; give up at
 * MACS_GENERATIONS_SPENT, MACS_DISK or MACS_STOPPED. At the first frame of each association after an
 * opening this is the usual case.
 *
 * After MACS_DISK the endpoint is stopped: frames and commands are answered with MACS_STOPPED. Close
 * it, sync the device, read all sectors, and open it again. If the sync fails, do not open it: many
 * systems then show octets that the device does not have. In a file even a sync that succeeds may
 * leave such octets: copy what the file shows into a new file, sync that, and give it the name, as
 * the example file_disk.c does at each opening. */

/* The disk, and the caller's part
 *
 * No packet number is used twice under a key, and no completed command is lost, at whichever moment
 * the power fails; and while replay protection is on with window 0, as it is at first, no verified
 * frame is delivered twice, if the device and the caller keep to this:
 *
 *  - A write changes only its sector. The sector is then pending, until a sync succeeds.
 *  - A power loss may leave any 512 octets in a pending sector: the old ones, the new ones, or torn
 *    ones. All other sectors stay as they are.
 *  - A sync that succeeds makes all that was written before it durable: it survives any power loss,
 *    until that sector is written again.
 *  - A write that fails may have changed its sector, which is then pending. A read or a sync that
 *    fails changes nothing.
 *  - A read gives what was written last.
 *  - Each call that macs_next_call names is made once, before macs_did_call, which gets its true
 *    answer. So calls are made one at a time, in order.
 *  - The sectors for macs_open are read after a sync that succeeded.
 *  - Nobody else writes these sectors, and no older copy of them is ever opened, as from a backup:
 *    an endpoint on it would use packet numbers a second time. One endpoint at a time is open on a
 *    disk.
 *  - A key for sending is installed in one endpoint alone, and was never installed under its SCI on
 *    another disk. */

#define MACS_SECTOR 512      /* octets of a sector */
#define MACS_SECTORS 1028    /* the fewest sectors of a disk: 526,336 octets */
#define MACS_HEAD_GATE 1     /* the sector that is written last after macs_format */
#define MACS_FORMAT_LAST 513 /* the last sector that macs_format may change */
#define MACS_QUEUE 16        /* commands that may be pending */
#define MACS_CHANNELS 32     /* receive channels */
#define MACS_SPENT 512       /* keys that each side may ever be given */

#define MACS_ENDPOINT 263424       /* octets that an endpoint takes */
#define MACS_ENDPOINT_ALIGNMENT 16 /* and the alignment of their address */

struct macs_sector {
    uint8_t octets[MACS_SECTOR];
};

/* Where an endpoint is. Set `is_open` to false before the first call. The memory may hold anything
 * then, and has to be there from then on until the last call, also while no endpoint is open. While
 * one is open, only the library reads or changes the memory and this struct. */
struct macs_endpoint {
    void *at;     /* MACS_ENDPOINT octets, aligned to MACS_ENDPOINT_ALIGNMENT */
    bool is_open;
};

/* The identity of an endpoint, fixed for good by macs_format. Blocks say how many packet numbers are
 * reserved at a time. A reservation takes two syncs. For each association an opening skips at most a
 * block and a half of transmit numbers, and then refuses as late at most a receive block of the
 * frames after the newest that had verified: no call avoids this, as the planned end of macsecd
 * does. */
struct macs_identity {
    struct macs_sci sci; /* the transmit channel's */
    uint32_t tx_block;   /* packet numbers, 1 to 65,536 */
    uint32_t rx_block;   /* packet numbers, 1 to 65,536 */
};

/* A device call. */
enum macs_call_kind {
    MACS_READ = 1,  /* read the sector */
    MACS_WRITE = 2, /* write these octets to the sector: they may hold keys */
    MACS_SYNC = 3   /* make all that was written durable */
};

struct macs_call {
    uint32_t kind;               /* one of enum macs_call_kind */
    uint64_t sector;             /* for a read or a write: its number, from 0 on; else as it was */
    uint8_t octets[MACS_SECTOR]; /* for a write; else as they were */
};

/* A command that is completed. */
struct macs_done {
    uint64_t ticket; /* as macs_submit gave it */
    uint32_t answer; /* MACS_OK, MACS_REFUSED_.. or MACS_GENERATIONS_SPENT */
};

/* The commands of an operator. A new endpoint validates strictly, has replay protection on with
 * window 0, names its channel explicitly, and has no associations and no receive channels. */
enum macs_command_kind {
    MACS_SET_VALIDATE = 1, /* choice: 0 strict, 1 check, which delivers unverified frames (10.7.8) */
    MACS_SET_REPLAY = 2,   /* choice: replay protection 0 off, 1 on; window (10.7.8) */
    MACS_SET_SCI_MODE = 3, /* choice: one of enum macs_name */
    MACS_TX_INSTALL = 4,   /* an, key, start, choice: 0 integrity alone, 1 confidentiality; offset */
    MACS_TX_USE = 5,       /* an: frames go out under it from then on */
    MACS_TX_REMOVE = 6,    /* an */
    MACS_RX_ADD = 7,       /* sci: a new receive channel */
    MACS_RX_DROP = 8,      /* sci: the channel, with its associations */
    MACS_RX_INSTALL = 9,   /* sci, an, key, start, offset */
    MACS_RX_REMOVE = 10    /* sci, an */
};

/* A command. Fields that its kind does not name are not read. */
struct macs_command {
    uint32_t kind;       /* one of enum macs_command_kind */
    uint32_t start;      /* the association's first packet number, 1 to 2^32 - 1 */
    uint32_t window;     /* the replay window, in packet numbers */
    uint8_t an;          /* the association number, 0 to 3 */
    uint8_t choice;      /* see enum macs_command_kind */
    uint8_t offset;      /* 0, 30 or 50 octets; 0 without confidentiality */
    struct macs_sci sci; /* the receive channel */
    struct macs_key key; /* as macs_key_new makes it */
};

/* A transmit association. */
struct macs_tx {
    uint64_t next;     /* the next packet number, 1 to 2^32 */
    uint64_t reserved; /* how many from there on are reserved */
};

/* A receive association. */
struct macs_rx {
    uint64_t next;     /* the next expected packet number, 1 to 2^32 */
    uint64_t lowest;   /* the lowest acceptable packet number, at most next */
    uint64_t reserved; /* how many from next on are reserved */
};

/* How often each answer was given since the opening, each up to 2^64 - 1: the elements are in the
 * order of the codes, and 10.7.9 has InPktsOK for MACS_DELIVERED_OK, and so on. MACS_ROOM,
 * MACS_STOPPED and MACS_HELD_BACK are not counted. */
struct macs_counters {
    uint64_t protected_frames; /* OutPktsProtected and OutPktsEncrypted together */
    uint64_t unsent[6];        /* from MACS_UNSENT_RUNT on */
    uint64_t received[15];     /* from MACS_DELIVERED_OK to MACS_DISCARDED_NOT_VALID */
};

/* MACS_ENDPOINT and MACS_ENDPOINT_ALIGNMENT of the library as it was built. Compare them once if it
 * is a shared library. */
size_t macs_endpoint_size(void);
size_t macs_endpoint_alignment(void);

/* Makes the journal of a new endpoint in `sectors`: all `count` sectors of a disk, as they were read
 * after a sync that succeeded. MACS_OK, or the first that holds of MACS_BLOCK, MACS_TOO_SMALL and
 * MACS_FORMATTED: then nothing has changed.
 *
 * After MACS_OK write sectors 0 to MACS_FORMAT_LAST, or those of them that changed, except
 * MACS_HEAD_GATE; sync; write MACS_HEAD_GATE; and sync. No other sector has changed. A power loss
 * before the last sync leaves a disk that is not formatted, or this journal; after it, this journal.
 * If one of these calls fails, sync, read all sectors and begin again: MACS_FORMATTED then says that
 * this journal is there. If that sync fails, do not use the disk.
 *
 * Never format a disk for keys that were used under its SCI before: take new keys, or another SCI. */
uint32_t macs_format(struct macs_sector *sectors, size_t count,
                     const struct macs_identity *identity);

/* Opens an endpoint from all `count` sectors of its disk: mapped flash, or a buffer that is free
 * again after the call. MACS_OK, or the first that holds of MACS_OPEN, MACS_TOO_SMALL,
 * MACS_NOT_FORMATTED, MACS_BAD_JOURNAL and MACS_FORMAT_ONE: then nothing has changed. The packet
 * numbers of each association begin where its reservation ends; nothing is counted or pending. */
uint32_t macs_open(struct macs_endpoint *e, const struct macs_sector *sectors, size_t count);

/* Closes an endpoint. Its memory is the caller's again, with the keys in it: overwrite it. Pending
 * commands are lost; the one that is under way is found by the next opening, or not. The disk stays
 * as it is. Where no endpoint is open nothing happens. */
void macs_close(struct macs_endpoint *e);

/* Queues a command, and stores its ticket: 1, 2 and so on since the opening. It takes effect when
 * macs_did_call answers MACS_DONE with this ticket and MACS_OK: then no power loss loses it. Pending
 * commands are lost at a power loss, by macs_close and after MACS_DISK, but for the one that is
 * under way: the next opening finds it, or not. MACS_OK, or the first that holds of MACS_CLOSED,
 * MACS_FIELD, MACS_STOPPED, MACS_QUEUE_FULL and MACS_TICKETS_SPENT: then nothing has changed.
 *
 * MACS_FIELD: the kind, `an`, `choice` or the length of the key is out of its range. Other values
 * that do not fit are refused when the command's turn comes, by its `answer`. */
uint32_t macs_submit(struct macs_endpoint *e, const struct macs_command *command, uint64_t *ticket);

/* Names the next device call: MACS_CALL, with the call in `call`. If no work is under way, what is
 * due begins. The same call is named until macs_did_call; frames and commands may come in between.
 *
 * If no device call is needed: MACS_IDLE; MACS_DONE, with a command in `done` that is not kept;
 * MACS_STOPPED; or MACS_GENERATIONS_SPENT, if a reservation needs a compaction that is not possible:
 * frames are sent while reserved numbers last. MACS_CLOSED, which changes nothing. */
uint32_t macs_next_call(struct macs_endpoint *e, struct macs_call *call, struct macs_done *done);

/* Continues after the device call was made. Call it once for each MACS_CALL: a second report would be
 * taken for one of the next device call. `ok` is 1 if it succeeded, any other value if not: not 0
 * for success, as system calls have it. `read` has the octets that a read gave; after a write or a
 * sync they are ignored, but the sector is there. MACS_WORKED, MACS_RESERVED, or MACS_DONE, with a
 * command in `done`. MACS_DISK if the call failed: the endpoint is stopped. MACS_CLOSED or
 * MACS_NO_CALL, which change nothing. */
uint32_t macs_did_call(struct macs_endpoint *e, const struct macs_sector *read, uint32_t ok,
                       struct macs_done *done);

/* Protects a plain frame (10.5) into `out`, and stores its length and its packet number. `room` is at
 * least MACS_MAX_FRAME octets. What follows the frame in `out` stays as it was. MACS_OK, or the first
 * that holds of MACS_CLOSED, MACS_ROOM, MACS_STOPPED and those that begin with MACS_UNSENT, in the
 * order of their codes: then no packet number is used, and nothing is stored. */
uint32_t macs_protect(struct macs_endpoint *e, const uint8_t *plain, size_t length,
                      uint8_t *out, size_t room, size_t *written, uint32_t *pn);

/* Receives a frame from the protected side (10.6), of any length. `room` is at least MACS_MAX_FRAME
 * octets. If the answer begins with MACS_DELIVERED, `out` has the frame, and `written` its length; if
 * it begins with MACS_DISCARDED, or is MACS_HELD_BACK, `written` is 0. MACS_CLOSED, MACS_ROOM or
 * MACS_STOPPED: the frame was not looked at, and nothing is stored.
 *
 * Checked are, in this order, the frame and its SecTAG, the channel, the association, whether the
 * number is late, the ICV, and whether the number is reserved. Only MACS_DELIVERED_OK and
 * MACS_DELIVERED_DELAYED have verified. Under check alone there are also UNTAGGED, which delivers the
 * frame as it is, and INVALID, UNKNOWN_SCI and UNUSED_SA, which deliver it without SecTAG and ICV. */
uint32_t macs_receive(struct macs_endpoint *e, const uint8_t *frame, size_t length,
                      uint8_t *out, size_t room, size_t *written);

/* Whether macs_receive delivered the frame. */
static inline bool macs_is_delivered(uint32_t answer) {
    return answer >= MACS_DELIVERED_OK && answer <= MACS_DELIVERED_UNUSED_SA;
}

/* Readers. They change nothing in the endpoint. MACS_OK, or the first that holds of MACS_CLOSED,
 * MACS_FIELD, for an association number above 3, and MACS_ABSENT. */
uint32_t macs_show_tx(struct macs_endpoint *e, uint8_t an, struct macs_tx *tx);
uint32_t macs_show_rx(struct macs_endpoint *e, const struct macs_sci *sci, uint8_t an,
                      struct macs_rx *rx);

/* The counters. MACS_OK or MACS_CLOSED. */
uint32_t macs_counters(struct macs_endpoint *e, struct macs_counters *counters);

#ifdef __cplusplus
}
#endif

#endif
