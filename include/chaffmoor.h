/* Chaffmoor: the call side of a light-path node. Link with target/staticlib/libchaffmoor.a (tests/libraries chaffmoor).
 *
 * Every byte string handed in gets an answer by number (docs/ANSWERS.md). The table is plain data of fixed size, 6,622
 * words of 32 bits. The caller owns it, lends it by pointer with each message and keeps it between messages; the node
 * changes it in place. Nothing is allocated, and nothing is kept inside the library.
 *
 * Of every pointer:
 * - The table and the closings need an alignment of 4 bytes, the others none.
 * - The table, the bytes that are read (message, roster, checkpoint), the buffer that is written and the closings may
 *   not overlap.
 * - A pointer that comes with length 0 must not be null either, but nothing is read or written there.
 * - None is kept after the call returns.
 *
 * Addresses are 32-bit numbers, most significant byte first: 10.0.0.1 is 0x0a000001. Words are in the machine's order,
 * least significant byte first. Change no field by hand: a table that breaks a table rule (docs/SCOPE.md), a value
 * outside its field included, is answered 1, and stays as it was.
 *
 * Times are seconds of one clock, the caller's; the node has none of its own. The clock has to go on over a restart:
 * seconds of a calendar (since 1970, say), not of uptime. Where it goes back, the table's time stays as it is.
 *
 * Stack, the called function's own frames and all below them, as bench/run measures it (docs/MEASURED.md), rounded up:
 *   chaffmoor_read_roster           512 bytes
 *   chaffmoor_handle             20,480 bytes
 *   chaffmoor_write_checkpoint   20,480 bytes
 *   chaffmoor_read_checkpoint    24,576 bytes
 *
 * The struct layouts are those of the x86-64 System V ABI; the static assertions at the end hold them fast. */
#ifndef CHAFFMOOR_H
#define CHAFFMOOR_H

#include <stddef.h>
#include <stdint.h>

enum {
    CHAFFMOOR_CALLS = 200,     /* slots for calls; a roster of form 1 uses the first 64 */
    CHAFFMOOR_CUSTOMERS = 8,   /* records of a roster */
    CHAFFMOOR_PLACES = 4,      /* connections under a call, and of Call ID 0 with a customer */
    CHAFFMOOR_NAME = 32,       /* bytes of a long Call ID */
    CHAFFMOOR_WORDS = 6622,    /* words of a table */
    CHAFFMOOR_REPLY = 128      /* a reply buffer has to have this many bytes, or the answer is 2 */
};

/* A connection, or four zeros where there is none. Its sender and end point are its call's; for Call ID 0 they stand
 * with its customer. */
typedef struct {
    uint32_t taken;            /* 1 or 0 */
    uint32_t tunnel;           /* 0 to 65,535 */
    uint32_t extended;
    uint32_t lsp;              /* 0 to 65,535 */
} chaffmoor_place;

/* A call; all zeros in a free slot. Its long Call ID is the first `size` bytes of `name`, the last of them not zero;
 * zeros behind them. `made` is 1 where the node made both IDs for a request without names, and then `epoch`, of 24 bits,
 * and `identifier` are those of the request's MESSAGE_ID; else all three are 0. `refreshed` is the table's time at the
 * last answer 20 or 21 about the call, and never lies after the table's time. */
typedef struct {
    uint32_t endpoint;
    uint32_t sender;
    uint32_t refreshed;
    uint32_t epoch;
    uint32_t identifier;
    uint32_t id;               /* the short Call ID, 1 to 65,535 */
    uint32_t made;
    uint32_t size;             /* 1 to 32 */
    uint8_t name[CHAFFMOOR_NAME];
    chaffmoor_place places[CHAFFMOOR_PLACES];
} chaffmoor_call;

/* A record of the roster, with the customer's connections of Call ID 0; all zeros where it is not listed. The
 * connection in places[j] has the end point endpoints[j], and its sender is the customer. `kept` is 1 from the
 * customer's first Notify that is answered 20 to 34 on, and then `epoch` and `identifier` are those of the last such
 * one's MESSAGE_ID: a Notify of the same epoch that lies behind it is late, answer 16. Else all three are 0. */
typedef struct {
    uint32_t address;
    uint32_t guarantee;        /* 0 to limit */
    uint32_t limit;            /* 1 to 64 under a roster of form 1, 1 to 200 under one of form 2 */
    uint32_t kept;             /* 1 or 0 */
    uint32_t epoch;            /* 24 bits */
    uint32_t identifier;
    uint32_t endpoints[CHAFFMOOR_PLACES];
    chaffmoor_place places[CHAFFMOOR_PLACES];
} chaffmoor_customer;

typedef struct {
    uint32_t address;          /* the node's own */
    uint32_t epoch;            /* the node's own, 24 bits */
    uint32_t next;             /* the identifier that the next Notify carries */
    uint32_t time;             /* the latest that was handed in, in seconds; 0 at first */
    uint32_t listed;           /* how many of the customers are listed, 0 to 8 */
    uint32_t form;             /* the roster's: 1, 64 calls in all, or 2, 200; 0 where no customer is listed */
    uint32_t occupied[8];      /* bit i % 32 of word i / 32: slot i of calls is used. Bits 64 and above are clear under
                                * a roster of form 1, bits 200 to 255 always */
    chaffmoor_customer customers[CHAFFMOOR_CUSTOMERS];
    chaffmoor_call calls[CHAFFMOOR_CALLS];
} chaffmoor_table;

/* Reads a roster of any bytes: 0, and the table is the roster's fresh one; or 40 to 46, and it is the empty one (all
 * zeros, next 1). What the table held before does not matter. */
uint8_t chaffmoor_read_roster(chaffmoor_table *table, const uint8_t *roster, size_t roster_length);

/* A call that nobody refreshed and that was closed before a message: the slot that it had, and its customer. */
typedef struct {
    uint32_t slot;             /* 0 to 199 */
    uint32_t address;          /* the call's sender */
} chaffmoor_closing;

/* What a message gets: its answer; the reply's length, 0 where none is sent; how many calls were closed before it. */
typedef struct {
    uint8_t answer;
    size_t length;
    size_t closed;
} chaffmoor_message_reply;

/* Handles a message of any bytes, and leaves the table as it is from now on. Where a reply is sent, its first `length`
 * bytes are in the buffer; all other bytes of the buffer are as they were.
 *
 * `time` is the caller's, in seconds; the table's is raised to it if it is larger. `period` is how often a call is to
 * be refreshed, in seconds: before the message, the calls that have no connections and no refresh for five times the
 * period or longer, by the table's time, are closed. With a period of 0 none is. Where the answer is 1 or 2, the time
 * is not raised and none is closed; with every other answer, refusals too, both are done. The first `closed` of
 * `closings` say which calls, in slot order; those behind them are as they were. Nothing is sent for them. */
chaffmoor_message_reply chaffmoor_handle(chaffmoor_table *table, const uint8_t *message, size_t message_length,
                                         uint8_t *reply, size_t reply_length, uint32_t time, uint32_t period,
                                         chaffmoor_closing closings[CHAFFMOOR_CALLS]);

/* What writing a checkpoint of the table gets: 0 and its length; 1 where the table breaks a rule, 73 where the buffer
 * is too short, both with length 0 and the buffer as it was. Bytes behind the checkpoint are as they were. */
typedef struct {
    uint8_t answer;
    size_t length;
} chaffmoor_checkpoint_written;

chaffmoor_checkpoint_written chaffmoor_write_checkpoint(const chaffmoor_table *table, uint8_t *checkpoint,
                                                        size_t checkpoint_length);

/* What reading a checkpoint under a roster gets: 0 and how many records were dropped, or a refusal and none. */
typedef struct {
    uint8_t answer;
    size_t calls;              /* records of calls that are not in the table */
    size_t connections;        /* records of connections that are not in the table */
} chaffmoor_checkpoint_read;

/* Reads a checkpoint of any bytes, with salvage where `salvage` is 1, plainly where it is any other number: 0, and the
 * table is the one restored; or the roster's 40 to 46, and it is the empty one; or 70, 71, 72, and it is the roster's
 * fresh one. What the table held before does not matter. Calls keep the refreshes of their records, and the table's
 * time is the latest of them, 0 where no call is restored. No customer's MESSAGE_ID is kept: a checkpoint has none. */
chaffmoor_checkpoint_read chaffmoor_read_checkpoint(chaffmoor_table *table, uint32_t salvage, const uint8_t *roster,
                                                    size_t roster_length, const uint8_t *checkpoint,
                                                    size_t checkpoint_length);

/* The layouts, in bytes: each field's place, each struct's size. */
#define CHAFFMOOR_AT(type, field, at) _Static_assert(offsetof(type, field) == (at), "the place of " #type "." #field)
#define CHAFFMOOR_SIZE(type, size) _Static_assert(sizeof(type) == (size), "the size of " #type)

CHAFFMOOR_AT(chaffmoor_place, taken, 0);
CHAFFMOOR_AT(chaffmoor_place, tunnel, 4);
CHAFFMOOR_AT(chaffmoor_place, extended, 8);
CHAFFMOOR_AT(chaffmoor_place, lsp, 12);
CHAFFMOOR_SIZE(chaffmoor_place, 16);

CHAFFMOOR_AT(chaffmoor_call, endpoint, 0);
CHAFFMOOR_AT(chaffmoor_call, sender, 4);
CHAFFMOOR_AT(chaffmoor_call, refreshed, 8);
CHAFFMOOR_AT(chaffmoor_call, epoch, 12);
CHAFFMOOR_AT(chaffmoor_call, identifier, 16);
CHAFFMOOR_AT(chaffmoor_call, id, 20);
CHAFFMOOR_AT(chaffmoor_call, made, 24);
CHAFFMOOR_AT(chaffmoor_call, size, 28);
CHAFFMOOR_AT(chaffmoor_call, name, 32);
CHAFFMOOR_AT(chaffmoor_call, places, 64);
CHAFFMOOR_SIZE(chaffmoor_call, 128);

CHAFFMOOR_AT(chaffmoor_customer, address, 0);
CHAFFMOOR_AT(chaffmoor_customer, guarantee, 4);
CHAFFMOOR_AT(chaffmoor_customer, limit, 8);
CHAFFMOOR_AT(chaffmoor_customer, kept, 12);
CHAFFMOOR_AT(chaffmoor_customer, epoch, 16);
CHAFFMOOR_AT(chaffmoor_customer, identifier, 20);
CHAFFMOOR_AT(chaffmoor_customer, endpoints, 24);
CHAFFMOOR_AT(chaffmoor_customer, places, 40);
CHAFFMOOR_SIZE(chaffmoor_customer, 104);

CHAFFMOOR_AT(chaffmoor_table, address, 0);
CHAFFMOOR_AT(chaffmoor_table, epoch, 4);
CHAFFMOOR_AT(chaffmoor_table, next, 8);
CHAFFMOOR_AT(chaffmoor_table, time, 12);
CHAFFMOOR_AT(chaffmoor_table, listed, 16);
CHAFFMOOR_AT(chaffmoor_table, form, 20);
CHAFFMOOR_AT(chaffmoor_table, occupied, 24);
CHAFFMOOR_AT(chaffmoor_table, customers, 56);
CHAFFMOOR_AT(chaffmoor_table, calls, 888);
CHAFFMOOR_SIZE(chaffmoor_table, 26488);
_Static_assert(sizeof(chaffmoor_table) == 4 * CHAFFMOOR_WORDS, "a table is its words");
_Static_assert(_Alignof(chaffmoor_table) == 4, "the alignment of a table");

CHAFFMOOR_AT(chaffmoor_message_reply, answer, 0);
CHAFFMOOR_AT(chaffmoor_message_reply, length, 8);
CHAFFMOOR_AT(chaffmoor_message_reply, closed, 16);
CHAFFMOOR_SIZE(chaffmoor_message_reply, 24);

CHAFFMOOR_AT(chaffmoor_closing, slot, 0);
CHAFFMOOR_AT(chaffmoor_closing, address, 4);
CHAFFMOOR_SIZE(chaffmoor_closing, 8);
_Static_assert(_Alignof(chaffmoor_closing) == 4, "the alignment of a closing");

CHAFFMOOR_AT(chaffmoor_checkpoint_written, answer, 0);
CHAFFMOOR_AT(chaffmoor_checkpoint_written, length, 8);
CHAFFMOOR_SIZE(chaffmoor_checkpoint_written, 16);

CHAFFMOOR_AT(chaffmoor_checkpoint_read, answer, 0);
CHAFFMOOR_AT(chaffmoor_checkpoint_read, calls, 8);
CHAFFMOOR_AT(chaffmoor_checkpoint_read, connections, 16);
CHAFFMOOR_SIZE(chaffmoor_checkpoint_read, 24);

#undef CHAFFMOOR_AT
#undef CHAFFMOOR_SIZE

#endif
