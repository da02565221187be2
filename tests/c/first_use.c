/* A first use of the library from C: a roster, the worked Path of document 01 and its reply, a setup and its reply, two
 * connections, every field of the table, tables that were changed by hand, a roster of form 2, a call that nobody
 * refreshes, and closes that come late.
 * Build: cc -Iinclude tests/c/first_use.c target/staticlib/libchaffmoor.a -o first_use */
#include "chaffmoor.h"
#include "show.h"

#include <stdio.h>
#include <string.h>

static const uint8_t roster[] = {0x11, 0x0a, 0, 0, 2, 0, 0, 7, 0x0a, 0, 0, 1, 0x02, 0x08};

/* One of form 2: 10.0.0.1 has guarantee 100 and limit 200, 10.0.0.3 has 100 and 100. */
static const uint8_t wide[] = {0x22, 0x0a, 0, 0, 2, 0, 0, 7, 0x0a, 0, 0, 1, 100, 200, 0x0a, 0, 0, 3, 100, 100};

/* A Path for a connection under Call ID 5, which is not open. */
static const uint8_t path[] = {
    0x10, 0x01, 0, 0, 0xff, 0, 0, 0x24,
    0x00, 0x10, 0x01, 0x07, 0x0a, 0, 0, 2, 0, 5, 0, 1, 0x0a, 0, 0, 1,
    0x00, 0x0c, 0x0b, 0x07, 0x0a, 0, 0, 1, 0, 0, 0, 1,
};

/* A Notify that asks for a call to 10.0.0.9 with short ID 6 and long ID "c". */
static const uint8_t setup[] = {
    0x10, 0x15, 0, 0, 0xff, 0, 0, 0x50,
    0x00, 0x10, 0x01, 0x07, 0x0a, 0, 0, 9, 0, 6, 0, 13, 0, 0, 0, 14,
    0x00, 0x0c, 0x06, 0x01, 0, 0, 0, 0, 0, 0, 0, 0,
    0x00, 0x0c, 0x0b, 0x07, 0x0a, 0, 0, 1, 0, 0, 0, 15,
    0x00, 0x0c, 0x17, 0x01, 0, 0, 0, 3, 0, 0, 0, 17,
    0x00, 0x08, 0xc4, 0x01, 0x80, 0, 0, 0x08,
    0x00, 0x0c, 0xcf, 0x07, 4, 7, 0, 1, 'c', 0, 0, 0,
};

/* A Path under that call, its PathTear, and a Path of Call ID 0 to 10.0.0.11. */
static const uint8_t under[] = {
    0x10, 0x01, 0, 0, 0xff, 0, 0, 0x24,
    0x00, 0x10, 0x01, 0x07, 0x0a, 0, 0, 9, 0, 6, 0, 21, 0, 0, 0, 22,
    0x00, 0x0c, 0x0b, 0x07, 0x0a, 0, 0, 1, 0, 0, 0, 23,
};
static const uint8_t tear[] = {
    0x10, 0x05, 0, 0, 0xff, 0, 0, 0x24,
    0x00, 0x10, 0x01, 0x07, 0x0a, 0, 0, 9, 0, 6, 0, 21, 0, 0, 0, 22,
    0x00, 0x0c, 0x0b, 0x07, 0x0a, 0, 0, 1, 0, 0, 0, 23,
};
static const uint8_t alone[] = {
    0x10, 0x01, 0, 0, 0xff, 0, 0, 0x24,
    0x00, 0x10, 0x01, 0x07, 0x0a, 0, 0, 11, 0, 0, 0, 31, 0, 0, 0, 32,
    0x00, 0x0c, 0x0b, 0x07, 0x0a, 0, 0, 1, 0, 0, 0, 33,
};

static chaffmoor_table table;
static uint8_t reply[CHAFFMOOR_REPLY];
static chaffmoor_closing closings[CHAFFMOOR_CALLS];

/* A message with a buffer that holds the byte ee before: its answer, and its reply where one was sent. */
static void send(const char *what, const uint8_t *message, size_t length)
{
    memset(reply, 0xee, sizeof reply);
    chaffmoor_message_reply r = chaffmoor_handle(&table, message, length, reply, sizeof reply, 0, 0, closings);
    printf("%s: answer %u, %zu bytes", what, (unsigned)r.answer, r.length);
    show_bytes(reply, r.length);
    printf("the byte behind it: %02x\n", reply[r.length]);
}

/* A message at this time, with a period of 10 seconds: its answer and the calls that were closed before it. */
static void at(uint32_t time, const char *what, const uint8_t *message, size_t length, size_t reply_length)
{
    memset(closings, 0xee, sizeof closings);
    chaffmoor_message_reply r = chaffmoor_handle(&table, message, length, reply, reply_length, time, 10, closings);
    printf("%s at %u: answer %u, closed %zu", what, (unsigned)time, (unsigned)r.answer, r.closed);
    for (size_t k = 0; k < r.closed; k++)
        printf(", slot %u of %08x", (unsigned)closings[k].slot, (unsigned)closings[k].address);
    if (r.closed < CHAFFMOOR_CALLS)
        printf(", behind them %08x", (unsigned)closings[r.closed].slot);
    printf("; time %u, refreshed %u\n", (unsigned)table.time, (unsigned)table.calls[0].refreshed);
}

/* The same setup with a buffer of other lengths, and with nothing at an address that comes with length 0. */
static void lengths(void)
{
    chaffmoor_message_reply r = chaffmoor_handle(&table, setup, sizeof setup, reply, 127, 0, 0, closings);
    printf("buffer of 127: answer %u\n", (unsigned)r.answer);
    r = chaffmoor_handle(&table, setup, sizeof setup, reply, 128, 0, 0, closings);
    printf("buffer of 128: answer %u\n", (unsigned)r.answer);
    r = chaffmoor_handle(&table, (const uint8_t *)8, 0, reply, sizeof reply, 0, 0, closings);
    printf("message of 0: answer %u\n", (unsigned)r.answer);
    r = chaffmoor_handle(&table, setup, sizeof setup, (uint8_t *)8, 0, 0, 0, closings);
    printf("buffer of 0: answer %u\n", (unsigned)r.answer);
}

/* A value that this word may not have: the answer is 1, and the table stays as it is. */
static void broken(const char *what, uint32_t *word, uint32_t value)
{
    static chaffmoor_table before;
    uint32_t right = *word;
    *word = value;
    before = table;
    /* At another time, which is not raised either. */
    chaffmoor_message_reply r = chaffmoor_handle(&table, setup, sizeof setup, reply, sizeof reply, 9, 1, closings);
    printf("%s: answer %u, table %s\n", what, (unsigned)r.answer,
           memcmp(&table, &before, sizeof table) == 0 ? "as it was" : "changed");
    *word = right;
}

/* A call that lapses, and what keeps one: request A7. */
static void expiry(void)
{
    printf("roster: answer %u\n", (unsigned)chaffmoor_read_roster(&table, roster, sizeof roster));
    at(100, "setup", setup, sizeof setup, sizeof reply);
    /* Five periods less a second: the retry refreshes it. */
    at(149, "setup", setup, sizeof setup, sizeof reply);
    at(198, "a message of 0", setup, 0, sizeof reply);
    /* Answer 2 raises no time and closes nothing. */
    at(1000, "buffer of 127", setup, sizeof setup, 127);
    /* Five periods: it is closed, and then opened anew. */
    at(199, "setup", setup, sizeof setup, sizeof reply);
    /* A connection keeps it, and a time that goes back is not taken. */
    at(199, "path under the call", under, sizeof under, sizeof reply);
    at(9999, "a message of 0", setup, 0, sizeof reply);
    at(5, "a message of 0", setup, 0, sizeof reply);
    at(5, "path tear", tear, sizeof tear, sizeof reply);
    at(5, "path under the call", under, sizeof under, sizeof reply);
    show_table(&table);
}

/* A close of the setup's call with this MESSAGE_ID: its answer, and whether it left all but the time as it was. */
static void close_at(uint32_t time, uint8_t epoch, uint32_t identifier)
{
    /* The places of the epoch's last byte, of the identifier and of ADMIN_STATUS's last byte. */
    enum { EPOCH = 55, IDENTIFIER = 56, STATUS = 67 };
    static chaffmoor_table before;
    static uint8_t old[sizeof reply];
    uint8_t message[sizeof setup];
    memcpy(message, setup, sizeof setup);
    message[EPOCH] = epoch;
    for (int i = 0; i < 4; i++)
        message[IDENTIFIER + i] = (uint8_t)(identifier >> (24 - 8 * i));
    message[STATUS] = 0x09;
    memset(old, 0xee, sizeof old);
    memcpy(reply, old, sizeof reply);
    before = table;
    before.time = time;
    chaffmoor_message_reply r =
        chaffmoor_handle(&table, message, sizeof message, reply, sizeof reply, time, 0, closings);
    printf("close with %u and %u at %u: answer %u, %zu bytes, table %s, buffer %s\n", (unsigned)epoch,
           (unsigned)identifier, (unsigned)time, (unsigned)r.answer, r.length,
           memcmp(&table, &before, sizeof table) == 0 ? "as it was but for its time" : "changed",
           memcmp(reply, old, sizeof reply) == 0 ? "as it was" : "changed");
}

/* Closes that were overtaken: request A8. */
static void late(void)
{
    printf("roster: answer %u\n", (unsigned)chaffmoor_read_roster(&table, roster, sizeof roster));
    /* Its MESSAGE_ID is 3 and 17. */
    at(100, "setup", setup, sizeof setup, sizeof reply);
    /* Behind it by 1, and by 2^31 less 1. */
    close_at(110, 3, 16);
    close_at(120, 3, 2147483666u);
    at(130, "setup", setup, sizeof setup, sizeof reply);
    /* 2^31 from it, and back: neither is late. */
    close_at(140, 3, 2147483665u);
    close_at(150, 3, 17);
    /* Another epoch, and behind that by 1. */
    close_at(160, 4, 0);
    close_at(170, 4, 4294967295u);
    show_table(&table);
}

int main(void)
{
    /* What the table holds before a roster is read does not matter. */
    memset(&table, 0xdd, sizeof table);
    printf("roster: answer %u\n", (unsigned)chaffmoor_read_roster(&table, roster, sizeof roster));
    show_table(&table);
    send("path", path, sizeof path);
    send("setup", setup, sizeof setup);
    send("again", setup, sizeof setup);
    send("path under the call", under, sizeof under);
    send("path of Call ID 0", alone, sizeof alone);
    lengths();
    show_table(&table);

    broken("taken 2", &table.calls[0].places[0].taken, 2);
    broken("a free slot's end point", &table.calls[9].endpoint, 1);
    broken("a name that ends in zero", &table.calls[0].size, 2);
    /* The table's time is 0, and no refresh lies after it; only a call that the node made has the others. */
    broken("refreshed", &table.calls[0].refreshed, 1);
    broken("epoch", &table.calls[0].epoch, 1);
    broken("identifier", &table.calls[0].identifier, 1);
    broken("made", &table.calls[0].made, 2);
    printf("they are at %zu, %zu, %zu and %zu\n", offsetof(chaffmoor_call, refreshed), offsetof(chaffmoor_call, epoch),
           offsetof(chaffmoor_call, identifier), offsetof(chaffmoor_call, made));

    /* What is kept of a customer: 1 with any epoch of 24 bits and any identifier, or zeros. Only one is listed. */
    broken("kept 2", &table.customers[0].kept, 2);
    broken("kept 0 over numbers", &table.customers[0].kept, 0);
    broken("kept epoch 2^24", &table.customers[0].epoch, 1 << 24);
    broken("kept of nobody", &table.customers[1].kept, 1);
    broken("epoch of nobody", &table.customers[1].epoch, 1);
    broken("identifier of nobody", &table.customers[7].identifier, 1);
    printf("they are at %zu, %zu and %zu\n", offsetof(chaffmoor_customer, kept), offsetof(chaffmoor_customer, epoch),
           offsetof(chaffmoor_customer, identifier));

    /* Form 1 has 64 calls in all: the slots behind them are free, and bits 200 to 255 have no slot. */
    broken("form 0", &table.form, 0);
    broken("form 3", &table.form, 3);
    broken("bit 64", &table.occupied[2], 1);
    broken("bit 200", &table.occupied[6], 1 << 8);
    broken("a field of slot 64", &table.calls[64].endpoint, 1);
    broken("a limit of 65", &table.customers[0].limit, 65);

    printf("roster of form 2: answer %u\n", (unsigned)chaffmoor_read_roster(&table, wide, sizeof wide));
    send("setup", setup, sizeof setup);
    show_table(&table);
    broken("bit 200", &table.occupied[6], 1 << 8);
    broken("a limit of 201", &table.customers[0].limit, 201);
    /* Refused, and the table is the empty one. */
    printf("a byte less: answer %u\n", (unsigned)chaffmoor_read_roster(&table, wide, sizeof wide - 1));
    show_table(&table);
    expiry();
    late();
    return 0;
}
