/* A checkpoint from C: one is read into a table and written again; read once more when it is damaged, plainly and with
 * salvage, and under a roster of form 2; and refused. */
#include "chaffmoor.h"
#include "show.h"

#include <stdio.h>
#include <string.h>

/* 10.1.2.3 has guarantee 1 and limit 2, 172.16.5.6 has 3 and 4. Own address 192.0.2.1, epoch 5. */
static const uint8_t roster[] = {
    0x12, 192, 0, 2, 1, 0, 0, 5,
    10, 1, 2, 3, 0x02, 0x08,
    172, 16, 5, 6, 0x06, 0x10,
};

/* The same in form 2, but that 172.16.5.6 has a limit of 200: a byte of guarantee, then one of limit. */
static const uint8_t wide[] = {
    0x22, 192, 0, 2, 1, 0, 0, 5,
    10, 1, 2, 3, 1, 2,
    172, 16, 5, 6, 3, 200,
};

enum { HEAD = 4, CALL = 55, REFRESHED = 44, CONNECTION = 18, SECOND = HEAD + CALL, BEHIND = HEAD + 2 * CALL };

/* Two calls and four connections; bytes that are not named are zeros. The first call was refreshed at 999,999,999, the
 * second a second later. */
static const uint8_t checkpoint[BEHIND + 4 * CONNECTION] = {
    0x10, 2, 0, 4,
    /* slot 3, short ID 258, end point 192.0.2.7, sender 10.1.2.3, the name "abc" */
    [HEAD] = 3, 1, 2, 192, 0, 2, 7, 10, 1, 2, 3, 3, 'a', 'b', 'c',
    [HEAD + REFRESHED] = 0x3b, 0x9a, 0xc9, 0xff,
    /* slot 60, short ID 513, end point 198.51.100.9, sender 172.16.5.6, the name "z" */
    [SECOND] = 60, 2, 1, 198, 51, 100, 9, 172, 16, 5, 6, 1, 'z',
    [SECOND + REFRESHED] = 0x3b, 0x9a, 0xca, 0x00,
    /* one under the first call, two under the second: end point, Call ID, Tunnel ID, extended, sender, LSP ID */
    [BEHIND] = 192, 0, 2, 7, 1, 2, 0, 41, 0, 0, 0, 42, 10, 1, 2, 3, 0, 43,
    198, 51, 100, 9, 2, 1, 0, 51, 0, 0, 0, 52, 172, 16, 5, 6, 0, 53,
    198, 51, 100, 9, 2, 1, 0, 61, 0, 0, 0, 62, 172, 16, 5, 6, 0, 63,
    /* and one of Call ID 0 */
    203, 0, 113, 11, 0, 0, 0, 71, 0, 0, 0, 72, 10, 1, 2, 3, 0, 73,
};

static void read_under(const uint8_t *roster_bytes, size_t roster_length, const char *what, uint32_t salvage,
                       const uint8_t *bytes, size_t length)
{
    static chaffmoor_table table;
    memset(&table, 0xdd, sizeof table);
    chaffmoor_checkpoint_read r =
        chaffmoor_read_checkpoint(&table, salvage, roster_bytes, roster_length, bytes, length);
    printf("%s: answer %u, dropped %zu calls and %zu connections\n", what, (unsigned)r.answer, r.calls, r.connections);
    show_table(&table);
}

static void read(const char *what, uint32_t salvage, const uint8_t *bytes, size_t length)
{
    read_under(roster, sizeof roster, what, salvage, bytes, length);
}

/* Into a buffer of this length that holds the byte ee before. */
static void write(const chaffmoor_table *table, size_t length)
{
    uint8_t buffer[sizeof checkpoint + 1];
    memset(buffer, 0xee, sizeof buffer);
    chaffmoor_checkpoint_written w = chaffmoor_write_checkpoint(table, buffer, length);
    printf("written into %zu bytes: answer %u, length %zu", length, (unsigned)w.answer, w.length);
    show_bytes(buffer, w.length);
    printf("the byte behind it: %02x\n", buffer[w.length]);
}

int main(void)
{
    static chaffmoor_table table;
    uint8_t damaged[sizeof checkpoint];
    read("whole", 0, checkpoint, sizeof checkpoint);

    chaffmoor_read_checkpoint(&table, 0, roster, sizeof roster, checkpoint, sizeof checkpoint);
    write(&table, sizeof checkpoint + 1);
    write(&table, sizeof checkpoint);
    write(&table, sizeof checkpoint - 1);
    table.calls[3].id = 0;
    write(&table, sizeof checkpoint);

    /* The second call's slot becomes 64, which form 1 does not have: its two connections go with it. Form 2 has it. */
    memcpy(damaged, checkpoint, sizeof checkpoint);
    damaged[SECOND] = 64;
    read("damaged, plain", 0, damaged, sizeof damaged);
    read("damaged, salvage", 1, damaged, sizeof damaged);
    read_under(wide, sizeof wide, "under form 2, plain", 0, damaged, sizeof damaged);
    read("a byte less", 1, checkpoint, sizeof checkpoint - 1);
    damaged[0] = 0x20;
    read("form 2", 1, damaged, sizeof damaged);
    read("of length 0", 1, (const uint8_t *)8, 0);
    return 0;
}
