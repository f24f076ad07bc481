/*
 * What the readers of compare/peers share: the packets of a file, the PIDs that are read, and a line for each section: its PID and its bytes, in hexadecimal.
 * Read are the eight well-known PIDs and those that the latest PAT names.
 */
#include <stdbool.h>
#include <stdint.h>
#include <stdio.h>
#include <stdlib.h>
#include <string.h>

enum { PACKET = 188, PIDS = 8192, SYNC = 0x47 };

static bool is_read[PIDS], is_well_known[PIDS];

/* A PID is read from now on, or no longer. */
static void begin_pid(unsigned pid);
static void end_pid(unsigned pid);

static void tell(unsigned pid, const uint8_t *section, size_t length)
{
    printf("%04X ", pid);
    for (size_t i = 0; i < length; i++)
        printf("%02X", section[i]);
    putchar('\n');
}

/* A PAT of one section, its CRC good: its programmes' PIDs are read, and no others besides the well-known ones. */
static void follow(const uint8_t *section, size_t length)
{
    static bool named[PIDS];
    memset(named, 0, sizeof named);
    for (size_t i = 8; i + 8 <= length; i += 4)
        if (section[i] != 0 || section[i + 1] != 0)
            named[(section[i + 2] & 0x1F) << 8 | section[i + 3]] = true;
    for (unsigned pid = 0; pid < PIDS; pid++) {
        if (named[pid] && !is_read[pid])
            begin_pid(pid);
        if (!named[pid] && is_read[pid] && !is_well_known[pid])
            end_pid(pid);
        is_read[pid] = named[pid] || is_well_known[pid];
    }
}

static void found(unsigned pid, const uint8_t *section, size_t length)
{
    tell(pid, section, length);
    if (pid == 0 && section[0] == 0x00 && length >= 12 && (section[5] & 1) && section[6] == 0 && section[7] == 0)
        follow(section, length);
}

static void begin_well_known(void)
{
    static const unsigned pids[] = {0x0000, 0x0001, 0x0010, 0x0011, 0x0012, 0x0013, 0x0014, 0x001B};
    for (size_t i = 0; i < sizeof pids / sizeof pids[0]; i++) {
        is_well_known[pids[i]] = is_read[pids[i]] = true;
        begin_pid(pids[i]);
    }
}

/* Calls `take` for each packet of a PID that is read. Bytes before a sync byte are passed over. */
static int read_file(const char *path, void (*take)(unsigned pid, uint8_t *packet))
{
    FILE *in = fopen(path, "rb");
    uint8_t *all;
    long size;
    if (in == NULL || fseek(in, 0, SEEK_END) != 0 || (size = ftell(in)) < 0 || fseek(in, 0, SEEK_SET) != 0 || (all = malloc((size_t)size + 1)) == NULL
        || fread(all, 1, (size_t)size, in) != (size_t)size) {
        perror(path);
        return 1;
    }
    begin_well_known();
    for (long at = 0; at + PACKET <= size;) {
        unsigned pid = (all[at + 1] & 0x1Fu) << 8 | all[at + 2];
        if (all[at] != SYNC || (at + PACKET < size && all[at + PACKET] != SYNC)) {
            at++;
            continue;
        }
        if (is_read[pid])
            take(pid, all + at);
        at += PACKET;
    }
    free(all);
    return 0;
}
