/*
 * Petrizolu: which sections of a DVB programme guide are new, which tables are complete, which PIDs to look at.
 *
 * The library keeps no memory of its own, allocates nothing and has no global state. Whatever it needs is lent to each call: a small struct of
 * 64-bit words that holds settings and counts, and arrays of the sizes that the macros below tell. An array crosses as a pointer and the
 * number of its elements. Every pointer must point to that many readable elements (writable ones where it is not const), even where a call is
 * going to be refused; no two of the arrays of one call may overlap. A length of 0 goes with any pointer that is not NULL.
 *
 * Everything else is the library's business: any content of the structs and arrays, any length, any number gets exactly one of the answers of
 * enum petrizolu_answer, and a refusal leaves every lent word as it was (22 and 23 say below what they leave). Memory that came from nowhere is
 * read within its bounds, found out where it is not whole (10), and otherwise taken as each call's definition says, by the first matching row. That
 * is proved for every call; that the answers are those of the rules, for every history from an opening (of the gate without an index: for every
 * store that is whole).
 *
 * Threads: a store (a struct with its arrays) is used by one caller at a time. Different stores may be used at the same time, and the calls
 * that ask (const struct) may run together on one store while nobody changes it.
 *
 * Each call has an example, which goes on from those before it: `section` has `length` bytes and came on the input `input` and the
 * PID `pid`.
 */
#ifndef PETRIZOLU_H
#define PETRIZOLU_H

#include <stddef.h>
#include <stdint.h>

#ifdef __cplusplus
extern "C" {
#endif

/* ---- answers */

enum petrizolu_answer {
    PETRIZOLU_EMITTED = 1,           /* gate: new or changed, or repeats are on */
    PETRIZOLU_SUPPRESSED = 2,        /* gate: repeats what was seen */
    PETRIZOLU_CRC_MISMATCH = 3,      /* gate: the CRC that the section carries is not that of its bytes; both numbers are told */
    PETRIZOLU_NOTHING = 4,           /* collector: nothing to hand out */
    PETRIZOLU_SET = 5,               /* collector: a set is complete; its row is told */
    PETRIZOLU_SCHEDULE = 6,          /* EIT collector: a schedule is complete; its row is told */
    PETRIZOLU_DONE = 7,              /* opened, cleared or dropped; a log or a record is written */
    PETRIZOLU_YES = 8,
    PETRIZOLU_NO = 9,
    PETRIZOLU_NOT_WHOLE = 10,        /* the store is damaged, or less is lent than it was opened with: only opening it anew helps */
    PETRIZOLU_COUNTER_FULL = 11,     /* a counter of this part is at 2^64 - 1 */
    PETRIZOLU_BAD_PID = 12,          /* a PID of 8192 or more */
    PETRIZOLU_TOO_LITTLE = 13,       /* opening: less lent than the settings need, or a cell size, a count or a change rule that there is not */
    PETRIZOLU_MALFORMED = 14,        /* under 3 bytes, not 3 + section_length bytes, or a long form under 12 */
    PETRIZOLU_SHORT_FORM = 15,       /* a collector takes long forms only */
    PETRIZOLU_BAD_NUMBER = 16,       /* section_number above last_section_number */
    PETRIZOLU_BAD_CRC = 17,
    PETRIZOLU_NOT_EIT = 18,          /* no EIT's table_id */
    PETRIZOLU_BROKEN_EIT = 19,       /* the EIT's events do not end at its CRC */
    PETRIZOLU_TOO_LONG = 20,         /* longer than a cell */
    PETRIZOLU_NO_CELL = 21,          /* it would be kept, and no cell is free */
    PETRIZOLU_CONFLICT = 22,         /* other bytes under a section number that is held; its key is the newest now, else all is as before */
    PETRIZOLU_RANGE = 23,            /* EIT: complete, but its table_id is above the section's last_table_id; the section is kept */
    PETRIZOLU_FED = 29,              /* a packet was taken; how many sections it finished is told, and each answer in the places */
    PETRIZOLU_MALFORMED_PACKET = 30, /* not 188 bytes, no sync byte, or an adaptation field past the end */
    PETRIZOLU_TOO_SHORT = 31,        /* gate: too short to hold its CRC, or under 3 bytes; its length is told */
    PETRIZOLU_PAST_LOOP = 32,        /* events: a descriptor runs past its loop; the entries before it are listed, and its place is told */
    PETRIZOLU_OTHER_KEY = 33,        /* compare: two tables that are not one; PID, table_id or another part of the key differs */
    PETRIZOLU_NO_ROOM = 34,          /* compare: more differences than the list has room for; how many is told */
    PETRIZOLU_OTHER_TABLE = 35,      /* entries: a table_id that is none of the reader's, or a number that names no reader; nothing is listed */
    PETRIZOLU_BROKEN_LOOP = 36,      /* entries: a loop does not end where its length says; nothing is listed, and the place is told */
    PETRIZOLU_BAD_INPUT = 37,        /* an input of 16 or more */
    PETRIZOLU_UNKNOWN_KIND = 38,     /* log: a record of no known kind; its place is told */
    PETRIZOLU_RECORD_CUT = 39,       /* log: it ends inside a record; the record's place is told */
    PETRIZOLU_OTHER_RECORD = 40,     /* log: not the record that the sections give, or one too many, or one missing; the place is told */
    PETRIZOLU_NO_PID_GIVEN = 41,     /* collector, comparing, log: a call without a PID, or a store in which a row in use has none */
    PETRIZOLU_OVERLONG_SECTION = 42, /* log: a section of more than 4,098 bytes */
    PETRIZOLU_NO_BUFFER = 43,        /* its PID needs a section buffer, and none is free */
    PETRIZOLU_NO_LOG_ROOM = 44       /* log: it is longer than the room */
};

/* ---- numbers */

#define PETRIZOLU_NO_PID UINT32_MAX    /* no PID: collectors and comparisons answer 41 to it */
#define PETRIZOLU_ANY UINT64_MAX       /* in a filter: this field is free */
#define PETRIZOLU_INPUTS 16u           /* inputs of a card: 0 to 15 */

#define PETRIZOLU_DEFAULT_CAPACITY 65536u    /* keys of a gate */
#define PETRIZOLU_DEFAULT_LIMIT 256u         /* keys of a collector */

/* Settings of a gate. */
#define PETRIZOLU_REPEATS 1u            /* emit repeats too */
#define PETRIZOLU_FOLLOW 2u             /* complete PATs change the watch */
#define PETRIZOLU_WELL_KNOWN 4u         /* the eight well-known PIDs are watched and protected */
#define PETRIZOLU_FOLLOW_SECTIONS 8u    /* with PETRIZOLU_FOLLOW: each changed PAT section replaces the former, as dvb-si 12.0.1 does; alone it does nothing */
#define PETRIZOLU_DEFAULT_SETTINGS (PETRIZOLU_FOLLOW | PETRIZOLU_WELL_KNOWN)

/* How the gate tells that a section with a CRC and without a version changed, as the time offset table: */
#define PETRIZOLU_CHANGE_AS_THE_RUST 1u    /* by the CRC over all its bytes, which is always 0: a second one is never new (dvb-si 12.0.1) */
#define PETRIZOLU_CHANGE_STORED_CRC 2u     /* by the CRC that it carries */
#define PETRIZOLU_DEFAULT_CHANGE_RULE PETRIZOLU_CHANGE_STORED_CRC

/* EIT kinds, in schedule heads and in filters. */
#define PETRIZOLU_PRESENT_FOLLOWING_ACTUAL 0u    /* table_id 0x4E */
#define PETRIZOLU_PRESENT_FOLLOWING_OTHER 1u     /* 0x4F */
#define PETRIZOLU_SCHEDULE_ACTUAL 2u             /* 0x50 to 0x5F */
#define PETRIZOLU_SCHEDULE_OTHER 3u              /* 0x60 to 0x6F */

/*
 * How many elements each array needs. `capacity` and `limit` are what the store is opened with; more may be lent, and what is past these numbers
 * is never read or written. The caller sees to it that the products fit a size_t: where they do not, no memory would do.
 */
#define PETRIZOLU_GATE_ROWS(capacity) ((size_t)((capacity) == 0 ? 1 : (capacity)))    /* keys, changes, buckets, links: uint64_t each */
#define PETRIZOLU_WATCH_WORDS 398u                                                    /* watch: uint64_t; the whole record, of which petrizolu_watch_ask needs the first 384 */
#define PETRIZOLU_PAT_SLOTS 288u                                                      /* pat_slots: uint32_t */
#define PETRIZOLU_PAT_CELLS 262144u                                                   /* pat_cells: uint8_t */
#define PETRIZOLU_HEAD_WORDS 12u                                                      /* a row's words in heads */
#define PETRIZOLU_SLOT_WORDS 288u                                                     /* a row's words in slots */
#define PETRIZOLU_UNIT_WORDS (16u * PETRIZOLU_SLOT_WORDS)                             /* a schedule's words in units */
#define PETRIZOLU_HEADS(limit) ((size_t)(limit) * PETRIZOLU_HEAD_WORDS)               /* heads and schedule_heads: uint64_t */
#define PETRIZOLU_SLOTS(limit) ((size_t)(limit) * PETRIZOLU_SLOT_WORDS)               /* slots: uint32_t */
#define PETRIZOLU_UNITS(limit) ((size_t)(limit) * PETRIZOLU_UNIT_WORDS)               /* units: uint32_t */
#define PETRIZOLU_CELLS(size, count) ((size_t)(size) * (size_t)(count))               /* cells: uint8_t */
#define PETRIZOLU_SMALLEST_CELL 12u
#define PETRIZOLU_LARGEST_CELL 4096u
#define PETRIZOLU_MOST_CELLS 65535u

/* In the record of an input: how often the PAT of another transport_stream_id came in the place of the one that was held. A host may read it. */
#define PETRIZOLU_WATCH_PAT_EVICTIONS 385u

/* The transport stream. */
#define PETRIZOLU_PACKET_BYTES 188u
#define PETRIZOLU_PID_WORDS 32768u                                                    /* pids: uint64_t, 4 for each of 8,192 PIDs */
#define PETRIZOLU_BUFFER_BYTES 4288u
#define PETRIZOLU_BUFFERS(count) ((size_t)(count) * PETRIZOLU_BUFFER_BYTES)           /* buffers: uint8_t */
#define PETRIZOLU_MOST_BUFFERS 8192u
#define PETRIZOLU_DEFAULT_BUFFERS 256u
#define PETRIZOLU_PLACES 64u
#define PETRIZOLU_PLACE_WORDS 6u
#define PETRIZOLU_PLACES_WORDS (PETRIZOLU_PLACES * PETRIZOLU_PLACE_WORDS)             /* places: uint64_t, 384; place k begins at k * PETRIZOLU_PLACE_WORDS */

/* What a place says of a section that a packet finished. */
#define PETRIZOLU_PLACE_ANSWER 0u    /* 1, 2, 3 or 31 */
#define PETRIZOLU_PLACE_STORED 1u    /* with 3: the CRC that it carries, else 0 */
#define PETRIZOLU_PLACE_WORKED 2u    /* with 3: the CRC of its bytes, else 0 */
#define PETRIZOLU_PLACE_WHERE 3u     /* PETRIZOLU_IN_PACKET or PETRIZOLU_IN_BUFFERS */
#define PETRIZOLU_PLACE_START 4u     /* its first byte there */
#define PETRIZOLU_PLACE_LENGTH 5u
#define PETRIZOLU_IN_PACKET 0u
#define PETRIZOLU_IN_BUFFERS 1u

/* What a guide says, entry by entry. */
#define PETRIZOLU_ENTRY_WORDS 12u                                                     /* the words of a petrizolu_entry */
#define PETRIZOLU_LIST_WORDS(entries) ((size_t)(entries) * PETRIZOLU_ENTRY_WORDS)     /* list: a petrizolu_entry has so many words of 32 bits */
#define PETRIZOLU_MOST_ENTRIES(size) ((size_t)(size) / 2)                             /* that a section of so many bytes can have */
#define PETRIZOLU_EVENT 1u                                                            /* kinds of an entry */
#define PETRIZOLU_DESCRIPTOR 2u
#define PETRIZOLU_TRANSPORT_STREAM 3u
#define PETRIZOLU_SERVICE 4u
#define PETRIZOLU_UNDEFINED UINT32_MAX                                                /* a time or a duration with a digit above 9 */
#define PETRIZOLU_NIT 1u                                                              /* readers: networks' (table_id 0x40, 0x41) */
#define PETRIZOLU_BAT 2u                                                              /* bouquets' (0x4A) */
#define PETRIZOLU_SDT 3u                                                              /* services' (0x42, 0x46) */

/* Two guides compared. */
#define PETRIZOLU_DIFFERENCE_WORDS 4u                                                 /* the words of a petrizolu_difference */
#define PETRIZOLU_MOST_DIFFERENCES 256u                                               /* of two sets; of two schedules 16 times as many */
#define PETRIZOLU_ONLY_FIRST 1u                                                       /* kinds of a difference */
#define PETRIZOLU_ONLY_SECOND 2u
#define PETRIZOLU_OTHER_BYTES 3u

/* Logs. */
#define PETRIZOLU_LOG_EMITTED 1u                                                      /* kinds of a record, with the kind byte of 13 bytes */
#define PETRIZOLU_LOG_SUPPRESSED 2u
#define PETRIZOLU_LOG_SHORT 3u                                                        /* 6 bytes */
#define PETRIZOLU_LOG_MISMATCH 4u
#define PETRIZOLU_LOG_SET 5u                                                          /* with PID: 10 bytes */
#define PETRIZOLU_LOG_BARE_SET 6u                                                     /* without, of before 2026-12: 8 */
#define PETRIZOLU_LOG_WITH 0u                                                         /* pids: sets are taken with the PID of their sections */
#define PETRIZOLU_LOG_WITHOUT 1u                                                      /* without one, which is given up: 41 */
#define PETRIZOLU_LOG_BEFORE 2u                                                       /* as before 2026-12 without one: to check a log that was made so */
#define PETRIZOLU_MOST_LOG_BYTES 23u                                                  /* of one section: an emitted or suppressed, and a set */
#define PETRIZOLU_LONGEST_LOGGED 4098u                                                /* bytes of a section in a section list */

/*
 * What a row's head says. heads + row * PETRIZOLU_HEAD_WORDS has these words; a host may read them of a row that was handed out, to name the
 * set. The library alone writes them.
 */
#define PETRIZOLU_HEAD_PID 0u                    /* 8192: a row of before 2026-12; such a store answers 41 */
#define PETRIZOLU_HEAD_TABLE_ID 1u               /* in schedule_heads: the kind */
#define PETRIZOLU_HEAD_EXTENSION 2u              /* service_id of an EIT */
#define PETRIZOLU_HEAD_CURRENT_NEXT 3u
#define PETRIZOLU_HEAD_TRANSPORT_STREAM_ID 4u    /* EIT only */
#define PETRIZOLU_HEAD_ORIGINAL_NETWORK_ID 5u    /* EIT only */
#define PETRIZOLU_HEAD_VERSION 6u
#define PETRIZOLU_HEAD_LAST 7u                   /* last_section_number; in schedule_heads: last_table_id */
#define PETRIZOLU_HEAD_INPUT 10u

/*
 * ---- the CRC of ISO/IEC 13818-1, Annex A: over a section with its own CRC at the end it is 0
 *
 *     uint32_t crc = petrizolu_crc((const uint8_t *)"123456789", 9);     // 0x0376E6E7
 */

uint32_t petrizolu_crc(const uint8_t *bytes, size_t byte_count);

/*
 * ---- the gate: which sections are new
 *
 * A struct of words and not a value that comes back: one pointer reads better in C than a struct in and a struct out, the counters can be read
 * at any time by name, and no value of a flag is out of range. A struct of zeros is no gate: it has no change rule, and
 * offers to it answer 10.
 */

typedef struct petrizolu_gate {
    uint64_t capacity;    /* keys kept; 0 acts as 1 */
    uint64_t repeats;     /* not 0: on */
    uint64_t follow;      /* 0: off, 2: each changed PAT section, any other: complete PATs */
    uint64_t change_rule; /* 1 or 2; another number is not whole (10) */
    uint64_t used;        /* rows in use */
    uint64_t first;       /* the row that leaves next */
    uint64_t completed;   /* sections offered: emitted + suppressed + crc_failures */
    uint64_t emitted;
    uint64_t suppressed;
    uint64_t crc_failures;      /* short_sections + crc_mismatches */
    uint64_t short_sections;    /* answered 31 */
    uint64_t crc_mismatches;    /* answered 3 */
    uint64_t evictions;
} petrizolu_gate;

/* What a section failed by: 31 tells its length, 3 the CRC that it carries and the CRC of its bytes; what an answer does not tell is 0. */
typedef struct petrizolu_failure {
    uint64_t length;
    uint64_t stored;
    uint64_t worked;
} petrizolu_failure;

/*
 * ---- Following
 *
 * PAT sections that come on PID 0, are sound, marked current and of at most 1,024 bytes are collected, emitted or suppressed, and when all sections of a
 * PAT are there, the PIDs of its programs are watched in place of those of the PAT before it. Until then the watch stays as it is, however many
 * sections of a newer PAT have come; sections that contradict what is held, or are marked next, change nothing. Well-known and extra PIDs are
 * always watched.
 *
 * watch, pat_slots and pat_cells are the watch record of one input: PETRIZOLU_WATCH_WORDS, PETRIZOLU_PAT_SLOTS and PETRIZOLU_PAT_CELLS elements, the
 * PAT's sections in the last two. Where complete PATs are not followed (PETRIZOLU_FOLLOW_SECTIONS, or no PETRIZOLU_FOLLOW), 384 words of watch are
 * enough, pat_slots and pat_cells may have length 0, and what is lent there is not looked at.
 *
 * Opens a gate and the watch record of one input: petrizolu_watch_open opens those of the others. settings: PETRIZOLU_REPEATS and so on, or'ed; other
 * bits are not looked at. extra: PIDs that are watched and protected besides the well-known ones. keys, changes, pat_slots and pat_cells need not be
 * written before and are not written here.
 * 7: *gate and watch are written, counters 0. 12: an extra PID is 8192 or more. 13: keys, changes or the record are too short, or a change rule that
 * there is not. A refusal writes nothing.
 *
 *     static uint64_t keys[512], changes[512], watch[PETRIZOLU_INPUTS][PETRIZOLU_WATCH_WORDS];
 *     static uint32_t pat_slots[PETRIZOLU_INPUTS][PETRIZOLU_PAT_SLOTS];
 *     static uint8_t pat_cells[PETRIZOLU_INPUTS][PETRIZOLU_PAT_CELLS];
 *     #define RECORD(i) watch[i], PETRIZOLU_WATCH_WORDS, pat_slots[i], PETRIZOLU_PAT_SLOTS, pat_cells[i], PETRIZOLU_PAT_CELLS
 *     static const uint16_t extra[] = {0x0100};
 *     petrizolu_gate gate;
 *     if (petrizolu_gate_open(&gate, 512, PETRIZOLU_DEFAULT_SETTINGS, PETRIZOLU_DEFAULT_CHANGE_RULE, extra, 1, keys, 512, changes, 512, RECORD(0))
 *         != PETRIZOLU_DONE)
 *         return 1;
 */
uint8_t petrizolu_gate_open(petrizolu_gate *gate, uint64_t capacity, uint32_t settings, uint64_t change_rule, const uint16_t *extra,
                            size_t extra_count, const uint64_t *keys, size_t key_count, const uint64_t *changes, size_t change_count,
                            uint64_t *watch, size_t watch_words, const uint32_t *pat_slots, size_t pat_slot_words, const uint8_t *pat_cells,
                            size_t pat_cell_bytes);

/*
 * ---- Several inputs
 *
 * A card has up to sixteen inputs, and one gate. What an input has of its own is its watch: a call on an input is lent the record of that input, and
 * only that one. Everything else is one for the card, whatever the input: the gate with its counters, keys and changes (buckets and links), the set
 * collector and the EIT collector with all that is lent to them. Sections of different inputs are never taken for each other, but they share the
 * capacity, the limits and the cells: an eviction can come from a neighbour. A host opens as many records as it has tuners; the library does not
 * count them, and does not notice a record that is lent for another input.
 *
 * Opens the record of one input, as petrizolu_gate_open opens its own. Of settings PETRIZOLU_WELL_KNOWN and how PATs are followed are looked at; the
 * latter has to be what the gate is opened with.
 * 7: watch is written. 12: an extra PID is 8192 or more. 13: the record is too short. A refusal writes nothing.
 *
 *     for (uint32_t i = 1; i < PETRIZOLU_INPUTS; i++)
 *         if (petrizolu_watch_open(PETRIZOLU_DEFAULT_SETTINGS, extra, 1, RECORD(i)) != PETRIZOLU_DONE)
 *             return 1;
 *     bool wanted = petrizolu_watch_ask(watch[input], PETRIZOLU_WATCH_WORDS, pid) == PETRIZOLU_YES;
 */
uint8_t petrizolu_watch_open(uint32_t settings, const uint16_t *extra, size_t extra_count, uint64_t *watch, size_t watch_words,
                             const uint32_t *pat_slots, size_t pat_slot_words, const uint8_t *pat_cells, size_t pat_cell_bytes);

/*
 * Is this PID watched on the input whose record is lent? 8, 9; 10 (fewer than 384 words), 12. The example is above.
 */
uint8_t petrizolu_watch_ask(const uint64_t *watch, size_t watch_words, uint32_t pid);

/*
 * Offers a section that came on an input and a PID, watched or not: 1 or 2, and counters and rows move, and a PAT changes the record that is
 * lent as following has it; 3 or 31, and only counters move, and *failure is written. Every other answer leaves *failure as it was. 10 (where complete
 * PATs are followed also a record that is too short or whose PAT is damaged), 11 (then also word PETRIZOLU_WATCH_PAT_EVICTIONS), 12, 37, in this
 * order: all as before. Answer and counters do not depend on how PATs are followed.
 *
 *     petrizolu_failure failure;
 *     switch (petrizolu_gate_offer(&gate, keys, 512, changes, 512, RECORD(input), input, pid, section, length, &failure)) {
 *     case PETRIZOLU_EMITTED:
 *         printf("new, %llu so far\n", (unsigned long long)gate.emitted);
 *         break;
 *     case PETRIZOLU_TOO_SHORT:
 *         printf("cut off after %llu bytes\n", (unsigned long long)failure.length);
 *         break;
 *     case PETRIZOLU_CRC_MISMATCH:
 *         printf("broken: carries %08llX, its bytes give %08llX\n", (unsigned long long)failure.stored, (unsigned long long)failure.worked);
 *         break;
 *     }
 */
uint8_t petrizolu_gate_offer(petrizolu_gate *gate, uint64_t *keys, size_t key_count, uint64_t *changes, size_t change_count, uint64_t *watch,
                             size_t watch_words, uint32_t *pat_slots, size_t pat_slot_words, uint8_t *pat_cells, size_t pat_cell_bytes,
                             uint32_t input, uint32_t pid, const uint8_t *section, size_t section_length, petrizolu_failure *failure);

/*
 * The same gate with an index over its rows: for thousands of keys. It answers as the one above and keeps the same rows; opening writes the
 * buckets, links need not be written before. The two forms do not share a store. On damaged memory a key counts as held where the chain from its
 * bucket reaches it.
 *
 *     enum { ROWS = PETRIZOLU_DEFAULT_CAPACITY };
 *     static uint64_t rows[4][ROWS];
 *     petrizolu_gate large;
 *     if (petrizolu_indexed_open(&large, ROWS, PETRIZOLU_DEFAULT_SETTINGS, PETRIZOLU_DEFAULT_CHANGE_RULE, extra, 1, rows[0], ROWS, rows[1], ROWS, rows[2],
 *                                ROWS, rows[3], ROWS, RECORD(0)) != PETRIZOLU_DONE)
 *         return 1;
 */
uint8_t petrizolu_indexed_open(petrizolu_gate *gate, uint64_t capacity, uint32_t settings, uint64_t change_rule, const uint16_t *extra,
                               size_t extra_count, const uint64_t *keys, size_t key_count, const uint64_t *changes, size_t change_count,
                               uint64_t *buckets, size_t bucket_count, const uint64_t *links, size_t link_count, uint64_t *watch,
                               size_t watch_words, const uint32_t *pat_slots, size_t pat_slot_words, const uint8_t *pat_cells,
                               size_t pat_cell_bytes);

/*
 * As petrizolu_gate_offer.
 *
 *     if (petrizolu_indexed_offer(&large, rows[0], ROWS, rows[1], ROWS, rows[2], ROWS, rows[3], ROWS, RECORD(input), input, pid, section, length,
 *                                 &failure) == PETRIZOLU_SUPPRESSED)
 *         printf("seen before\n");
 */
uint8_t petrizolu_indexed_offer(petrizolu_gate *gate, uint64_t *keys, size_t key_count, uint64_t *changes, size_t change_count,
                                uint64_t *buckets, size_t bucket_count, uint64_t *links, size_t link_count, uint64_t *watch,
                                size_t watch_words, uint32_t *pat_slots, size_t pat_slot_words, uint8_t *pat_cells, size_t pat_cell_bytes,
                                uint32_t input, uint32_t pid, const uint8_t *section, size_t section_length, petrizolu_failure *failure);

/*
 * ---- the transport stream: packets in, the sections that they finish through the gate
 *
 * Open a gate, then for each input its watch record and its streams, and give every packet to petrizolu_feed with the memory of its input, watched or not: packets
 * of PIDs that are not watched cost little. A packet finishes 0 to 61 sections. Each is offered to the gate as petrizolu_gate_offer would; place k tells the answer,
 * and where the section's bytes are: the example below reads them. They stand there until the next petrizolu_feed: hand those that are sound (1 and 2) to a collector now.
 * A watched PID takes a section buffer with its first payload and gives it back when it leaves the watch. A lost packet drops the section under way on its PID; a
 * packet repeated once is ignored. Packets marked as damaged or scrambled count as lost. Whoever opens the gate anew opens the streams
 * anew. A PID that leaves the watch by petrizolu_gate_offer gives its buffer back with its next packet.
 */

typedef struct petrizolu_streams {
    uint64_t count;    /* section buffers, 1 to PETRIZOLU_MOST_BUFFERS */
    uint64_t packets;
    uint64_t malformed;
} petrizolu_streams;

/*
 * Opens the streams of one input. pids: PETRIZOLU_PID_WORDS, buffers: PETRIZOLU_BUFFERS(count) elements at least; buffers need not be written before and are not
 * written here.
 * 7: *streams and pids are written. 13: count is 0 or above PETRIZOLU_MOST_BUFFERS, or pids or buffers are too short; all as before.
 *
 *     enum { BUFFERS = 8 };
 *     static uint64_t pids[PETRIZOLU_PID_WORDS], places[PETRIZOLU_PLACES_WORDS];
 *     static uint8_t buffers[PETRIZOLU_BUFFERS(BUFFERS)];
 *     petrizolu_streams streams;
 *     if (petrizolu_streams_open(&streams, BUFFERS, pids, PETRIZOLU_PID_WORDS, buffers, sizeof buffers) != PETRIZOLU_DONE)
 *         return 1;
 */
uint8_t petrizolu_streams_open(petrizolu_streams *streams, uint64_t count, uint64_t *pids, size_t pid_words, const uint8_t *buffers,
                               size_t buffer_bytes);

/*
 * Gives a packet that came on an input.
 * 29: *finished and the first places are written. 30 (packets and malformed count it), 43 (packets counts it; more buffers would help), 10 (also places of fewer than
 * PETRIZOLU_PLACES_WORDS words), 11 (a counter within 64 of its end), 37 (an input above 15): nothing else is written.
 *
 *     uint64_t finished = 0;
 *     if (petrizolu_feed(&gate, &streams, keys, 512, changes, 512, RECORD(input), pids, PETRIZOLU_PID_WORDS, buffers, sizeof buffers, input, packet,
 *                        sizeof packet, places, PETRIZOLU_PLACES_WORDS, &finished) == PETRIZOLU_FED)
 *         for (uint64_t k = 0; k < finished; k++) {
 *             const uint64_t *place = places + k * PETRIZOLU_PLACE_WORDS;
 *             const uint8_t *section = (place[PETRIZOLU_PLACE_WHERE] == PETRIZOLU_IN_PACKET ? packet : buffers) + place[PETRIZOLU_PLACE_START];
 *             printf("table %02X, answer %llu\n", section[0], (unsigned long long)place[PETRIZOLU_PLACE_ANSWER]);
 *         }
 */
uint8_t petrizolu_feed(petrizolu_gate *gate, petrizolu_streams *streams, uint64_t *keys, size_t key_count, uint64_t *changes,
                       size_t change_count, uint64_t *watch, size_t watch_words, uint32_t *pat_slots, size_t pat_slot_words, uint8_t *pat_cells,
                       size_t pat_cell_bytes, uint64_t *pids, size_t pid_words, uint8_t *buffers, size_t buffer_bytes, uint32_t input,
                       const uint8_t *packet, size_t packet_bytes, uint64_t *places, size_t place_words, uint64_t *finished);

/*
 * Many packets at once: of the packets of 188 bytes in some bytes that came on an input, how many at the front are passed over. These have no payload that can be
 * read, or are of PIDs that are not watched; petrizolu_feed would answer each with 29 and no section, and this call counts and leaves what as many feeds would. It
 * looks at the gate, the record and the counters once, so a packet costs a tenth of a feed or less. The next packet is for petrizolu_feed. 0 where that would refuse
 * it (10, 11, 37). Written are streams->packets and the words of PIDs that are not watched.
 *
 *     const uint8_t *bytes = packet;
 *     size_t at = 0, size = sizeof packet;
 *     while ((at += 188 * (size_t)petrizolu_pass(&gate, &streams, keys, 512, changes, 512, RECORD(input), pids, PETRIZOLU_PID_WORDS, buffers, sizeof buffers,
 *                                                input, bytes + at, size - at, places, PETRIZOLU_PLACES_WORDS)) + 188 <= size) {
 *         if (petrizolu_feed(&gate, &streams, keys, 512, changes, 512, RECORD(input), pids, PETRIZOLU_PID_WORDS, buffers, sizeof buffers, input, bytes + at, 188,
 *                            places, PETRIZOLU_PLACES_WORDS, &finished) == PETRIZOLU_FED)
 *             printf("%llu sections\n", (unsigned long long)finished);
 *         at += 188;
 *     }
 */
uint64_t petrizolu_pass(const petrizolu_gate *gate, petrizolu_streams *streams, const uint64_t *keys, size_t key_count, const uint64_t *changes,
                        size_t change_count, const uint64_t *watch, size_t watch_words, const uint32_t *pat_slots, size_t pat_slot_words,
                        const uint8_t *pat_cells, size_t pat_cell_bytes, uint64_t *pids, size_t pid_words, const uint8_t *buffers,
                        size_t buffer_bytes, uint32_t input, const uint8_t *packets, size_t packet_bytes, const uint64_t *places,
                        size_t place_words);

/*
 * As petrizolu_feed, through the gate with an index.
 *
 *     if (petrizolu_indexed_feed(&large, &streams, rows[0], ROWS, rows[1], ROWS, rows[2], ROWS, rows[3], ROWS, RECORD(input), pids, PETRIZOLU_PID_WORDS,
 *                                buffers, sizeof buffers, input, packet, sizeof packet, places, PETRIZOLU_PLACES_WORDS, &finished) == PETRIZOLU_FED)
 *         printf("%llu sections\n", (unsigned long long)finished);
 */
uint8_t petrizolu_indexed_feed(petrizolu_gate *gate, petrizolu_streams *streams, uint64_t *keys, size_t key_count, uint64_t *changes,
                               size_t change_count, uint64_t *buckets, size_t bucket_count, uint64_t *links, size_t link_count, uint64_t *watch,
                               size_t watch_words, uint32_t *pat_slots, size_t pat_slot_words, uint8_t *pat_cells, size_t pat_cell_bytes,
                               uint64_t *pids, size_t pid_words, uint8_t *buffers, size_t buffer_bytes, uint32_t input, const uint8_t *packet,
                               size_t packet_bytes, uint64_t *places, size_t place_words, uint64_t *finished);

/*
 * As petrizolu_pass, through the gate with an index.
 *
 *     printf("%llu packets passed over\n",
 *            (unsigned long long)petrizolu_indexed_pass(&large, &streams, rows[0], ROWS, rows[1], ROWS, rows[2], ROWS, rows[3], ROWS, RECORD(input), pids,
 *                                                       PETRIZOLU_PID_WORDS, buffers, sizeof buffers, input, bytes, size, places,
 *                                                       PETRIZOLU_PLACES_WORDS));
 */
uint64_t petrizolu_indexed_pass(const petrizolu_gate *gate, petrizolu_streams *streams, const uint64_t *keys, size_t key_count,
                                const uint64_t *changes, size_t change_count, const uint64_t *buckets, size_t bucket_count,
                                const uint64_t *links, size_t link_count, const uint64_t *watch, size_t watch_words, const uint32_t *pat_slots,
                                size_t pat_slot_words, const uint8_t *pat_cells, size_t pat_cell_bytes, uint64_t *pids, size_t pid_words,
                                const uint8_t *buffers, size_t buffer_bytes, uint32_t input, const uint8_t *packets, size_t packet_bytes,
                                const uint64_t *places, size_t place_words);

/* ---- a section of a row */

/* Its bytes are cells[start] to cells[start + length - 1], until the next call that is not a question. */
typedef struct petrizolu_section {
    uint64_t number;    /* section_number */
    uint64_t start;
    uint64_t length;
} petrizolu_section;

/*
 * ---- the set collector: which tables are complete
 *
 * Give it every section that the gate answers 1 or 2 for: a set that was evicted between two of its sections, or whose section found no cell (21), is
 * completed by repeats, and these are suppressed. EIT sections go to the EIT collector instead.
 *
 * A section is taken only with its PID: sections of two PIDs are never of one set. A store of before 2026-12 may have rows without one (PETRIZOLU_HEAD_PID is 8192):
 * every call that looks at its rows answers 41 and leaves everything as before, and only opening it anew helps. No call makes such a row.
 */

typedef struct petrizolu_sets {
    uint64_t limit;    /* keys at most; 0: nothing is kept */
    uint64_t size;     /* bytes of a cell, 12 to 4096; a longer section is refused */
    uint64_t count;    /* cells, at most 65535 */
    uint64_t used;     /* rows in use */
    uint64_t evictions;
    uint64_t clock;    /* rises by one with each touch of a row, 22 too, and stands in the row's head then */
} petrizolu_sets;

/*
 * Opens a collector. heads: PETRIZOLU_HEADS(limit), slots: PETRIZOLU_SLOTS(limit), cells: PETRIZOLU_CELLS(size, count) elements at least; they
 * need not be written before and are not written here.
 * 7: *sets is written. 13: *sets as before.
 *
 *     enum { LIMIT = 64, SIZE = 4096, COUNT = 256 };
 *     static uint64_t heads[PETRIZOLU_HEADS(LIMIT)];
 *     static uint32_t slots[PETRIZOLU_SLOTS(LIMIT)];
 *     static uint8_t cells[PETRIZOLU_CELLS(SIZE, COUNT)];
 *     petrizolu_sets sets;
 *     if (petrizolu_sets_open(&sets, LIMIT, SIZE, COUNT, heads, sizeof heads / 8, slots, sizeof slots / 4, cells, sizeof cells) != PETRIZOLU_DONE)
 *         return 1;
 */
uint8_t petrizolu_sets_open(petrizolu_sets *sets, uint64_t limit, uint64_t size, uint64_t count, const uint64_t *heads, size_t head_words,
                            const uint32_t *slots, size_t slot_words, const uint8_t *cells, size_t cell_bytes);

/*
 * Gives a section with the input and the PID that it came on. Sections of different inputs are never of one set, but the
 * inputs share the rows and the cells: an eviction can come from a neighbour. 5: the set in *row is complete and handed out. 10, 11, 41 (the PID is PETRIZOLU_NO_PID,
 * or a row in use has none), 12, 37, 14 to 17, 4, 20 to 22 else, and *row is not written then.
 *
 *     uint64_t row = 0;
 *     if (petrizolu_sets_push(&sets, heads, sizeof heads / 8, slots, sizeof slots / 4, cells, sizeof cells, input, pid, section, length, &row) == PETRIZOLU_SET)
 *         printf("table %02llX\n", (unsigned long long)heads[row * PETRIZOLU_HEAD_WORDS + PETRIZOLU_HEAD_TABLE_ID]);
 */
uint8_t petrizolu_sets_push(petrizolu_sets *sets, uint64_t *heads, size_t head_words, uint32_t *slots, size_t slot_words, uint8_t *cells,
                            size_t cell_bytes, uint32_t input, uint32_t pid, const uint8_t *section, size_t section_length, uint64_t *row);

/*
 * Gives the sections of a section list (below, "logs": input, PID in two bytes, length in two, then the section), one after another, until one answers something else
 * than 4 or the list ends; answer, memory and *row are those of the same sections by petrizolu_sets_push, but the store is looked at once and not at every section.
 * A host that gathers the sections of a block of packets saves that look. 42: some length in the list is over 4,098; 10: the list is cut (the first bad section decides), or
 * the store is not whole; 11, 41 (a row in use has no PID): nothing is pushed. 4: every section answered 4, or there is none. Else as that one section answered, after those before it.
 * *taken, written by every answer: how many bytes of the list were taken, all through the section that answered; 0 where nothing is pushed. Go on behind them.
 *
 *     const uint8_t gathered[] = {3, 0x00, 0x11, 0, 3, 0x02, 0xB0, 0x00, 3, 0x00, 0x11, 0, 0};     // three bytes and none, both of input 3 and PID 0x11
 *     uint64_t taken = 0;
 *     for (size_t at = 0; at < sizeof gathered; at += taken) {
 *         uint8_t last = petrizolu_sets_push_all(&sets, heads, sizeof heads / 8, slots, sizeof slots / 4, cells, sizeof cells, gathered + at, sizeof gathered - at, &row, &taken);
 *         if (taken == 0)
 *             return last;
 *     }
 */
uint8_t petrizolu_sets_push_all(petrizolu_sets *sets, uint64_t *heads, size_t head_words, uint32_t *slots, size_t slot_words, uint8_t *cells,
                                size_t cell_bytes, const uint8_t *sections, size_t section_bytes, uint64_t *row, uint64_t *taken);

/*
 * Empties all rows; the eviction count and the clock stay. 7; 10, 41 (a row in use has no PID): as before.
 *
 *     petrizolu_sets_clear(&sets, heads, sizeof heads / 8, slots, sizeof slots / 4, cells, sizeof cells);
 */
uint8_t petrizolu_sets_clear(petrizolu_sets *sets, const uint64_t *heads, size_t head_words, const uint32_t *slots, size_t slot_words,
                             const uint8_t *cells, size_t cell_bytes);

/*
 * Has the set in a row another section, its number `from` or more? 8: *next tells of it; go on from next->number + 1. 9: no, or no such row. 10. 41: a row in use,
 * this one or another, has no PID. 9, 10 and 41 leave *next as it was.
 *
 *     petrizolu_section next;
 *     uint64_t from = 0;
 *     while (petrizolu_sets_next(&sets, heads, sizeof heads / 8, slots, sizeof slots / 4, cells, sizeof cells, row, from, &next) == PETRIZOLU_YES) {
 *         fwrite(cells + next.start, 1, next.length, stdout);
 *         from = next.number + 1;
 *     }
 */
uint8_t petrizolu_sets_next(const petrizolu_sets *sets, const uint64_t *heads, size_t head_words, const uint32_t *slots, size_t slot_words,
                            const uint8_t *cells, size_t cell_bytes, uint64_t row, uint64_t from, petrizolu_section *next);

/* ---- the EIT collector: which guides are complete */

typedef struct petrizolu_eit {
    uint64_t limit;    /* sets at most, and schedules at most; 0: nothing is kept */
    uint64_t size;
    uint64_t count;
    uint64_t used;     /* sets in use */
    uint64_t evictions;
    uint64_t schedules;    /* schedules in use */
    uint64_t schedule_evictions;
    uint64_t clock;    /* as the set collector's; one for sets and schedules */
} petrizolu_eit;

/*
 * Opens a collector. As the set collector's, and schedule_heads: PETRIZOLU_HEADS(limit), units: PETRIZOLU_UNITS(limit) elements at least.
 * 7: *eit is written. 13: *eit as before.
 *
 *     static uint64_t schedule_heads[PETRIZOLU_HEADS(LIMIT)];
 *     static uint32_t units[PETRIZOLU_UNITS(LIMIT)];
 *     petrizolu_eit eit;
 *     if (petrizolu_eit_open(&eit, LIMIT, SIZE, COUNT, heads, sizeof heads / 8, slots, sizeof slots / 4, cells, sizeof cells, schedule_heads,
 *                            sizeof schedule_heads / 8, units, sizeof units / 4) != PETRIZOLU_DONE)
 *         return 1;
 */
uint8_t petrizolu_eit_open(petrizolu_eit *eit, uint64_t limit, uint64_t size, uint64_t count, const uint64_t *heads, size_t head_words,
                           const uint32_t *slots, size_t slot_words, const uint8_t *cells, size_t cell_bytes, const uint64_t *schedule_heads,
                           size_t schedule_head_words, const uint32_t *units, size_t unit_words);

/*
 * Gives an EIT section, with input and PID as the set collector takes them. 5: the present/following set in row *row is complete. 6: the schedule
 * in row *row of the schedules is complete. 10, 11, 41 (the PID is PETRIZOLU_NO_PID, or a set or a schedule in use has none), 12, 37, 14 to 19, 4, 20 to 23 else, and *row is not written then.
 *
 *     uint8_t answer = petrizolu_eit_push(&eit, heads, sizeof heads / 8, slots, sizeof slots / 4, cells, sizeof cells, schedule_heads,
 *                                         sizeof schedule_heads / 8, units, sizeof units / 4, input, pid, section, length, &row);
 */
uint8_t petrizolu_eit_push(petrizolu_eit *eit, uint64_t *heads, size_t head_words, uint32_t *slots, size_t slot_words, uint8_t *cells,
                           size_t cell_bytes, uint64_t *schedule_heads, size_t schedule_head_words, uint32_t *units, size_t unit_words,
                           uint32_t input, uint32_t pid, const uint8_t *section, size_t section_length, uint64_t *row);

/*
 * Gives the sections of a section list as petrizolu_sets_push_all does: answer, memory and *row are those of the same sections by petrizolu_eit_push, one after another until one
 * answers something else than 4, and the store is looked at once. 42 and 10 of the list, 10, 11 and 41 of the store: nothing is pushed. *taken is written by every answer.
 *
 *     uint8_t last_answer = petrizolu_eit_push_all(&eit, heads, sizeof heads / 8, slots, sizeof slots / 4, cells, sizeof cells, schedule_heads, sizeof schedule_heads / 8, units, sizeof units / 4,
 *                                                  gathered, sizeof gathered, &row, &taken);
 */
uint8_t petrizolu_eit_push_all(petrizolu_eit *eit, uint64_t *heads, size_t head_words, uint32_t *slots, size_t slot_words, uint8_t *cells,
                               size_t cell_bytes, uint64_t *schedule_heads, size_t schedule_head_words, uint32_t *units, size_t unit_words,
                               const uint8_t *sections, size_t section_bytes, uint64_t *row, uint64_t *taken);

/*
 * Empties all sets and schedules; the eviction counts stay. 7; 10, 41 (a set or a schedule in use has no PID): as before.
 *
 *     petrizolu_eit_clear(&eit, heads, sizeof heads / 8, slots, sizeof slots / 4, cells, sizeof cells, schedule_heads, sizeof schedule_heads / 8, units,
 *                         sizeof units / 4);
 */
uint8_t petrizolu_eit_clear(petrizolu_eit *eit, const uint64_t *heads, size_t head_words, const uint32_t *slots, size_t slot_words,
                            const uint8_t *cells, size_t cell_bytes, const uint64_t *schedule_heads, size_t schedule_head_words,
                            const uint32_t *units, size_t unit_words);

/* Which sets and schedules to drop: each field exact, or PETRIZOLU_ANY. There are none without a PID: a pid of PETRIZOLU_NO_PID is answered 41. */
typedef struct petrizolu_filter {
    uint64_t pid;
    uint64_t kind;
    uint64_t service_id;
    uint64_t transport_stream_id;
    uint64_t original_network_id;
    uint64_t current_next;    /* 0 or 1 */
    uint64_t input;
} petrizolu_filter;

/*
 * Drops each set and each schedule that the filter matches; no eviction is counted. 7; 10, 41 (the filter's PID is PETRIZOLU_NO_PID, or a set or a schedule in use has
 * none), 12 (an exact PID of 8192 or more) and 37 (an exact input of 16 or more): as before.
 *
 *     petrizolu_filter service = {PETRIZOLU_ANY, PETRIZOLU_ANY, 0x0001, PETRIZOLU_ANY, PETRIZOLU_ANY, PETRIZOLU_ANY, PETRIZOLU_ANY};
 *     petrizolu_eit_drop(&eit, heads, sizeof heads / 8, slots, sizeof slots / 4, cells, sizeof cells, schedule_heads, sizeof schedule_heads / 8, units,
 *                        sizeof units / 4, &service);
 */
uint8_t petrizolu_eit_drop(petrizolu_eit *eit, uint64_t *heads, size_t head_words, uint32_t *slots, size_t slot_words, const uint8_t *cells,
                           size_t cell_bytes, uint64_t *schedule_heads, size_t schedule_head_words, uint32_t *units, size_t unit_words,
                           const petrizolu_filter *filter);

/*
 * As petrizolu_sets_next, of a set's row. 41: a set or a schedule in use has no PID.
 *
 *     from = 0;
 *     while (petrizolu_eit_next(&eit, heads, sizeof heads / 8, slots, sizeof slots / 4, cells, sizeof cells, schedule_heads, sizeof schedule_heads / 8,
 *                               units, sizeof units / 4, row, from, &next) == PETRIZOLU_YES)
 *         from = next.number + 1;
 */
uint8_t petrizolu_eit_next(const petrizolu_eit *eit, const uint64_t *heads, size_t head_words, const uint32_t *slots, size_t slot_words,
                           const uint8_t *cells, size_t cell_bytes, const uint64_t *schedule_heads, size_t schedule_head_words,
                           const uint32_t *units, size_t unit_words, uint64_t row, uint64_t from, petrizolu_section *next);

/*
 * The same of one table of the schedule in a row. Tables are counted from the first of the kind: table_id 0x50 or 0x60 is 0. A schedule that was
 * handed out has all tables from 0 to last_table_id - 0x50 or 0x60. 9 where the schedule has not that table.
 *
 *     uint64_t table = 0;
 *     from = 0;
 *     while (petrizolu_eit_next_in_schedule(&eit, heads, sizeof heads / 8, slots, sizeof slots / 4, cells, sizeof cells, schedule_heads,
 *                                           sizeof schedule_heads / 8, units, sizeof units / 4, row, table, from, &next) == PETRIZOLU_YES)
 *         from = next.number + 1;
 */
uint8_t petrizolu_eit_next_in_schedule(const petrizolu_eit *eit, const uint64_t *heads, size_t head_words, const uint32_t *slots,
                                       size_t slot_words, const uint8_t *cells, size_t cell_bytes, const uint64_t *schedule_heads,
                                       size_t schedule_head_words, const uint32_t *units, size_t unit_words, uint64_t row, uint64_t table,
                                       uint64_t from, petrizolu_section *next);

/*
 * ---- what a guide says: events, transport streams, services and their descriptors, entry by entry
 *
 * An entry is an event (EN 300 468, 5.2.4), a transport stream of a network or bouquet (5.2.1, 5.2.2), a service (5.2.3) or a descriptor: twelve words of 32 bits,
 * those that a kind does not use are 0. Entries stand in section order and then byte order, each before its descriptors and each once; descriptors before the first
 * transport stream of a section are the network's or bouquet's. Nothing is copied: the bytes of a descriptor are the `length` bytes from at + 2 on.
 */

typedef struct petrizolu_entry {
    uint32_t kind;                   /* PETRIZOLU_EVENT, PETRIZOLU_DESCRIPTOR, PETRIZOLU_TRANSPORT_STREAM or PETRIZOLU_SERVICE */
    uint32_t section;                /* section_number; of petrizolu_events and petrizolu_entries byte 6, 0 where there is none */
    uint32_t at;                     /* its first byte, in cells; of petrizolu_events and petrizolu_entries in the section */
    uint32_t id;                     /* event_id; descriptor_tag; transport_stream_id; service_id */
    uint32_t length;                 /* how many bytes of descriptors follow; descriptor_length */
    uint32_t original_network_id;    /* of a transport stream its own, of a service its section's; else 0 */
    uint32_t day;                    /* the modified Julian day, as petrizolu_date takes it */
    uint32_t time;                   /* seconds since midnight (UTC), the digits as they are, or PETRIZOLU_UNDEFINED */
    uint32_t duration;               /* seconds, likewise */
    uint32_t running_status;         /* of an event or a service: 0 to 7 */
    uint32_t free_ca_mode;           /* likewise: 0 or 1 */
    uint32_t eit_flags;              /* of a service: 2 EIT_schedule_flag + EIT_present_following_flag; else 0 */
} petrizolu_entry;

/*
 * How many entries there are; with 18, 19 and 32 up to `place`, the byte of section number `section` where the listing ended; with 35 and 36 none, and `section` and
 * `place` say where; else both are 0.
 */
typedef struct petrizolu_listed {
    uint64_t count;
    uint64_t section;
    uint64_t place;
} petrizolu_listed;

/*
 * Lists a page of the entries of one section, which need not have come through a collector: form bit and CRC are not judged here. list_words counts words of
 * 32 bits: PETRIZOLU_LIST_WORDS(n) of them have room for n entries, and number `skip` (from 0) to skip + n - 1 are written; what is behind the last of
 * them stays as it was. A list without room is good for counting.
 * 8: there is an entry at or behind skip; 9: there is none. 32: a descriptor runs past its loop (or one byte is left there); the entries before it stand.
 * 18, 19: no EIT, or its events do not end at its CRC; nothing is listed. 14: list and *listed as before; every other answer writes *listed.
 *
 *     static petrizolu_entry page[64];
 *     petrizolu_listed told = {0, 0, 0};
 *     uint64_t skip = 0;
 *     while (petrizolu_events(section, length, skip, page, PETRIZOLU_LIST_WORDS(64), &told) == PETRIZOLU_YES) {
 *         for (uint64_t i = 0; i < 64 && skip + i < told.count; i++)
 *             if (page[i].kind == PETRIZOLU_EVENT)
 *                 printf("event %04X of %u\n", (unsigned)page[i].id, (unsigned)petrizolu_date(page[i].day));
 *         skip += 64;
 *     }
 */
uint8_t petrizolu_events(const uint8_t *section, size_t section_length, uint64_t skip, petrizolu_entry *list, size_t list_words,
                         petrizolu_listed *listed);

/*
 * The same of the set in a row that was handed out, its sections one after another by rising number: at the first 18, 19 or 32 the listing ends, and nothing
 * of later sections is listed. 18 and 19 do not come from a store that was opened. 9, with a count of 0, also where the row is not in use, or where its set
 * was not handed out or has changed since. 10, 41 (a set or a schedule in use has no PID): list and *listed as before.
 *
 *     uint8_t shown = petrizolu_eit_events(&eit, heads, sizeof heads / 8, slots, sizeof slots / 4, cells, sizeof cells, schedule_heads,
 *                                          sizeof schedule_heads / 8, units, sizeof units / 4, row, 0, page, PETRIZOLU_LIST_WORDS(64), &told);
 *     if (shown == PETRIZOLU_PAST_LOOP)
 *         printf("broken at byte %llu of section %llu\n", (unsigned long long)told.place, (unsigned long long)told.section);
 */
uint8_t petrizolu_eit_events(const petrizolu_eit *eit, const uint64_t *heads, size_t head_words, const uint32_t *slots, size_t slot_words,
                             const uint8_t *cells, size_t cell_bytes, const uint64_t *schedule_heads, size_t schedule_head_words,
                             const uint32_t *units, size_t unit_words, uint64_t row, uint64_t skip, petrizolu_entry *list, size_t list_words,
                             petrizolu_listed *listed);

/*
 * The same of one table of the schedule in a row, counted as petrizolu_eit_next_in_schedule does. 9 also where the schedule has not that table, or not every
 * table from its first to last_table_id.
 *
 *     shown = petrizolu_eit_events_in_schedule(&eit, heads, sizeof heads / 8, slots, sizeof slots / 4, cells, sizeof cells, schedule_heads,
 *                                              sizeof schedule_heads / 8, units, sizeof units / 4, row, table, 0, page, PETRIZOLU_LIST_WORDS(64), &told);
 */
uint8_t petrizolu_eit_events_in_schedule(const petrizolu_eit *eit, const uint64_t *heads, size_t head_words, const uint32_t *slots,
                                         size_t slot_words, const uint8_t *cells, size_t cell_bytes, const uint64_t *schedule_heads,
                                         size_t schedule_head_words, const uint32_t *units, size_t unit_words, uint64_t row, uint64_t table,
                                         uint64_t skip, petrizolu_entry *list, size_t list_words, petrizolu_listed *listed);

/*
 * The calendar date of a modified Julian day (EN 300 468, Annex C) in decimal digits, year, month, day; 0 for a day before 1900-03-01 and for a number above 65535.
 *
 *     uint32_t date = petrizolu_date(49273);     // 19931013
 */
uint32_t petrizolu_date(uint32_t day);

/*
 * Lists a page of the entries of one NIT, BAT or SDT section, as petrizolu_events does of an EIT: by the reader PETRIZOLU_NIT, PETRIZOLU_BAT or PETRIZOLU_SDT.
 * 8: there is an entry at or behind skip; 9: there is none. 35: the table_id is none of the reader's, or the number names no reader. 36: a loop does not end where its
 * length says; *listed tells the first place, from 0 at table_id: the length that does not hold (1 section_length, 8 the first loop's, 11 of an SDT too short for
 * services), the transport stream or service, or the tag of the descriptor that runs past. 35 and 36 leave the list as before.
 *
 *     uint8_t read = petrizolu_entries(PETRIZOLU_SDT, section, length, 0, page, PETRIZOLU_LIST_WORDS(64), &told);
 *     if (read == PETRIZOLU_BROKEN_LOOP)
 *         printf("broken at byte %llu\n", (unsigned long long)told.place);
 */
uint8_t petrizolu_entries(uint32_t reader, const uint8_t *section, size_t section_length, uint64_t skip, petrizolu_entry *list, size_t list_words,
                          petrizolu_listed *listed);

/*
 * The same of the set in a row that was handed out, its sections one after another by rising number. All are judged first: the first that has a 35 or a 36 decides, and
 * nothing is listed. 9, with a count of 0, also where the row is not in use, or where its set was not handed out or has changed since. 10, 41 (a row in use has no PID): list and
 * *listed as before.
 *
 *     read = petrizolu_sets_entries(PETRIZOLU_SDT, &sets, heads, sizeof heads / 8, slots, sizeof slots / 4, cells, sizeof cells, row, 0, page,
 *                                   PETRIZOLU_LIST_WORDS(64), &told);
 */
uint8_t petrizolu_sets_entries(uint32_t reader, const petrizolu_sets *sets, const uint64_t *heads, size_t head_words, const uint32_t *slots,
                               size_t slot_words, const uint8_t *cells, size_t cell_bytes, uint64_t row, uint64_t skip, petrizolu_entry *list,
                               size_t list_words, petrizolu_listed *listed);

/*
 * ---- two guides compared: where two laboratories' copies of one table differ
 *
 * A set is its sections one after another by rising section_number, as petrizolu_sets_next hands them out, in bytes of its own, with the PID that it came on.
 * It need not have come through a collector: long-form sections to the last byte, of one key, one version and one
 * last_section_number, are a set; the CRC is not judged. A schedule is the sections of its tables by rising table_id (0x50 to 0x5F, or 0x60 to 0x6F), each table as a set.
 */

typedef struct petrizolu_difference {
    uint32_t table_id;
    uint32_t number;                 /* section_number */
    uint32_t kind;                   /* PETRIZOLU_ONLY_FIRST, PETRIZOLU_ONLY_SECOND, PETRIZOLU_OTHER_BYTES */
    uint32_t place;                  /* of PETRIZOLU_OTHER_BYTES the first byte, from 0, at which the two sections differ; else 0 */
} petrizolu_difference;

typedef struct petrizolu_compared {
    uint64_t count;                  /* how many differences there are */
    uint64_t versions;               /* 1 where versions agree; of schedules, where no table that both hold differs in it */
    uint64_t lasts;                  /* 1 where last_section_numbers agree, likewise */
} petrizolu_compared;

/*
 * Compares two sets. list_words counts words of 32 bits; differences stand in it by rising number, and words behind the last stay as before.
 * 8: they differ; 9: they do not, the bytes are the same. 10: the bytes of a side are no set. 41: the PID of a side is PETRIZOLU_NO_PID. 12: a PID of 8192 or more. 33: the two are not of one key (PID, table_id,
 * table_id_extension, current_next_indicator; of an EIT also transport_stream_id and original_network_id). 34: the list has no room for all; nothing is listed.
 * 10, 41, 12 and 33 leave the list and *compared as before, 34 the list.
 *
 *     static petrizolu_difference list[PETRIZOLU_MOST_DIFFERENCES];
 *     petrizolu_compared compared = {0, 0, 0};
 *     uint8_t differ = petrizolu_compare(section, length, pid, section, length, pid, list, sizeof list / 4, &compared);
 *     if (differ == PETRIZOLU_YES)
 *         for (uint64_t i = 0; i < compared.count; i++)
 *             printf("section %u, kind %u\n", (unsigned)list[i].number, (unsigned)list[i].kind);
 */
uint8_t petrizolu_compare(const uint8_t *first, size_t first_bytes, uint32_t first_pid, const uint8_t *second, size_t second_bytes,
                          uint32_t second_pid, petrizolu_difference *list, size_t list_words, petrizolu_compared *compared);

/*
 * Compares two schedules, table by table; of the key the kind stands for the table_id. Differences stand by rising table_id and then number. Word t of `tables` is of the
 * kind's table t, and all 16 are written with 8 and 9, else none: 0 no side holds it, 1 the first alone, 2 the second alone, 3 both; 4 more where both hold it and
 * versions differ, 8 more where both hold it and last_section_numbers differ.
 *
 *     static petrizolu_difference schedule_list[16 * PETRIZOLU_MOST_DIFFERENCES];
 *     uint32_t tables[16];
 *     uint8_t schedules = petrizolu_compare_schedules(section, length, pid, section, length, pid, tables, schedule_list, sizeof schedule_list / 4, &compared);
 */
uint8_t petrizolu_compare_schedules(const uint8_t *first, size_t first_bytes, uint32_t first_pid, const uint8_t *second, size_t second_bytes,
                                    uint32_t second_pid, uint32_t tables[16], petrizolu_difference *list, size_t list_words,
                                    petrizolu_compared *compared);

typedef struct petrizolu_held {
    uint64_t side;                   /* 1 the first, 2 the second */
    uint64_t start;                  /* where the section starts in that side's bytes */
    uint64_t length;
} petrizolu_held;

/*
 * The section of a number that exactly one of two sets holds; of a table that a schedule has not, no bytes are lent. Keys are not compared.
 * 8: that section. 9: both hold the number, or none. 10: the bytes of a side are neither a set nor empty. 9 and 10 leave *held as before.
 *
 *     petrizolu_held held = {0, 0, 0};
 *     uint8_t one = petrizolu_held_by_one(section, length, section, 0, 0, &held);
 *     if (one == PETRIZOLU_YES)
 *         printf("side %llu, %llu bytes\n", (unsigned long long)held.side, (unsigned long long)held.length);
 */
uint8_t petrizolu_held_by_one(const uint8_t *first, size_t first_bytes, const uint8_t *second, size_t second_bytes, uint64_t number,
                              petrizolu_held *held);

/*
 * ---- logs: what a gate and a set collector make of the sections of a feed
 *
 * A log is records without gaps, each a byte of kind and a body; numbers stand high byte first.
 *
 *    1, 2  emitted, suppressed   input, PID (2), table_id, table_id_extension (2), section_number, version, change number (4)
 *    3, 4  short, mismatch       input, PID (2), length of the section (2)
 *    5     set with PID          input, PID (2), table_id, table_id_extension (2), current_next, version, last_section_number
 *    6     set without PID       the same less the PID; in logs of before 2026-12
 *
 * A section list is for each section an input (1 byte), a PID (2), a length (2), then that many bytes; any input, any PID and any bytes may stand there. Its log is what
 * an opened gate and an opened set collector, never cleared, answer to them in order: 1, 2, 31 and 3 give the records 1 to 4, 12 and 37 none; what was answered 1 or 2 goes to
 * the collector, and where that answers 5 the set's record follows. What a gate watches and follows does not reach the log.
 *
 * By the older definition, of before 2026-12, the log of a section list has all sets collected without a PID: sections of one table on two PIDs are of one set, and its record is
 * of kind 6. A log that was made so is still read, and checked by that definition; none is written.
 *
 * The memory of the run (keys, changes, heads, slots, cells) is working memory: as before with 42, 10, 41 and 13, else as the opened run leaves it after the
 * sections that were looked at. It is no store: nothing that is kept in it counts.
 */

typedef struct petrizolu_log_settings {
    uint64_t capacity;               /* the first three as of petrizolu_gate_open; repeats: not 0 is on */
    uint64_t repeats;
    uint64_t change_rule;
    uint64_t limit;                  /* these three as of petrizolu_sets_open */
    uint64_t size;
    uint64_t count;
    uint64_t pids;                   /* PETRIZOLU_LOG_WITH, PETRIZOLU_LOG_WITHOUT (41) or PETRIZOLU_LOG_BEFORE; another number is 13 */
} petrizolu_log_settings;

/*
 * Is this the log of these sections? 8: byte for byte. 42: some length in the list is over 4,098; 10: the list is cut; the first bad section decides. 41: pids is
 * PETRIZOLU_LOG_WITHOUT. 13: less is lent than the settings need, or a setting is one that opening refuses, or pids is above PETRIZOLU_LOG_BEFORE. Else the earliest place that is wrong, where a record starts: 38, its kind
 * is none of the six; 39, the log ends inside it; 40, it is not the one expected, or none is expected, or one is expected and the log ends there. *place is written by 38, 39 and 40 alone.
 *
 *     petrizolu_log_settings run = {512, 0, PETRIZOLU_DEFAULT_CHANGE_RULE, 16, 4096, 64, 0};
 *     static uint64_t run_keys[512], run_changes[512], run_heads[PETRIZOLU_HEADS(16)];
 *     static uint32_t run_slots[PETRIZOLU_SLOTS(16)];
 *     static uint8_t run_cells[PETRIZOLU_CELLS(4096, 64)];
 *     const uint8_t sections[] = {0, 0x00, 0x11, 0, 3, 0x02, 0xB0, 0x00};     // of input 0 and PID 0x11 three bytes
 *     const uint8_t log[] = {PETRIZOLU_LOG_SHORT, 0, 0x00, 0x11, 0, 3};
 *     uint64_t wrong_place = 0;
 *     uint8_t logged = petrizolu_log_check(&run, sections, sizeof sections, log, sizeof log, run_keys, sizeof run_keys / 8, run_changes, sizeof run_changes / 8,
 *                                          run_heads, sizeof run_heads / 8, run_slots, sizeof run_slots / 4, run_cells, sizeof run_cells, &wrong_place);
 */
uint8_t petrizolu_log_check(const petrizolu_log_settings *settings, const uint8_t *sections, size_t section_bytes, const uint8_t *log, size_t log_bytes,
                            uint64_t *keys, size_t key_count, uint64_t *changes, size_t change_count, uint64_t *heads, size_t head_words, uint32_t *slots,
                            size_t slot_words, uint8_t *cells, size_t cell_bytes, uint64_t *place);

/*
 * Writes the log of these sections into the room: 7, and *length tells how many bytes; those behind stay as before. 42, 10 and 13 as above; 41: pids is
 * PETRIZOLU_LOG_WITHOUT or PETRIZOLU_LOG_BEFORE, so that no record of kind 6 is ever written; 44: it is longer than the room.
 * These leave the room and *length as before. A room of PETRIZOLU_MOST_LOG_BYTES for each section is always enough.
 *
 *     uint8_t room[PETRIZOLU_MOST_LOG_BYTES];
 *     uint64_t log_length = 0;
 *     uint8_t written = petrizolu_log_write(&run, sections, sizeof sections, room, sizeof room, run_keys, sizeof run_keys / 8, run_changes, sizeof run_changes / 8,
 *                                           run_heads, sizeof run_heads / 8, run_slots, sizeof run_slots / 4, run_cells, sizeof run_cells, &log_length);
 */
uint8_t petrizolu_log_write(const petrizolu_log_settings *settings, const uint8_t *sections, size_t section_bytes, uint8_t *room, size_t room_bytes,
                            uint64_t *keys, size_t key_count, uint64_t *changes, size_t change_count, uint64_t *heads, size_t head_words, uint32_t *slots,
                            size_t slot_words, uint8_t *cells, size_t cell_bytes, uint64_t *length);

/*
 * The record of a gate's answer to a section, for a monitor that keeps a log as it goes: after each offer what this writes, after each push that answered 5 what
 * petrizolu_log_set_record writes. Every section that was answered 1 or 2 has to be pushed, to one set collector that is never cleared.
 * 7: *length is 13 for the answers 1 and 2, 6 for 3 and 31, else 0, also for an input or a PID that there is not and, with 1 and 2, for a section under 3 bytes; of `record` the first *length
 * bytes are written. 42: more than 4,098 bytes. 13: a change rule that there is not. Both write nothing. The CRC is not judged again.
 *
 *     uint8_t record[13];
 *     uint64_t record_length = 0;
 *     petrizolu_log_offer_record(PETRIZOLU_EMITTED, gate.change_rule, input, pid, section, length, record, &record_length);
 */
uint8_t petrizolu_log_offer_record(uint8_t answer, uint64_t change_rule, uint32_t input, uint32_t pid, const uint8_t *section, size_t section_length,
                                   uint8_t record[13], uint64_t *length);

/*
 * The record of the set that this section completed, taken with this PID: 7, and *length is 10; 0 for a section under 12 bytes, for an input or a PID that there is not and for
 * PETRIZOLU_NO_PID, to which the push before answered 41.
 *
 *     uint8_t set_record[10];
 *     petrizolu_log_set_record(input, pid, section, length, set_record, &record_length);
 */
uint8_t petrizolu_log_set_record(uint32_t input, uint32_t pid, const uint8_t *section, size_t section_length, uint8_t record[10], uint64_t *length);

/* Fields that a kind has not are 0. */
typedef struct petrizolu_log_record {
    uint64_t kind;
    uint64_t input;
    uint64_t pid;                    /* 8192 where unknown: kind 6 */
    uint64_t table_id;
    uint64_t extension;
    uint64_t section;                /* section_number */
    uint64_t version;
    uint64_t change;                 /* change number */
    uint64_t length;                 /* of the section */
    uint64_t current;                /* current_next_indicator */
    uint64_t last;                   /* last_section_number */
    uint64_t next;                   /* the place of the next record */
} petrizolu_log_record;

/*
 * The record at a place of a log: 8. 9: the log ends there. 38: its kind is none of the six; 39: the log ends inside it. *record is written by 8 alone.
 *
 *     petrizolu_log_record seen = {0, 0, 0, 0, 0, 0, 0, 0, 0, 0, 0, 0};
 *     while (petrizolu_log_read(room, log_length, seen.next, &seen) == PETRIZOLU_YES)
 *         printf("kind %llu, input %llu\n", (unsigned long long)seen.kind, (unsigned long long)seen.input);
 */
uint8_t petrizolu_log_read(const uint8_t *log, size_t log_bytes, uint64_t place, petrizolu_log_record *record);

#ifdef __cplusplus
}
#endif

#endif
