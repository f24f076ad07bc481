/*
 * Hammers the boundary of the library: memory of every length around each limit, random and damaged words, sections sound and broken.
 *
 *     hammer [SEED] [ROUNDS] [heap]
 *
 * Each lent array stands right against a page that may not be touched, after it or before it, so that a single byte out of bounds ends the run; with
 * `heap` it is a block of the heap of exactly its length, for a memory checker. Each call's answer must be one that the header names for it, and after
 * a refusal every lent byte must be as before. The gate with an index is run beside the one without on the same sections. Where complete PATs are
 * followed, whether the PAT store is whole is worked out here too; where they are not, or where a section enters nothing, it must be as before. What a
 * section says is worked out here too, entry by entry; of a row the entries must be in the cells, the words behind the page as before. Whether a call is
 * made without a PID, or on a store in which a row in use has none, is known: 41 comes then, after 10 and 11 and before all else, and nowhere else.
 * Two guides are compared here as well (hammer_guides.h), logs written, checked and read (hammer_logs.h), and many sections pushed in one call (hammer_all.h). Prints the calls by function and answer.
 */
#include "../include/petrizolu.h"

#include <stdbool.h>
#include <stdio.h>
#include <stdlib.h>
#include <string.h>
#include <sys/mman.h>
#include <unistd.h>

/* ---- numbers */

static uint64_t seed;

static uint64_t draw(void)
{
    /* splitmix64 */
    uint64_t z = (seed += 0x9E3779B97F4A7C15u);
    z = (z ^ z >> 30) * 0xBF58476D1CE4E5B9u;
    z = (z ^ z >> 27) * 0x94D049BB133111EBu;
    return z ^ z >> 31;
}

static uint64_t below(uint64_t n)
{
    return draw() % n;
}

static bool once_in(uint64_t n)
{
    return below(n) == 0;
}

/* A word as damage leaves it: small, a limit, or anything. */
static uint64_t any_word(void)
{
    static const uint64_t limits[] = {0, 1, 11, 12, 13, 255, 256, 257, 4095, 4096, 4097, 8191, 8192, 65535, 65536, UINT32_MAX, UINT64_MAX - 1, UINT64_MAX, UINT64_MAX / 12, UINT64_MAX / 288, UINT64_MAX / 4608};
    switch (below(4)) {
    case 0:
        return below(8);
    case 1:
        return limits[below(sizeof limits / sizeof limits[0])];
    case 2:
        return below(70000);
    default:
        return draw();
    }
}

/* ---- lent arrays */

enum { ARENA = 1 << 20, MOST_ARRAYS = 10, MOST_WORDS = 16 };

static bool on_heap;
static size_t page;

struct array {
    uint8_t *arena;     /* ARENA bytes between two pages that may not be touched */
    uint8_t *data;      /* what is lent */
    size_t element;     /* bytes of an element */
    size_t count;       /* elements lent */
    uint8_t *before;    /* a copy, ARENA bytes */
};

static void *must(void *p)
{
    if (p == NULL || p == MAP_FAILED) {
        perror("hammer");
        exit(2);
    }
    return p;
}

static void make(struct array *a, size_t element)
{
    uint8_t *all = must(mmap(NULL, ARENA + 2 * page, PROT_NONE, MAP_PRIVATE | MAP_ANONYMOUS, -1, 0));
    a->arena = all + page;
    must(mprotect(a->arena, ARENA, PROT_READ | PROT_WRITE) == 0 ? a->arena : NULL);
    a->before = must(malloc(ARENA));
    a->element = element;
    a->count = 0;
    a->data = a->arena;
}

static size_t size_of(const struct array *a)
{
    return a->count * a->element;
}

/* Lends `count` elements; those that were lent before keep their content. */
static void lend(struct array *a, size_t count)
{
    size_t kept = size_of(a), bytes = count * a->element;
    uint8_t *old = a->data;
    if (bytes > ARENA) {
        fputs("hammer: arena too small\n", stderr);
        exit(2);
    }
    if (kept > bytes)
        kept = bytes;
    memcpy(a->before, old, kept);
    if (on_heap) {
        if (old != a->arena)
            free(old);
        a->data = must(malloc(bytes + (bytes == 0)));
        memset(a->data, 0, bytes);
    } else {
        a->data = once_in(2) ? a->arena : a->arena + ARENA - bytes;
    }
    memcpy(a->data, a->before, kept);
    if (bytes > kept && !on_heap)
        memset(a->data + kept, 0, bytes - kept);
    a->count = count;
}

static void scramble(struct array *a)
{
    size_t n = size_of(a), i;
    for (i = 0; i + 8 <= n; i += 8) {
        uint64_t w = any_word();
        memcpy(a->data + i, &w, 8);
    }
    for (; i < n; i++)
        a->data[i] = (uint8_t)draw();
}

static void damage(struct array *a)
{
    uint64_t w = any_word();
    if (a->count != 0)
        memcpy(a->data + below(a->count) * a->element, &w, a->element);
}

/* ---- what must hold */

enum call { GATE_OPEN, GATE_OFFER, WATCH_OPEN, WATCH_ASK, INDEXED_OPEN, INDEXED_OFFER, SETS_OPEN, SETS_PUSH, SETS_PUSH_ALL, SETS_CLEAR, SETS_NEXT, EIT_OPEN, EIT_PUSH, EIT_PUSH_ALL, EIT_CLEAR, EIT_DROP, EIT_NEXT, EIT_NEXT_IN_SCHEDULE, STREAMS_OPEN, FEED, INDEXED_FEED, EVENTS, EIT_EVENTS, EIT_EVENTS_IN_SCHEDULE, DATE, ENTRIES, SETS_ENTRIES, COMPARE, COMPARE_SCHEDULES, HELD_BY_ONE, LOG_CHECK, LOG_WRITE, LOG_OFFER_RECORD, LOG_SET_RECORD, LOG_READ, CALLS };

#define ANSWERS 45
#define ONE(n) ((uint64_t)1 << (n))

static const struct {
    const char *name;
    uint64_t answers;
} calls[CALLS] = {
    {"gate_open", ONE(7) | ONE(12) | ONE(13)},
    {"gate_offer", ONE(1) | ONE(2) | ONE(3) | ONE(10) | ONE(11) | ONE(12) | ONE(31) | ONE(37)},
    {"watch_open", ONE(7) | ONE(12) | ONE(13)},
    {"watch_ask", ONE(8) | ONE(9) | ONE(10) | ONE(12)},
    {"indexed_open", ONE(7) | ONE(12) | ONE(13)},
    {"indexed_offer", ONE(1) | ONE(2) | ONE(3) | ONE(10) | ONE(11) | ONE(12) | ONE(31) | ONE(37)},
    {"sets_open", ONE(7) | ONE(13)},
    {"sets_push", ONE(4) | ONE(5) | ONE(10) | ONE(11) | ONE(12) | ONE(14) | ONE(15) | ONE(16) | ONE(17) | ONE(20) | ONE(21) | ONE(22) | ONE(37) | ONE(41)},
    {"sets_push_all", ONE(4) | ONE(5) | ONE(10) | ONE(11) | ONE(12) | ONE(14) | ONE(15) | ONE(16) | ONE(17) | ONE(20) | ONE(21) | ONE(22) | ONE(37) | ONE(41) | ONE(42)},
    {"sets_clear", ONE(7) | ONE(10) | ONE(41)},
    {"sets_next", ONE(8) | ONE(9) | ONE(10) | ONE(41)},
    {"eit_open", ONE(7) | ONE(13)},
    {"eit_push", ONE(4) | ONE(5) | ONE(6) | ONE(10) | ONE(11) | ONE(12) | 0xFFC000u | ONE(37) | ONE(41)},
    {"eit_push_all", ONE(4) | ONE(5) | ONE(6) | ONE(10) | ONE(11) | ONE(12) | 0xFFC000u | ONE(37) | ONE(41) | ONE(42)},
    {"eit_clear", ONE(7) | ONE(10) | ONE(41)},
    {"eit_drop", ONE(7) | ONE(10) | ONE(12) | ONE(37) | ONE(41)},
    {"eit_next", ONE(8) | ONE(9) | ONE(10) | ONE(41)},
    {"eit_next_in_schedule", ONE(8) | ONE(9) | ONE(10) | ONE(41)},
    {"streams_open", ONE(7) | ONE(13)},
    {"feed", ONE(10) | ONE(11) | ONE(29) | ONE(30) | ONE(37) | ONE(43)},
    {"indexed_feed", ONE(10) | ONE(11) | ONE(29) | ONE(30) | ONE(37) | ONE(43)},
    {"events", ONE(8) | ONE(9) | ONE(14) | ONE(18) | ONE(19) | ONE(32)},
    {"eit_events", ONE(8) | ONE(9) | ONE(10) | ONE(18) | ONE(19) | ONE(32) | ONE(41)},
    {"eit_events_in_schedule", ONE(8) | ONE(9) | ONE(10) | ONE(18) | ONE(19) | ONE(32) | ONE(41)},
    {"date", ONE(8) | ONE(9)},
    {"entries", ONE(8) | ONE(9) | ONE(35) | ONE(36)},
    {"sets_entries", ONE(8) | ONE(9) | ONE(10) | ONE(35) | ONE(36) | ONE(41)},
    {"compare", ONE(8) | ONE(9) | ONE(10) | ONE(12) | ONE(33) | ONE(34) | ONE(41)},
    {"compare_schedules", ONE(8) | ONE(9) | ONE(10) | ONE(12) | ONE(33) | ONE(34) | ONE(41)},
    {"held_by_one", ONE(8) | ONE(9) | ONE(10)},
    {"log_check", ONE(8) | ONE(10) | ONE(13) | ONE(38) | ONE(39) | ONE(40) | ONE(41) | ONE(42)},
    {"log_write", ONE(7) | ONE(10) | ONE(13) | ONE(41) | ONE(42) | ONE(44)},
    {"log_offer_record", ONE(7) | ONE(13) | ONE(42)},
    {"log_set_record", ONE(7)},
    {"log_read", ONE(8) | ONE(9) | ONE(38) | ONE(39)},
};

/* Refusals that leave all as before: 10 to 21, 37 and 41; of a question every answer does. */
#define REFUSALS (0x3FFC00u | ONE(37) | ONE(41))

static uint64_t answered[CALLS][ANSWERS];

static void fail(enum call call, unsigned answer, const char *what)
{
    printf("%s answered %u: %s\n", calls[call].name, answer, what);
    exit(1);
}

/* Everything lent to the calls of one part, with its struct of words. */
struct part {
    uint64_t words[MOST_WORDS];
    uint64_t words_before[MOST_WORDS];
    struct array arrays[MOST_ARRAYS];
    size_t array_count;
};

static void remember(struct part *p)
{
    memcpy(p->words_before, p->words, sizeof p->words);
    for (size_t i = 0; i < p->array_count; i++)
        memcpy(p->arrays[i].before, p->arrays[i].data, size_of(&p->arrays[i]));
}

static bool array_as_before(const struct array *a)
{
    return memcmp(a->before, a->data, size_of(a)) == 0;
}

static bool as_before(const struct part *p)
{
    if (memcmp(p->words_before, p->words, sizeof p->words) != 0)
        return false;
    for (size_t i = 0; i < p->array_count; i++)
        if (!array_as_before(&p->arrays[i]))
            return false;
    return true;
}

static void judge(enum call call, const struct part *p, unsigned answer)
{
    if (answer >= ANSWERS || !(calls[call].answers & ONE(answer)))
        fail(call, answer, "not an answer of this call");
    answered[call][answer]++;
    if ((REFUSALS & ONE(answer)) && !as_before(p))
        fail(call, answer, "a refusal that changed something");
}

static void judge_question(enum call call, const struct part *p, unsigned answer)
{
    judge(call, p, answer);
    if (!as_before(p))
        fail(call, answer, "a question that changed something");
}

/* ---- sections */

static uint8_t section_arena[8192];
static struct array section;

static uint32_t crc_of(const uint8_t *bytes, size_t n)
{
    uint32_t r = UINT32_MAX;
    for (size_t i = 0; i < n; i++) {
        r ^= (uint32_t)bytes[i] << 24;
        for (int k = 0; k < 8; k++)
            r = r << 1 ^ (r >> 31 ? 0x04C11DB7u : 0);
    }
    return r;
}

static void seal(uint8_t *bytes, size_t n)
{
    uint32_t c = crc_of(bytes, n - 4);
    for (int k = 0; k < 4; k++)
        bytes[n - 4 + k] = (uint8_t)(c >> (24 - 8 * k));
}

static void set_length(uint8_t *bytes, size_t n)
{
    bytes[1] = (uint8_t)(0xB0 | (n - 3) >> 8);
    bytes[2] = (uint8_t)(n - 3);
}

/* A long form of a few tables, services and versions, so that sets fill up, repeat, conflict and are evicted. */
static size_t draw_long(uint8_t *b, uint8_t table_id)
{
    unsigned last = once_in(20) ? (unsigned)below(256) : (unsigned)below(3);
    size_t body = once_in(30) ? below(4000) : below(3) * 12, n = 12 + body;
    memset(b, (int)below(2), n);
    b[0] = table_id;
    set_length(b, n);
    b[3] = 0;
    b[4] = (uint8_t)below(4);
    b[5] = (uint8_t)(0xC0 | below(2) << 1 | (once_in(8) ? 0 : 1));
    b[6] = (uint8_t)below(last + (once_in(30) ? 3 : 1));
    b[7] = (uint8_t)last;
    return n;
}

/* Up to three descriptors of up to three bytes; now and then one that runs past the loop, or one byte. */
static size_t draw_descriptors(uint8_t *b)
{
    size_t n = 0;
    for (uint64_t i = below(4); i > 0; i--) {
        size_t length = below(4);
        b[n] = (uint8_t)(0x40 + below(3));
        b[n + 1] = (uint8_t)(once_in(30) ? length + 1 + below(250) : length);
        memset(b + n + 2, (int)below(256), length);
        n += 2 + length;
    }
    if (once_in(30))
        b[n++] = (uint8_t)draw();
    return n;
}

static size_t draw_event(uint8_t *b)
{
    size_t n = draw_descriptors(b + 12);
    memset(b, 0, 12);
    b[1] = (uint8_t)below(2);
    for (int i = 2; i < 10; i++)
        b[i] = (uint8_t)(once_in(8) ? draw() : below(10));
    b[10] = (uint8_t)(below(16) << 4 | n >> 8);
    b[11] = (uint8_t)n;
    return 12 + n;
}

static size_t draw_eit(uint8_t *b)
{
    static const uint8_t tables[] = {0x4E, 0x4F, 0x50, 0x50, 0x51, 0x51, 0x52, 0x5F, 0x60, 0x61, 0x6F};
    uint8_t table_id = tables[below(sizeof tables)];
    size_t events = below(3), n = 14;
    draw_long(b, table_id);
    memset(b + 8, 0, 6);
    for (size_t i = 0; i < events; i++)
        n += draw_event(b + n);
    n += 4;
    set_length(b, n);
    b[9] = (uint8_t)below(2);
    b[12] = once_in(3) ? b[7] : (uint8_t)below(8);
    b[13] = once_in(10) ? (uint8_t)draw() : (uint8_t)((table_id & 0xF0) + below(3));
    if (once_in(20) && events > 0)
        b[14 + below(n - 18)] = (uint8_t)below(40);
    return n;
}

/* A NIT, BAT or SDT section; now and then with a wrong count. */
static size_t draw_table(uint8_t *b)
{
    static const uint8_t tables[] = {0x40, 0x41, 0x42, 0x46, 0x4A};
    uint8_t table_id = tables[below(sizeof tables)];
    bool services = table_id == 0x42 || table_id == 0x46;
    size_t header = services ? 5 : 6, n = 10, second = 0;
    draw_long(b, table_id);
    memset(b + 8, 0, 4);
    if (services) {
        b[9] = (uint8_t)below(3);
        n = 11;
    } else {
        size_t first = draw_descriptors(b + 10);
        b[9] = (uint8_t)first;
        second = 10 + first;
        n = second + 2;
    }
    for (uint64_t i = below(4); i > 0; i--) {
        size_t loop = draw_descriptors(b + n + header);
        for (size_t j = 0; j < header; j++)
            b[n + j] = (uint8_t)draw();
        b[n + header - 2] = (uint8_t)(below(16) << 4);
        b[n + header - 1] = (uint8_t)loop;
        n += header + loop;
    }
    if (!services) {
        b[second] = (uint8_t)(below(16) << 4 | (n - second - 2) >> 8);
        b[second + 1] = (uint8_t)(n - second - 2);
    }
    n += 4;
    set_length(b, n);
    if (once_in(6))
        b[8 + below(n - 8)] = (uint8_t)(once_in(2) ? draw() : below(16));
    return n;
}

static size_t draw_pat(uint8_t *b)
{
    size_t programs = once_in(40) ? 252 + below(3) : below(4), n = 12 + 4 * programs + (once_in(20) ? 1 : 0);
    draw_long(b, 0);
    set_length(b, n);
    for (size_t i = 8; i < n; i++)
        b[i] = (uint8_t)below(3);
    return n;
}

/* Whether half of the sections are PATs. */
static bool many_pats;

/* A section, or the one before it once more. */
static void draw_section(void)
{
    uint8_t *b = section_arena;
    size_t n;
    if (once_in(4))
        return;
    switch (many_pats && once_in(2) ? 0 : below(8)) {
    case 0:
        n = draw_pat(b);
        break;
    case 1:
        n = draw_long(b, (uint8_t)(0x40 + below(3)));
        break;
    case 2:
        n = draw_long(b, (uint8_t)draw());
        break;
    case 4:
    case 5:
        n = draw_table(b);
        break;
    case 3: /* any bytes */
        n = below(40);
        for (size_t i = 0; i < n; i++)
            b[i] = (uint8_t)draw();
        break;
    default:
        n = draw_eit(b);
    }
    if (n >= 12)
        seal(b, n);
    if (once_in(10) && n > 0)
        b[below(n)] ^= (uint8_t)(1u << below(8));
    if (once_in(20))
        n = below(n + 1);
    lend(&section, n);
    memcpy(section.data, b, n);
}

static uint32_t draw_pid(void)
{
    switch (below(16)) {
    case 0:
        return PETRIZOLU_NO_PID;
    case 1:
        return (uint32_t)any_word();
    case 2:
        return (uint32_t)(8190 + below(4));
    default:
        return (uint32_t)(0x10 + below(3));
    }
}

/* Mostly one of two inputs, so that keys meet; each of the sixteen; and such as there are not. */
static uint32_t draw_input(void)
{
    static const uint32_t wrong[] = {16, 17, 255, 256, 257, UINT32_MAX};
    switch (below(16)) {
    case 0:
        return (uint32_t)any_word();
    case 1:
        return wrong[below(sizeof wrong / sizeof wrong[0])];
    case 2:
    case 3:
        return (uint32_t)below(PETRIZOLU_INPUTS);
    default:
        return (uint32_t)below(2);
    }
}

/* ---- lengths around what is needed */

static size_t around(size_t needed)
{
    switch (below(12)) {
    case 0:
        return needed == 0 ? 0 : needed - 1;
    case 1:
        return below(needed + 1);
    case 2:
        return needed + below(5);
    default:
        return needed;
    }
}

/* ---- the gates */

enum { KEYS, CHANGES, BUCKETS, LINKS, WATCH, PAT_SLOTS, PAT_CELLS, GATE_ARRAYS };

enum { GATE_WORDS = sizeof(petrizolu_gate) / 8, FOLLOW = offsetof(petrizolu_gate, follow) / 8, USED = offsetof(petrizolu_gate, used) / 8 };

/* Words of a watch record: the three sets, then of the PAT store the rows in use, the evictions and the head of its row. */
enum { SET_WORDS = 384, PAT_ROWS = SET_WORDS, PAT_EVICTIONS = PETRIZOLU_WATCH_PAT_EVICTIONS, PAT_HEAD = 386, PAT_LAST = PAT_HEAD + PETRIZOLU_HEAD_LAST, PAT_TICK = PAT_HEAD + 9 };

/* A row's slots stand behind 32 words that a set collector does not use. */
enum { FIRST_SLOT = 32 };

static struct part gate, indexed;

#define A(p, i) (void *)(p)->arrays[i].data, (p)->arrays[i].count
#define RECORD(p) A(p, WATCH), A(p, PAT_SLOTS), A(p, PAT_CELLS)
#define SECTION section.data, section.count

static uint64_t *watch_of(const struct part *p)
{
    return (uint64_t *)p->arrays[WATCH].data;
}

/* Whether a gate's word, or settings, say that complete PATs are followed. */
static bool follows_tables(uint64_t word)
{
    return word != 0 && word != 2;
}

static bool asks_for_tables(uint32_t settings)
{
    return (settings & (PETRIZOLU_FOLLOW | PETRIZOLU_FOLLOW_SECTIONS)) == PETRIZOLU_FOLLOW;
}

static bool has_pat_room(const struct part *p)
{
    return p->arrays[WATCH].count >= PETRIZOLU_WATCH_WORDS && p->arrays[PAT_SLOTS].count >= PETRIZOLU_PAT_SLOTS && p->arrays[PAT_CELLS].count >= PETRIZOLU_PAT_CELLS;
}

static bool pats_whole(const struct part *p)
{
    const uint64_t *watch = watch_of(p);
    const uint32_t *slots = (const uint32_t *)p->arrays[PAT_SLOTS].data;
    if (!has_pat_room(p) || watch[PAT_ROWS] > 1)
        return false;
    for (uint64_t i = 0; watch[PAT_ROWS] == 1 && i <= watch[PAT_LAST] && i < 256; i++) {
        uint32_t length = slots[FIRST_SLOT + i] >> 16, cell = slots[FIRST_SLOT + i] & 0xFFFF;
        if (length != 0 && (length < 12 || length > 1024 || cell > 255))
            return false;
    }
    return true;
}

/* The larger of the PAT store's evictions and its clock, which is its row's tick. */
static uint64_t pats_count(const struct part *p)
{
    uint64_t evictions = watch_of(p)[PAT_EVICTIONS], clock = watch_of(p)[PAT_ROWS] == 0 ? 0 : watch_of(p)[PAT_TICK];
    return evictions < clock ? clock : evictions;
}

/* That the record is as before from word `from` on, and its slots and cells. */
static bool record_as_before(const struct part *p, size_t from)
{
    const struct array *watch = &p->arrays[WATCH];
    bool words = watch->count <= from || memcmp(watch->before + 8 * from, watch->data + 8 * from, size_of(watch) - 8 * from) == 0;
    return words && array_as_before(&p->arrays[PAT_SLOTS]) && array_as_before(&p->arrays[PAT_CELLS]);
}

static bool same_array(const struct part *a, const struct part *b, int i)
{
    return size_of(&a->arrays[i]) == size_of(&b->arrays[i]) && memcmp(a->arrays[i].data, b->arrays[i].data, size_of(&a->arrays[i])) == 0;
}

/* An opening writes the three sets and, where complete PATs are followed, two words more, with 0. */
static void check_opened(enum call call, const struct part *p, uint32_t settings, unsigned answer)
{
    const uint64_t *watch = watch_of(p);
    bool tables = asks_for_tables(settings);
    if (tables && !has_pat_room(p) && answer != PETRIZOLU_BAD_PID && answer != PETRIZOLU_TOO_LITTLE)
        fail(call, answer, "opened without room for a PAT");
    if (answer == PETRIZOLU_DONE && !record_as_before(p, tables ? PAT_HEAD : SET_WORDS))
        fail(call, answer, "an opening that wrote more of the record");
    if (answer == PETRIZOLU_DONE && tables && (watch[PAT_ROWS] != 0 || watch[PAT_EVICTIONS] != 0))
        fail(call, answer, "an opening that left a PAT");
}

static unsigned gate_open(struct part *p, bool with_index, uint64_t capacity, uint32_t settings, uint64_t rule, const uint16_t *extra, size_t extras)
{
    unsigned answer;
    remember(p);
    if (with_index) {
        answer = petrizolu_indexed_open((petrizolu_gate *)p->words, capacity, settings, rule, extra, extras, A(p, KEYS), A(p, CHANGES), A(p, BUCKETS), A(p, LINKS), RECORD(p));
        judge(INDEXED_OPEN, p, answer);
    } else {
        answer = petrizolu_gate_open((petrizolu_gate *)p->words, capacity, settings, rule, extra, extras, A(p, KEYS), A(p, CHANGES), RECORD(p));
        judge(GATE_OPEN, p, answer);
    }
    check_opened(with_index ? INDEXED_OPEN : GATE_OPEN, p, settings, answer);
    return answer;
}

/* 31 tells the length, 3 the CRC that the section carries and the CRC of its bytes; every other answer leaves what was there. */
static bool failure_told(unsigned answer, const petrizolu_failure *told, const petrizolu_failure *before)
{
    switch (answer) {
    case PETRIZOLU_TOO_SHORT:
        return told->length == section.count && told->stored == 0 && told->worked == 0;
    case PETRIZOLU_CRC_MISMATCH: {
        uint32_t stored = 0;
        for (size_t i = section.count - 4; i < section.count; i++)
            stored = stored << 8 | section.data[i];
        return told->length == 0 && told->stored == stored && told->worked == crc_of(section.data, section.count - 4) && stored != told->worked;
    }
    default:
        return memcmp(told, before, sizeof *told) == 0;
    }
}

/* 10 and 11 by the PAT store where complete PATs are followed. Where they are not, it is as before; where they are, all of the record is, but after a sound section on PID 0. */
static void check_record(enum call call, const struct part *p, bool tables, bool whole, bool full, uint32_t pid, unsigned answer)
{
    bool sound = answer == PETRIZOLU_EMITTED || answer == PETRIZOLU_SUPPRESSED;
    if (tables && !whole && answer != PETRIZOLU_NOT_WHOLE)
        fail(call, answer, "a PAT store that is not whole");
    if (tables && full && answer != PETRIZOLU_NOT_WHOLE && answer != PETRIZOLU_COUNTER_FULL)
        fail(call, answer, "a PAT store whose count is at its end");
    if (!record_as_before(p, SET_WORDS) && !(tables && sound && pid == 0))
        fail(call, answer, "a section that entered the PAT store");
    if (tables && !(sound && pid == 0) && !array_as_before(&p->arrays[WATCH]))
        fail(call, answer, "a section that changed the watch");
    if (tables && sound && !pats_whole(p))
        fail(call, answer, "a PAT store that is not whole any more");
}

static unsigned gate_offer(struct part *p, bool with_index, uint32_t input, uint32_t pid)
{
    unsigned answer;
    petrizolu_failure before = {any_word(), any_word(), any_word()}, failure = before;
    bool tables = follows_tables(p->words[FOLLOW]), whole = pats_whole(p), full = whole && pats_count(p) == UINT64_MAX;
    remember(p);
    if (with_index) {
        answer = petrizolu_indexed_offer((petrizolu_gate *)p->words, A(p, KEYS), A(p, CHANGES), A(p, BUCKETS), A(p, LINKS), RECORD(p), input, pid, SECTION, &failure);
        judge(INDEXED_OFFER, p, answer);
    } else {
        answer = petrizolu_gate_offer((petrizolu_gate *)p->words, A(p, KEYS), A(p, CHANGES), RECORD(p), input, pid, SECTION, &failure);
        judge(GATE_OFFER, p, answer);
    }
    check_record(with_index ? INDEXED_OFFER : GATE_OFFER, p, tables, whole, full, pid, answer);
    if (!failure_told(answer, &failure, &before))
        fail(with_index ? INDEXED_OFFER : GATE_OFFER, answer, "tells another failure");
    if (answer != PETRIZOLU_NOT_WHOLE && answer != PETRIZOLU_COUNTER_FULL && answer != PETRIZOLU_BAD_PID && (answer == PETRIZOLU_BAD_INPUT) != (input >= PETRIZOLU_INPUTS))
        fail(with_index ? INDEXED_OFFER : GATE_OFFER, answer, "an input that there is not");
    return answer;
}

/* The record of a further input: nothing else of the gate is lent. */
static unsigned watch_open(struct part *p, uint32_t settings, const uint16_t *extra, size_t extras)
{
    unsigned answer;
    remember(p);
    answer = petrizolu_watch_open(settings, extra, extras, RECORD(p));
    judge(WATCH_OPEN, p, answer);
    check_opened(WATCH_OPEN, p, settings, answer);
    return answer;
}

static void gate_ask(struct part *p, uint32_t pid)
{
    remember(p);
    judge_question(WATCH_ASK, p, petrizolu_watch_ask(A(p, WATCH), pid));
}

static void lend_gate(struct part *p, size_t rows, bool tables, bool exact)
{
    const size_t needed[GATE_ARRAYS] = {rows, rows, rows, rows, tables ? PETRIZOLU_WATCH_WORDS : SET_WORDS, tables ? PETRIZOLU_PAT_SLOTS : 0, tables ? PETRIZOLU_PAT_CELLS : 0};
    for (int i = 0; i < GATE_ARRAYS; i++)
        lend(&p->arrays[i], exact ? needed[i] : around(needed[i]));
}

static uint32_t any_slot(void)
{
    static const uint32_t lengths[] = {1, 11, 12, 1024, 1025, 65535}, cells[] = {255, 256, 65535};
    uint32_t length = once_in(3) ? lengths[below(sizeof lengths / sizeof lengths[0])] : (uint32_t)(12 + below(1013));
    return length << 16 | (once_in(3) ? cells[below(sizeof cells / sizeof cells[0])] : (uint32_t)below(256));
}

/* Writes over one word of the PAT store, or one slot. */
static void damage_pats(struct part *p)
{
    uint32_t slot = any_slot();
    struct array *watch = &p->arrays[WATCH], *slots = &p->arrays[PAT_SLOTS];
    if (watch->count >= PETRIZOLU_WATCH_WORDS && once_in(2))
        watch_of(p)[SET_WORDS + below(PETRIZOLU_WATCH_WORDS - SET_WORDS)] = any_word();
    else if (slots->count >= PETRIZOLU_PAT_SLOTS)
        memcpy(slots->data + 4 * (FIRST_SLOT + (once_in(2) ? below(4) : below(256))), &slot, 4);
}

/* A gate that is whole over what was lent exactly, and a PAT row that came from nowhere: whole too, but for some of its slots. */
static void likely(struct part *p, uint64_t capacity)
{
    uint64_t rows = PETRIZOLU_GATE_ROWS(capacity), *watch = watch_of(p);
    for (int i = 0; i < GATE_WORDS; i++)
        p->words[i] = below(6);
    *(petrizolu_gate *)p->words = (petrizolu_gate){.capacity = capacity, .follow = below(4), .change_rule = 1 + below(2), .used = below(rows + 1), .first = below(rows)};
    watch[PAT_ROWS] = below(2);
    watch[PAT_EVICTIONS] = once_in(8) ? UINT64_MAX - below(2) : below(4);
    for (int i = 0; i < (int)PETRIZOLU_HEAD_WORDS; i++)
        watch[PAT_HEAD + i] = below(3) == 0 ? 1 : 0;
    watch[PAT_LAST] = once_in(4) ? any_word() : below(3);
    watch[PAT_TICK] = once_in(8) ? UINT64_MAX - below(2) : below(4);
    for (int i = 0; i < 256; i++) {
        uint32_t slot = once_in(4) ? 0 : (uint32_t)(12 + below(1013)) << 16 | (uint32_t)below(256);
        memcpy(p->arrays[PAT_SLOTS].data + 4 * (FIRST_SLOT + i), &slot, 4);
    }
    if (once_in(3))
        damage_pats(p);
}

/* In every history the watched PIDs are the protected ones and those that are followed. */
static void check_watch(const struct part *p, unsigned answer)
{
    const uint64_t *watch = watch_of(p);
    for (int i = 0; i < 128; i++)
        if (watch[i] != (watch[128 + i] | watch[256 + i]))
            fail(GATE_OFFER, answer, "a watch that is not the protected PIDs and the followed ones");
}

/* A PAT comes on PID 0, mostly. */
static uint32_t draw_pid_of_section(void)
{
    return section.count > 0 && section.data[0] == 0 && !once_in(4) ? 0 : draw_pid();
}

static void round_of_gates(void)
{
    uint16_t extra[3];
    uint64_t capacity = below(6);
    uint32_t settings = (uint32_t)draw();
    uint64_t rule = once_in(20) ? any_word() : once_in(8) ? below(4) : 1 + below(2);
    size_t extras = below(4);
    unsigned opened;
    bool tables = asks_for_tables(settings);
    many_pats = tables;
    for (int i = 0; i < 3; i++)
        extra[i] = (uint16_t)(once_in(20) ? 8190 + below(5) : below(8192));
    if (once_in(4)) { /* memory from nowhere */
        struct part *p = once_in(2) ? &gate : &indexed;
        bool from_likely = tables && once_in(2);
        lend_gate(p, PETRIZOLU_GATE_ROWS(capacity), tables || once_in(8), from_likely);
        for (int i = 0; i < GATE_ARRAYS; i++)
            scramble(&p->arrays[i]);
        for (int i = 0; i < GATE_WORDS; i++)
            p->words[i] = once_in(2) ? below(6) : any_word();
        if (from_likely)
            likely(p, capacity);
        for (int i = 0; i < 4; i++) {
            draw_section();
            gate_offer(p, p == &indexed, draw_input(), draw_pid_of_section());
            gate_ask(p, draw_pid());
        }
        if (once_in(2))
            watch_open(p, settings, extra, extras);
        gate_open(p, p == &indexed, once_in(4) ? any_word() : capacity, settings, rule, extra, extras);
        return;
    }
    lend_gate(&gate, PETRIZOLU_GATE_ROWS(capacity), tables, true);
    lend_gate(&indexed, PETRIZOLU_GATE_ROWS(capacity), tables, true);
    for (int i = 0; i < WATCH; i++)
        if (once_in(4))
            scramble(&indexed.arrays[i]);
    for (int i = WATCH; i < GATE_ARRAYS; i++) {
        if (once_in(4))
            scramble(&gate.arrays[i]);
        memcpy(indexed.arrays[i].data, gate.arrays[i].data, size_of(&gate.arrays[i]));
    }
    opened = gate_open(&gate, false, capacity, settings, rule, extra, extras);
    if (gate_open(&indexed, true, capacity, settings, rule, extra, extras) != opened)
        fail(INDEXED_OPEN, opened, "not as the gate without an index");
    if (opened != PETRIZOLU_DONE)
        return;
    if (once_in(4)) { /* the record that the opening wrote, by itself */
        static uint64_t watch[PETRIZOLU_WATCH_WORDS];
        uint64_t *now = watch_of(&gate);
        size_t written = tables ? PAT_HEAD : SET_WORDS;
        memcpy(watch, now, 8 * written);
        for (size_t i = 0; i < written; i++)
            now[i] = any_word();
        if (watch_open(&gate, settings, extra, extras) != PETRIZOLU_DONE || memcmp(watch, now, 8 * written) != 0)
            fail(WATCH_OPEN, opened, "not the record that opening the gate writes");
    }
    for (int i = 0; i < 12; i++) {
        uint32_t input = draw_input(), pid;
        unsigned a, b;
        draw_section();
        pid = draw_pid_of_section();
        a = gate_offer(&gate, false, input, pid);
        b = gate_offer(&indexed, true, input, pid);
        check_watch(&gate, a);
        if (a != b || memcmp(gate.words, indexed.words, sizeof gate.words) != 0 || !same_array(&gate, &indexed, WATCH) || !same_array(&gate, &indexed, PAT_SLOTS) || !same_array(&gate, &indexed, PAT_CELLS)
            || memcmp(gate.arrays[KEYS].data, indexed.arrays[KEYS].data, 8 * gate.words[USED]) != 0 || memcmp(gate.arrays[CHANGES].data, indexed.arrays[CHANGES].data, 8 * gate.words[USED]) != 0)
            fail(INDEXED_OFFER, b, "not as the gate without an index");
        gate_ask(&gate, pid);
    }
    switch (below(4)) { /* damage, and on */
    case 0:
        gate.words[below(GATE_WORDS)] = any_word();
        indexed.words[below(GATE_WORDS)] = any_word();
        break;
    case 1:
        damage(&gate.arrays[below(GATE_ARRAYS)]);
        damage(&indexed.arrays[below(GATE_ARRAYS)]);
        break;
    case 2:
        damage_pats(&gate);
        damage_pats(&indexed);
        break;
    default:
        lend_gate(&gate, PETRIZOLU_GATE_ROWS(capacity), tables, false);
        lend_gate(&indexed, PETRIZOLU_GATE_ROWS(capacity), tables, false);
    }
    for (int i = 0; i < 3; i++) {
        draw_section();
        gate_offer(&gate, false, draw_input(), draw_pid_of_section());
        gate_offer(&indexed, true, draw_input(), draw_pid_of_section());
    }
    many_pats = false;
}

/* ---- the collectors */

enum { HEADS, SLOTS, CELLS, SCHEDULE_HEADS, UNITS, EIT_ARRAYS };
enum { SETS_ARRAYS = 3, SETS_WORDS = 6, EIT_WORDS = 8 };

static struct part sets, eit;

#define SETS(p) A(p, HEADS), A(p, SLOTS), A(p, CELLS)
#define EIT(p) SETS(p), A(p, SCHEDULE_HEADS), A(p, UNITS)

/* The words of a section before the question: none that a section could have, and each another. */
#define NO_SECTION {UINT64_MAX, UINT64_MAX - 1, UINT64_MAX - 2}

static void check_part(enum call call, const struct part *p, const uint64_t next[3], unsigned answer)
{
    static const uint64_t before[3] = NO_SECTION;
    if (answer == PETRIZOLU_YES && (next[0] > 255 || next[2] < 12 || next[1] + next[2] > p->arrays[CELLS].count))
        fail(call, answer, "a section that is not in the cells");
    if (answer != PETRIZOLU_YES && memcmp(next, before, sizeof before) != 0)
        fail(call, answer, "a section where there is none");
}

/* Whether one of the first rows has 8192 in its head for a PID. */
static bool none_among(const struct array *heads, uint64_t used)
{
    const uint64_t *words = (const uint64_t *)heads->before;
    for (uint64_t row = 0; row < used && (row + 1) * PETRIZOLU_HEAD_WORDS <= heads->count; row++)
        if (words[row * PETRIZOLU_HEAD_WORDS + PETRIZOLU_HEAD_PID] == 8192)
            return true;
    return false;
}

/* 41 exactly where no PID was given, or a row in use had none before the call; 10 and 11 come before it. */
static void check_pid(enum call call, const struct part *p, bool none_given, unsigned answer)
{
    bool none = none_given || none_among(&p->arrays[HEADS], p->words_before[3]) || (p->array_count == EIT_ARRAYS && none_among(&p->arrays[SCHEDULE_HEADS], p->words_before[5]));
    if (answer != PETRIZOLU_NOT_WHOLE && answer != PETRIZOLU_COUNTER_FULL && (answer == PETRIZOLU_NO_PID_GIVEN) != none)
        fail(call, answer, "whether there is a PID");
}

/* The word with the clock is the last. */
static uint64_t *clock_of(struct part *p)
{
    return &p->words[(p->array_count == EIT_ARRAYS ? EIT_WORDS : SETS_WORDS) - 1];
}

/* 22: the key becomes newest by the clock that has risen, else as before. Ticks are words of the heads. */
static void check_conflict(enum call call, struct part *p)
{
    const uint64_t *now = (const uint64_t *)p->arrays[HEADS].data, *before = (const uint64_t *)p->arrays[HEADS].before;
    uint64_t clock = (*clock_of(p))--;
    if (memcmp(p->words, p->words_before, sizeof p->words) != 0)
        fail(call, 22, "counts changed");
    *clock_of(p) = clock;
    for (size_t i = 0; i < p->array_count; i++)
        if (i != HEADS && !array_as_before(&p->arrays[i]))
            fail(call, 22, "more than the order changed");
    for (size_t i = 0; i < p->arrays[HEADS].count; i++)
        if (i % PETRIZOLU_HEAD_WORDS != 9 && now[i] != before[i])
            fail(call, 22, "more than the order changed");
}

static void check_row(enum call call, uint64_t row, unsigned answer, uint64_t used)
{
    bool told = answer == PETRIZOLU_SET || answer == PETRIZOLU_SCHEDULE;
    if (told ? row >= used : row != 77)
        fail(call, answer, "the row that is told");
}

static void sets_push(uint32_t pid)
{
    uint64_t row[1] = {77};
    unsigned answer;
    remember(&sets);
    answer = petrizolu_sets_push((petrizolu_sets *)sets.words, SETS(&sets), draw_input(), pid, SECTION, row);
    judge(SETS_PUSH, &sets, answer);
    check_pid(SETS_PUSH, &sets, pid == PETRIZOLU_NO_PID, answer);
    if (answer == PETRIZOLU_CONFLICT)
        check_conflict(SETS_PUSH, &sets);
    check_row(SETS_PUSH, row[0], answer, sets.words[3]);
}

static void push_all(enum call call, struct part *p);

static void sets_next(uint64_t row, uint64_t from)
{
    uint64_t next[3] = NO_SECTION;
    unsigned answer;
    remember(&sets);
    answer = petrizolu_sets_next((const petrizolu_sets *)sets.words, SETS(&sets), row, from, (petrizolu_section *)next);
    judge_question(SETS_NEXT, &sets, answer);
    check_pid(SETS_NEXT, &sets, false, answer);
    check_part(SETS_NEXT, &sets, next, answer);
}

static void sets_clear(void)
{
    unsigned answer;
    remember(&sets);
    answer = petrizolu_sets_clear((petrizolu_sets *)sets.words, SETS(&sets));
    judge(SETS_CLEAR, &sets, answer);
    check_pid(SETS_CLEAR, &sets, false, answer);
}

static void sets_open(uint64_t limit, uint64_t size, uint64_t count)
{
    remember(&sets);
    judge(SETS_OPEN, &sets, petrizolu_sets_open((petrizolu_sets *)sets.words, limit, size, count, SETS(&sets)));
}

static unsigned eit_push(uint32_t pid, uint64_t *told)
{
    uint64_t row[1] = {77};
    unsigned answer;
    remember(&eit);
    answer = petrizolu_eit_push((petrizolu_eit *)eit.words, EIT(&eit), draw_input(), pid, SECTION, row);
    judge(EIT_PUSH, &eit, answer);
    check_pid(EIT_PUSH, &eit, pid == PETRIZOLU_NO_PID, answer);
    if (answer == PETRIZOLU_CONFLICT)
        check_conflict(EIT_PUSH, &eit);
    check_row(EIT_PUSH, row[0], answer, answer == PETRIZOLU_SET ? eit.words[3] : eit.words[5]);
    *told = row[0];
    return answer;
}

static void eit_next(uint64_t row, uint64_t from)
{
    uint64_t next[3] = NO_SECTION;
    unsigned answer;
    remember(&eit);
    answer = petrizolu_eit_next((const petrizolu_eit *)eit.words, EIT(&eit), row, from, (petrizolu_section *)next);
    judge_question(EIT_NEXT, &eit, answer);
    check_pid(EIT_NEXT, &eit, false, answer);
    check_part(EIT_NEXT, &eit, next, answer);
}

static void eit_next_in_schedule(uint64_t row, uint64_t table, uint64_t from)
{
    uint64_t next[3] = NO_SECTION;
    unsigned answer;
    remember(&eit);
    answer = petrizolu_eit_next_in_schedule((const petrizolu_eit *)eit.words, EIT(&eit), row, table, from, (petrizolu_section *)next);
    judge_question(EIT_NEXT_IN_SCHEDULE, &eit, answer);
    check_pid(EIT_NEXT_IN_SCHEDULE, &eit, false, answer);
    check_part(EIT_NEXT_IN_SCHEDULE, &eit, next, answer);
}

/* ---- the entries of sections and rows */

static struct array list;

/* What is told before a question. */
static const petrizolu_listed untold = {UINT64_MAX, UINT64_MAX - 1, UINT64_MAX - 2};

static uint32_t seconds_of(const uint8_t *b)
{
    uint32_t unit[3] = {3600, 60, 1}, sum = 0;
    for (int i = 0; i < 3; i++) {
        if (b[i] >> 4 > 9 || (b[i] & 15) > 9)
            return PETRIZOLU_UNDEFINED;
        sum += unit[i] * (uint32_t)((b[i] >> 4) * 10 + (b[i] & 15));
    }
    return sum;
}

/* The entry at a place: an event, or a descriptor. */
static petrizolu_entry entry_at(uint32_t kind, uint32_t number, const uint8_t *bytes, size_t at)
{
    const uint8_t *b = bytes + at;
    petrizolu_entry entry = {.kind = kind, .section = number, .at = (uint32_t)at, .id = b[0], .length = b[1]};
    if (kind == PETRIZOLU_EVENT) {
        entry.id = (uint32_t)b[0] << 8 | b[1];
        entry.length = (uint32_t)(b[10] & 15) << 8 | b[11];
        entry.day = (uint32_t)b[2] << 8 | b[3];
        entry.time = seconds_of(b + 4);
        entry.duration = seconds_of(b + 7);
        entry.running_status = b[10] >> 5;
        entry.free_ca_mode = b[10] >> 4 & 1;
    }
    return entry;
}

static void lend_list(void)
{
    lend(&list, once_in(3) ? below(40) : PETRIZOLU_LIST_WORDS(below(6)));
    scramble(&list);
    memcpy(list.before, list.data, size_of(&list));
}

static uint64_t draw_skip(void)
{
    return once_in(8) ? any_word() : below(4);
}

/* How many entries the page shows. */
static uint64_t on_page(const petrizolu_listed *listed, uint64_t skip)
{
    uint64_t room = list.count / PETRIZOLU_ENTRY_WORDS, left = listed->count > skip ? listed->count - skip : 0;
    return left < room ? left : room;
}

/* 10, 41 and 14 write nothing; else 8 and 9 by the count, a place only where the listing ended early, and what is behind the page as before. */
static void check_listed(enum call call, unsigned answer, const petrizolu_listed *listed, uint64_t skip)
{
    size_t shown;
    if (answer == PETRIZOLU_NOT_WHOLE || answer == PETRIZOLU_NO_PID_GIVEN || answer == PETRIZOLU_MALFORMED) {
        if (memcmp(listed, &untold, sizeof untold) != 0 || !array_as_before(&list))
            fail(call, answer, "a refusal that wrote");
        return;
    }
    shown = on_page(listed, skip) * sizeof(petrizolu_entry);
    if (memcmp(list.before + shown, list.data + shown, size_of(&list) - shown) != 0)
        fail(call, answer, "words behind the page were written");
    if (answer <= PETRIZOLU_NO && ((answer == PETRIZOLU_YES) != (listed->count > skip) || listed->section != 0 || listed->place != 0))
        fail(call, answer, "what is told of a whole listing");
    if (answer > PETRIZOLU_NO && (listed->section > 255 || (answer != PETRIZOLU_PAST_LOOP && listed->place != 0)))
        fail(call, answer, "what is told of a listing that ended early");
}

/* What a section says, worked out here. */
static unsigned expected(const uint8_t *b, size_t n, petrizolu_listed *listed, petrizolu_entry *entries)
{
    uint32_t number = n > 6 ? b[6] : 0;
    size_t end, at = 14;
    if (n < 3 || n != 3 + ((size_t)(b[1] & 15) << 8 | b[2]) || (b[1] & 0x80 && n < 12))
        return PETRIZOLU_MALFORMED;
    *listed = (petrizolu_listed){0, number, 0};
    if (b[0] < 0x4E || b[0] > 0x6F)
        return PETRIZOLU_NOT_EIT;
    if (n < 18)
        return PETRIZOLU_BROKEN_EIT;
    for (end = n - 4; at < end; at += 12 + ((size_t)(b[at + 10] & 15) << 8 | b[at + 11]))
        if (end - at < 12)
            return PETRIZOLU_BROKEN_EIT;
    if (at != end)
        return PETRIZOLU_BROKEN_EIT;
    for (at = 14; at < end;) {
        size_t stop = at + 12 + ((size_t)(b[at + 10] & 15) << 8 | b[at + 11]);
        entries[listed->count++] = entry_at(PETRIZOLU_EVENT, number, b, at);
        for (at += 12; at < stop; at += 2 + (size_t)b[at + 1]) {
            if (stop - at < 2 || stop - at - 2 < b[at + 1]) {
                listed->place = at;
                return PETRIZOLU_PAST_LOOP;
            }
            entries[listed->count++] = entry_at(PETRIZOLU_DESCRIPTOR, number, b, at);
        }
    }
    listed->section = 0;
    return 0;
}

static void section_events(void)
{
    static petrizolu_entry entries[8192 / 2];
    petrizolu_listed listed = untold, known = untold;
    uint64_t skip = draw_skip();
    unsigned answer, should;
    lend_list();
    memcpy(section.before, section.data, section.count);
    answer = petrizolu_events(SECTION, skip, (petrizolu_entry *)list.data, list.count, &listed);
    should = expected(section.data, section.count, &known, entries);
    if (should == 0)
        should = known.count > skip ? PETRIZOLU_YES : PETRIZOLU_NO;
    if (answer >= ANSWERS || !(calls[EVENTS].answers & ONE(answer)) || answer != should)
        fail(EVENTS, answer, "not the answer of this section");
    answered[EVENTS][answer]++;
    check_listed(EVENTS, answer, &listed, skip);
    if (memcmp(&listed, &known, sizeof known) != 0 || !array_as_before(&section))
        fail(EVENTS, answer, "what is told of the section");
    if (answer != PETRIZOLU_MALFORMED && on_page(&listed, skip) > 0 && memcmp(list.data, entries + skip, on_page(&listed, skip) * sizeof entries[0]) != 0)
        fail(EVENTS, answer, "not the entries of the section");
}

/* The entries of a row say what stands in the cells. */
static void check_entries(enum call call, unsigned answer, const petrizolu_listed *listed, uint64_t skip)
{
    const struct array *cells = &eit.arrays[CELLS];
    for (uint64_t i = 0; i < on_page(listed, skip); i++) {
        petrizolu_entry entry, known;
        size_t least;
        memcpy(&entry, list.data + i * sizeof entry, sizeof entry);
        least = entry.kind == PETRIZOLU_EVENT ? 12 : 2;
        if ((entry.kind != PETRIZOLU_EVENT && entry.kind != PETRIZOLU_DESCRIPTOR) || entry.section > 255 || entry.at + least + entry.length > cells->count)
            fail(call, answer, "an entry that is not in the cells");
        known = entry_at(entry.kind, entry.section, cells->data, entry.at);
        if (memcmp(&entry, &known, sizeof known) != 0)
            fail(call, answer, "an entry that says something else");
    }
}

static void eit_events(bool in_schedule, uint64_t row, uint64_t table)
{
    enum call call = in_schedule ? EIT_EVENTS_IN_SCHEDULE : EIT_EVENTS;
    petrizolu_listed listed = untold;
    uint64_t skip = draw_skip();
    unsigned answer;
    lend_list();
    remember(&eit);
    if (in_schedule)
        answer = petrizolu_eit_events_in_schedule((const petrizolu_eit *)eit.words, EIT(&eit), row, table, skip, (petrizolu_entry *)list.data, list.count, &listed);
    else
        answer = petrizolu_eit_events((const petrizolu_eit *)eit.words, EIT(&eit), row, skip, (petrizolu_entry *)list.data, list.count, &listed);
    judge_question(call, &eit, answer);
    check_pid(call, &eit, false, answer);
    check_listed(call, answer, &listed, skip);
    if (answer != PETRIZOLU_NOT_WHOLE && answer != PETRIZOLU_NO_PID_GIVEN)
        check_entries(call, answer, &listed, skip);
}

/* A date of any number: counted as 8, none as 9. */
static void date(void)
{
    uint32_t day = (uint32_t)(once_in(2) ? below(70000) : any_word()), told = petrizolu_date(day);
    uint32_t year = told / 10000, month = told / 100 % 100, in_month = told % 100;
    bool there = day >= 15079 && day <= 65535;
    if (there != (told != 0) || (there && (year < 1900 || year > 2038 || month < 1 || month > 12 || in_month < 1 || in_month > 31)))
        fail(DATE, there ? PETRIZOLU_YES : PETRIZOLU_NO, "no date");
    answered[DATE][there ? PETRIZOLU_YES : PETRIZOLU_NO]++;
}

/* What a NIT, BAT or SDT section says, worked out here. */
static unsigned expected_descriptors(const uint8_t *b, size_t at, size_t stop, petrizolu_listed *listed, petrizolu_entry *entries)
{
    while (at < stop) {
        if (stop - at < 2 || stop - at - 2 < b[at + 1]) {
            listed->place = at;
            return PETRIZOLU_BROKEN_LOOP;
        }
        entries[listed->count++] = entry_at(PETRIZOLU_DESCRIPTOR, (uint32_t)listed->section, b, at);
        at += 2 + (size_t)b[at + 1];
    }
    return 0;
}

static petrizolu_entry table_entry_at(uint32_t kind, uint32_t number, const uint8_t *bytes, size_t at, uint32_t network)
{
    const uint8_t *b = bytes + at;
    petrizolu_entry entry = {.kind = kind, .section = number, .at = (uint32_t)at, .id = (uint32_t)b[0] << 8 | b[1]};
    if (kind == PETRIZOLU_SERVICE) {
        entry.length = (uint32_t)(b[3] & 15) << 8 | b[4];
        entry.original_network_id = network;
        entry.running_status = b[3] >> 5;
        entry.free_ca_mode = b[3] >> 4 & 1;
        entry.eit_flags = b[2] & 3;
    } else {
        entry.length = (uint32_t)(b[4] & 15) << 8 | b[5];
        entry.original_network_id = (uint32_t)b[2] << 8 | b[3];
    }
    return entry;
}

static unsigned expected_table(uint32_t reader, const uint8_t *b, size_t n, petrizolu_listed *listed, petrizolu_entry *entries)
{
    uint8_t table_id = n > 0 ? b[0] : 0;
    bool services = reader == PETRIZOLU_SDT;
    size_t header = services ? 5 : 6, end = n - 4, at = 11;
    uint32_t network = 0;
    *listed = (petrizolu_listed){0, n > 6 ? b[6] : 0, 0};
    if (!((reader == PETRIZOLU_NIT && (table_id == 0x40 || table_id == 0x41)) || (reader == PETRIZOLU_BAT && table_id == 0x4A) ||
          (services && (table_id == 0x42 || table_id == 0x46))))
        return PETRIZOLU_OTHER_TABLE;
    listed->place = 1;
    if (n < 3 || n != 3 + ((size_t)(b[1] & 15) << 8 | b[2]))
        return PETRIZOLU_BROKEN_LOOP;
    listed->place = services ? 11 : 8;
    if (n < (services ? 15u : 16u))
        return PETRIZOLU_BROKEN_LOOP;
    if (services) {
        network = (uint32_t)b[8] << 8 | b[9];
    } else {
        size_t second = 10 + ((size_t)(b[8] & 15) << 8 | b[9]);
        if (second + 2 > end)
            return PETRIZOLU_BROKEN_LOOP;
        if (expected_descriptors(b, 10, second, listed, entries) != 0)
            return PETRIZOLU_BROKEN_LOOP;
        at = second + 2;
        listed->place = second;
        if (at + ((size_t)(b[second] & 15) << 8 | b[second + 1]) != end)
            return PETRIZOLU_BROKEN_LOOP;
    }
    while (at < end) {
        size_t stop;
        listed->place = at;
        if (end - at < header)
            return PETRIZOLU_BROKEN_LOOP;
        stop = at + header + ((size_t)(b[at + header - 2] & 15) << 8 | b[at + header - 1]);
        if (stop > end)
            return PETRIZOLU_BROKEN_LOOP;
        entries[listed->count++] = table_entry_at(services ? PETRIZOLU_SERVICE : PETRIZOLU_TRANSPORT_STREAM, (uint32_t)listed->section, b, at, network);
        if (expected_descriptors(b, at + header, stop, listed, entries) != 0)
            return PETRIZOLU_BROKEN_LOOP;
        at = stop;
    }
    listed->section = listed->place = 0;
    return 0;
}

static uint32_t draw_reader(void)
{
    return once_in(8) ? (uint32_t)any_word() : 1 + (uint32_t)below(3);
}

/* 35 and 36 count nothing and leave the list; they tell a section, 35 at its first byte. */
static void check_refused_listing(enum call call, unsigned answer, const petrizolu_listed *listed)
{
    if (answer != PETRIZOLU_OTHER_TABLE && answer != PETRIZOLU_BROKEN_LOOP)
        return;
    if (listed->count != 0 || listed->section > 255 || !array_as_before(&list) || (answer == PETRIZOLU_OTHER_TABLE) != (listed->place == 0))
        fail(call, answer, "a refusal that listed something");
}

static void section_entries(void)
{
    static petrizolu_entry entries[8192 / 2];
    petrizolu_listed listed = untold, known = untold;
    uint64_t skip = draw_skip();
    uint32_t reader = draw_reader();
    unsigned answer, should;
    lend_list();
    memcpy(section.before, section.data, section.count);
    answer = petrizolu_entries(reader, SECTION, skip, (petrizolu_entry *)list.data, list.count, &listed);
    should = expected_table(reader, section.data, section.count, &known, entries);
    if (should == 0)
        should = known.count > skip ? PETRIZOLU_YES : PETRIZOLU_NO;
    else
        known.count = 0;
    if (answer >= ANSWERS || !(calls[ENTRIES].answers & ONE(answer)) || answer != should)
        fail(ENTRIES, answer, "not the answer of this section");
    answered[ENTRIES][answer]++;
    check_refused_listing(ENTRIES, answer, &listed);
    if (answer <= PETRIZOLU_NO)
        check_listed(ENTRIES, answer, &listed, skip);
    if (memcmp(&listed, &known, sizeof known) != 0 || !array_as_before(&section))
        fail(ENTRIES, answer, "what is told of the section");
    if (on_page(&listed, skip) > 0 && memcmp(list.data, entries + skip, on_page(&listed, skip) * sizeof entries[0]) != 0)
        fail(ENTRIES, answer, "not the entries of the section");
}

/* The entries of a row say what stands in the cells; the network of a service is its section's. */
static void check_table_entries(unsigned answer, const petrizolu_listed *listed, uint64_t skip)
{
    const struct array *cells = &sets.arrays[CELLS];
    for (uint64_t i = 0; i < on_page(listed, skip); i++) {
        petrizolu_entry entry, known;
        size_t least;
        memcpy(&entry, list.data + i * sizeof entry, sizeof entry);
        least = entry.kind == PETRIZOLU_SERVICE ? 5 : entry.kind == PETRIZOLU_TRANSPORT_STREAM ? 6 : 2;
        if (entry.kind < PETRIZOLU_DESCRIPTOR || entry.kind > PETRIZOLU_SERVICE || entry.section > 255 || entry.at + least + entry.length > cells->count)
            fail(SETS_ENTRIES, answer, "an entry that is not in the cells");
        known = entry.kind == PETRIZOLU_DESCRIPTOR ? entry_at(entry.kind, entry.section, cells->data, entry.at)
                                                   : table_entry_at(entry.kind, entry.section, cells->data, entry.at, entry.original_network_id);
        if (memcmp(&entry, &known, sizeof known) != 0)
            fail(SETS_ENTRIES, answer, "an entry that says something else");
    }
}

static void sets_entries(uint64_t row)
{
    petrizolu_listed listed = untold;
    uint64_t skip = draw_skip();
    unsigned answer;
    lend_list();
    remember(&sets);
    answer = petrizolu_sets_entries(draw_reader(), (const petrizolu_sets *)sets.words, SETS(&sets), row, skip, (petrizolu_entry *)list.data, list.count, &listed);
    judge_question(SETS_ENTRIES, &sets, answer);
    check_pid(SETS_ENTRIES, &sets, false, answer);
    check_refused_listing(SETS_ENTRIES, answer, &listed);
    if (answer <= PETRIZOLU_NOT_WHOLE || answer == PETRIZOLU_NO_PID_GIVEN)
        check_listed(SETS_ENTRIES, answer, &listed, skip);
    if (answer <= PETRIZOLU_NO)
        check_table_entries(answer, &listed, skip);
}

static void eit_clear(void)
{
    unsigned answer;
    remember(&eit);
    answer = petrizolu_eit_clear((petrizolu_eit *)eit.words, EIT(&eit));
    judge(EIT_CLEAR, &eit, answer);
    check_pid(EIT_CLEAR, &eit, false, answer);
}

static void eit_drop(void)
{
    uint64_t filter[7];
    unsigned answer;
    for (int i = 0; i < 7; i++)
        filter[i] = once_in(3) ? below(4) : PETRIZOLU_ANY;
    if (once_in(2))
        filter[0] = draw_pid();
    if (once_in(4))
        filter[6] = draw_input();
    remember(&eit);
    answer = petrizolu_eit_drop((petrizolu_eit *)eit.words, EIT(&eit), (const petrizolu_filter *)filter);
    judge(EIT_DROP, &eit, answer);
    check_pid(EIT_DROP, &eit, filter[0] == PETRIZOLU_NO_PID, answer);
}

static void eit_open(uint64_t limit, uint64_t size, uint64_t count)
{
    remember(&eit);
    judge(EIT_OPEN, &eit, petrizolu_eit_open((petrizolu_eit *)eit.words, limit, size, count, EIT(&eit)));
}

static void lend_collector(struct part *p, size_t limit, size_t size, size_t count, bool exact)
{
    const size_t needed[EIT_ARRAYS] = {PETRIZOLU_HEADS(limit), PETRIZOLU_SLOTS(limit), PETRIZOLU_CELLS(size, count), PETRIZOLU_HEADS(limit), PETRIZOLU_UNITS(limit)};
    for (size_t i = 0; i < p->array_count; i++)
        lend(&p->arrays[i], exact ? needed[i] : around(needed[i]));
}

/* Every kind of call on the set collector, in the state that it is in. */
static void use_sets(int times)
{
    while (times-- > 0) {
        draw_section();
        sets_push(draw_pid());
        if (once_in(3))
            push_all(SETS_PUSH_ALL, &sets);
        if (once_in(2))
            section_entries();
        if (once_in(2))
            sets_entries(once_in(8) ? any_word() : below(4));
        if (once_in(2))
            sets_next(once_in(8) ? any_word() : below(4), once_in(8) ? any_word() : below(4));
        if (once_in(40))
            sets_clear();
    }
}

static void use_eit(int times)
{
    while (times-- > 0) {
        uint64_t row;
        unsigned answer;
        draw_section();
        if (once_in(3))
            push_all(EIT_PUSH_ALL, &eit);
        answer = eit_push(draw_pid(), &row);
        if (answer == PETRIZOLU_SET || answer == PETRIZOLU_SCHEDULE)
            eit_events(answer == PETRIZOLU_SCHEDULE, row, below(2));
        if (once_in(2))
            eit_next(once_in(8) ? any_word() : below(4), once_in(8) ? any_word() : below(4));
        if (once_in(2))
            eit_next_in_schedule(once_in(8) ? any_word() : below(4), once_in(8) ? any_word() : below(3), once_in(8) ? any_word() : below(4));
        if (once_in(2))
            eit_events(false, once_in(8) ? any_word() : below(4), 0);
        if (once_in(2))
            eit_events(true, once_in(8) ? any_word() : below(4), once_in(8) ? any_word() : below(3));
        if (once_in(2))
            section_events();
        if (once_in(20))
            date();
        if (once_in(20))
            eit_drop();
        if (once_in(40))
            eit_clear();
    }
}

/* Bytes of sections that are kept, among them their table_ids, counts and lengths. */
static void damage_sections(struct array *cells, size_t size, size_t count)
{
    for (size_t i = 0; i < count && cells->count == size * count; i++)
        if (once_in(2))
            cells->data[i * size + (once_in(3) ? 0 : below(size))] = (uint8_t)below(96);
}

/* A row of before 2026-12, in use or not, or one that is nearly such a row. */
static void damage_head(struct array *heads, size_t limit)
{
    static const uint64_t pids[] = {8192, 8192, 8191, 8193, UINT64_MAX};
    if (limit > 0 && heads->count >= PETRIZOLU_HEADS(limit))
        ((uint64_t *)heads->data)[below(limit) * PETRIZOLU_HEAD_WORDS + PETRIZOLU_HEAD_PID] = pids[below(sizeof pids / sizeof pids[0])];
}

static void damage_part(struct part *p, size_t word_count, size_t limit, size_t size, size_t count)
{
    if (once_in(4)) {
        damage_head(&p->arrays[p == &eit && once_in(2) ? SCHEDULE_HEADS : HEADS], limit);
        if (p == &eit)
            eit_drop();
        p == &eit ? eit_clear() : sets_clear();
        return;
    }
    if (p == &eit && once_in(3)) {
        damage_sections(&p->arrays[CELLS], size, count);
        for (uint64_t row = 0; row < 4; row++) {
            eit_events(false, row, 0);
            eit_events(true, row, below(2));
        }
        return;
    }
    if (p == &sets && once_in(3)) {
        damage_sections(&p->arrays[CELLS], size, count);
        for (uint64_t row = 0; row < 4; row++)
            sets_entries(row);
        return;
    }
    switch (below(4)) {
    case 0:
        p->words[below(word_count)] = any_word();
        break;
    case 1:
        lend_collector(p, limit, size, count, false);
        break;
    default:
        for (int i = 0; i < 3; i++)
            damage(&p->arrays[below(p->array_count)]);
    }
}

static void round_of_collectors(void)
{
    size_t limit = below(5), size = once_in(4) ? 12 + below(100) : 64, count = below(12);
    bool with_eit = once_in(2);
    struct part *p = with_eit ? &eit : &sets;
    size_t word_count = with_eit ? EIT_WORDS : SETS_WORDS;
    if (once_in(5)) { /* memory from nowhere */
        lend_collector(p, limit, size, count, false);
        for (size_t i = 0; i < p->array_count; i++)
            scramble(&p->arrays[i]);
        for (size_t i = 0; i < word_count; i++)
            p->words[i] = any_word();
        if (once_in(2)) {
            const uint64_t good[EIT_WORDS] = {limit, size, count, below(limit + 1), draw(), below(limit + 1), draw(), draw()};
            memcpy(p->words, good, word_count * sizeof good[0]);
        }
    } else {
        lend_collector(p, limit, size, count, !once_in(10));
        if (with_eit)
            eit_open(once_in(20) ? any_word() : limit, once_in(20) ? any_word() : size, once_in(20) ? any_word() : count);
        else
            sets_open(once_in(20) ? any_word() : limit, once_in(20) ? any_word() : size, once_in(20) ? any_word() : count);
    }
    with_eit ? use_eit(24) : use_sets(24);
    damage_part(p, word_count, limit, size, count);
    with_eit ? use_eit(6) : use_sets(6);
}

/* ---- packets */

/* Behind the arrays of a gate; and behind its words those of the streams. */
enum { PID_WORDS = GATE_ARRAYS, BUFFERS, PLACES, FEED_ARRAYS };
enum { COUNT = GATE_WORDS, PACKETS, MALFORMED, FEED_WORDS };
enum { PACKET = PETRIZOLU_PACKET_BYTES, BUFFER = PETRIZOLU_BUFFER_BYTES, MOST_SECTIONS = 61, LONGEST = 4098 };

static struct part feeds, indexed_feeds;

/* ---- a sender, so that sections go on from packet to packet */

static uint8_t packet_bytes[256];
static struct array packet;
static struct {
    uint8_t counter, rest[LONGEST];
    size_t left;
} senders[6];
static const uint16_t sender_pids[6] = {0x0000, 0x0000, 0x0011, 0x0014, 0x0101, 0x1FFF};

/* Sections are small, mostly, so that several are in a packet; now and then one of 3 bytes, or of the most. */
static size_t draw_small(uint8_t *b)
{
    size_t n = once_in(40) ? 3 : once_in(30) ? 3 + below(4096) : 3 + below(60);
    if (!once_in(3)) {
        draw_section();
        if (section.count > 0 && section.count <= LONGEST && section.data[0] != 0xFF) {
            memcpy(b, section.data, section.count);
            return section.count;
        }
    }
    for (size_t i = 0; i < n; i++)
        b[i] = (uint8_t)below(3);
    b[0] = (uint8_t)(0x70 + below(3));
    b[1] = (uint8_t)(0x70 | (n - 3) >> 8);
    b[2] = (uint8_t)(n - 3);
    return n;
}

/* The payload from `at` on: what is left of a section, then others, then stuffing. */
static bool draw_payload(int s, size_t at)
{
    uint8_t *b = packet_bytes;
    size_t left = senders[s].left;
    bool starts = left + 2 <= PACKET - at && !once_in(6);
    if (starts) {
        b[at++] = (uint8_t)left;
    } else if (left > PACKET - at) {
        left = PACKET - at;
    }
    memcpy(b + at, senders[s].rest, left);
    memmove(senders[s].rest, senders[s].rest + left, senders[s].left - left);
    senders[s].left -= left;
    at += left;
    while (starts && at < PACKET && !once_in(4)) {
        size_t n = draw_small(senders[s].rest), part = n < PACKET - at ? n : PACKET - at;
        memcpy(b + at, senders[s].rest, part);
        memmove(senders[s].rest, senders[s].rest + part, n - part);
        senders[s].left = n - part;
        at += part;
    }
    memset(b + at, 0xFF, PACKET - at);
    return starts;
}

/* A packet, or the one before it once more; then perhaps damaged, or of another length. */
static void draw_packet(void)
{
    uint8_t *b = packet_bytes;
    size_t n = PACKET, at = 4;
    if (!once_in(10)) {
        int s = (int)below(6);
        uint16_t pid = once_in(30) ? (uint16_t)below(8192) : sender_pids[s];
        b[0] = 0x47;
        b[3] = 0x10 | senders[s].counter;
        if (once_in(5)) {
            b[3] |= 0x20;
            b[4] = (uint8_t)(once_in(3) ? below(256) : below(183));
            at = 5 + (size_t)b[4];
            if (at > PACKET)
                at = PACKET;
            memset(b + 5, (int)below(256), at > 5 ? at - 5 : 0);
        }
        b[1] = (uint8_t)(pid >> 8 | (draw_payload(s, at) ? 0x40 : 0));
        b[2] = (uint8_t)pid;
        senders[s].counter = (uint8_t)(once_in(12) ? below(16) : (senders[s].counter + 1) & 15);
    }
    switch (below(16)) {
    case 0:
        b[below(PACKET)] ^= (uint8_t)(1u << below(8));
        break;
    case 1:
        b[below(8)] = (uint8_t)draw();
        break;
    case 2:
        n = once_in(2) ? below(PACKET) : PACKET - 1 + below(3);
        break;
    case 3:
        for (size_t i = 4; i < PACKET; i++)
            b[i] = (uint8_t)(once_in(4) ? draw() : below(3));
        break;
    }
    lend(&packet, n);
    memcpy(packet.data, b, n);
}

/* ---- what a packet has to leave, by ISO/IEC 13818-1, 2.4.3 and 2.4.4, and docs/RULES.md, "Packets" */

struct outcome {
    unsigned answer;
    uint32_t pid;
    bool read;                      /* a watched PID's payload that is no repeat */
    bool repeat, unwatched;
    uint64_t buffer, words[4];      /* its words after it */
    uint64_t count;
    struct { uint64_t where, start, length; } sections[MOST_SECTIONS];
    uint8_t front[LONGEST + PACKET];
    size_t front_bytes;             /* what stands at the buffer's front after it */
};

static uint64_t section_bytes(const uint8_t *b, uint64_t n)
{
    return n < 3 ? UINT64_MAX : 3 + ((uint64_t)(b[1] & 0x0F) << 8 | b[2]);
}

static bool near_end(uint64_t counter)
{
    return UINT64_MAX - counter <= 64;
}

static bool feed_is_whole(const struct part *p, bool with_index)
{
    const petrizolu_gate *g = (const petrizolu_gate *)p->words;
    uint64_t rows = g->capacity == 0 ? 1 : g->capacity, count = p->words[COUNT];
    for (int i = KEYS; i <= (with_index ? LINKS : CHANGES); i++)
        if (p->arrays[i].count < rows)
            return false;
    return g->used <= rows && g->first < rows && g->change_rule >= 1 && g->change_rule <= 2 && p->arrays[WATCH].count >= SET_WORDS && (!follows_tables(g->follow) || pats_whole(p))
        && count >= 1 && count <= PETRIZOLU_MOST_BUFFERS && p->arrays[PID_WORDS].count >= PETRIZOLU_PID_WORDS && p->arrays[BUFFERS].count / BUFFER >= count
        && p->arrays[PLACES].count >= PETRIZOLU_PLACES_WORDS;
}

static bool feed_is_full(const struct part *p)
{
    const petrizolu_gate *g = (const petrizolu_gate *)p->words;
    bool full = near_end(g->completed) || near_end(g->emitted) || near_end(g->suppressed) || near_end(g->crc_failures) || near_end(g->short_sections) || near_end(g->crc_mismatches) || near_end(g->evictions);
    return full || near_end(p->words[PACKETS]) || near_end(p->words[MALFORMED]) || (follows_tables(g->follow) && near_end(pats_count(p)));
}

static bool watches(const uint64_t *watch, uint32_t pid)
{
    return watch[pid / 64] >> pid % 64 & 1;
}

static bool holds(const struct part *p, uint32_t pid, uint64_t *buffer)
{
    uint64_t word = ((const uint64_t *)p->arrays[PID_WORDS].data)[4 * pid];
    *buffer = word - 1;
    return word != 0 && word <= p->words[COUNT];
}

static bool lowest_free(const struct part *p, uint64_t *buffer)
{
    for (*buffer = 0; *buffer < p->words[COUNT]; (*buffer)++) {
        bool taken = false;
        uint64_t held;
        for (uint32_t pid = 0; pid < 8192 && !taken; pid++)
            taken = holds(p, pid, &held) && held == *buffer;
        if (!taken)
            return true;
    }
    return false;
}

/* The section under way goes on with the bytes up to `to`; whether it was finished. */
static bool goes_on(struct outcome *o, size_t from, size_t to)
{
    while (o->front_bytes > 0 && o->front_bytes < section_bytes(o->front, o->front_bytes) && from < to)
        o->front[o->front_bytes++] = packet.data[from++];
    return o->front_bytes > 0 && o->front_bytes == section_bytes(o->front, o->front_bytes);
}

static void tell_section(struct outcome *o, uint64_t where, uint64_t start, uint64_t length)
{
    o->sections[o->count].where = where;
    o->sections[o->count].start = start;
    o->sections[o->count++].length = length;
}

/* Its payload: o->front has the bytes under way, if any. */
static void read_payload(struct outcome *o, size_t from)
{
    const uint8_t *b = packet.data;
    bool starts = b[1] & 0x40;
    size_t begin = PACKET, finished = 0;
    if (starts && (from == PACKET || from + 1 + b[from] > PACKET)) {
        o->front_bytes = 0;
    } else {
        begin = starts ? from + 1 + (size_t)b[from] : PACKET;
        if (goes_on(o, starts ? from + 1 : from, begin)) {
            finished = o->front_bytes;
            tell_section(o, 1, o->buffer * BUFFER, finished);
        } else if (starts) {
            o->front_bytes = 0;
        }
    }
    while (begin < PACKET && b[begin] != 0xFF) {
        uint64_t n = section_bytes(b + begin, PACKET - begin);
        if (n > PACKET - begin) {
            memcpy(o->front + o->front_bytes, b + begin, PACKET - begin);
            o->front_bytes += PACKET - begin;
            break;
        }
        tell_section(o, 0, begin, n);
        begin += n;
    }
    o->words[0] = o->buffer + 1;
    o->words[1] = b[3] & 15;
    o->words[2] = finished;
    o->words[3] = o->front_bytes - finished;
}

static void expect(struct outcome *o, const struct part *p, bool with_index, uint32_t input)
{
    const uint8_t *b = packet.data;
    const uint64_t *words;
    size_t from = 4;
    bool held;
    memset(o, 0, sizeof *o);
    if (!feed_is_whole(p, with_index)) {
        o->answer = PETRIZOLU_NOT_WHOLE;
        return;
    }
    if (feed_is_full(p) || input >= PETRIZOLU_INPUTS) {
        o->answer = feed_is_full(p) ? PETRIZOLU_COUNTER_FULL : PETRIZOLU_BAD_INPUT;
        return;
    }
    o->answer = PETRIZOLU_MALFORMED_PACKET;
    if (packet.count != PACKET || b[0] != 0x47)
        return;
    if (b[3] & 0x20)
        from = 5 + (size_t)b[4];
    if (from > PACKET)
        return;
    o->answer = PETRIZOLU_FED;
    if ((b[1] & 0x80) || (b[3] & 0xC0) || !(b[3] & 0x10))
        return;
    o->pid = (uint32_t)(b[1] & 0x1F) << 8 | b[2];
    words = (const uint64_t *)p->arrays[PID_WORDS].data + 4 * o->pid;
    o->unwatched = !watches(watch_of(p), o->pid);
    if (o->unwatched)
        return;
    held = holds(p, o->pid, &o->buffer);
    if (!held && !lowest_free(p, &o->buffer)) {
        o->answer = PETRIZOLU_NO_BUFFER;
        return;
    }
    if (held && (words[1] & 31) == (uint64_t)(b[3] & 15)) {
        o->repeat = true;
        memcpy(o->words, words, sizeof o->words);
        o->words[1] = 16 | (b[3] & 15);
        return;
    }
    o->read = true;
    if (held && ((words[1] & 15) + 1) % 16 == (uint64_t)(b[3] & 15) && words[3] <= LONGEST - 1 && words[2] <= BUFFER && words[2] + words[3] <= BUFFER) {
        const uint8_t *under = p->arrays[BUFFERS].data + o->buffer * BUFFER + words[2];
        if (section_bytes(under, words[3]) > words[3]) {
            o->front_bytes = words[3];
            memcpy(o->front, under, words[3]);
        }
    }
    read_payload(o, from);
}

static void check_place(enum call call, const uint64_t *place, const uint8_t *bytes, uint64_t length, uint64_t tally[4])
{
    bool has_crc = (bytes[1] & 0x80) || bytes[0] == 0x73;
    uint32_t stored = 0, worked = 0;
    for (uint64_t i = length < 4 ? length : length - 4; i < length; i++)
        stored = stored << 8 | bytes[i];
    if (has_crc && length >= 4)
        worked = crc_of(bytes, length - 4);
    if (has_crc && length < 4 ? place[0] != PETRIZOLU_TOO_SHORT : has_crc && stored != worked ? place[0] != PETRIZOLU_CRC_MISMATCH : place[0] != PETRIZOLU_EMITTED && place[0] != PETRIZOLU_SUPPRESSED)
        fail(call, PETRIZOLU_FED, "another answer to a section");
    if (place[0] == PETRIZOLU_CRC_MISMATCH ? place[1] != stored || place[2] != worked : place[1] != 0 || place[2] != 0)
        fail(call, PETRIZOLU_FED, "a place that tells other numbers");
    tally[place[0] == PETRIZOLU_TOO_SHORT ? 3 : place[0] - 1]++;
}

/* The words of all PIDs: those of the packet's as expected, or empty where it left; the others as before, or empty where they may have left. */
static void check_pids(enum call call, const struct part *p, const struct outcome *o, bool may_leave)
{
    static const uint64_t none[4];
    const uint64_t *now = (const uint64_t *)p->arrays[PID_WORDS].data, *before = (const uint64_t *)p->arrays[PID_WORDS].before;
    for (uint32_t pid = 0; pid < 8192; pid++) {
        bool own = pid == o->pid && (o->read || o->repeat || o->unwatched);
        const uint64_t *want = own ? o->words : before + 4 * pid;
        if (memcmp(now + 4 * pid, want, 32) != 0 && !(may_leave && memcmp(now + 4 * pid, none, 32) == 0))
            fail(call, o->answer, "other words of a PID");
        if (may_leave && !own && watches((const uint64_t *)p->arrays[WATCH].before, pid) && !watches(watch_of(p), pid) && memcmp(now + 4 * pid, none, 32) != 0)
            fail(call, o->answer, "a PID that left and keeps its words");
    }
}

static void check_fed(enum call call, const struct part *p, const struct outcome *o, uint64_t finished)
{
    const uint64_t *places = (const uint64_t *)p->arrays[PLACES].data;
    const petrizolu_gate *now = (const petrizolu_gate *)p->words, *before = (const petrizolu_gate *)p->words_before;
    uint64_t tally[4] = {0};
    bool may_leave = false;
    size_t written = 8 * PETRIZOLU_PLACE_WORDS * finished;
    if (finished != o->count)
        fail(call, o->answer, "another number of sections");
    for (uint64_t k = 0; k < finished; k++) {
        const uint64_t *place = places + PETRIZOLU_PLACE_WORDS * k;
        const uint8_t *bytes = o->sections[k].where == 0 ? packet.data + o->sections[k].start : o->front;
        const uint8_t *told = place[3] == PETRIZOLU_IN_PACKET ? packet.data : p->arrays[BUFFERS].data;
        if (place[3] != o->sections[k].where || place[4] != o->sections[k].start || place[5] != o->sections[k].length || memcmp(told + place[4], bytes, place[5]) != 0)
            fail(call, o->answer, "another section");
        may_leave = may_leave || bytes[0] == 0;
        check_place(call, place, bytes, place[5], tally);
    }
    if (memcmp(p->arrays[PLACES].data + written, p->arrays[PLACES].before + written, size_of(&p->arrays[PLACES]) - written) != 0)
        fail(call, o->answer, "places of no section written");
    check_pids(call, p, o, may_leave);
    memcpy(p->arrays[BUFFERS].before + o->buffer * BUFFER, o->front, o->front_bytes);
    if (!array_as_before(&p->arrays[BUFFERS]))
        fail(call, o->answer, "other bytes in the buffers");
    if (now->completed != before->completed + finished || now->emitted != before->emitted + tally[0] || now->suppressed != before->suppressed + tally[1] || now->crc_mismatches != before->crc_mismatches + tally[2]
        || now->short_sections != before->short_sections + tally[3] || now->crc_failures != before->crc_failures + tally[2] + tally[3] || p->words[PACKETS] != p->words_before[PACKETS] + 1
        || p->words[MALFORMED] != p->words_before[MALFORMED] || p->words[COUNT] != p->words_before[COUNT])
        fail(call, o->answer, "other counts");
    if (finished == 0 && (!array_as_before(&p->arrays[KEYS]) || !array_as_before(&p->arrays[CHANGES]) || !record_as_before(p, 0)))
        fail(call, o->answer, "a gate that changed without a section");
}

#define FED(p) A(p, PID_WORDS), A(p, BUFFERS), input, packet.data, packet.count, A(p, PLACES), &finished

#define PASSED(p) RECORD(p), passed_pids, p->arrays[PID_WORDS].count, A(p, BUFFERS), input, packet.data, packet.count, A(p, PLACES)

static petrizolu_streams passed;
static uint64_t *passed_pids;

/* Passes over the packet with copies of the streams and the PID words: how many packets that were. */
static uint64_t pass(struct part *p, bool with_index, uint32_t input)
{
    const petrizolu_gate *g = (petrizolu_gate *)p->words;
    const size_t size = size_of(&p->arrays[PID_WORDS]);
    passed = *(petrizolu_streams *)(p->words + COUNT);
    passed_pids = realloc(passed_pids, size + 1);
    memcpy(passed_pids, p->arrays[PID_WORDS].data, size);
    if (with_index)
        return petrizolu_indexed_pass(g, &passed, A(p, KEYS), A(p, CHANGES), A(p, BUCKETS), A(p, LINKS), PASSED(p));
    return petrizolu_pass(g, &passed, A(p, KEYS), A(p, CHANGES), PASSED(p));
}

/* A packet that was passed over was fed with 29 and no section, and the copies are what the feed left; of one that was not they are as before. */
static void check_pass(enum call call, struct part *p, uint64_t packets, unsigned answer, uint64_t finished)
{
    const bool one = packets == 1 && packet.count == PACKET;
    if (packets > packet.count / PACKET || (one && (answer != PETRIZOLU_FED || finished != 0)))
        fail(call, answer, "passed over");
    if ((one || packets == 0)
        && (memcmp(&passed, (one ? p->words : p->words_before) + COUNT, sizeof passed) != 0
            || memcmp(passed_pids, one ? p->arrays[PID_WORDS].data : p->arrays[PID_WORDS].before, size_of(&p->arrays[PID_WORDS])) != 0))
        fail(call, answer, "passing over left something else");
}

static unsigned feed(struct part *p, bool with_index, uint32_t input, struct outcome *o)
{
    const bool passes = once_in(4);
    uint64_t packets = 0;
    const uint64_t untold = any_word();
    uint64_t finished = untold;
    enum call call = with_index ? INDEXED_FEED : FEED;
    petrizolu_gate *g = (petrizolu_gate *)p->words;
    petrizolu_streams *streams = (petrizolu_streams *)(p->words + COUNT);
    unsigned answer;
    remember(p);
    expect(o, p, with_index, input);
    if (passes)
        packets = pass(p, with_index, input);
    if (with_index)
        answer = petrizolu_indexed_feed(g, streams, A(p, KEYS), A(p, CHANGES), A(p, BUCKETS), A(p, LINKS), RECORD(p), FED(p));
    else
        answer = petrizolu_feed(g, streams, A(p, KEYS), A(p, CHANGES), RECORD(p), FED(p));
    judge(call, p, answer);
    if (passes)
        check_pass(call, p, packets, answer, finished);
    if (answer != o->answer)
        fail(call, answer, "another answer");
    if (answer == PETRIZOLU_FED) {
        check_fed(call, p, o, finished);
        return answer;
    }
    if (finished != untold)
        fail(call, answer, "a number of sections where there is none");
    if (answer == PETRIZOLU_MALFORMED_PACKET || answer == PETRIZOLU_NO_BUFFER) {
        p->words_before[PACKETS]++;
        p->words_before[MALFORMED] += answer == PETRIZOLU_MALFORMED_PACKET;
        if (!as_before(p))
            fail(call, answer, "more than the counts changed");
    }
    return answer;
}

static unsigned streams_open(struct part *p, uint64_t count)
{
    unsigned answer;
    remember(p);
    answer = petrizolu_streams_open((petrizolu_streams *)(p->words + COUNT), count, A(p, PID_WORDS), A(p, BUFFERS));
    judge(STREAMS_OPEN, p, answer);
    if ((answer == PETRIZOLU_DONE) != (count >= 1 && count <= PETRIZOLU_MOST_BUFFERS && p->arrays[PID_WORDS].count >= PETRIZOLU_PID_WORDS && p->arrays[BUFFERS].count / BUFFER >= count))
        fail(STREAMS_OPEN, answer, "too little or too much was lent");
    if (answer == PETRIZOLU_DONE) {
        const uint64_t words[3] = {count, 0, 0};
        memcpy(p->words_before + COUNT, words, sizeof words);
        memset(p->arrays[PID_WORDS].before, 0, 8 * PETRIZOLU_PID_WORDS);
        if (!as_before(p))
            fail(STREAMS_OPEN, answer, "an opening that wrote something else");
    }
    return answer;
}

static void lend_feed(struct part *p, size_t rows, bool tables, size_t count, bool exact)
{
    lend_gate(p, rows, tables, exact);
    lend(&p->arrays[PID_WORDS], exact || !once_in(3) ? PETRIZOLU_PID_WORDS : around(PETRIZOLU_PID_WORDS));
    lend(&p->arrays[BUFFERS], exact || !once_in(3) ? PETRIZOLU_BUFFERS(count) : around(PETRIZOLU_BUFFERS(count)));
    lend(&p->arrays[PLACES], exact || !once_in(3) ? PETRIZOLU_PLACES_WORDS : around(PETRIZOLU_PLACES_WORDS));
}

/* The words of a PID that packets come on, each whole by itself. */
static void damage_pid(struct part *p)
{
    uint64_t *words = (uint64_t *)p->arrays[PID_WORDS].data + 4 * sender_pids[below(6)];
    static const uint64_t starts[] = {0, 1, 4100, 4113, 4285, 4286, 4287, 4288, 4289}, counts[] = {0, 1, 2, 3, 175, 4097, 4098, 4287, 4288};
    if (p->arrays[PID_WORDS].count < PETRIZOLU_PID_WORDS)
        return;
    switch (below(5)) {
    case 0:
        words[0] = once_in(3) ? any_word() : below(8);
        break;
    case 1:
        words[1] = once_in(3) ? any_word() : below(64);
        break;
    case 2:
        words[2] = once_in(3) ? any_word() : starts[below(sizeof starts / sizeof starts[0])];
        break;
    case 3:
        words[3] = once_in(3) ? any_word() : counts[below(sizeof counts / sizeof counts[0])];
        break;
    default:
        damage(&p->arrays[BUFFERS]);
    }
}

static void round_of_packets(void)
{
    static struct outcome outcome;
    static const uint16_t extra[2] = {0x0101, 0x1FFF};
    uint64_t capacity = below(6), count = 1 + below(4);
    uint32_t settings = (uint32_t)draw() | (once_in(8) ? 0 : PETRIZOLU_WELL_KNOWN);
    bool tables = asks_for_tables(settings);
    many_pats = tables;
    lend_feed(&feeds, PETRIZOLU_GATE_ROWS(capacity), tables, count, true);
    lend_feed(&indexed_feeds, PETRIZOLU_GATE_ROWS(capacity), tables, count, true);
    if (once_in(4)) { /* memory from nowhere, whole here and there */
        struct part *p = once_in(2) ? &feeds : &indexed_feeds;
        lend_feed(p, PETRIZOLU_GATE_ROWS(capacity), tables, count, once_in(2));
        for (int i = 0; i < FEED_ARRAYS; i++)
            scramble(&p->arrays[i]);
        if (has_pat_room(p) && p->arrays[KEYS].count >= PETRIZOLU_GATE_ROWS(capacity))
            likely(p, capacity);
        p->words[COUNT] = once_in(4) ? any_word() : count;
        p->words[PACKETS] = once_in(4) ? any_word() : below(9);
        p->words[MALFORMED] = once_in(4) ? any_word() : below(9);
        for (int i = 0; i < 6; i++) {
            draw_packet();
            feed(p, p == &indexed_feeds, draw_input(), &outcome);
            damage_pid(p);
        }
        streams_open(p, once_in(3) ? any_word() : count);
        many_pats = false;
        return;
    }
    for (int i = WATCH; i < FEED_ARRAYS; i++) {
        if (once_in(8))
            scramble(&feeds.arrays[i]);
        memcpy(indexed_feeds.arrays[i].data, feeds.arrays[i].data, size_of(&feeds.arrays[i]));
    }
    if (gate_open(&feeds, false, capacity, settings, 1 + below(2), extra, 2) != PETRIZOLU_DONE || streams_open(&feeds, count) != PETRIZOLU_DONE)
        fail(STREAMS_OPEN, 0, "enough was lent");
    if (gate_open(&indexed_feeds, true, capacity, settings, ((petrizolu_gate *)feeds.words)->change_rule, extra, 2) != PETRIZOLU_DONE || streams_open(&indexed_feeds, count) != PETRIZOLU_DONE)
        fail(STREAMS_OPEN, 0, "enough was lent");
    for (int i = 0; i < 24; i++) {
        uint32_t input = once_in(30) ? draw_input() : 0;
        unsigned a, b;
        draw_packet();
        a = feed(&feeds, false, input, &outcome);
        b = feed(&indexed_feeds, true, input, &outcome);
        if (a != b || memcmp(feeds.words, indexed_feeds.words, sizeof feeds.words) != 0)
            fail(INDEXED_FEED, b, "not as through the gate without an index");
        for (int k = WATCH; k < FEED_ARRAYS; k++)
            if (!same_array(&feeds, &indexed_feeds, k))
                fail(INDEXED_FEED, b, "not as through the gate without an index");
        if (once_in(3)) { /* the words of a PID, alike in both */
            uint64_t then = seed;
            damage_pid(&feeds);
            seed = then;
            damage_pid(&indexed_feeds);
        }
    }
    for (int i = 0; i < 3; i++) { /* damage, and on */
        struct part *p = once_in(2) ? &feeds : &indexed_feeds;
        switch (below(4)) {
        case 0:
            p->words[below(FEED_WORDS)] = any_word();
            break;
        case 1:
            damage(&p->arrays[below(FEED_ARRAYS)]);
            break;
        case 2:
            damage_pats(p);
            break;
        default:
            lend_feed(p, PETRIZOLU_GATE_ROWS(capacity), tables, count, false);
        }
        draw_packet();
        feed(p, p == &indexed_feeds, draw_input(), &outcome);
    }
    many_pats = false;
}

#include "hammer_guides.h"
#include "hammer_logs.h"
#include "hammer_all.h"

static void print_counts(void)
{
    uint64_t total = 0;
    for (int c = 0; c < CALLS; c++) {
        printf("%s:", calls[c].name);
        for (int a = 0; a < ANSWERS; a++) {
            if (answered[c][a] != 0)
                printf(" %d=%llu", a, (unsigned long long)answered[c][a]);
            total += answered[c][a];
        }
        putchar('\n');
    }
    printf("%llu calls: each answer one of its call's, each refusal left all as before\n", (unsigned long long)total);
}

int main(int argc, char **argv)
{
    uint64_t rounds;
    static const size_t elements[EIT_ARRAYS] = {8, 4, 1, 8, 4};
    seed = argc > 1 ? strtoull(argv[1], NULL, 10) : 1;
    rounds = argc > 2 ? strtoull(argv[2], NULL, 10) : 20000;
    on_heap = argc > 3 && strcmp(argv[3], "heap") == 0;
    page = (size_t)sysconf(_SC_PAGESIZE);
    make(&section, 1);
    make(&list, 4);
    make_guides();
    make_logs();
    gate.array_count = indexed.array_count = GATE_ARRAYS;
    for (int i = 0; i < GATE_ARRAYS; i++) {
        size_t element = i == PAT_SLOTS ? 4 : i == PAT_CELLS ? 1 : 8;
        make(&gate.arrays[i], element);
        make(&indexed.arrays[i], element);
    }
    make(&packet, 1);
    feeds.array_count = indexed_feeds.array_count = FEED_ARRAYS;
    for (int i = 0; i < FEED_ARRAYS; i++) {
        size_t element = i == PAT_SLOTS ? 4 : i == PAT_CELLS || i == BUFFERS ? 1 : 8;
        make(&feeds.arrays[i], element);
        make(&indexed_feeds.arrays[i], element);
    }
    sets.array_count = SETS_ARRAYS;
    eit.array_count = EIT_ARRAYS;
    for (int i = 0; i < EIT_ARRAYS; i++) {
        if (i < SETS_ARRAYS)
            make(&sets.arrays[i], elements[i]);
        make(&eit.arrays[i], elements[i]);
    }
    while (rounds-- > 0) {
        round_of_gates();
        round_of_collectors();
        round_of_packets();
        round_of_guides();
        round_of_logs();
    }
    print_counts();
    return 0;
}
