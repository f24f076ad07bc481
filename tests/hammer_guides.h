/*
 * Part of tests/hammer.c: two guides compared. Sides are cut and spliced from sections; what the three calls have to answer, list and leave is worked out here too,
 * section by section, and the list has every length around the room that is needed.
 */

/* A side, and the section that is spliced in. */
static struct array guide_bytes[2], differences;

enum { MOST_PIECES = 1 << 12 };

struct piece {
    const uint8_t *bytes;
    size_t length;
};

/* What the bytes of a side are. */
struct guide {
    struct piece pieces[MOST_PIECES];
    size_t count;
    bool is_set, is_schedule;
};

static struct guide guides[2];

static bool of_an_eit(uint8_t table_id)
{
    return table_id >= 0x4E && table_id <= 0x6F;
}

static bool one_key(const uint8_t *x, const uint8_t *y, bool schedules)
{
    if (schedules ? x[0] >> 4 != y[0] >> 4 : x[0] != y[0])
        return false;
    return x[3] == y[3] && x[4] == y[4] && (x[5] & 1) == (y[5] & 1) && (!of_an_eit(x[0]) || memcmp(x + 8, y + 8, 4) == 0);
}

static bool one_version(const uint8_t *x, const uint8_t *y)
{
    return (x[5] >> 1 & 31) == (y[5] >> 1 & 31);
}

static void read_guide(struct guide *g, const uint8_t *b, size_t n)
{
    bool whole = true;
    g->count = 0;
    while (whole && n > 0) {
        size_t size = n < 3 ? 0 : 3 + ((size_t)(b[1] & 15) << 8 | b[2]);
        whole = n >= 3 && b[1] & 0x80 && size >= 12 && size <= n && g->count < MOST_PIECES;
        if (whole) {
            g->pieces[g->count++] = (struct piece){b, size};
            b += size;
            n -= size;
        }
    }
    g->is_set = whole && g->count > 0;
    g->is_schedule = g->is_set && g->pieces[0].bytes[0] >= 0x50 && g->pieces[0].bytes[0] <= 0x6F;
    for (size_t i = 1; i < g->count; i++) {
        const uint8_t *x = g->pieces[i - 1].bytes, *y = g->pieces[i].bytes;
        bool after = one_version(x, y) && x[7] == y[7] && x[6] < y[6];
        g->is_set = g->is_set && one_key(x, y, false) && after;
        g->is_schedule = g->is_schedule && one_key(x, y, true) && (x[0] < y[0] || (x[0] == y[0] && after));
    }
}

/* ---- what is compared */

/* Sections by rising table_id and number, now and then not. */
static size_t draw_guide(uint8_t *b)
{
    static const uint8_t table_ids[] = {0x42, 0x4E, 0x50, 0x50, 0x60};
    uint8_t table_id = table_ids[below(sizeof table_ids)], version = (uint8_t)below(2), last = (uint8_t)below(4);
    size_t n = 0, number = below(2);
    for (uint64_t i = below(7); i > 0; i--) {
        size_t length = 12 + below(once_in(10) ? 600 : 8);
        uint8_t *s = b + n;
        for (size_t k = 0; k < length; k++)
            s[k] = (uint8_t)below(2);
        s[0] = table_id;
        s[1] = (uint8_t)(0xF0 | (length - 3) >> 8);
        s[2] = (uint8_t)(length - 3);
        s[3] = 0;
        s[4] = 1;
        s[5] = (uint8_t)(0xC1 | version << 1);
        s[6] = (uint8_t)number;
        s[7] = last;
        memset(s + 8, 0, 4);
        number += 1 + below(2);
        if (table_id >= 0x50 && once_in(3)) {
            table_id = (uint8_t)(table_id + 1 + below(3));
            version = (uint8_t)below(2);
            last = (uint8_t)below(4);
            number = below(3);
        }
        n += length;
    }
    return n;
}

/* A byte otherwise, a piece out, some bytes cut off, a section or some bytes in. */
static size_t splice(uint8_t *b, size_t n, const struct array *other)
{
    size_t at = n == 0 ? 0 : below(n), more;
    switch (below(6)) {
    case 0:
        if (n > 0)
            b[at] ^= (uint8_t)(1 << below(8));
        return n;
    case 1:
        read_guide(&guides[0], b, n);
        if (guides[0].count == 0)
            return n;
        at = below(guides[0].count);
        more = guides[0].pieces[at].length;
        at = (size_t)(guides[0].pieces[at].bytes - b);
        memmove(b + at, b + at + more, n - at - more);
        return n - more;
    case 2:
        return n - (n == 0 ? 0 : below(n < 20 ? n : 20));
    case 3:
        more = once_in(2) ? size_of(other) : below(4);
        if (more > size_of(other))
            more = size_of(other);
        memcpy(b + n, other->data, more);
        return n + more;
    case 4:
        /* The same version, or the same last number, in all sections of a side. */
        read_guide(&guides[0], b, n);
        more = once_in(2) ? 5 : 7;
        for (size_t i = 0; i < guides[0].count; i++)
            b[(size_t)(guides[0].pieces[i].bytes - b) + more] ^= 2;
        return n;
    default:
        return n;
    }
}

static void lend_bytes(struct array *a, const uint8_t *b, size_t n)
{
    lend(a, n);
    memcpy(a->data, b, n);
    memcpy(a->before, b, n);
}

static void draw_sides(void)
{
    static uint8_t bytes[2][1 << 15];
    size_t n = draw_guide(bytes[0]), m = n;
    memcpy(bytes[1], bytes[0], n);
    for (uint64_t i = below(3); i > 0; i--)
        m = splice(bytes[1], m, &section);
    if (once_in(10))
        n = splice(bytes[0], n, &section);
    if (once_in(20))
        m = draw_guide(bytes[1]);
    int first = (int)below(2);
    lend_bytes(&guide_bytes[first], bytes[0], n);
    lend_bytes(&guide_bytes[1 - first], bytes[1], m);
    for (int i = 0; i < 2; i++)
        read_guide(&guides[i], guide_bytes[i].data, guide_bytes[i].count);
}

/* ---- what has to come out */

static size_t first_place(struct piece x, struct piece y)
{
    size_t i = 0;
    while (i < x.length && i < y.length && x.bytes[i] == y.bytes[i])
        i++;
    return i;
}

/* The differences of two sides whose ranks rise. */
static size_t expected_differences(petrizolu_difference *out)
{
    size_t i = 0, j = 0, count = 0;
    while (i < guides[0].count || j < guides[1].count) {
        struct piece none = {NULL, 0}, x = i < guides[0].count ? guides[0].pieces[i] : none, y = j < guides[1].count ? guides[1].pieces[j] : none;
        unsigned long rank_x = x.bytes == NULL ? 65536ul : x.bytes[0] * 256ul + x.bytes[6], rank_y = y.bytes == NULL ? 65536ul : y.bytes[0] * 256ul + y.bytes[6];
        unsigned long rank = rank_x < rank_y ? rank_x : rank_y;
        petrizolu_difference d = {(uint32_t)(rank / 256), (uint32_t)(rank % 256), 0, 0};
        if (rank_x != rank_y) {
            d.kind = rank_x < rank_y ? PETRIZOLU_ONLY_FIRST : PETRIZOLU_ONLY_SECOND;
        } else if (x.length != y.length || memcmp(x.bytes, y.bytes, x.length) != 0) {
            d.kind = PETRIZOLU_OTHER_BYTES;
            d.place = (uint32_t)first_place(x, y);
        }
        if (d.kind != 0)
            out[count++] = d;
        i += rank_x == rank;
        j += rank_y == rank;
    }
    return count;
}

static const uint8_t *leader(const struct guide *g, uint8_t table_id)
{
    for (size_t i = 0; i < g->count; i++)
        if (g->pieces[i].bytes[0] == table_id)
            return g->pieces[i].bytes;
    return NULL;
}

static void expected_tables(uint32_t *words)
{
    uint8_t first = guides[0].pieces[0].bytes[0] & 0xF0;
    for (uint8_t t = 0; t < 16; t++) {
        const uint8_t *x = leader(&guides[0], first + t), *y = leader(&guides[1], first + t);
        words[t] = (x != NULL) + 2u * (y != NULL);
        if (words[t] == 3)
            words[t] += 4u * !one_version(x, y) + 8u * (x[7] != y[7]);
    }
}

static uint32_t draw_side_pid(void)
{
    static const uint32_t pids[] = {0x12, 0x12, 0x12, 0x12, 0x12, 0x1FFF, 0x2000, 0xFFFF, 0x10012, 0xFFFFFFFE, PETRIZOLU_NO_PID};
    return pids[below(sizeof pids / sizeof pids[0])];
}

static bool is_no_pid(uint32_t pid)
{
    return pid >= 8192;
}

static void sides_as_before(enum call call, unsigned answer)
{
    if (!array_as_before(&guide_bytes[0]) || !array_as_before(&guide_bytes[1]))
        fail(call, answer, "a side was written");
}

static void compare_guides(bool schedules)
{
    static petrizolu_difference known[MOST_PIECES];
    enum call call = schedules ? COMPARE_SCHEDULES : COMPARE;
    static const petrizolu_compared untold_of = {UINT64_MAX, UINT64_MAX - 1, UINT64_MAX - 2};
    petrizolu_compared told = untold_of, should_tell = untold_of;
    uint32_t p = draw_side_pid(), q = once_in(4) ? draw_side_pid() : p, tables[16], words[16];
    const uint8_t *x = guides[0].pieces[0].bytes, *y = guides[1].pieces[0].bytes;
    bool sides = schedules ? guides[0].is_schedule && guides[1].is_schedule : guides[0].is_set && guides[1].is_set;
    size_t count = sides ? expected_differences(known) : 0;
    unsigned answer, should;

    lend(&differences, once_in(4) ? below(64) : 4 * count + below(9) - (count > 0 ? 4 : 0));
    scramble(&differences);
    memcpy(differences.before, differences.data, size_of(&differences));
    memset(tables, 0xA5, sizeof tables);
    memset(words, 0xA5, sizeof words);
    should = !sides ? PETRIZOLU_NOT_WHOLE
        : p == PETRIZOLU_NO_PID || q == PETRIZOLU_NO_PID ? PETRIZOLU_NO_PID_GIVEN
        : is_no_pid(p) || is_no_pid(q) ? PETRIZOLU_BAD_PID
        : p != q || !one_key(x, y, schedules) ? PETRIZOLU_OTHER_KEY
        : differences.count / PETRIZOLU_DIFFERENCE_WORDS < count ? PETRIZOLU_NO_ROOM
        : count == 0 ? PETRIZOLU_NO : PETRIZOLU_YES;
    if (schedules)
        answer = petrizolu_compare_schedules(guide_bytes[0].data, guide_bytes[0].count, p, guide_bytes[1].data, guide_bytes[1].count, q, tables,
                                             (petrizolu_difference *)differences.data, differences.count, &told);
    else
        answer = petrizolu_compare(guide_bytes[0].data, guide_bytes[0].count, p, guide_bytes[1].data, guide_bytes[1].count, q,
                                   (petrizolu_difference *)differences.data, differences.count, &told);
    if (answer >= ANSWERS || !(calls[call].answers & ONE(answer)) || answer != should)
        fail(call, answer, "not the answer of these sides");
    answered[call][answer]++;
    sides_as_before(call, answer);
    if (answer <= PETRIZOLU_NO || answer == PETRIZOLU_NO_ROOM) {
        uint32_t all = 0;
        uint32_t of_tables[16];
        if (schedules) {
            expected_tables(of_tables);
            for (int t = 0; t < 16; t++)
                all |= of_tables[t] & 12;
        } else {
            all = 4u * !one_version(x, y) + 8u * (x[7] != y[7]);
        }
        should_tell = (petrizolu_compared){count, (all & 4) == 0, (all & 8) == 0};
        if (schedules && answer <= PETRIZOLU_NO)
            memcpy(words, of_tables, sizeof words);
    }
    if (answer <= PETRIZOLU_NO)
        memcpy(differences.before, known, count * sizeof known[0]);
    if (memcmp(&told, &should_tell, sizeof told) != 0)
        fail(call, answer, "what is told of the comparison");
    if (memcmp(tables, words, sizeof words) != 0)
        fail(call, answer, "the words of the tables");
    if (!array_as_before(&differences))
        fail(call, answer, "not the differences, or words behind them");
}

static void held_by_one(void)
{
    static const petrizolu_held untold_of = {UINT64_MAX, UINT64_MAX - 1, UINT64_MAX - 2};
    petrizolu_held held = untold_of, known = untold_of;
    uint64_t number = once_in(8) ? any_word() : below(6);
    unsigned answer, should = PETRIZOLU_NO, holders = 0;
    for (int i = 0; i < 2; i++) {
        if (!guides[i].is_set && guide_bytes[i].count > 0)
            should = PETRIZOLU_NOT_WHOLE;
        for (size_t k = 0; k < guides[i].count; k++)
            if (guides[i].pieces[k].bytes[6] == number) {
                known = (petrizolu_held){(uint64_t)i + 1, (uint64_t)(guides[i].pieces[k].bytes - guide_bytes[i].data), guides[i].pieces[k].length};
                holders++;
            }
    }
    if (should != PETRIZOLU_NOT_WHOLE && holders == 1)
        should = PETRIZOLU_YES;
    else
        known = untold_of;
    answer = petrizolu_held_by_one(guide_bytes[0].data, guide_bytes[0].count, guide_bytes[1].data, guide_bytes[1].count, number, &held);
    if (answer >= ANSWERS || !(calls[HELD_BY_ONE].answers & ONE(answer)) || answer != should)
        fail(HELD_BY_ONE, answer, "not the answer of these sides");
    answered[HELD_BY_ONE][answer]++;
    sides_as_before(HELD_BY_ONE, answer);
    if (memcmp(&held, &known, sizeof held) != 0)
        fail(HELD_BY_ONE, answer, "what is told of the section");
}

static void round_of_guides(void)
{
    draw_section();
    draw_sides();
    compare_guides(once_in(2));
    held_by_one();
}

static void make_guides(void)
{
    make(&guide_bytes[0], 1);
    make(&guide_bytes[1], 1);
    make(&differences, 4);
}
