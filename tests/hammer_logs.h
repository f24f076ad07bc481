/*
 * Part of tests/hammer.c: logs. Section lists are drawn from sections, and cut and spoilt; settings are of every kind, and the memory of a run is what they need, less or more, whatever it held. The
 * log of a list is worked out here too, by offers to a gate and pushes to a set collector over a copy of the memory; so what the five calls have to answer, tell and leave is known, the memory
 * of the run too.
 */

/* A list is drawn of few sections; one that is damaged may be read as many short ones. */
enum { MOST_DRAWN = 8, MOST_LISTED = ARENA / 10 + 1, LOGGED_ROWS = 16, LOGGED_LIMIT = 4, LOGGED_CELLS = 1 << 14, LOG_ARRAYS = 5 };

static struct array listed, log_bytes, room;
static struct part log_run; /* keys, changes, heads, slots, cells; the settings are its words */

/* ---- the log of a list */

static uint8_t known_log[MOST_LISTED * PETRIZOLU_MOST_LOG_BYTES];
static size_t known_length;
static size_t record_starts[2 * MOST_LISTED + 1], record_section[2 * MOST_LISTED + 1], record_count;

static size_t record_size(uint8_t kind)
{
    static const size_t sizes[] = {0, 13, 13, 6, 6, 10, 8};
    return kind < 7 ? sizes[kind] : 0;
}

static void put16(uint8_t *b, uint64_t n)
{
    b[0] = (uint8_t)(n >> 8);
    b[1] = (uint8_t)n;
}

/* The record of an answer of the gate: how many bytes it has. */
static size_t known_offer(unsigned answer, uint64_t rule, uint64_t input, uint64_t pid, const uint8_t *s, size_t n, uint8_t *out)
{
    bool failed = answer == PETRIZOLU_CRC_MISMATCH || answer == PETRIZOLU_TOO_SHORT;
    bool checked, headed;
    uint32_t change;

    if (input >= PETRIZOLU_INPUTS || pid >= 8192 || (!failed && answer != PETRIZOLU_EMITTED && answer != PETRIZOLU_SUPPRESSED))
        return 0;
    checked = n >= 3 && (s[1] & 0x80 || s[0] == 0x73);
    if (!failed && (n < 3 || (checked && n < 4)))
        return 0;
    out[1] = (uint8_t)input;
    put16(out + 2, pid);
    if (failed) {
        out[0] = answer == PETRIZOLU_TOO_SHORT ? PETRIZOLU_LOG_SHORT : PETRIZOLU_LOG_MISMATCH;
        put16(out + 4, n);
        return 6;
    }
    headed = s[1] & 0x80 && n >= 12;
    change = headed || (checked && rule == PETRIZOLU_CHANGE_STORED_CRC) ? (uint32_t)s[n - 4] << 24 | (uint32_t)s[n - 3] << 16 | (uint32_t)s[n - 2] << 8 | s[n - 1] : crc_of(s, n);
    out[0] = (uint8_t)answer;
    out[4] = s[0];
    out[5] = headed ? s[3] : 0;
    out[6] = headed ? s[4] : 0;
    out[7] = headed ? s[6] : 0;
    out[8] = headed ? s[5] >> 1 & 31 : 0;
    put16(out + 9, change >> 16);
    put16(out + 11, change & 0xFFFF);
    return 13;
}

/* Bare by the older definition alone. */
static size_t known_set(bool bare, uint64_t input, uint64_t pid, const uint8_t *s, size_t n, uint8_t *out)
{
    uint8_t *fields = out + (bare ? 2 : 4);
    if (input >= PETRIZOLU_INPUTS || pid >= 8192 || n < 12)
        return 0;
    out[0] = bare ? PETRIZOLU_LOG_BARE_SET : PETRIZOLU_LOG_SET;
    out[1] = (uint8_t)input;
    if (!bare)
        put16(out + 2, pid);
    fields[0] = s[0];
    fields[1] = s[3];
    fields[2] = s[4];
    fields[3] = s[5] & 1;
    fields[4] = s[5] >> 1 & 31;
    fields[5] = s[7];
    return bare ? 8 : 10;
}

/* 42, 10 or 7: a list is judged from its start. */
static unsigned judge_list(void)
{
    const uint8_t *b = listed.data;
    size_t left = listed.count;
    while (left > 0) {
        size_t n = left < 5 ? 0 : (size_t)b[3] << 8 | b[4];
        if (n > PETRIZOLU_LONGEST_LOGGED)
            return PETRIZOLU_OVERLONG_SECTION;
        if (left < 5 || left - 5 < n)
            return PETRIZOLU_NOT_WHOLE;
        b += 5 + n;
        left -= 5 + n;
    }
    return PETRIZOLU_DONE;
}

static const petrizolu_log_settings *settings_of_log(void)
{
    return (const petrizolu_log_settings *)log_run.words;
}

/* Whether the settings open over the lent memory: by the openings themselves, of a gate and of a collector. */
static bool opens_log(void)
{
    const petrizolu_log_settings *s = settings_of_log();
    static uint64_t watch[384];
    static const uint16_t no_extra[1];
    static const uint32_t no_slots[1];
    static const uint8_t no_cells[1];
    const struct array *a = log_run.arrays;
    petrizolu_gate g;
    petrizolu_sets c;
    return s->pids <= PETRIZOLU_LOG_BEFORE
        && petrizolu_gate_open(&g, s->capacity, 0, s->change_rule, no_extra, 0, (uint64_t *)a[0].data, a[0].count, (uint64_t *)a[1].data, a[1].count, watch, 384, no_slots, 0, no_cells, 0) == PETRIZOLU_DONE
        && petrizolu_sets_open(&c, s->limit, s->size, s->count, (uint64_t *)a[2].data, a[2].count, (uint32_t *)a[3].data, a[3].count, a[4].data, a[4].count) == PETRIZOLU_DONE;
}

/* Memory of a run like the one that is lent. */
static uint64_t keys[ARENA / 8], changes[ARENA / 8], heads[ARENA / 8];
static uint32_t slots[ARENA / 4];
static uint8_t cells[ARENA];
static void *const own_memory[LOG_ARRAYS] = {keys, changes, heads, slots, cells};

static void copy_memory(void)
{
    for (int i = 0; i < LOG_ARRAYS; i++)
        memcpy(own_memory[i], log_run.arrays[i].data, size_of(&log_run.arrays[i]));
}

static bool as_own_memory(void)
{
    for (int i = 0; i < LOG_ARRAYS; i++)
        if (memcmp(own_memory[i], log_run.arrays[i].data, size_of(&log_run.arrays[i])) != 0)
            return false;
    return true;
}

/*
 * The log of the first sections of a whole list by settings that open, over memory of its own. By the older definition no section has a PID: all are pushed with one and the same, and the rows
 * in use have 8192 in its place afterwards.
 */
static void work_out_log(size_t sections)
{
    static uint64_t watch[384];
    static const uint16_t no_extra[1];
    static uint32_t no_slots[1];
    static uint8_t no_cells[1];
    const petrizolu_log_settings *s = settings_of_log();
    const struct array *a = log_run.arrays;
    petrizolu_gate g;
    petrizolu_sets c;
    const uint8_t *b = listed.data;
    bool bare = s->pids == PETRIZOLU_LOG_BEFORE;

    petrizolu_gate_open(&g, s->capacity, s->repeats != 0 ? PETRIZOLU_REPEATS : 0, s->change_rule, no_extra, 0, keys, a[0].count, changes, a[1].count, watch, 384, no_slots, 0, no_cells, 0);
    petrizolu_sets_open(&c, s->limit, s->size, s->count, heads, a[2].count, slots, a[3].count, cells, a[4].count);
    known_length = record_count = 0;
    for (size_t looked_at = 0; looked_at < sections && b < listed.data + listed.count; looked_at++) {
        uint32_t input = b[0], pid = (uint32_t)b[1] << 8 | b[2];
        size_t n = (size_t)b[3] << 8 | b[4], size;
        petrizolu_failure failure;
        uint64_t row;
        unsigned answer = petrizolu_gate_offer(&g, keys, a[0].count, changes, a[1].count, watch, 384, no_slots, 0, no_cells, 0, input, pid, b + 5, n, &failure);
        record_starts[record_count] = known_length;
        record_section[record_count] = looked_at;
        size = known_offer(answer, s->change_rule, input, pid, b + 5, n, known_log + known_length);
        record_count += size > 0;
        known_length += size;
        if (bare)
            pid = 0;
        if ((answer == PETRIZOLU_EMITTED || answer == PETRIZOLU_SUPPRESSED)
            && petrizolu_sets_push(&c, heads, a[2].count, slots, a[3].count, cells, a[4].count, input, pid, b + 5, n, &row) == PETRIZOLU_SET) {
            record_section[record_count] = looked_at;
            record_starts[record_count++] = known_length;
            known_length += known_set(bare, input, pid, b + 5, n, known_log + known_length);
        }
        b += 5 + n;
    }
    for (uint64_t row = 0; bare && row < c.used; row++)
        heads[row * PETRIZOLU_HEAD_WORDS + PETRIZOLU_HEAD_PID] = 8192;
    record_starts[record_count] = known_length;
    record_section[record_count] = MOST_LISTED;
}

/* 8, or the first place that is wrong; and how many sections are looked at: none behind the one with the wrong record. */
static unsigned known_verdict(uint64_t *place, size_t *sections)
{
    const uint8_t *log = log_bytes.data;
    for (size_t i = 0;; i++) {
        size_t p = record_starts[i], size;
        *place = p;
        *sections = record_section[i] + 1;
        if (log_bytes.count == p)
            return i == record_count ? PETRIZOLU_YES : PETRIZOLU_OTHER_RECORD;
        size = record_size(log[p]);
        if (size == 0)
            return PETRIZOLU_UNKNOWN_KIND;
        if (log_bytes.count - p < size)
            return PETRIZOLU_RECORD_CUT;
        if (i == record_count || record_starts[i + 1] - p != size || memcmp(log + p, known_log + p, size) != 0)
            return PETRIZOLU_OTHER_RECORD;
    }
}

/* ---- what is lent */

static void draw_list(void)
{
    size_t n = 0;
    lend(&listed, ARENA / 2);
    for (uint64_t k = below(MOST_DRAWN); k > 0; k--) {
        static const uint16_t pids[] = {0, 0x11, 0x12, 0x12, 0x1FFF, 0x2000};
        uint8_t *b = listed.data + n;
        if (once_in(3) && n > 0) { /* the first section again */
            size_t again = 5 + ((size_t)listed.data[3] << 8 | listed.data[4]);
            memmove(b, listed.data, again);
            n += again;
            continue;
        }
        draw_section();
        b[0] = (uint8_t)(once_in(12) ? draw() : below(2));
        put16(b + 1, pids[below(sizeof pids / sizeof pids[0])]);
        put16(b + 3, section.count);
        memcpy(b + 5, section.data, section.count);
        n += 5 + section.count;
    }
    if (once_in(8) && n > 0)
        n -= below(n < 12 ? n : 12);
    if (once_in(12)) { /* bytes before a section that is not there, or is too long */
        for (uint64_t k = below(7); k > 0; k--)
            listed.data[n++] = (uint8_t)(once_in(2) ? 0x10 : draw());
    }
    lend(&listed, n);
    if (once_in(12))
        damage(&listed);
}

static uint64_t setting(uint64_t most)
{
    return once_in(60) ? any_word() : below(most + 1);
}

/* The memory that the settings need, or a little less; a setting that no memory serves gets what there is. */
static void lend_run(void)
{
    petrizolu_log_settings *s = (petrizolu_log_settings *)log_run.words;
    uint64_t rows, limit, size, count;
    s->capacity = setting(LOGGED_ROWS);
    s->repeats = once_in(3) ? any_word() : 0;
    s->change_rule = once_in(60) ? any_word() : 1 + below(2);
    s->limit = setting(LOGGED_LIMIT);
    s->size = once_in(60) ? any_word() : 12 + below(60) * (once_in(3) ? 60 : 1);
    s->count = setting(LOGGED_CELLS / (s->size > 0 && s->size < LOGGED_CELLS ? s->size : LOGGED_CELLS));
    s->pids = once_in(60) ? any_word() : once_in(20) ? PETRIZOLU_LOG_WITHOUT : once_in(3) ? PETRIZOLU_LOG_BEFORE : PETRIZOLU_LOG_WITH;
    rows = s->capacity == 0 ? 1 : s->capacity;
    rows = rows > 2 * LOGGED_ROWS ? LOGGED_ROWS : rows;
    limit = s->limit > 2 * LOGGED_LIMIT ? LOGGED_LIMIT : s->limit;
    size = s->size > 8192 ? 64 : s->size;
    count = s->count > LOGGED_CELLS || size * s->count > LOGGED_CELLS ? LOGGED_CELLS / (size + 1) : s->count;
    const size_t needs[LOG_ARRAYS] = {rows, rows, limit * PETRIZOLU_HEAD_WORDS, limit * PETRIZOLU_SLOT_WORDS, size * count};
    for (int i = 0; i < LOG_ARRAYS; i++) {
        lend(&log_run.arrays[i], needs[i] - (once_in(40) && needs[i] > 0) + (once_in(4) ? below(9) : 0));
        if (once_in(2))
            scramble(&log_run.arrays[i]);
    }
}

/* The log as it should be, spoilt in a place, or anything. */
static void draw_log(bool is_known)
{
    size_t n = is_known ? known_length : below(40);
    lend(&log_bytes, n + 13);
    if (is_known)
        memcpy(log_bytes.data, known_log, n);
    else
        scramble(&log_bytes);
    if (is_known && once_in(4))
        for (uint64_t k = 1 + below(13); k > 0; k--)
            log_bytes.data[n++] = (uint8_t)(once_in(2) ? below(8) : draw());
    if (once_in(6) && n > 0)
        n -= below(n < 14 ? n : 14);
    lend(&log_bytes, n);
    if (once_in(4) && n > 0)
        log_bytes.data[below(n)] ^= (uint8_t)(1 << below(8));
}

/* ---- the calls */

static void judge_log(enum call call, unsigned answer, unsigned should)
{
    if (answer >= ANSWERS || !(calls[call].answers & ONE(answer)) || answer != should)
        fail(call, answer, "not the answer of this log");
    answered[call][answer]++;
}

#define LEND_LOG_RUN                                                                                                                          \
    (uint64_t *)log_run.arrays[0].data, log_run.arrays[0].count, (uint64_t *)log_run.arrays[1].data, log_run.arrays[1].count,                 \
        (uint64_t *)log_run.arrays[2].data, log_run.arrays[2].count, (uint32_t *)log_run.arrays[3].data, log_run.arrays[3].count,             \
        log_run.arrays[4].data, log_run.arrays[4].count

/* The list, and the log, are only read; the memory of the run is as before where the list or the settings are refused. */
static void log_as_before(enum call call, unsigned answer, unsigned before)
{
    if (!array_as_before(&listed) || !array_as_before(&log_bytes))
        fail(call, answer, "the list or the log was written");
    if (before != PETRIZOLU_DONE && !as_before(&log_run))
        fail(call, answer, "a refusal that changed the memory of the run");
    if (memcmp(log_run.words_before, log_run.words, sizeof log_run.words) != 0)
        fail(call, answer, "the settings were written");
}

static void remember_log(void)
{
    remember(&log_run);
    memcpy(listed.before, listed.data, size_of(&listed));
    memcpy(log_bytes.before, log_bytes.data, size_of(&log_bytes));
}

static void check_log(unsigned before)
{
    uint64_t place = UINT64_MAX, known = UINT64_MAX;
    unsigned answer, should = before;
    size_t sections = 0;
    if (before == PETRIZOLU_DONE) {
        should = known_verdict(&known, &sections);
        copy_memory();
        work_out_log(sections);
    }
    if (should == before || should == PETRIZOLU_YES)
        known = UINT64_MAX;
    remember_log();
    answer = petrizolu_log_check(settings_of_log(), listed.data, listed.count, log_bytes.data, log_bytes.count, LEND_LOG_RUN, &place);
    judge_log(LOG_CHECK, answer, should);
    log_as_before(LOG_CHECK, answer, before);
    if (before == PETRIZOLU_DONE && !as_own_memory())
        fail(LOG_CHECK, answer, "not the memory that the run leaves");
    if (place != known)
        fail(LOG_CHECK, answer, "another place");
    if (before == PETRIZOLU_DONE)
        work_out_log(MOST_LISTED);
}

static void write_log(unsigned before)
{
    size_t bytes = before == PETRIZOLU_DONE ? known_length + below(5) - (known_length > 1 ? 2 : 0) : below(30);
    uint64_t length = UINT64_MAX, pids = settings_of_log()->pids;
    unsigned answer, should;
    if (judge_list() == PETRIZOLU_DONE && (pids == PETRIZOLU_LOG_WITHOUT || pids == PETRIZOLU_LOG_BEFORE)) /* logs are written with PIDs alone */
        before = PETRIZOLU_NO_PID_GIVEN;
    should = before == PETRIZOLU_DONE && known_length > bytes ? PETRIZOLU_NO_LOG_ROOM : before;
    if (before == PETRIZOLU_DONE)
        copy_memory();
    if (should == PETRIZOLU_NO_LOG_ROOM) { /* up to the section whose records find no room */
        size_t i = 0;
        while (record_starts[i + 1] <= bytes)
            i++;
        work_out_log(record_section[i] + 1);
    } else if (before == PETRIZOLU_DONE) { /* measured, then written */
        work_out_log(MOST_LISTED);
        work_out_log(MOST_LISTED);
    }
    lend(&room, bytes);
    scramble(&room);
    memcpy(room.before, room.data, bytes);
    remember_log();
    answer = petrizolu_log_write(settings_of_log(), listed.data, listed.count, room.data, room.count, LEND_LOG_RUN, &length);
    judge_log(LOG_WRITE, answer, should);
    log_as_before(LOG_WRITE, answer, before);
    if (should == PETRIZOLU_DONE)
        memcpy(room.before, known_log, known_length);
    if (!array_as_before(&room))
        fail(LOG_WRITE, answer, "not the log, or bytes behind it");
    if (before == PETRIZOLU_DONE && !as_own_memory())
        fail(LOG_WRITE, answer, "not the memory that the run leaves");
    if (length != (should == PETRIZOLU_DONE ? known_length : UINT64_MAX))
        fail(LOG_WRITE, answer, "another length");
    if (should == PETRIZOLU_NO_LOG_ROOM)
        work_out_log(MOST_LISTED);
}

/* A record made of any answer, or of a set, of any section. */
static void make_records(void)
{
    static const uint8_t answers[] = {0, 1, 1, 2, 2, 3, 12, 31, 37, 255};
    uint8_t answer = answers[below(sizeof answers)], record[13], known[13], set[10], known_bytes[10];
    uint64_t rule = once_in(8) ? any_word() : 1 + below(2), length = UINT64_MAX, expected = UINT64_MAX;
    uint32_t input = once_in(8) ? (uint32_t)any_word() : (uint32_t)below(18), pid = draw_side_pid();
    unsigned told, should;

    draw_section();
    if (once_in(20))
        lend(&section, 4096 + below(5));
    memcpy(section.before, section.data, size_of(&section));
    memset(record, 0xA5, sizeof record);
    memcpy(known, record, sizeof known);
    should = section.count > PETRIZOLU_LONGEST_LOGGED ? PETRIZOLU_OVERLONG_SECTION : rule != 1 && rule != 2 ? PETRIZOLU_TOO_LITTLE : PETRIZOLU_DONE;
    if (should == PETRIZOLU_DONE)
        expected = known_offer(answer, rule, input, pid, section.data, section.count, known);
    told = petrizolu_log_offer_record(answer, rule, input, pid, section.data, section.count, record, &length);
    judge_log(LOG_OFFER_RECORD, told, should);
    if (length != expected || memcmp(record, known, sizeof known) != 0 || !array_as_before(&section))
        fail(LOG_OFFER_RECORD, told, "another record");

    memset(set, 0xA5, sizeof set);
    memcpy(known_bytes, set, sizeof known_bytes);
    expected = known_set(false, input, pid, section.data, section.count, known_bytes);
    told = petrizolu_log_set_record(input, pid, section.data, section.count, set, &length);
    judge_log(LOG_SET_RECORD, told, PETRIZOLU_DONE);
    if (length != expected || memcmp(set, known_bytes, sizeof known_bytes) != 0 || !array_as_before(&section))
        fail(LOG_SET_RECORD, told, "another record");
}

static void read_log(void)
{
    static const petrizolu_log_record untold_of = {UINT64_MAX, 0, 0, 0, 0, 0, 0, 0, 0, 0, 0, UINT64_MAX};
    petrizolu_log_record told = untold_of, known = untold_of;
    uint64_t place = once_in(8) ? any_word() : once_in(2) && record_count > 0 ? record_starts[below(record_count)] : below(log_bytes.count + 2);
    const uint8_t *b = log_bytes.data + (place < log_bytes.count ? place : 0);
    size_t size = place < log_bytes.count ? record_size(b[0]) : 0;
    unsigned answer, should = place >= log_bytes.count ? PETRIZOLU_NO
        : size == 0 ? PETRIZOLU_UNKNOWN_KIND : log_bytes.count - place < size ? PETRIZOLU_RECORD_CUT : PETRIZOLU_YES;
    if (should == PETRIZOLU_YES) {
        const uint8_t *f = b + (b[0] == PETRIZOLU_LOG_BARE_SET ? 2 : 4);
        uint64_t pid = b[0] == PETRIZOLU_LOG_BARE_SET ? 8192 : (uint64_t)b[2] << 8 | b[3];
        uint64_t extension = (uint64_t)f[1] << 8 | (size > 6 ? f[2] : 0);
        if (size == 13)
            known = (petrizolu_log_record){b[0], b[1], pid, f[0], extension, f[3], f[4], (uint64_t)f[5] << 24 | f[6] << 16 | f[7] << 8 | f[8], 0, 0, 0, place + size};
        else if (size == 6)
            known = (petrizolu_log_record){b[0], b[1], pid, 0, 0, 0, 0, 0, (uint64_t)f[0] << 8 | f[1], 0, 0, place + size};
        else
            known = (petrizolu_log_record){b[0], b[1], pid, f[0], extension, 0, f[4], 0, 0, f[3], f[5], place + size};
    }
    memcpy(log_bytes.before, log_bytes.data, size_of(&log_bytes));
    answer = petrizolu_log_read(log_bytes.data, log_bytes.count, place, &told);
    judge_log(LOG_READ, answer, should);
    if (memcmp(&told, &known, sizeof told) != 0 || !array_as_before(&log_bytes))
        fail(LOG_READ, answer, "another record");
}

static void round_of_logs(void)
{
    unsigned before;
    draw_list();
    lend_run();
    before = judge_list();
    if (before == PETRIZOLU_DONE && settings_of_log()->pids == PETRIZOLU_LOG_WITHOUT)
        before = PETRIZOLU_NO_PID_GIVEN;
    if (before == PETRIZOLU_DONE && !opens_log())
        before = PETRIZOLU_TOO_LITTLE;
    known_length = record_count = 0;
    if (before == PETRIZOLU_DONE)
        work_out_log(MOST_LISTED);
    draw_log(before == PETRIZOLU_DONE);
    if (once_in(2)) {
        check_log(before);
        write_log(before);
    } else {
        write_log(before);
        check_log(before);
    }
    read_log();
    make_records();
}

static void make_logs(void)
{
    static const size_t elements[LOG_ARRAYS] = {8, 8, 8, 4, 1};
    make(&listed, 1);
    make(&log_bytes, 1);
    make(&room, 1);
    log_run.array_count = LOG_ARRAYS;
    for (int i = 0; i < LOG_ARRAYS; i++)
        make(&log_run.arrays[i], elements[i]);
}
