/*
 * Part of tests/hammer.c: many sections in one call. Lists are drawn and spoilt as those of logs are; what the call has to answer, tell and leave is worked out by one push after another
 * over a copy of everything that is lent.
 */

static uint64_t copied_words[MOST_WORDS], copied_heads[ARENA / 8], copied_schedule_heads[ARENA / 8];
static uint32_t copied_slots[ARENA / 4], copied_units[ARENA / 4];
static uint8_t copied_cells[ARENA];
static void *const copies[EIT_ARRAYS] = {copied_heads, copied_slots, copied_cells, copied_schedule_heads, copied_units};

static unsigned push_to_copy(const struct part *p, uint32_t input, uint32_t pid, const uint8_t *b, size_t n, uint64_t *row)
{
    const struct array *a = p->arrays;
    if (p == &eit)
        return petrizolu_eit_push((petrizolu_eit *)copied_words, copied_heads, a[HEADS].count, copied_slots, a[SLOTS].count, copied_cells, a[CELLS].count, copied_schedule_heads,
                                  a[SCHEDULE_HEADS].count, copied_units, a[UNITS].count, input, pid, b, n, row);
    return petrizolu_sets_push((petrizolu_sets *)copied_words, copied_heads, a[HEADS].count, copied_slots, a[SLOTS].count, copied_cells, a[CELLS].count, input, pid, b, n, row);
}

/* One by one until something else than 4 is answered. A push of no bytes answers 14 where the store is neither refused by 10 nor by 11 nor by 41: that comes first, also where the list is empty. */
static unsigned push_each_to_copy(const struct part *p, uint64_t *row, uint64_t *taken)
{
    const uint8_t *b = listed.data, *end = b + listed.count;
    unsigned answer = push_to_copy(p, 0, 0, b, 0, row);
    *taken = 0;
    if (answer != PETRIZOLU_MALFORMED)
        return answer;
    for (answer = PETRIZOLU_NOTHING; answer == PETRIZOLU_NOTHING && b < end; *taken = (uint64_t)(b - listed.data)) {
        size_t n = (size_t)b[3] << 8 | b[4];
        answer = push_to_copy(p, b[0], (uint32_t)b[1] << 8 | b[2], b + 5, n, row);
        b += 5 + n;
    }
    return answer;
}

static unsigned push_list(struct part *p, uint64_t *row, uint64_t *taken)
{
    if (p == &eit)
        return petrizolu_eit_push_all((petrizolu_eit *)p->words, EIT(p), listed.data, listed.count, row, taken);
    return petrizolu_sets_push_all((petrizolu_sets *)p->words, SETS(p), listed.data, listed.count, row, taken);
}

static void push_all(enum call call, struct part *p)
{
    uint64_t row = 77, taken = 78, known_row = 77, known_taken = 0;
    unsigned answer, known;
    draw_list();
    uint64_t *count = once_in(2) ? &p->words[4] : clock_of(p);
    if (once_in(30)) /* the count ends between two sections of the list, or before them */
        *count = UINT64_MAX - below(3);
    memcpy(listed.before, listed.data, size_of(&listed));
    memcpy(copied_words, p->words, sizeof p->words);
    for (size_t i = 0; i < p->array_count; i++)
        memcpy(copies[i], p->arrays[i].data, size_of(&p->arrays[i]));
    known = judge_list();
    if (known == PETRIZOLU_DONE)
        known = push_each_to_copy(p, &known_row, &known_taken);
    answer = push_list(p, &row, &taken);
    if (answer >= ANSWERS || !(calls[call].answers & ONE(answer)) || answer != known)
        fail(call, answer, "not what one by one answers");
    answered[call][answer]++;
    if (row != known_row || taken != known_taken)
        fail(call, answer, "another row, or other bytes taken");
    if (!array_as_before(&listed))
        fail(call, answer, "the list was written");
    if (memcmp(copied_words, p->words, sizeof p->words) != 0)
        fail(call, answer, "other counts");
    for (size_t i = 0; i < p->array_count; i++)
        if (memcmp(copies[i], p->arrays[i].data, size_of(&p->arrays[i])) != 0)
            fail(call, answer, "not what one by one leaves");
    if (*count > UINT64_MAX / 2)
        *count = below(8);
}
