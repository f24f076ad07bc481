/*
 * A guide monitor in C over the proved library. It reads records from standard input or from the file named: a PID (two bytes, high byte first)
 * and a section; with --ts a transport stream, packets of 188 bytes one after another, whose sections the library gathers. Sections of watched PIDs go through the gate; those that are sound, new or not, go on to the set collector, EIT sections to the EIT
 * collector: a set that was evicted between two of its sections, or found no cell, is completed by repeats. Repeats wait until there are many, and go on in one call. It prints what a monitor shows: each new
 * section, each complete set with its sections, each complete schedule table by table, the events of both, the transport streams of networks and bouquets, the services, and totals.
 * With -w FOLDER each set and schedule that goes out is also written to a file there, which `./run compare_guides` takes: the PID in two bytes, then the sections.
 * With -l LIMIT FOLDER it keeps a log besides, and the list of the sections that it is of: the files log and sections there, to which
 * `./run check_log 4096 0 2 LIMIT 4096 256 with FOLDER/sections < FOLDER/log` says yes.
 */
#include <petrizolu.h>

#include <inttypes.h>
#include <stdbool.h>
#include <stdio.h>
#include <stdlib.h>
#include <string.h>

/* All records, and all packets, come on one input. */
enum { INPUT = 0, NULL_PID = 0x1FFF };

enum { CAPACITY = 4096, SECTION_BUFFERS = 64, LIMIT = 64, CELL_SIZE = 4096, CELLS = 1024, LOG_CELLS = 256, LONGEST_SECTION = 3 + 0xFFF, PAGE = 2048, GATHERED = 1 << 16, BLOCK_PACKETS = 256 };

/* ---- the stores: a struct of words and the arrays that it goes with */

struct gate {
    petrizolu_gate state;
    uint64_t keys[CAPACITY], changes[CAPACITY], buckets[CAPACITY], links[CAPACITY];
    /* The watch record of the input. */
    uint64_t watch[PETRIZOLU_WATCH_WORDS];
    uint32_t pat_slots[PETRIZOLU_PAT_SLOTS];
    uint8_t pat_cells[PETRIZOLU_PAT_CELLS];
};

struct streams {
    petrizolu_streams state;
    uint64_t pids[PETRIZOLU_PID_WORDS], places[PETRIZOLU_PLACES_WORDS];
    uint8_t buffers[PETRIZOLU_BUFFERS(SECTION_BUFFERS)];
};

struct sets {
    petrizolu_sets state;
    uint64_t heads[LIMIT * PETRIZOLU_HEAD_WORDS];
    uint32_t slots[LIMIT * PETRIZOLU_SLOT_WORDS];
    uint8_t cells[CELL_SIZE * CELLS];
};

struct eit {
    petrizolu_eit state;
    uint64_t heads[LIMIT * PETRIZOLU_HEAD_WORDS], schedule_heads[LIMIT * PETRIZOLU_HEAD_WORDS];
    uint32_t slots[LIMIT * PETRIZOLU_SLOT_WORDS], units[LIMIT * PETRIZOLU_UNIT_WORDS];
    uint8_t cells[CELL_SIZE * CELLS];
};

/* A log that is kept, and the set collector that it tells of: it gets every sound section, of an EIT and of the short form too, and is never cleared. */
struct log {
    FILE *records, *sections; /* or NULL */
    petrizolu_sets state;
    uint64_t heads[LIMIT * PETRIZOLU_HEAD_WORDS];
    uint32_t slots[LIMIT * PETRIZOLU_SLOT_WORDS];
    uint8_t cells[CELL_SIZE * LOG_CELLS];
};

/* Sections that wait for one of the collectors, as a section list; all of them before anything else is printed. */
struct gathered {
    bool events; /* they are EIT sections */
    size_t bytes;
    uint8_t list[GATHERED];
};

struct monitor {
    struct gate gate;
    struct streams streams;
    struct sets sets;
    struct eit eit;
    struct gathered gathered;
    struct log log;
    petrizolu_entry page[PAGE];
    uint64_t unwatched, complete_sets, complete_schedules, refused;
    const char *folder; /* of the files that are written, or NULL */
};

/* An array and its number of elements, as every call takes them. */
#define LEND(array) (array), sizeof(array) / sizeof((array)[0])
#define LEND_RECORD(g) LEND((g)->watch), LEND((g)->pat_slots), LEND((g)->pat_cells)
#define LEND_GATE(g) LEND((g)->keys), LEND((g)->changes), LEND((g)->buckets), LEND((g)->links), LEND_RECORD(g)
#define LEND_STREAMS(s) LEND((s)->pids), LEND((s)->buffers)
#define LEND_SETS(s) LEND((s)->heads), LEND((s)->slots), LEND((s)->cells)
#define LEND_EIT(e) LEND((e)->heads), LEND((e)->slots), LEND((e)->cells), LEND((e)->schedule_heads), LEND((e)->units)

static bool open_all(struct monitor *m)
{
    static const uint16_t no_extra[1];
    return petrizolu_indexed_open(&m->gate.state, CAPACITY, PETRIZOLU_DEFAULT_SETTINGS, PETRIZOLU_DEFAULT_CHANGE_RULE, no_extra, 0, LEND_GATE(&m->gate)) == PETRIZOLU_DONE
        && petrizolu_streams_open(&m->streams.state, SECTION_BUFFERS, LEND_STREAMS(&m->streams)) == PETRIZOLU_DONE
        && petrizolu_sets_open(&m->sets.state, LIMIT, CELL_SIZE, CELLS, LEND_SETS(&m->sets)) == PETRIZOLU_DONE
        && petrizolu_eit_open(&m->eit.state, LIMIT, CELL_SIZE, CELLS, LEND_EIT(&m->eit)) == PETRIZOLU_DONE;
}

/* ---- what is shown */

static void show_pid(uint64_t pid)
{
    printf(" pid %04" PRIX64, pid);
}

/* What is written of a set or a schedule: nothing where no folder was named. */
struct copy {
    FILE *file;
    const uint8_t *cells;
};

/*
 * The file of a set, PID-TABLE-EXTENSION, of an EIT -TSID-ONID more; of one that is not yet in force -next more. It begins with the PID. A set that goes out
 * again is written anew.
 */
static struct copy open_copy(const char *folder, const uint64_t *head, uint64_t table_id, bool is_eit, const uint8_t *cells)
{
    struct copy copy = {NULL, cells};
    uint64_t pid = head[PETRIZOLU_HEAD_PID];
    char streams[16] = "", name[4096];

    if (folder == NULL)
        return copy;
    if (is_eit)
        snprintf(streams, sizeof streams, "-%04X-%04X", (unsigned)head[PETRIZOLU_HEAD_TRANSPORT_STREAM_ID] & 0xFFFF,
                 (unsigned)head[PETRIZOLU_HEAD_ORIGINAL_NETWORK_ID] & 0xFFFF);
    if (snprintf(name, sizeof name, "%s/%04" PRIX64 "-%02" PRIX64 "-%04" PRIX64 "%s%s", folder, pid, table_id, head[PETRIZOLU_HEAD_EXTENSION], streams,
                 head[PETRIZOLU_HEAD_CURRENT_NEXT] == 1 ? "" : "-next") >= (int)sizeof name
        || (copy.file = fopen(name, "wb")) == NULL) {
        perror(name);
        exit(1);
    }
    fputc((int)(pid >> 8), copy.file);
    fputc((int)(pid & 0xFF), copy.file);
    return copy;
}

static void close_copy(struct copy copy)
{
    if (copy.file != NULL && fclose(copy.file) != 0) {
        perror("monitor: a file is not written");
        exit(1);
    }
}

static void show_section(const petrizolu_section *part, struct copy copy)
{
    printf("  section %" PRIu64 ", %" PRIu64 " bytes\n", part->number, part->length);
    if (copy.file != NULL)
        fwrite(copy.cells + part->start, 1, part->length, copy.file);
}

static void show_seconds(uint32_t seconds)
{
    if (seconds == PETRIZOLU_UNDEFINED)
        printf("undefined");
    else
        printf("%02" PRIu32 ":%02" PRIu32 ":%02" PRIu32, seconds / 3600, seconds / 60 % 60, seconds % 60);
}

static void show_event(const petrizolu_entry *event)
{
    uint32_t date = petrizolu_date(event->day);

    printf("  event %04" PRIX32 " on ", event->id);
    if (date == 0)
        printf("day %" PRIu32, event->day);
    else
        printf("%04" PRIu32 "-%02" PRIu32 "-%02" PRIu32, date / 10000, date / 100 % 100, date % 100);
    printf(" at ");
    show_seconds(event->time);
    printf(" for ");
    show_seconds(event->duration);
    printf("\n");
}

/* What is listed: a set, or a table of a schedule. */
struct listed_row {
    uint64_t row;
    bool of_a_schedule;
    uint64_t table;
};

static uint8_t list_page(const struct eit *e, struct listed_row of, uint64_t skip, petrizolu_entry *page, petrizolu_listed *listed)
{
    if (of.of_a_schedule)
        return petrizolu_eit_events_in_schedule(&e->state, LEND_EIT(e), of.row, of.table, skip, page, PETRIZOLU_LIST_WORDS(PAGE), listed);
    return petrizolu_eit_events(&e->state, LEND_EIT(e), of.row, skip, page, PETRIZOLU_LIST_WORDS(PAGE), listed);
}

/* The events of all pages, and where a descriptor runs past its loop. */
static void show_events(const struct eit *e, struct listed_row of, petrizolu_entry *page)
{
    petrizolu_listed listed = {0, 0, 0};
    uint64_t skip = 0;
    uint8_t answer;

    do {
        answer = list_page(e, of, skip, page, &listed);
        for (uint64_t i = 0; i < PAGE && skip + i < listed.count; i++)
            if (page[i].kind == PETRIZOLU_EVENT)
                show_event(&page[i]);
        skip += PAGE;
    } while (skip < listed.count);
    if (answer == PETRIZOLU_PAST_LOOP)
        printf("  broken at byte %" PRIu64 " of section %" PRIu64 "\n", listed.place, listed.section);
}

/* The reader of a table_id (EN 300 468, table 2), or 0. */
static uint32_t reader_of(uint64_t table_id)
{
    switch (table_id) {
    case 0x40:
    case 0x41:
        return PETRIZOLU_NIT;
    case 0x4A:
        return PETRIZOLU_BAT;
    case 0x42:
    case 0x46:
        return PETRIZOLU_SDT;
    default:
        return 0;
    }
}

static void show_entry(const petrizolu_entry *entry)
{
    if (entry->kind == PETRIZOLU_TRANSPORT_STREAM)
        printf("  stream %04" PRIX32 " of network %04" PRIX32 "\n", entry->id, entry->original_network_id);
    if (entry->kind == PETRIZOLU_SERVICE)
        printf("  service %04" PRIX32 " of network %04" PRIX32 ", running status %" PRIu32 "%s\n", entry->id, entry->original_network_id,
               entry->running_status, entry->free_ca_mode ? ", scrambled" : "");
}

/* The transport streams or services of all pages, or where a loop does not end where its length says. */
static void show_entries(const struct sets *s, uint32_t reader, uint64_t row, petrizolu_entry *page)
{
    petrizolu_listed listed = {0, 0, 0};
    uint64_t skip = 0;
    uint8_t answer;

    do {
        answer = petrizolu_sets_entries(reader, &s->state, LEND_SETS(s), row, skip, page, PETRIZOLU_LIST_WORDS(PAGE), &listed);
        for (uint64_t i = 0; i < PAGE && skip + i < listed.count; i++)
            show_entry(&page[i]);
        skip += PAGE;
    } while (skip < listed.count);
    if (answer == PETRIZOLU_BROKEN_LOOP)
        printf("  broken at byte %" PRIu64 " of section %" PRIu64 "\n", listed.place, listed.section);
}

static void show_set(const struct sets *s, uint64_t row, petrizolu_entry *page, const char *folder)
{
    const uint64_t *head = s->heads + row * PETRIZOLU_HEAD_WORDS;
    struct copy copy = open_copy(folder, head, head[PETRIZOLU_HEAD_TABLE_ID], false, s->cells);
    petrizolu_section part;
    uint64_t from = 0;

    printf("set");
    show_pid(head[PETRIZOLU_HEAD_PID]);
    printf(" table %02" PRIX64 " extension %04" PRIX64 " version %" PRIu64 "\n", head[PETRIZOLU_HEAD_TABLE_ID], head[PETRIZOLU_HEAD_EXTENSION],
           head[PETRIZOLU_HEAD_VERSION]);
    while (petrizolu_sets_next(&s->state, LEND_SETS(s), row, from, &part) == PETRIZOLU_YES) {
        show_section(&part, copy);
        from = part.number + 1;
    }
    close_copy(copy);
    if (reader_of(head[PETRIZOLU_HEAD_TABLE_ID]) != 0)
        show_entries(s, reader_of(head[PETRIZOLU_HEAD_TABLE_ID]), row, page);
}

static void show_event_set(const struct eit *e, uint64_t row, petrizolu_entry *page, const char *folder)
{
    const uint64_t *head = e->heads + row * PETRIZOLU_HEAD_WORDS;
    struct copy copy = open_copy(folder, head, head[PETRIZOLU_HEAD_TABLE_ID], true, e->cells);
    petrizolu_section part;
    uint64_t from = 0;

    printf("present/following");
    show_pid(head[PETRIZOLU_HEAD_PID]);
    printf(" service %04" PRIX64 " version %" PRIu64 "\n", head[PETRIZOLU_HEAD_EXTENSION], head[PETRIZOLU_HEAD_VERSION]);
    while (petrizolu_eit_next(&e->state, LEND_EIT(e), row, from, &part) == PETRIZOLU_YES) {
        show_section(&part, copy);
        from = part.number + 1;
    }
    close_copy(copy);
    show_events(e, (struct listed_row){row, false, 0}, page);
}

static void show_schedule(const struct eit *e, uint64_t row, petrizolu_entry *page, const char *folder)
{
    const uint64_t *head = e->schedule_heads + row * PETRIZOLU_HEAD_WORDS;
    uint64_t first = head[PETRIZOLU_HEAD_TABLE_ID] == PETRIZOLU_SCHEDULE_ACTUAL ? 0x50 : 0x60;
    struct copy copy = open_copy(folder, head, first, true, e->cells);

    printf("schedule");
    show_pid(head[PETRIZOLU_HEAD_PID]);
    printf(" service %04" PRIX64 " tables %02" PRIX64 " to %02" PRIX64 "\n", head[PETRIZOLU_HEAD_EXTENSION], first, head[PETRIZOLU_HEAD_LAST]);
    for (uint64_t table = 0; first + table <= head[PETRIZOLU_HEAD_LAST]; table++) {
        petrizolu_section part;
        uint64_t from = 0;
        printf(" table %02" PRIX64 "\n", first + table);
        while (petrizolu_eit_next_in_schedule(&e->state, LEND_EIT(e), row, table, from, &part) == PETRIZOLU_YES) {
            show_section(&part, copy);
            from = part.number + 1;
        }
        show_events(e, (struct listed_row){row, true, table}, page);
    }
    close_copy(copy);
}

/* ---- a section's way through the monitor */

static bool is_event_table(uint8_t table_id)
{
    return table_id >= 0x4E && table_id <= 0x6F;
}

static void show_of_events(struct monitor *m, uint8_t answer, uint64_t row)
{
    switch (answer) {
    case PETRIZOLU_NOTHING:
        break;
    case PETRIZOLU_SET:
        m->complete_sets++;
        show_event_set(&m->eit, row, m->page, m->folder);
        break;
    case PETRIZOLU_SCHEDULE:
        m->complete_schedules++;
        show_schedule(&m->eit, row, m->page, m->folder);
        break;
    default:
        m->refused++;
        printf("refused %u\n", answer);
    }
}

static void show_of_sets(struct monitor *m, uint8_t answer, uint64_t row)
{
    switch (answer) {
    case PETRIZOLU_NOTHING:
    case PETRIZOLU_SHORT_FORM: /* a TDT or TOT: there is no set of it */
        break;
    case PETRIZOLU_SET:
        m->complete_sets++;
        show_set(&m->sets, row, m->page, m->folder);
        break;
    default:
        m->refused++;
        printf("refused %u\n", answer);
    }
}

/* What waits goes to its collector: behind each section that has something to say the call ends, and goes on with the rest. */
static void push_gathered(struct monitor *m)
{
    struct gathered *g = &m->gathered;
    uint64_t row = 0, taken = 1;
    for (size_t at = 0; at < g->bytes && taken > 0; at += taken) {
        const uint8_t *rest = g->list + at;
        uint8_t answer = g->events ? petrizolu_eit_push_all(&m->eit.state, LEND_EIT(&m->eit), rest, g->bytes - at, &row, &taken)
                                   : petrizolu_sets_push_all(&m->sets.state, LEND_SETS(&m->sets), rest, g->bytes - at, &row, &taken);
        if (g->events)
            show_of_events(m, answer, row);
        else
            show_of_sets(m, answer, row);
    }
    g->bytes = 0;
}

static void gather(struct monitor *m, uint32_t pid, const uint8_t *section, size_t length)
{
    struct gathered *g = &m->gathered;
    const uint8_t head[5] = {INPUT, (uint8_t)(pid >> 8), (uint8_t)pid, (uint8_t)(length >> 8), (uint8_t)length};
    if (g->events != is_event_table(section[0]) || sizeof g->list - g->bytes < sizeof head + length)
        push_gathered(m);
    g->events = is_event_table(section[0]);
    memcpy(g->list + g->bytes, head, sizeof head);
    memcpy(g->list + g->bytes + sizeof head, section, length);
    g->bytes += sizeof head + length;
}

/* ---- the log */

static FILE *open_kept(const char *folder, const char *name)
{
    char path[4096];
    FILE *file = NULL;
    if (snprintf(path, sizeof path, "%s/%s", folder, name) >= (int)sizeof path || (file = fopen(path, "wb")) == NULL) {
        perror(path);
        exit(1);
    }
    return file;
}

static bool open_log(struct log *log, uint64_t limit, const char *folder)
{
    log->records = open_kept(folder, "log");
    log->sections = open_kept(folder, "sections");
    return petrizolu_sets_open(&log->state, limit, CELL_SIZE, LOG_CELLS, LEND_SETS(log)) == PETRIZOLU_DONE;
}

/* The record of the gate's answer; and where the collector has a set by this section, the set's. */
static void keep_log(struct monitor *m, uint32_t pid, const uint8_t *section, size_t length, uint8_t answer)
{
    struct log *log = &m->log;
    const uint8_t head[] = {INPUT, (uint8_t)(pid >> 8), (uint8_t)pid, (uint8_t)(length >> 8), (uint8_t)length};
    uint8_t record[13];
    uint64_t bytes = 0, row;

    fwrite(head, 1, sizeof head, log->sections);
    fwrite(section, 1, length, log->sections);
    petrizolu_log_offer_record(answer, m->gate.state.change_rule, INPUT, pid, section, length, record, &bytes);
    fwrite(record, 1, bytes, log->records);
    if (answer != PETRIZOLU_EMITTED && answer != PETRIZOLU_SUPPRESSED)
        return;
    if (petrizolu_sets_push(&log->state, LEND_SETS(log), INPUT, pid, section, length, &row) == PETRIZOLU_SET) {
        petrizolu_log_set_record(INPUT, pid, section, length, record, &bytes);
        fwrite(record, 1, bytes, log->records);
    }
}

static bool close_log(struct log *log)
{
    return log->records == NULL || (fclose(log->records) == 0 && fclose(log->sections) == 0);
}

/* A section and the gate's answer to it; of a failure what is told. */
static void judged(struct monitor *m, uint32_t pid, const uint8_t *section, size_t length, uint64_t answer, uint64_t stored, uint64_t worked)
{
    if (m->log.records != NULL)
        keep_log(m, pid, section, length, (uint8_t)answer);
    switch (answer) {
    case PETRIZOLU_EMITTED: /* it may complete a set, which is shown at once */
        push_gathered(m);
        printf("new pid %04" PRIX32 " table %02X, %zu bytes\n", pid, section[0], length);
        gather(m, pid, section, length);
        push_gathered(m);
        return;
    case PETRIZOLU_SUPPRESSED:
        gather(m, pid, section, length);
        return;
    case PETRIZOLU_TOO_SHORT:
        push_gathered(m);
        printf("short pid %04" PRIX32 ", %zu bytes\n", pid, length);
        return;
    case PETRIZOLU_CRC_MISMATCH:
        push_gathered(m);
        printf("mismatch pid %04" PRIX32 ", stored %08" PRIX64 ", worked %08" PRIX64 "\n", pid, stored, worked);
        return;
    default:
        return;
    }
}

static bool is_watched(struct monitor *m, uint32_t pid)
{
    return petrizolu_watch_ask(LEND(m->gate.watch), pid) == PETRIZOLU_YES;
}

static void take(struct monitor *m, uint32_t pid, const uint8_t *section, size_t length)
{
    petrizolu_failure failure = {0, 0, 0};
    if (!is_watched(m, pid)) {
        m->unwatched++;
        return;
    }
    uint8_t answer = petrizolu_indexed_offer(&m->gate.state, LEND_GATE(&m->gate), INPUT, pid, section, length, &failure);
    judged(m, pid, section, length, answer, failure.stored, failure.worked);
}

static uint32_t pid_of(const uint8_t *packet)
{
    return (packet[1] & 0x1Fu) << 8 | packet[2];
}

/* A packet, and each section that it finishes. Packets of PIDs that are not watched are counted, but null packets. */
static void take_packet(struct monitor *m, const uint8_t *packet)
{
    uint32_t pid = pid_of(packet);
    bool watched = is_watched(m, pid);
    uint64_t finished = 0;
    switch (petrizolu_indexed_feed(&m->gate.state, &m->streams.state, LEND_GATE(&m->gate), LEND_STREAMS(&m->streams), INPUT, packet, PETRIZOLU_PACKET_BYTES, LEND(m->streams.places), &finished)) {
    case PETRIZOLU_FED:
        m->unwatched += !watched && pid != NULL_PID;
        break;
    case PETRIZOLU_NO_BUFFER:
        push_gathered(m);
        printf("no buffer for pid %04" PRIX32 "\n", pid);
        break;
    default:
        break;
    }
    for (uint64_t k = 0; k < finished; k++) {
        const uint64_t *place = m->streams.places + k * PETRIZOLU_PLACE_WORDS;
        const uint8_t *bytes = place[PETRIZOLU_PLACE_WHERE] == PETRIZOLU_IN_PACKET ? packet : m->streams.buffers;
        judged(m, pid, bytes + place[PETRIZOLU_PLACE_START], place[PETRIZOLU_PLACE_LENGTH], place[PETRIZOLU_PLACE_ANSWER], place[PETRIZOLU_PLACE_STORED],
               place[PETRIZOLU_PLACE_WORKED]);
    }
}

/* ---- records */

/* Reads one record: 1, or 0 at the end of the input, or -1 where it ends inside a record. */
static int read_record(FILE *in, uint32_t *pid, uint8_t *section, size_t *length)
{
    uint8_t head[5];
    size_t n = fread(head, 1, sizeof head, in);
    size_t rest;
    if (n == 0)
        return 0;
    if (n < sizeof head)
        return -1;
    *pid = (uint32_t)head[0] << 8 | head[1];
    section[0] = head[2];
    section[1] = head[3];
    section[2] = head[4];
    rest = (size_t)(head[3] & 0x0F) << 8 | head[4];
    *length = 3 + rest;
    return fread(section + 3, 1, rest, in) == rest ? 1 : -1;
}

static bool read_records(struct monitor *m, FILE *in)
{
    static uint8_t section[LONGEST_SECTION];
    uint32_t pid;
    size_t length;
    int more;
    while ((more = read_record(in, &pid, section, &length)) == 1)
        take(m, pid, section, length);
    return more == 0;
}

/* Packets that were passed over. */
static void count_unwatched(struct monitor *m, const uint8_t *packets, size_t bytes)
{
    for (size_t at = 0; at < bytes; at += PETRIZOLU_PACKET_BYTES) {
        uint32_t pid = pid_of(packets + at);
        m->unwatched += !is_watched(m, pid) && pid != NULL_PID;
    }
}

/* Packets one after another: those that are passed over by one call, each other by a feed. */
static void take_packets(struct monitor *m, const uint8_t *packets, size_t bytes)
{
    while (bytes > 0) {
        size_t passed = PETRIZOLU_PACKET_BYTES * petrizolu_indexed_pass(&m->gate.state, &m->streams.state, LEND_GATE(&m->gate), LEND_STREAMS(&m->streams), INPUT,
                                                                        packets, bytes, LEND(m->streams.places));
        count_unwatched(m, packets, passed);
        packets += passed;
        bytes -= passed;
        if (bytes == 0)
            return;
        take_packet(m, packets);
        packets += PETRIZOLU_PACKET_BYTES;
        bytes -= PETRIZOLU_PACKET_BYTES;
    }
}

static bool read_packets(struct monitor *m, FILE *in)
{
    static uint8_t block[BLOCK_PACKETS * PETRIZOLU_PACKET_BYTES];
    size_t n;
    do {
        n = fread(block, 1, sizeof block, in);
        take_packets(m, block, n - n % PETRIZOLU_PACKET_BYTES);
    } while (n == sizeof block);
    return n % PETRIZOLU_PACKET_BYTES == 0;
}

int main(int argc, char **argv)
{
    static struct monitor m;
    bool writes = argc > 2 && strcmp(argv[1], "-w") == 0;
    char **words = argv + (writes ? 3 : 1);
    bool logs = words[0] != NULL && strcmp(words[0], "-l") == 0 && words[1] != NULL && words[2] != NULL;
    char **of_log = words;
    if (logs)
        words += 3;
    bool packets = *words != NULL && strcmp(*words, "--ts") == 0;
    const char *file = packets ? words[1] : words[0];
    FILE *in = file != NULL ? fopen(file, "rb") : stdin;

    if (in == NULL) {
        perror(file);
        return 1;
    }
    m.folder = writes ? argv[2] : NULL;
    if (!open_all(&m) || (logs && !open_log(&m.log, strtoull(of_log[1], NULL, 10), of_log[2]))) {
        fputs("monitor: the stores do not open\n", stderr);
        return 1;
    }
    bool whole = packets ? read_packets(&m, in) : read_records(&m, in);
    push_gathered(&m);
    if (!whole)
        puts("cut");
    if (packets)
        printf("packets %" PRIu64 " malformed %" PRIu64 "\n", m.streams.state.packets, m.streams.state.malformed);
    printf("sections %" PRIu64 " new %" PRIu64 " repeats %" PRIu64 " crc %" PRIu64 " unwatched %" PRIu64 "\n", m.gate.state.completed, m.gate.state.emitted,
           m.gate.state.suppressed, m.gate.state.crc_failures, m.unwatched);
    printf("sets %" PRIu64 " schedules %" PRIu64 " refused %" PRIu64 " evicted %" PRIu64 "\n", m.complete_sets, m.complete_schedules, m.refused,
           m.sets.state.evictions + m.eit.state.evictions + m.eit.state.schedule_evictions);
    if (!close_log(&m.log)) {
        perror("monitor: the log is not written");
        return 1;
    }
    return 0;
}
