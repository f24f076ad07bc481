/* The sections that biTStream's assembler finds (Debian's libbitstream-dev), called as its header says; those whose CRC does not fit are left out. */
#include "reader.h"

#include <bitstream/mpeg/ts.h>
#include <bitstream/mpeg/psi.h>

static struct {
    int8_t counter;
    uint8_t *buffer;
    uint16_t used;
} pids[PIDS];

static void begin_pid(unsigned pid)
{
    pids[pid].counter = -1;
    psi_assemble_init(&pids[pid].buffer, &pids[pid].used);
}

static void end_pid(unsigned pid)
{
    psi_assemble_reset(&pids[pid].buffer, &pids[pid].used);
}

static void whole(unsigned pid, uint8_t *section)
{
    if (section == NULL)
        return;
    if (!psi_get_syntax(section) || psi_check_crc(section))
        found(pid, section, PSI_HEADER_SIZE + psi_get_length(section));
    free(section);
}

static void take(unsigned pid, uint8_t *packet)
{
    const uint8_t *payload;
    uint8_t length, counter = ts_get_cc(packet);
    if (!ts_has_payload(packet) || ts_check_duplicate(counter, (uint8_t)pids[pid].counter))
        return;
    if (pids[pid].counter != -1 && ts_check_discontinuity(counter, (uint8_t)pids[pid].counter))
        psi_assemble_reset(&pids[pid].buffer, &pids[pid].used);
    pids[pid].counter = (int8_t)counter;
    payload = ts_section(packet);
    length = (uint8_t)(packet + TS_SIZE - payload);
    if (!psi_assemble_empty(&pids[pid].buffer, &pids[pid].used))
        whole(pid, psi_assemble_payload(&pids[pid].buffer, &pids[pid].used, &payload, &length));
    payload = ts_next_section(packet);
    length = (uint8_t)(packet + TS_SIZE - payload);
    while (length > 0)
        whole(pid, psi_assemble_payload(&pids[pid].buffer, &pids[pid].used, &payload, &length));
}

int main(int argc, char **argv)
{
    return argc == 2 ? read_file(argv[1], take) : 2;
}
