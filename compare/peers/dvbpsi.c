/* The sections that libdvbpsi finds (Debian's libdvbpsi-dev). It leaves out those whose CRC does not fit. */
#include "reader.h"

#include <sys/types.h>

/* Its headers need what stands above. */
#include <dvbpsi/dvbpsi.h>
#include <dvbpsi/psi.h>

static dvbpsi_t *handles[PIDS];

static void gather(dvbpsi_t *handle, dvbpsi_psi_section_t *section)
{
    found((unsigned)(uintptr_t)handle->p_sys, section->p_data, 3 + (size_t)section->i_length);
    dvbpsi_DeletePSISections(section);
}

static void begin_pid(unsigned pid)
{
    dvbpsi_t *handle = dvbpsi_new(NULL, DVBPSI_MSG_NONE);
    if (handle == NULL || (handle->p_decoder = dvbpsi_decoder_new(gather, 4096, false, sizeof(dvbpsi_decoder_t))) == NULL)
        exit(2);
    handle->p_sys = (void *)(uintptr_t)pid;
    handles[pid] = handle;
}

static void end_pid(unsigned pid)
{
    dvbpsi_decoder_delete(handles[pid]->p_decoder);
    handles[pid]->p_decoder = NULL;
    dvbpsi_delete(handles[pid]);
    handles[pid] = NULL;
}

static void take(unsigned pid, uint8_t *packet)
{
    dvbpsi_packet_push(handles[pid], packet);
}

int main(int argc, char **argv)
{
    return argc == 2 ? read_file(argv[1], take) : 2;
}
