/* What libdvbpsi reads of the NIT on PID 0x10, the BAT and the SDT on PID 0x11 of a stream (Debian's libdvbpsi-dev): a line for each complete table, each transport stream or service and each descriptor. */
#include <stdbool.h>
#include <stdint.h>
#include <stdio.h>
#include <stdlib.h>
#include <sys/types.h>

/* Its headers need what stands above. */
#include <dvbpsi/dvbpsi.h>
#include <dvbpsi/psi.h>
#include <dvbpsi/descriptor.h>
#include <dvbpsi/demux.h>
#include <dvbpsi/bat.h>
#include <dvbpsi/nit.h>
#include <dvbpsi/sdt.h>

enum { PACKET = 188, NIT_PID = 0x10, SDT_PID = 0x11 };

static void tell_descriptors(const dvbpsi_descriptor_t *descriptor)
{
    for (; descriptor != NULL; descriptor = descriptor->p_next) {
        printf("descriptor %02X %u%s", descriptor->i_tag, descriptor->i_length, descriptor->i_length == 0 ? "" : " ");
        for (unsigned i = 0; i < descriptor->i_length; i++)
            printf("%02X", descriptor->p_data[i]);
        putchar('\n');
    }
}

static void tell_nit(void *nothing, dvbpsi_nit_t *nit)
{
    (void)nothing;
    printf("table %02X %04X\n", nit->i_table_id, nit->i_extension);
    tell_descriptors(nit->p_first_descriptor);
    for (const dvbpsi_nit_ts_t *ts = nit->p_first_ts; ts != NULL; ts = ts->p_next) {
        printf("stream %04X %04X\n", ts->i_ts_id, ts->i_orig_network_id);
        tell_descriptors(ts->p_first_descriptor);
    }
    dvbpsi_nit_delete(nit);
}

static void tell_bat(void *nothing, dvbpsi_bat_t *bat)
{
    (void)nothing;
    printf("table %02X %04X\n", bat->i_table_id, bat->i_extension);
    tell_descriptors(bat->p_first_descriptor);
    for (const dvbpsi_bat_ts_t *ts = bat->p_first_ts; ts != NULL; ts = ts->p_next) {
        printf("stream %04X %04X\n", ts->i_ts_id, ts->i_orig_network_id);
        tell_descriptors(ts->p_first_descriptor);
    }
    dvbpsi_bat_delete(bat);
}

static void tell_sdt(void *nothing, dvbpsi_sdt_t *sdt)
{
    (void)nothing;
    printf("table %02X %04X\n", sdt->i_table_id, sdt->i_extension);
    for (const dvbpsi_sdt_service_t *service = sdt->p_first_service; service != NULL; service = service->p_next) {
        printf("service %04X %04X %u %u %u %u\n", service->i_service_id, sdt->i_network_id, service->b_eit_schedule, service->b_eit_present, service->i_running_status, service->b_free_ca);
        tell_descriptors(service->p_first_descriptor);
    }
    dvbpsi_sdt_delete(sdt);
}

static void begin_table(dvbpsi_t *handle, uint8_t table_id, uint16_t extension, void *nothing)
{
    bool attached = true;
    (void)nothing;
    if (table_id == 0x40 || table_id == 0x41)
        attached = dvbpsi_nit_attach(handle, table_id, extension, tell_nit, NULL);
    if (table_id == 0x4A)
        attached = dvbpsi_bat_attach(handle, table_id, extension, tell_bat, NULL);
    if (table_id == 0x42 || table_id == 0x46)
        attached = dvbpsi_sdt_attach(handle, table_id, extension, tell_sdt, NULL);
    if (!attached)
        exit(2);
}

int main(int argc, char **argv)
{
    FILE *file = argc == 2 ? fopen(argv[1], "rb") : NULL;
    dvbpsi_t *handles[2] = {dvbpsi_new(NULL, DVBPSI_MSG_NONE), dvbpsi_new(NULL, DVBPSI_MSG_NONE)};
    uint8_t packet[PACKET];
    for (int i = 0; i < 2; i++)
        if (file == NULL || handles[i] == NULL || !dvbpsi_AttachDemux(handles[i], begin_table, NULL))
            return 2;
    while (fread(packet, 1, PACKET, file) == PACKET) {
        unsigned pid = (unsigned)(packet[1] & 0x1F) << 8 | packet[2];
        if (pid == NIT_PID || pid == SDT_PID)
            dvbpsi_packet_push(handles[pid == SDT_PID], packet);
    }
    return 0;
}
