/* The events that libdvbpsi reads of the EIT on PID 0x12 of a stream (Debian's libdvbpsi-dev): a line for each complete table, each event and each descriptor. */
#include <stdbool.h>
#include <stdint.h>
#include <stdio.h>
#include <stdlib.h>
#include <sys/types.h>

/* Its headers need what stands above. */
#include <dvbpsi/dvbpsi.h>
#include <dvbpsi/psi.h>
#include <dvbpsi/descriptor.h>
#include <dvbpsi/demux.h>
#include <dvbpsi/eit.h>

enum { PACKET = 188, EIT_PID = 0x12 };

static void tell(void *nothing, dvbpsi_eit_t *eit)
{
    (void)nothing;
    printf("table %02X %04X\n", eit->i_table_id, eit->i_extension);
    for (const dvbpsi_eit_event_t *event = eit->p_first_event; event != NULL; event = event->p_next) {
        printf("event %04X %u %06X %06X %u %u %u\n", event->i_event_id, (unsigned)(event->i_start_time >> 24), (unsigned)(event->i_start_time & 0xFFFFFF), event->i_duration, event->i_running_status,
            event->b_free_ca, event->i_descriptors_length);
        for (const dvbpsi_descriptor_t *descriptor = event->p_first_descriptor; descriptor != NULL; descriptor = descriptor->p_next) {
            printf("descriptor %02X %u%s", descriptor->i_tag, descriptor->i_length, descriptor->i_length == 0 ? "" : " ");
            for (unsigned i = 0; i < descriptor->i_length; i++)
                printf("%02X", descriptor->p_data[i]);
            putchar('\n');
        }
    }
    dvbpsi_eit_delete(eit);
}

static void begin_table(dvbpsi_t *handle, uint8_t table_id, uint16_t service_id, void *nothing)
{
    (void)nothing;
    if (table_id >= 0x4E && table_id <= 0x6F && !dvbpsi_eit_attach(handle, table_id, service_id, tell, NULL))
        exit(2);
}

int main(int argc, char **argv)
{
    FILE *file = argc == 2 ? fopen(argv[1], "rb") : NULL;
    dvbpsi_t *handle = dvbpsi_new(NULL, DVBPSI_MSG_NONE);
    if (file == NULL || handle == NULL || !dvbpsi_AttachDemux(handle, begin_table, NULL))
        return 2;
    uint8_t packet[PACKET];
    while (fread(packet, 1, PACKET, file) == PACKET)
        if (((packet[1] & 0x1F) << 8 | packet[2]) == EIT_PID)
            dvbpsi_packet_push(handle, packet);
    return 0;
}
