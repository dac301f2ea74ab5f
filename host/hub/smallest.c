/* The README's host: one connection opens and asks for a job. A real host has sockets where this one prints. */
#include <stdio.h>

#include "lap.h"

static uint8_t table[LAP_TABLE_BYTES], workloads[LAP_WORKLOADS_BYTES], output[LAP_OUTPUT_BYTES];

/* Send: one addressed packet after the other, each with the number of its connection before it. */
static void send_all(uint32_t length) {
    for (uint32_t at = 0; at < length;) {
        const uint8_t *packet = output + at + 1;
        uint32_t bytes = LAP_HEADER_BYTES + lap_size_of(packet);
        printf("to connection %u: type %u, %u bytes\n", output[at], lap_type_of(packet), bytes);
        at += 1 + bytes;
    }
}

int main(void) {
    static const uint8_t grab_job[LAP_HEADER_BYTES] = {0, 'R', 'E', 'Q', 0, 0, 0, LAP_TYPE_GRAB_JOB};
    static const uint8_t name[] = {'h', 'u', 'b', '1'}; /* this hub's, in each of its handles: H:hub1:1 */
    uint32_t length;
    uint32_t number = lap_fresh(table, sizeof table, workloads, sizeof workloads, name, sizeof name);
    if (number == LAP_DONE) {
        number = lap_open(table, sizeof table, workloads, sizeof workloads, output, sizeof output, 1, &length);
        send_all(length);
    }
    if (number == LAP_DONE) {
        number = lap_packet(table, sizeof table, workloads, sizeof workloads, output, sizeof output, 1,
                            grab_job, sizeof grab_job, &length);
        send_all(length);
    }
    printf("number %u: %s\n", number, lap_number_text(number));
    return number == LAP_DONE ? 0 : 1;
}
