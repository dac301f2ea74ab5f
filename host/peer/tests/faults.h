/* What faults.c and hub_faults.c share: the faults' numbers, the archive's own functions, the table's places. */
#ifndef FAULTS_H
#define FAULTS_H

#include "lap.h"

enum fault {
    CONNECTION_MODULO_256 = 1,
    LENGTH_LEFT_ON_A_REFUSAL,
    LENGTH_ONE_SHORT,
    OUTPUT_WRITTEN_PAST_THE_LENGTH,
    REFUSAL_12_AS_11,
    REFUSAL_CHANGES_THE_TABLE,
    TABLE_WRITTEN_PAST_THE_LAYOUT,
    SLEEPER_KEPT_ASLEEP,
    WORKLOAD_OF_AN_ENDED_JOB_KEPT,
    FRESH_KEEPS_THE_LAST_WORKLOAD,
    GRAB_STOPS_AT_THE_FIRST_HIGH_JOB,
    GRAB_STOPS_AT_THE_FIRST_JOB,
    RESET_CLEARS_THE_ID,
    CLOSE_KEEPS_THE_ID,
    REST_OF_A_LONGER_ID_KEPT,
    ID_OF_A_CLOSED_CONNECTION_ALLOWED,
    ALL_CARRIAGE_RETURNS_DROPPED,
    NO_LINE_FEED_NEEDED,
    UNKNOWN_LINE_BEFORE_THE_TABLE,
    SPACE_AFTER_THE_COLON,
    FUNCTIONS_ORDERED_AS_PRINTED,
    TEXT_DEPENDS_ON_A_WORKLOAD,
    /* Faults of exceptions. */
    LISTENERS_WITHOUT_THE_OPTION_NOT_TOLD,
    FAILS_AFTER_ALL_COPIES,
    COPY_AND_FAIL_TO_ONE_LISTENER,
    FAIL_CARRIES_THE_EXCEPTION,
    FAIL_TO_THOSE_THAT_DO_NOT_LISTEN,
    NO_FAIL_TO_THE_HOLDER,
    OPTION_OF_THE_HOLDER_COUNTS,
    EMPTY_EXCEPTION_FAILS_NOBODY,
    JOB_KEPT_WHERE_NOBODY_GOT_A_COPY,
    /* Faults of hubs' names: hub_faults.c. */
    CREATED_SAYS_LAP,
    ASSIGNMENT_SAYS_LAP,
    FAIL_AFTER_AN_EXCEPTION_SAYS_LAP,
    HANDLE_CUT_AT_27_BYTES,
    ASSIGNMENT_CUT_AT_1041_BYTES,
    WORKER_OF_ANOTHER_HUB_TAKEN,
    STATUS_OF_ANOTHER_HUB_GIVEN,
    NAME_THAT_STARTS_ALIKE_TAKEN,
    NAME_OF_16_BYTES_MADE,
    UPPERCASE_NAME_MADE,
    NAME_ENDS_AT_A_ZERO_BYTE,
    BAD_NAME_CLEARS_THE_WORKLOADS,
    REST_OF_A_LONGER_NAME_KEPT,
    TABLE_OF_ZEROS_TAKEN,
    UPPERCASE_NAME_IN_A_TABLE_TAKEN,
    LAST_BYTE_OF_THE_NAMES_PLACE_NOT_CHECKED,
    BYTES_AFTER_THE_NAME_NOT_CHECKED,
    LAST_CLOSE_RENAMES_THE_HUB
};

#define KEPT uint8_t *table, size_t table_len, uint8_t *workloads, size_t workloads_len
#define LENT KEPT, uint8_t *output, size_t output_len
#define PASSED table, table_len, workloads, workloads_len, output, output_len
#define LENT_TO_READ \
    const uint8_t *table, size_t table_len, const uint8_t *workloads, size_t workloads_len, uint8_t *output, \
        size_t output_len

uint32_t core_fresh(KEPT, const uint8_t *name, size_t name_len);
uint32_t core_open(LENT, uint32_t connection, uint32_t *length);
uint32_t core_close(LENT, uint32_t connection, uint32_t *length);
uint32_t core_packet(LENT, uint32_t connection, const uint8_t *packet, size_t packet_len, uint32_t *length);
uint32_t core_text(LENT_TO_READ, uint32_t connection, const uint8_t *line, size_t line_len, uint32_t *length);

/* Where the table holds what the faults look at: docs/TABLE.md. */
enum { SERIALS = 4, HOLDERS = 196, PRIORITIES = 260, FUNCTIONS = 324 };
enum { HUB = 3556, ABLE = 3572, OPEN = 3764, ASLEEP = 3780, EXCEPTIONS = 3796, IDS = 3812 };
enum { JOBS = 32, PLACE = 1024, HIGH = 2, ID = 64, HUB_PLACE = LAP_HUB_BYTES + 1 };
_Static_assert(LAP_TABLE_BYTES == IDS + ID * LAP_CONNECTIONS, "the client ids stand last");

/* Table, workloads, output and length as they were before the call. */
extern uint8_t old_table[LAP_TABLE_BYTES];
extern uint8_t old_workloads[LAP_WORKLOADS_BYTES];
extern uint8_t old_output[LAP_OUTPUT_BYTES];
extern uint32_t old_length;

/* The fault that is chosen, and whether it is one of hubs' names. */
int fault(void);
static inline int is_hub_fault(void) {
    return fault() >= CREATED_SAYS_LAP && fault() <= LAST_CLOSE_RENAMES_THE_HUB;
}

/* The packet's type is this one; it has a whole header. */
int is_type(const uint8_t *packet, size_t packet_len, uint32_t type);

/* One more packet in the output. */
void put_packet(uint8_t *output, uint32_t *length, int connection, int type, const uint8_t *data, size_t size);

/* The calls with a fault of hubs' names; the old table, workloads and output are remembered. */
uint32_t hub_fresh(KEPT, const uint8_t *name, size_t name_len);
uint32_t hub_open(LENT, uint32_t connection, uint32_t *length);
uint32_t hub_close(LENT, uint32_t connection, uint32_t *length);
uint32_t hub_packet(LENT, uint32_t connection, const uint8_t *packet, size_t packet_len, uint32_t *length);

#endif
