/*
 * Wrong archives for the program `compare` to find: the archive's own functions, renamed to core_*, and one fault on
 * top of them. The variable LAP_FAULT chooses it; 0 or none: no fault. host/tests/peer.sh builds and runs it. The
 * faults of hubs' names stand in hub_faults.c, all others here.
 */
#include <stdlib.h>
#include <string.h>

#include "faults.h"

uint8_t old_table[LAP_TABLE_BYTES];
uint8_t old_workloads[LAP_WORKLOADS_BYTES];
uint8_t old_output[LAP_OUTPUT_BYTES];
uint32_t old_length;

int fault(void) {
    const char *chosen = getenv("LAP_FAULT");
    return chosen ? atoi(chosen) : 0;
}

static uint32_t connection_taken(uint32_t connection) {
    return fault() == CONNECTION_MODULO_256 ? connection % 256 : connection;
}

static void remember(LENT, const uint32_t *length) {
    memcpy(old_table, table, table_len < LAP_TABLE_BYTES ? table_len : LAP_TABLE_BYTES);
    memcpy(old_workloads, workloads, workloads_len < LAP_WORKLOADS_BYTES ? workloads_len : LAP_WORKLOADS_BYTES);
    memcpy(old_output, output, output_len < LAP_OUTPUT_BYTES ? output_len : LAP_OUTPUT_BYTES);
    old_length = *length;
}

static int is_free(const uint8_t *table, int p) {
    static const uint8_t none[4];
    return memcmp(table + SERIALS + 4 * p, none, 4) == 0;
}

/* The workload of each job that the call ended is as it was. */
static void keep_ended_workloads(const uint8_t *table, uint8_t *workloads) {
    for (int p = 0; p < JOBS; p++) {
        if (!is_free(old_table, p) && is_free(table, p)) {
            memcpy(workloads + PLACE * p, old_workloads + PLACE * p, PLACE);
        }
    }
}

/*
 * The packet is a grab that will be done: one of two packets, the connection open and nothing wrong with what is lent,
 * or else a packet of no bytes, which changes nothing, would be refused by a lower number.
 */
static int is_grab(LENT, uint32_t connection, const uint8_t *packet, size_t packet_len) {
    static const uint8_t grabs[2][12] = {{0, 'R', 'E', 'Q', 0, 0, 0, 9}, {0, 'R', 'E', 'Q', 0, 0, 0, 30}};
    uint32_t length;
    return packet_len == 12 && (memcmp(packet, grabs[0], 12) == 0 || memcmp(packet, grabs[1], 12) == 0) &&
           core_packet(PASSED, connection, packet, 0, &length) == LAP_SHORT_PACKET;
}

/* The job is queued, and the connection can do it. */
static int is_grabbable(const uint8_t *table, int p, uint32_t connection) {
    const uint8_t *able = table + ABLE + 4 * table[FUNCTIONS + p];
    return !is_free(table, p) && table[HOLDERS + 2 * p] == 0 && (able[connection / 8] >> connection % 8 & 1) != 0;
}

/* Where a grab stops that goes up the places: at the first job of this priority or a higher one. JOBS: nowhere. */
static int stop(const uint8_t *table, uint32_t connection, int priority) {
    int p = 0;
    while (p < JOBS && !(is_grabbable(table, p, connection) && table[PRIORITIES + p] >= priority)) {
        p++;
    }
    return p;
}

/* If the grab stops somewhere, it finds that job alone: as long as it lasts, its sender holds the others. */
static uint32_t stopping_grab(LENT, uint32_t connection, const uint8_t *packet, size_t packet_len, uint32_t *length) {
    int found = stop(table, connection, fault() == GRAB_STOPS_AT_THE_FIRST_HIGH_JOB ? HIGH : 0);
    int hidden[JOBS] = {0};
    for (int p = 0; p < JOBS; p++) {
        if (found != JOBS && p != found && is_grabbable(table, p, connection)) {
            hidden[p] = 1;
            table[HOLDERS + 2 * p] = connection + 1;
        }
    }
    uint32_t number = core_packet(PASSED, connection, packet, packet_len, length);
    for (int p = 0; p < JOBS; p++) {
        if (hidden[p]) {
            table[HOLDERS + 2 * p] = 0;
        }
    }
    return number;
}

int is_type(const uint8_t *packet, size_t packet_len, uint32_t type) {
    return packet_len >= LAP_HEADER_BYTES && lap_type_of(packet) == type;
}

/* The fault in the sender's id after a packet that was done. */
static void spoil_id(uint8_t *table, uint32_t connection, const uint8_t *packet, size_t packet_len) {
    uint8_t *id = table + IDS + ID * connection;
    const uint8_t *old = old_table + IDS + ID * connection;
    if (fault() == RESET_CLEARS_THE_ID && is_type(packet, packet_len, LAP_TYPE_RESET_ABILITIES)) {
        memset(id, 0, ID);
    }
    if (fault() == REST_OF_A_LONGER_ID_KEPT && is_type(packet, packet_len, LAP_TYPE_SET_CLIENT_ID)) {
        size_t length = packet_len - LAP_HEADER_BYTES;
        memcpy(id + length, old + length, ID - length);
    }
}

/* What a connection is told of an exception: nothing, a copy of it, WORK_FAIL, or both. */
enum { COPY = 1, FAIL = 2 };

/* An exception that was done: its data, how much of that is the handle, and what each connection was told. */
struct exception {
    uint32_t holder;
    const uint8_t *data;
    size_t size, handle;
    uint8_t told[LAP_CONNECTIONS];
};

static struct exception exception_of(uint32_t holder, const uint8_t *data, size_t size, const uint8_t *output,
                                     uint32_t length) {
    struct exception exception = {holder, data, size, (const uint8_t *)memchr(data, 0, size) - data, {0}};
    for (uint32_t at = 0; at < length; at += 1 + LAP_HEADER_BYTES + lap_size_of(output + at + 1)) {
        exception.told[output[at]] = lap_type_of(output + at + 1) == LAP_TYPE_WORK_FAIL ? FAIL : COPY;
    }
    return exception;
}

/* What the fault has a connection told. */
static int wrongly_told(const struct exception *exception, uint32_t connection) {
    int told = exception->told[connection];
    switch (fault()) {
    case LISTENERS_WITHOUT_THE_OPTION_NOT_TOLD:
        return told & COPY;
    case COPY_AND_FAIL_TO_ONE_LISTENER:
        /* Up to here the output has room for both to all connections. */
        return told == COPY && exception->size <= 900 ? COPY | FAIL : told;
    case FAIL_TO_THOSE_THAT_DO_NOT_LISTEN:
        return told == 0 && old_table[OPEN + connection] ? FAIL : told;
    case NO_FAIL_TO_THE_HOLDER:
        return connection == exception->holder ? told & COPY : told;
    case OPTION_OF_THE_HOLDER_COUNTS:
        return told == 0 ? 0 : old_table[EXCEPTIONS + exception->holder] ? COPY : FAIL;
    case EMPTY_EXCEPTION_FAILS_NOBODY:
        return exception->handle + 1 == exception->size ? told & COPY : told;
    }
    return told;
}

void put_packet(uint8_t *output, uint32_t *length, int connection, int type, const uint8_t *data, size_t size) {
    const uint8_t header[1 + LAP_HEADER_BYTES] = {connection, 0, 'R', 'E', 'S', 0, 0, 0, type, 0, 0, size >> 8, size};
    memcpy(output + *length, header, sizeof header);
    memcpy(output + *length + sizeof header, data, size);
    *length += sizeof header + size;
}

/* The copies, the WORK_FAIL packets or both, to all that are told so. */
static void put_told(uint8_t *output, uint32_t *length, const struct exception *exception, int kinds) {
    size_t size = fault() == FAIL_CARRIES_THE_EXCEPTION ? exception->size : exception->handle;
    for (uint32_t c = 0; c < LAP_CONNECTIONS; c++) {
        int told = wrongly_told(exception, c) & kinds;
        if (told & COPY) {
            put_packet(output, length, c, LAP_TYPE_WORK_EXCEPTION, exception->data, exception->size);
        }
        if (told & FAIL) {
            put_packet(output, length, c, LAP_TYPE_WORK_FAIL, exception->data, size);
        }
    }
}

/* The fault in what an exception has left; its packets are written anew, with nothing changed behind them. */
static void spoil_exception(uint8_t *table, uint8_t *workloads, uint8_t *output, uint32_t *length, uint32_t holder,
                            const uint8_t *packet, size_t packet_len) {
    struct exception exception =
        exception_of(holder, packet + LAP_HEADER_BYTES, packet_len - LAP_HEADER_BYTES, output, *length);
    memcpy(output, old_output, *length);
    *length = 0;
    if (fault() == FAILS_AFTER_ALL_COPIES) {
        put_told(output, length, &exception, COPY);
        put_told(output, length, &exception, FAIL);
    } else {
        put_told(output, length, &exception, COPY | FAIL);
    }
    if (fault() == JOB_KEPT_WHERE_NOBODY_GOT_A_COPY && !memchr(exception.told, COPY, sizeof exception.told)) {
        memcpy(table, old_table, sizeof old_table);
        memcpy(workloads, old_workloads, sizeof old_workloads);
    }
}

/* As long as the call lasts, closed connections have no ids. */
static uint32_t unchecked_ids(LENT, uint32_t connection, const uint8_t *packet, size_t packet_len, uint32_t *length) {
    for (int c = 0; c < LAP_CONNECTIONS && table_len >= LAP_TABLE_BYTES; c++) {
        if (table[OPEN + c] == 0) {
            memset(table + IDS + ID * c, 0, ID);
        }
    }
    uint32_t number = core_packet(PASSED, connection, packet, packet_len, length);
    for (int c = 0; c < LAP_CONNECTIONS && table_len >= LAP_TABLE_BYTES; c++) {
        if (table[OPEN + c] == 0) {
            memcpy(table + IDS + ID * c, old_table + IDS + ID * c, ID);
        }
    }
    return number;
}

/* The line as a faulty reader takes it. */
static size_t line_taken(const uint8_t *line, size_t line_len, uint8_t *taken) {
    memcpy(taken, line, line_len);
    if (fault() == NO_LINE_FEED_NEEDED && (line_len == 0 || taken[line_len - 1] != '\n')) {
        taken[line_len++] = '\n';
    }
    while (fault() == ALL_CARRIAGE_RETURNS_DROPPED && line_len > 1 && taken[line_len - 1] == '\n' &&
           taken[line_len - 2] == '\r') {
        taken[--line_len - 1] = '\n';
    }
    return line_len;
}

/* A space at the end of each line without functions. */
static void put_spaces(uint8_t *output, uint32_t *length) {
    for (uint32_t at = 1; at + 1 < *length; at++) {
        if (output[at - 1] == ' ' && output[at] == ':' && output[at + 1] == '\n') {
            memmove(output + at + 2, output + at + 1, *length - at - 1);
            output[at + 1] = ' ';
            *length += 1;
        }
    }
}

/* The first of two lines comes after the second, as they are printed. */
static int comes_after(const uint8_t *first, const uint8_t *second) {
    while (*first == *second && *first != '\n') {
        first++, second++;
    }
    return *first > *second;
}

/* The lines of a status in the order of what is printed: neighbours change places until none comes after the next. */
static void order_lines(uint8_t *output, uint32_t length) {
    static uint8_t line[LAP_OUTPUT_BYTES];
    for (int round = 0; round < LAP_MOST_FUNCTIONS; round++) {
        uint8_t *first = output + 1;
        for (;;) {
            uint8_t *second = memchr(first, '\n', output + length - first);
            if (!second || ++second >= output + length - 2) {
                break;
            }
            uint8_t *end = memchr(second, '\n', output + length - second);
            size_t firsts = second - first, seconds = end + 1 - second;
            if (comes_after(first, second)) {
                memcpy(line, first, firsts);
                memmove(first, second, seconds);
                memcpy(first + seconds, line, firsts);
                first += seconds;
            } else {
                first = second;
            }
        }
    }
}

/* The fault in what the call has left. */
static uint32_t spoil(LENT, uint32_t number, uint32_t *length) {
    (void)workloads_len;
    switch (fault()) {
    case LENGTH_LEFT_ON_A_REFUSAL:
        if (number != LAP_DONE && *length == 0) {
            *length = old_length;
        }
        break;
    case LENGTH_ONE_SHORT:
        if (*length > 1100) {
            *length -= 1;
        }
        break;
    case OUTPUT_WRITTEN_PAST_THE_LENGTH:
        if (*length < output_len) {
            output[*length] = 1;
        }
        break;
    case REFUSAL_12_AS_11:
        if (number == LAP_JOBS) {
            return LAP_FUNCTIONS;
        }
        break;
    case REFUSAL_CHANGES_THE_TABLE:
        if (number >= LAP_TYPE) {
            table[0] ^= 1;
        }
        break;
    case TABLE_WRITTEN_PAST_THE_LAYOUT:
        if (table_len > LAP_TABLE_BYTES) {
            table[LAP_TABLE_BYTES] = 0;
        }
        break;
    case SLEEPER_KEPT_ASLEEP:
        if (number == LAP_DONE) {
            memcpy(table + ASLEEP, old_table + ASLEEP, LAP_CONNECTIONS);
        }
        break;
    case WORKLOAD_OF_AN_ENDED_JOB_KEPT:
        if (number == LAP_DONE) {
            keep_ended_workloads(table, workloads);
        }
        break;
    }
    return number;
}

uint32_t lap_fresh(KEPT, const uint8_t *name, size_t name_len) {
    if (is_hub_fault()) {
        return hub_fresh(table, table_len, workloads, workloads_len, name, name_len);
    }
    uint8_t last = workloads_len < LAP_WORKLOADS_BYTES ? 0 : workloads[LAP_WORKLOADS_BYTES - 1];
    uint32_t number = core_fresh(table, table_len, workloads, workloads_len, name, name_len);
    if (fault() == FRESH_KEEPS_THE_LAST_WORKLOAD && number == LAP_DONE) {
        workloads[LAP_WORKLOADS_BYTES - 1] = last;
    }
    return number;
}

uint32_t lap_open(LENT, uint32_t connection, uint32_t *length) {
    remember(PASSED, length);
    if (is_hub_fault()) {
        return hub_open(PASSED, connection, length);
    }
    return spoil(PASSED, core_open(PASSED, connection_taken(connection), length), length);
}

uint32_t lap_close(LENT, uint32_t connection, uint32_t *length) {
    remember(PASSED, length);
    if (is_hub_fault()) {
        return hub_close(PASSED, connection, length);
    }
    uint32_t number = spoil(PASSED, core_close(PASSED, connection_taken(connection), length), length);
    if (fault() == CLOSE_KEEPS_THE_ID && number == LAP_DONE) {
        memcpy(table + IDS + ID * connection, old_table + IDS + ID * connection, ID);
    }
    return number;
}

uint32_t lap_packet(LENT, uint32_t connection, const uint8_t *packet, size_t packet_len, uint32_t *length) {
    remember(PASSED, length);
    if (is_hub_fault()) {
        return hub_packet(PASSED, connection, packet, packet_len, length);
    }
    int stops = fault() == GRAB_STOPS_AT_THE_FIRST_HIGH_JOB || fault() == GRAB_STOPS_AT_THE_FIRST_JOB;
    if (stops && is_grab(PASSED, connection, packet, packet_len)) {
        return stopping_grab(PASSED, connection, packet, packet_len, length);
    }
    if (fault() == ID_OF_A_CLOSED_CONNECTION_ALLOWED) {
        return unchecked_ids(PASSED, connection, packet, packet_len, length);
    }
    uint32_t number = core_packet(PASSED, connection_taken(connection), packet, packet_len, length);
    if (number == LAP_DONE && connection < LAP_CONNECTIONS) {
        spoil_id(table, connection, packet, packet_len);
    }
    int exception = number == LAP_DONE && is_type(packet, packet_len, LAP_TYPE_WORK_EXCEPTION);
    if (exception && fault() >= LISTENERS_WITHOUT_THE_OPTION_NOT_TOLD) {
        spoil_exception(table, workloads, output, length, connection, packet, packet_len);
    }
    return spoil(PASSED, number, length);
}

uint32_t lap_text(LENT_TO_READ, uint32_t connection, const uint8_t *line, size_t line_len, uint32_t *length) {
    static const char unknown[] = "ERR unknown\n";
    static uint8_t taken[32768];
    int whole = table_len >= LAP_TABLE_BYTES && workloads_len >= LAP_WORKLOADS_BYTES && output_len >= LAP_OUTPUT_BYTES;
    size_t taken_len = line_taken(line, line_len, taken);
    uint32_t number = core_text(PASSED, connection_taken(connection), taken, taken_len, length);
    if (fault() == UNKNOWN_LINE_BEFORE_THE_TABLE && number == LAP_LENT && whole && line_len == 0) {
        output[0] = connection;
        memcpy(output + 1, unknown, sizeof unknown - 1);
        *length = sizeof unknown;
        return LAP_DONE;
    }
    if (fault() == SPACE_AFTER_THE_COLON) {
        put_spaces(output, length);
    }
    if (fault() == FUNCTIONS_ORDERED_AS_PRINTED && *length > 1 && memchr(output + 1, '\t', *length - 1)) {
        order_lines(output, *length);
    }
    if (fault() == TEXT_DEPENDS_ON_A_WORKLOAD && *length > 1 && workloads[0] % 2 == 1) {
        output[1] ^= 1;
    }
    return number;
}
