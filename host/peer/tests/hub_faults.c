/*
 * Faults of hubs' names: in the handles that are sent, in those that are compared, in the names that a fresh table is
 * made with, in the check of a table's name, and in keeping it. faults.c calls these functions.
 */
#include <string.h>

#include "faults.h"

static const uint8_t lap[] = {'l', 'a', 'p'};

/* The packet that came, if it has a handle: its type, and the name that stands in the handle. No name: it has none. */
struct asked {
    uint32_t type;
    const uint8_t *name;
    size_t name_len;
};

/* The types that have a handle: the worker packets, and GET_STATUS. */
static int is_worker(uint32_t type) {
    return type == LAP_TYPE_WORK_STATUS || type == LAP_TYPE_WORK_COMPLETE || type == LAP_TYPE_WORK_FAIL ||
           type == LAP_TYPE_WORK_EXCEPTION || type == LAP_TYPE_WORK_DATA || type == LAP_TYPE_WORK_WARNING;
}

/* What stands between `H:` and the next colon of the handle, in a packet whose header says its size. */
static struct asked asked_of(const uint8_t *packet, size_t packet_len) {
    struct asked asked = {0, NULL, 0};
    if (packet_len < LAP_HEADER_BYTES || packet_len > LAP_PACKET_BYTES ||
        lap_size_of(packet) != packet_len - LAP_HEADER_BYTES) {
        return asked;
    }
    asked.type = lap_type_of(packet);
    const uint8_t *data = packet + LAP_HEADER_BYTES, *end = packet + packet_len;
    const uint8_t *zero = memchr(data, 0, end - data);
    size_t handle = (zero ? zero : end) - data;
    if ((is_worker(asked.type) || asked.type == LAP_TYPE_GET_STATUS) && handle <= LAP_HANDLE_BYTES && handle > 2 &&
        memcmp(data, "H:", 2) == 0) {
        const uint8_t *colon = memchr(data + 2, ':', handle - 2);
        asked.name = colon ? data + 2 : NULL;
        asked.name_len = colon ? colon - asked.name : 0;
    }
    return asked;
}

/* The length of the table's own name. */
static size_t own_len(const uint8_t *table) {
    const uint8_t *zero = memchr(table + HUB, 0, HUB_PLACE);
    return zero ? zero - (table + HUB) : HUB_PLACE;
}

/* A server that compares names too little takes this one for its own. */
static int is_taken(const uint8_t *table, const struct asked *asked) {
    size_t own = own_len(table);
    switch (fault()) {
    case WORKER_OF_ANOTHER_HUB_TAKEN:
        return asked->name && is_worker(asked->type);
    case STATUS_OF_ANOTHER_HUB_GIVEN:
        return asked->name && asked->type == LAP_TYPE_GET_STATUS;
    case NAME_THAT_STARTS_ALIKE_TAKEN:
        return asked->name && asked->name_len > own && memcmp(asked->name, table + HUB, own) == 0;
    }
    return 0;
}

/* The data with another name in the handle that it starts with; its new size. */
static size_t rename_handle(uint8_t *data, size_t size, const uint8_t *name, size_t name_len) {
    const uint8_t *colon = memchr(data + 2, ':', size - 2);
    size_t rest = data + size - colon;
    memmove(data + 2 + name_len, colon, rest);
    memcpy(data + 2, name, name_len);
    return 2 + name_len + rest;
}

/* The packet as it is taken: with the hub's own name in its handle, if that still makes a packet. Its length. */
static size_t packet_taken(const uint8_t *table, const uint8_t *packet, size_t packet_len, uint8_t *taken) {
    uint8_t *data = taken + LAP_HEADER_BYTES;
    memcpy(taken, packet, packet_len);
    size_t size = rename_handle(data, packet_len - LAP_HEADER_BYTES, table + HUB, own_len(table));
    if (size > LAP_DATA_BYTES) {
        memcpy(taken, packet, packet_len);
        return packet_len;
    }
    taken[LAP_SIZE_AT + 2] = size >> 8;
    taken[LAP_SIZE_AT + 3] = size & 255;
    return LAP_HEADER_BYTES + size;
}

/* The fault in the data of a packet that is sent; its new size. */
static size_t worded(uint32_t type, uint8_t *data, size_t size, const struct asked *asked) {
    int created = type == LAP_TYPE_JOB_CREATED;
    int assigns = type == LAP_TYPE_JOB_ASSIGN || type == LAP_TYPE_JOB_ASSIGN_UNIQ;
    int fails = type == LAP_TYPE_WORK_FAIL && asked->type == LAP_TYPE_WORK_EXCEPTION;
    switch (fault()) {
    case CREATED_SAYS_LAP:
        return created ? rename_handle(data, size, lap, sizeof lap) : size;
    case ASSIGNMENT_SAYS_LAP:
        return assigns ? rename_handle(data, size, lap, sizeof lap) : size;
    case FAIL_AFTER_AN_EXCEPTION_SAYS_LAP:
        return fails ? rename_handle(data, size, lap, sizeof lap) : size;
    case HANDLE_CUT_AT_27_BYTES:
        return created && size > 27 ? 27 : size;
    case ASSIGNMENT_CUT_AT_1041_BYTES:
        return assigns && size > 1041 ? 1041 : size;
    }
    /* A status that was found by another name is answered with the handle as asked. */
    return type == LAP_TYPE_STATUS_RES && asked->name ? rename_handle(data, size, asked->name, asked->name_len) : size;
}

/* The packets once more, as the fault words them; behind them the output is as it was. */
static void word(uint8_t *output, uint32_t *length, const struct asked *asked) {
    static uint8_t packets[LAP_OUTPUT_BYTES], data[LAP_RESPONSE_DATA_BYTES + HUB_PLACE];
    uint32_t whole = *length;
    memcpy(packets, output, whole);
    memcpy(output, old_output, whole);
    *length = 0;
    for (uint32_t at = 0; at < whole;) {
        const uint8_t *packet = packets + at + 1;
        size_t size = lap_size_of(packet);
        memcpy(data, packet + LAP_HEADER_BYTES, size);
        uint32_t type = lap_type_of(packet);
        put_packet(output, length, packets[at], type, data, worded(type, data, size, asked));
        at += 1 + LAP_HEADER_BYTES + size;
    }
}

/* The table's name as a check takes it that lets too much through: as long as the call lasts, a good one is there. */
static void mend(uint8_t *table, size_t table_len) {
    static const uint8_t zeros[LAP_TABLE_BYTES];
    uint8_t *name = table + HUB;
    if (table_len < LAP_TABLE_BYTES) {
        return;
    }
    switch (fault()) {
    case TABLE_OF_ZEROS_TAKEN:
        if (memcmp(table, zeros, sizeof zeros) == 0) {
            memcpy(name, lap, sizeof lap);
        }
        break;
    case UPPERCASE_NAME_IN_A_TABLE_TAKEN:
        for (int at = 0; at < HUB_PLACE; at++) {
            name[at] += name[at] >= 'A' && name[at] <= 'Z' ? 'a' - 'A' : 0;
        }
        break;
    case LAST_BYTE_OF_THE_NAMES_PLACE_NOT_CHECKED:
        name[LAP_HUB_BYTES] = 0;
        break;
    case BYTES_AFTER_THE_NAME_NOT_CHECKED:
        memset(name + own_len(table), 0, HUB_PLACE - own_len(table));
        break;
    }
}

/* The name as it was before the call: no event changes it. */
static void keep(uint8_t *table, size_t table_len) {
    if (table_len >= LAP_TABLE_BYTES) {
        memcpy(table + HUB, old_table + HUB, HUB_PLACE);
    }
}

/* The name that a fresh table is asked for, as a server takes it that refuses too little; its length. */
static size_t name_taken(const uint8_t *name, size_t name_len, uint8_t *taken) {
    memcpy(taken, name, name_len);
    switch (fault()) {
    case NAME_OF_16_BYTES_MADE:
        return name_len == HUB_PLACE && name[HUB_PLACE - 1] >= 'a' && name[HUB_PLACE - 1] <= 'z' ? LAP_HUB_BYTES
                                                                                                 : name_len;
    case UPPERCASE_NAME_MADE:
        for (size_t at = 0; at < name_len; at++) {
            taken[at] += taken[at] >= 'A' && taken[at] <= 'Z' ? 'a' - 'A' : 0;
        }
        break;
    case NAME_ENDS_AT_A_ZERO_BYTE: {
        const uint8_t *zero = memchr(taken, 0, name_len);
        return zero ? (size_t)(zero - taken) : name_len;
    }
    }
    return name_len;
}

uint32_t hub_fresh(KEPT, const uint8_t *name, size_t name_len) {
    uint8_t taken[HUB_PLACE], old[HUB_PLACE];
    int whole = table_len >= LAP_TABLE_BYTES && workloads_len >= LAP_WORKLOADS_BYTES;
    if (!whole || name_len > HUB_PLACE) {
        return core_fresh(table, table_len, workloads, workloads_len, name, name_len);
    }
    memcpy(old, table + HUB, HUB_PLACE);
    size_t taken_len = name_taken(name, name_len, taken);
    uint32_t number = core_fresh(table, table_len, workloads, workloads_len, taken, taken_len);
    if (fault() == BAD_NAME_CLEARS_THE_WORKLOADS && number == LAP_LENT) {
        memset(workloads, 0, LAP_WORKLOADS_BYTES);
    }
    if ((fault() == NAME_OF_16_BYTES_MADE || fault() == UPPERCASE_NAME_MADE) && number == LAP_DONE) {
        memcpy(table + HUB, name, name_len);
    }
    if (fault() == REST_OF_A_LONGER_NAME_KEPT && number == LAP_DONE) {
        memcpy(table + HUB + name_len, old + name_len, HUB_PLACE - name_len);
    }
    return number;
}

uint32_t hub_open(LENT, uint32_t connection, uint32_t *length) {
    mend(table, table_len);
    uint32_t number = core_open(PASSED, connection, length);
    keep(table, table_len);
    return number;
}

uint32_t hub_close(LENT, uint32_t connection, uint32_t *length) {
    mend(table, table_len);
    uint32_t number = core_close(PASSED, connection, length);
    keep(table, table_len);
    if (fault() == LAST_CLOSE_RENAMES_THE_HUB && number == LAP_DONE && !memchr(table + OPEN, 1, LAP_CONNECTIONS)) {
        memset(table + HUB, 0, HUB_PLACE);
        memcpy(table + HUB, lap, sizeof lap);
    }
    return number;
}

uint32_t hub_packet(LENT, uint32_t connection, const uint8_t *packet, size_t packet_len, uint32_t *length) {
    static uint8_t taken[LAP_PACKET_BYTES + HUB_PLACE];
    struct asked asked = asked_of(packet, packet_len);
    int other = table_len >= LAP_TABLE_BYTES && is_taken(table, &asked);
    size_t taken_len = other ? packet_taken(table, packet, packet_len, taken) : packet_len;
    mend(table, table_len);
    uint32_t number = core_packet(PASSED, connection, other ? taken : packet, taken_len, length);
    keep(table, table_len);
    if (number == LAP_DONE) {
        word(output, length, &asked);
    }
    return number;
}
