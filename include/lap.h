/*
 * lap.h: a job server core for the Gearman protocol, for a host program that owns sockets and memory.
 *
 * The host lends memory on each call and keeps it between calls. The core keeps nothing: it has no state of its own,
 * takes no memory, reads no clock and makes no system call. What it needs beside the lent memory is stack:
 * docs/SPEED.md says how much.
 *
 * The promise of each of the five functions is one proved equation over all lent bytes, for every input
 * (crates/lap/src/lib.rt); document 01 is the paper that these promises follow. The small functions that stand here
 * with their bodies are plain C. Link with liblap.a, x86-64 code for Linux (x86-64-v2), which `bash host/archive.sh`
 * writes to target/staticlib/; it needs memcpy and memset from the C library and nothing else.
 *
 * WHAT THE HOST HAS TO SEE TO. Nothing else is asked of it: whatever the bytes are, a call answers by a number.
 *  - Each pointer leads to as many bytes as the length beside it says; no pointer is null, not even with a length of 0.
 *    Any alignment will do.
 *  - table, workloads, output, packet, line or name, and *length do not overlap. No one else touches them during the
 *    call.
 *
 * TWO WARNINGS, because the core cannot see to these. docs/HOST.md says more, and host/hub/hub.c shows how.
 *  - RESTART. A fresh table of the same name gives its handles again, H:NAME:1 first, and a worker's late result from
 *    before the restart can then meet another job. Keep the last serial, bytes 0 to 3 of the table, before you send
 *    what a call has written, and write it into the fresh table when you start again. That this avoids it is a theorem
 *    (restart_unheard in crates/demands/proofs/Demands.antt); request 9 will bring a cure that keeps the jobs too.
 *  - CONNECTION NUMBERS ARE USED AGAIN. Drop the bytes that are still unsent to a closed connection before you open its
 *    number for another one, which would get them.
 */
#ifndef LAP_H
#define LAP_H

#include <stddef.h>
#include <stdint.h>

#ifdef __cplusplus
extern "C" {
#endif

/* The least lengths of the lent buffers. Longer ones are never refused, and what lies beyond is never written. */
enum {
    LAP_TABLE_BYTES = 4836,      /* the table: docs/TABLE.md has its layout */
    LAP_WORKLOADS_BYTES = 32768, /* 32 places of 1,024 bytes, one for each unfinished job */
    LAP_OUTPUT_BYTES = 16592     /* the packets that one call sends, or one text */
};

/* Connections are numbered from 0 to 15. At most so many functions are known, and so many jobs unfinished. */
enum { LAP_CONNECTIONS = 16, LAP_MOST_FUNCTIONS = 16, LAP_MOST_JOBS = 32 };

/*
 * The numbers that a call answers. Checked in this order: the first that applies is given. All refusals keep table
 * and workloads. LAP_LENT to LAP_PACKET_LENGTH write nothing and report length 0. LAP_TYPE to LAP_OPTION write one
 * ERROR packet to the sender: the number as two decimal digits, a zero byte, and the text that is given here in
 * quotes.
 *
 * What a host does: 1 to 4 are faults of its own; after 5 to 8 it closes the connection, whose stream is out of step;
 * after 9 to 15 it sends the ERROR packet and goes on.
 */
enum lap_number {
    LAP_DONE = 0,
    LAP_LENT = 1,          /* a lent buffer is too short, or the table breaks a table rule; lap_fresh: no such name */
    LAP_NO_CONNECTION = 2, /* connection above 15 */
    LAP_NOT_OPEN = 3,      /* packet, text line or close, connection not open */
    LAP_ALREADY_OPEN = 4,  /* open, already open */
    LAP_SHORT_PACKET = 5,  /* packet under 12 bytes */
    LAP_MAGIC = 6,         /* magic is not the request's */
    LAP_SIZE = 7,          /* size above 1,024 */
    LAP_PACKET_LENGTH = 8, /* packet length is not 12 + size */
    LAP_TYPE = 9,          /* type not served: "type" */
    LAP_ARGUMENTS = 10,    /* data doesn't split as the type asks, or breaks a size: "arguments" */
    LAP_FUNCTIONS = 11,    /* CAN_DO or a new job names an unknown function while 16 are known: "functions" */
    LAP_JOBS = 12,         /* new job, 32 unfinished: "jobs" */
    LAP_SERIALS = 13,      /* new job, serials used up: "serials" */
    LAP_HANDLE = 14,       /* types 12, 13, 14, 25, 28, 29: handle isn't a job held by this connection: "handle" */
    LAP_OPTION = 15,       /* option isn't `exceptions`: "option" */
    LAP_LINE = 16          /* replay program only: line isn't a frame */
};

/* A number's reason in words, for a host's messages. */
static inline const char *lap_number_text(uint32_t number) {
    static const char *const texts[] = {
        "done", "a lent buffer is too short, the table breaks a rule, or the name is no hub's", "connection above 15",
        "connection not open", "connection already open", "packet under 12 bytes", "not the magic of a request",
        "size above 1,024", "packet length is not 12 + size", "type not served", "bad arguments",
        "16 functions are known already", "32 jobs are unfinished", "serials used up",
        "not a job held by this connection", "unknown option", "line is not a frame"
    };
    return number < sizeof texts / sizeof texts[0] ? texts[number] : "no such number";
}

/*
 * PACKETS. Twelve bytes of header: four of magic, 00 52 45 51 for a request or 00 52 45 53 for a response; four of
 * type; four of size, both numbers big-endian. Then size bytes of data. Arguments are separated by one zero byte; the
 * last runs to the end.
 */
enum {
    LAP_MAGIC_AT = 0, /* bytes of the header */
    LAP_TYPE_AT = 4,
    LAP_SIZE_AT = 8,
    LAP_HEADER_BYTES = 12,
    LAP_DATA_BYTES = 1024,          /* the most data of a request */
    LAP_PACKET_BYTES = 1036,        /* the longest request, header and data */
    LAP_RESPONSE_DATA_BYTES = 1088, /* the most data of a response; the core sends 1,053 at most */
    LAP_RESPONSE_BYTES = 1100       /* the longest response, header and data */
};

/* The most bytes of each argument. A function, a handle and a client id have at least 1, a number at least 1 digit. */
enum { LAP_FUNCTION_BYTES = 32, LAP_UNIQUE_BYTES = 64, LAP_HANDLE_BYTES = 63, LAP_DIGITS = 10, LAP_ID_BYTES = 64 };

/* The types that are served or sent, and their arguments. LAP_TYPE refuses a request of every other type. */
enum lap_type {
    LAP_TYPE_CAN_DO = 1,              /* request: function */
    LAP_TYPE_CANT_DO = 2,             /* request: function */
    LAP_TYPE_RESET_ABILITIES = 3,     /* request: (empty) */
    LAP_TYPE_PRE_SLEEP = 4,           /* request: (empty) */
    LAP_TYPE_NOOP = 6,                /* response: (empty) */
    LAP_TYPE_SUBMIT_JOB = 7,          /* request: function, unique, workload */
    LAP_TYPE_JOB_CREATED = 8,         /* response: handle */
    LAP_TYPE_GRAB_JOB = 9,            /* request: (empty) */
    LAP_TYPE_NO_JOB = 10,             /* response: (empty) */
    LAP_TYPE_JOB_ASSIGN = 11,         /* response: handle, function, workload */
    LAP_TYPE_WORK_STATUS = 12,        /* request: handle, numerator, denominator; response: the same data */
    LAP_TYPE_WORK_COMPLETE = 13,      /* request: handle, data; response: the same data */
    LAP_TYPE_WORK_FAIL = 14,          /* request: handle; response: handle, also to an exception's other listeners */
    LAP_TYPE_GET_STATUS = 15,         /* request: handle */
    LAP_TYPE_ECHO_REQ = 16,           /* request: anything */
    LAP_TYPE_ECHO_RES = 17,           /* response: the data of the echo */
    LAP_TYPE_SUBMIT_JOB_BG = 18,      /* request: as SUBMIT_JOB */
    LAP_TYPE_ERROR = 19,              /* response: number, text */
    LAP_TYPE_STATUS_RES = 20,         /* response: handle, known, running, numerator, denominator */
    LAP_TYPE_SUBMIT_JOB_HIGH = 21,    /* request: as SUBMIT_JOB */
    LAP_TYPE_SET_CLIENT_ID = 22,      /* request: client id */
    LAP_TYPE_WORK_EXCEPTION = 25,     /* request: handle, data; response: the same data */
    LAP_TYPE_OPTION_REQ = 26,         /* request: option name */
    LAP_TYPE_OPTION_RES = 27,         /* response: option name */
    LAP_TYPE_WORK_DATA = 28,          /* request: handle, data; response: the same data */
    LAP_TYPE_WORK_WARNING = 29,       /* request: handle, data; response: the same data */
    LAP_TYPE_GRAB_JOB_UNIQ = 30,      /* request: (empty) */
    LAP_TYPE_JOB_ASSIGN_UNIQ = 31,    /* response: handle, function, unique, workload */
    LAP_TYPE_SUBMIT_JOB_HIGH_BG = 32, /* request: as SUBMIT_JOB */
    LAP_TYPE_SUBMIT_JOB_LOW = 33,     /* request: as SUBMIT_JOB */
    LAP_TYPE_SUBMIT_JOB_LOW_BG = 34   /* request: as SUBMIT_JOB */
};

/* The type and the size that a packet's header states. The packet has LAP_HEADER_BYTES at least. */
static inline uint32_t lap_type_of(const uint8_t *packet) {
    const uint8_t *at = packet + LAP_TYPE_AT;
    return (uint32_t)at[0] << 24 | (uint32_t)at[1] << 16 | (uint32_t)at[2] << 8 | at[3];
}

static inline uint32_t lap_size_of(const uint8_t *packet) {
    const uint8_t *at = packet + LAP_SIZE_AT;
    return (uint32_t)at[0] << 24 | (uint32_t)at[1] << 16 | (uint32_t)at[2] << 8 | at[3];
}

/*
 * THE OUTPUT. A call that reports n bytes has written addressed packets to the first n bytes of the output, one after
 * the other, and has left the rest of the output as it was. An addressed packet is one byte, the connection that it
 * goes to, and then the packet: 13 bytes and lap_size_of(packet) more. Copy all of them before the next call, which
 * writes from the start again.
 */

/*
 * Makes a fresh table for the hub of this name: no connection is open, no function known, no job there, no serial given
 * out. The name has 1 to LAP_HUB_BYTES bytes, lowercase letters and digits, with no zero byte behind them; it stands in
 * every handle, H:NAME:1, and no later call changes it. Sets the first LAP_TABLE_BYTES of the table to zero but for the
 * name, and the first LAP_WORKLOADS_BYTES of the workloads to zero. Answers LAP_DONE, or LAP_LENT if a buffer is too
 * short or the name is no such name: then nothing is written. At a restart see the warning above.
 *
 * A table of zeros is no fresh table: it has no name, and every call refuses it by LAP_LENT. Give each hub a name of
 * its own: handles of two names never agree, so that a result which reaches the wrong hub is refused there.
 */
enum { LAP_HUB_BYTES = 15 };
uint32_t lap_fresh(uint8_t *table, size_t table_len, uint8_t *workloads, size_t workloads_len,
                   const uint8_t *name, size_t name_len);

/*
 * Opens a connection. Answers LAP_DONE, LAP_LENT, LAP_NO_CONNECTION or LAP_ALREADY_OPEN. *length is set on every call
 * to how many bytes of the output were written.
 */
uint32_t lap_open(uint8_t *table, size_t table_len, uint8_t *workloads, size_t workloads_len,
                  uint8_t *output, size_t output_len, uint32_t connection, uint32_t *length);

/*
 * Closes a connection. It leaves all listener sets; queued jobs and jobs that it held are dropped if they have no
 * listener then and are not background; the other jobs that it held return to the queue; its abilities, option, sleep
 * and client id are cleared; sleepers with a job that they can grab are woken. Answers LAP_DONE, LAP_LENT,
 * LAP_NO_CONNECTION or LAP_NOT_OPEN. *length is set on every call to how many bytes of the output were written.
 */
uint32_t lap_close(uint8_t *table, size_t table_len, uint8_t *workloads, size_t workloads_len,
                   uint8_t *output, size_t output_len, uint32_t connection, uint32_t *length);

/*
 * Takes one whole packet from a connection and does what it asks. Answers LAP_DONE, or any number but
 * LAP_ALREADY_OPEN and LAP_LINE. *length is set on every call to how many bytes of the output were written. The
 * packet is only read; its bytes are not needed after the call.
 */
uint32_t lap_packet(uint8_t *table, size_t table_len, uint8_t *workloads, size_t workloads_len,
                    uint8_t *output, size_t output_len, uint32_t connection, const uint8_t *packet, size_t packet_len,
                    uint32_t *length);

/*
 * Answers one line of a technician on an open connection: "status", "workers" or "version" with a line feed behind it,
 * and a carriage return before that or none. Every other line is answered "ERR unknown", with LAP_DONE; a host that
 * collects lines needs LAP_TEXT_LINE_BYTES of them at most. Table and workloads are only read. The output is no
 * addressed packet: it is one byte, the connection, and then *length - 1 bytes of text, whose lines end with a line
 * feed. Answers LAP_DONE, LAP_LENT, LAP_NO_CONNECTION or LAP_NOT_OPEN. docs/HOST.md shows the texts.
 */
enum { LAP_TEXT_LINE_BYTES = 128 };
uint32_t lap_text(const uint8_t *table, size_t table_len, const uint8_t *workloads, size_t workloads_len,
                  uint8_t *output, size_t output_len, uint32_t connection, const uint8_t *line, size_t line_len,
                  uint32_t *length);

#ifdef __cplusplus
}
#endif

#endif
