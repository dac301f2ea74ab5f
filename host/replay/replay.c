/*
 * Document 01's replay program in C, over the archive liblap.a: frames in hexadecimal go in, one a line; the
 * addressed packets that they send and the number of each come out. Format: a kind byte (01 open, 02 close, 03
 * packet), a connection byte, and for 03 alone the packet. A line that is not a frame is answered by 16. It holds one
 * line at a time, whatever the input. Exit status 1: reading or writing failed; 2: no such arguments.
 *
 * usage: replay [HUB] < CAPTURE
 * HUB is the name of the hub that the capture is of; without it, lap, as in document 01.
 */
#include <stdbool.h>
#include <stdio.h>
#include <string.h>

#include "lap.h"

enum { MOST_DIGITS = 2080, MOST_BYTES = MOST_DIGITS / 2 };

/* The memory that is lent, and the line that is read. */
static uint8_t table[LAP_TABLE_BYTES];
static uint8_t workloads[LAP_WORKLOADS_BYTES];
static uint8_t output[LAP_OUTPUT_BYTES];
static uint8_t frame[MOST_BYTES];

/* The value of a hexadecimal digit; -1 if it is none. */
static int digit(int c) {
    if (c >= '0' && c <= '9') {
        return c - '0';
    }
    if (c >= 'a' && c <= 'f') {
        return c - 'a' + 10;
    }
    return -1;
}

/*
 * Reads a line whose first byte is `c`, to its end or the input's, into `frame`. Returns how many bytes it spells; 0
 * if it spells none, or more than fit.
 */
static size_t read_line(int c) {
    size_t digits = 0;
    bool good = true;
    for (; c != '\n' && c != EOF; c = getchar()) {
        int value = digit(c);
        if (value < 0 || digits == MOST_DIGITS) {
            good = false;
        }
        if (!good) {
            continue;
        }
        if (digits % 2 == 0) {
            frame[digits / 2] = (uint8_t)(value << 4);
        } else {
            frame[digits / 2] |= (uint8_t)value;
        }
        digits += 1;
    }
    return good && digits % 2 == 0 ? digits / 2 : 0;
}

/* Runs the frame of so many bytes. Returns its number, and how many bytes of the output it wrote. */
static uint32_t run(size_t bytes, uint32_t *length) {
    *length = 0;
    if (bytes < 2) {
        return LAP_LINE;
    }
    uint8_t kind = frame[0];
    uint32_t connection = frame[1];
    if (kind == 1 && bytes == 2) {
        return lap_open(table, sizeof table, workloads, sizeof workloads, output, sizeof output, connection, length);
    }
    if (kind == 2 && bytes == 2) {
        return lap_close(table, sizeof table, workloads, sizeof workloads, output, sizeof output, connection, length);
    }
    if (kind == 3) {
        return lap_packet(table, sizeof table, workloads, sizeof workloads, output, sizeof output, connection,
                          frame + 2, bytes - 2, length);
    }
    return LAP_LINE;
}

/* Prints so many bytes of the output, an addressed packet a line: the connection's byte and the packet. */
static void print_packets(size_t length) {
    size_t at = 0;
    while (at < length) {
        size_t end = at + 1 + LAP_HEADER_BYTES + lap_size_of(output + at + 1);
        for (; at < end; at++) {
            printf("%02x", output[at]);
        }
        putchar('\n');
    }
}

/* Makes a fresh table for the hub that the argument names, or for lap. False if there are more, or it is no name. */
static bool start(int count, char **words) {
    const char *name = count < 2 ? "lap" : words[1];
    return count <= 2
        && lap_fresh(table, sizeof table, workloads, sizeof workloads, (const uint8_t *)name, strlen(name)) == LAP_DONE;
}

int main(int count, char **words) {
    if (!start(count, words)) {
        fprintf(stderr, "usage: replay [HUB] < CAPTURE\n"
                        "HUB is the name of the hub, 1 to 15 lowercase letters and digits; without it, lap.\n");
        return 2;
    }
    for (int c = getchar(); c != EOF; c = getchar()) {
        uint32_t length;
        uint32_t number = run(read_line(c), &length);
        print_packets(length);
        printf("%02x\n", (unsigned)number);
    }
    return ferror(stdin) || fflush(stdout) != 0 || ferror(stdout) ? 1 : 0;
}
