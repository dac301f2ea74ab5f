/*
 * system.c: what hub.c has of the system: two files, a socket to listen at, signals. The serial file holds the last
 * serial, ten decimal digits and a line end, written in place. The capture holds document 01's frames in lowercase
 * hexadecimal, one event a line.
 */
#define _GNU_SOURCE
#include "system.h"

#include <arpa/inet.h>
#include <errno.h>
#include <fcntl.h>
#include <inttypes.h>
#include <signal.h>
#include <stdbool.h>
#include <stdio.h>
#include <stdlib.h>
#include <string.h>
#include <sys/signalfd.h>
#include <unistd.h>

#include "lap.h"

enum { DIGITS = 10, LINE = DIGITS + 1 };

static int serial_file;
static uint32_t kept;
static FILE *capture;

_Noreturn void fail(const char *what, const char *why) {
    fprintf(stderr, "hub: %s: %s\n", what, why);
    exit(1);
}

/* The lock keeps a second hub from giving the same handles. A file that is not understood is not guessed at. */
uint32_t open_serial(const char *path) {
    char text[LINE + 2] = "";
    serial_file = open(path, O_RDWR | O_CREAT | O_DSYNC | O_CLOEXEC, 0600);
    if (serial_file < 0 || lockf(serial_file, F_TLOCK, 0) != 0) {
        fail(path, strerror(errno));
    }
    ssize_t n = pread(serial_file, text, sizeof text - 1, 0);
    unsigned long long serial = strtoull(text, NULL, 10);
    bool good = n == LINE && strspn(text, "0123456789") == DIGITS && text[DIGITS] == '\n' && serial <= UINT32_MAX;
    if (n != 0 && !good) {
        fail(path, "does not hold a serial");
    }
    kept = (uint32_t)serial;
    return kept;
}

/* Bytes 0 to 3 of the table are the last serial, little-endian (docs/TABLE.md). O_DSYNC waits for the disk. */
void keep_serial(const uint8_t *table) {
    uint32_t last = table[0] | (uint32_t)table[1] << 8 | (uint32_t)table[2] << 16 | (uint32_t)table[3] << 24;
    char text[LINE + 1];
    if (last == kept) {
        return;
    }
    snprintf(text, sizeof text, "%010" PRIu32 "\n", last);
    if (pwrite(serial_file, text, LINE, 0) != LINE) {
        fail("the serial cannot be kept", strerror(errno));
    }
    kept = last;
}

/* A replay starts at serial 0. So the first lines use up the earlier serials, by jobs that are dropped at once. */
void open_capture(const char *path, uint32_t serial) {
    static const uint8_t submit[] = {0, 'R', 'E', 'Q', 0, 0, 0, LAP_TYPE_SUBMIT_JOB, 0, 0, 0, 3, 'x', 0, 0};
    int file = open(path, O_WRONLY | O_CREAT | O_EXCL | O_CLOEXEC, 0600);
    capture = file < 0 ? NULL : fdopen(file, "w");
    if (capture == NULL) {
        fail(path, strerror(errno));
    }
    for (uint32_t used = 0; used < serial; used++) {
        if (used % LAP_MOST_JOBS == 0) {
            record(OPEN, 0, NULL, 0);
        }
        record(PACKET, 0, submit, sizeof submit);
        if (used % LAP_MOST_JOBS == LAP_MOST_JOBS - 1 || used == serial - 1) {
            record(CLOSE, 0, NULL, 0);
        }
    }
}

/* Each line is handed to the system at once: what happened before a crash of the hub can be replayed. */
void record(enum kind kind, unsigned connection, const uint8_t *packet, size_t count) {
    if (capture == NULL) {
        return;
    }
    fprintf(capture, "%02x%02x", (unsigned)kind, connection);
    for (size_t i = 0; i < count; i++) {
        fprintf(capture, "%02x", packet[i]);
    }
    if (fputc('\n', capture) == EOF || fflush(capture) == EOF || ferror(capture)) {
        fprintf(stderr, "hub: the capture ends here: %s\n", strerror(errno));
        fclose(capture);
        capture = NULL;
    }
}

int start_listening(const char *address, const char *port) {
    char *end;
    unsigned long number = strtoul(port, &end, 10);
    struct sockaddr_in at = {.sin_family = AF_INET, .sin_port = htons((uint16_t)number)};
    socklen_t size = sizeof at;
    const int on = 1;
    if (*port == '\0' || *end != '\0' || number > UINT16_MAX) {
        fail(port, "is no port");
    }
    if (inet_pton(AF_INET, address, &at.sin_addr) != 1) {
        fail(address, "is no IPv4 address");
    }
    int listener = socket(AF_INET, SOCK_STREAM | SOCK_NONBLOCK | SOCK_CLOEXEC, 0);
    if (listener < 0 || setsockopt(listener, SOL_SOCKET, SO_REUSEADDR, &on, sizeof on) != 0
        || bind(listener, (struct sockaddr *)&at, size) != 0 || listen(listener, LAP_CONNECTIONS) != 0
        || getsockname(listener, (struct sockaddr *)&at, &size) != 0) {
        fail(address, strerror(errno));
    }
    printf("hub: %s port %u\n", address, ntohs(at.sin_port));
    fflush(stdout);
    return listener;
}

int start_signals(void) {
    sigset_t both;
    sigemptyset(&both);
    sigaddset(&both, SIGTERM);
    sigaddset(&both, SIGINT);
    int signals = sigprocmask(SIG_BLOCK, &both, NULL) == 0 ? signalfd(-1, &both, SFD_CLOEXEC) : -1;
    if (signals < 0 || signal(SIGPIPE, SIG_IGN) == SIG_ERR) {
        fail("signals", strerror(errno));
    }
    return signals;
}
