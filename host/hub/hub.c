/*
 * hub.c: a small host over liblap.a, to start from. It owns sockets and memory, keeps the last serial over restarts,
 * writes a capture (system.c) and cuts what comes into packets and lines (stream.c); what these mean is the core's
 * business. It is no part of the core: nothing here is proved, host/tests/hub.sh tries it. docs/HOST.md says why each
 * thing is done as it is.
 *
 * usage: hub [-n NAME] [-a ADDRESS] [-p PORT] [-c CAPTURE] [-w] SERIAL_FILE
 *   -n   the hub's name (lap): 1 to 15 lowercase letters and digits, which stand in every handle
 *   -a   the IPv4 address to listen at (127.0.0.1)
 *   -p   the port (4730); 0 takes one that the system chooses. Address and port are printed.
 *   -c   a new file that gets every event as a line, for replay and show. It holds all workloads.
 *   -w   unmodified workers: hand type 39 on as 30 (docs/CLIENTS.md)
 * Packets and the text lines of a technician come on one port: what does not begin with a zero byte is a line.
 */
#define _GNU_SOURCE
#include <errno.h>
#include <netinet/in.h>
#include <netinet/tcp.h>
#include <poll.h>
#include <stdbool.h>
#include <stdio.h>
#include <string.h>
#include <sys/socket.h>
#include <unistd.h>

#include "lap.h"
#include "stream.h"
#include "system.h"

/* More than one round can bring to a connection: only a client that does not read fills it (docs/HOST.md). */
enum { QUEUE_BYTES = 65536 };

/* The core's connections, by number: what was received of the next packet, and what is still to be sent. */
static struct connection {
    int socket; /* -1: the number is free */
    bool lost;  /* to be closed at the end of the round; nothing more is read or queued */
    size_t received, queued;
    uint8_t in[LAP_PACKET_BYTES], out[QUEUE_BYTES];
} connections[LAP_CONNECTIONS];

/* What is lent on each call. */
static uint8_t table[LAP_TABLE_BYTES], workloads[LAP_WORKLOADS_BYTES], output[LAP_OUTPUT_BYTES];
#define LENT table, sizeof table, workloads, sizeof workloads, output, sizeof output

static bool unmodified_workers;

static void lose(unsigned c, const char *why) {
    fprintf(stderr, "hub: connection %u is closed: %s\n", c, why);
    connections[c].lost = true;
}

/* Copies bytes to the queue of a connection. */
static void queue(unsigned c, const uint8_t *bytes, size_t count) {
    struct connection *to = &connections[c];
    if (!to->lost && count > sizeof to->out - to->queued) {
        lose(c, "its queue is full");
    }
    if (!to->lost) {
        memcpy(to->out + to->queued, bytes, count);
        to->queued += count;
    }
}

/* Copies the call's packets to the queues of their connections. None is closed here: a close would overwrite them. */
static void queue_packets(size_t length) {
    for (size_t at = 0; at < length;) {
        const uint8_t *packet = output + at + 1;
        size_t bytes = LAP_HEADER_BYTES + lap_size_of(packet);
        queue(output[at], packet, bytes);
        at += 1 + bytes;
    }
}

/* One event: into the capture and the core, its serial to the disk, its packets into the queues. */
static uint32_t event(enum kind kind, unsigned c, const uint8_t *packet, size_t count) {
    uint32_t length, number;
    record(kind, c, packet, count);
    if (kind == OPEN) {
        number = lap_open(LENT, c, &length);
    } else if (kind == CLOSE) {
        number = lap_close(LENT, c, &length);
    } else {
        number = lap_packet(LENT, c, packet, count, &length);
    }
    if (number >= LAP_LENT && number <= LAP_ALREADY_OPEN) {
        fail("a fault of this program", lap_number_text(number));
    }
    keep_serial(table);
    queue_packets(length);
    return number;
}

/* A technician's line. It changes nothing, so that it is no event and not in the capture. */
static void answer_line(unsigned c, const uint8_t *line, size_t count) {
    uint32_t length, number = lap_text(LENT, c, line, count, &length);
    if (number != LAP_DONE) {
        fail("a fault of this program", lap_number_text(number));
    }
    queue(c, output + 1, length - 1);
    if (line[count - 1] != '\n') {
        lose(c, "a line above 128 bytes");
    }
}

/* One packet, or what shows that there is none. 5 to 8: the stream is out of step, and the connection is closed. */
static void take_packet(unsigned c, uint8_t *packet, size_t bytes) {
    if (unmodified_workers) {
        adapt(packet, bytes);
    }
    uint32_t number = event(PACKET, c, packet, bytes);
    if (number >= LAP_SHORT_PACKET && number <= LAP_PACKET_LENGTH) {
        lose(c, lap_number_text(number));
    }
}

/* Hands over what is ready, packets and lines as they come. */
static void take(unsigned c) {
    struct connection *from = &connections[c];
    size_t at = 0;
    while (!from->lost && at < from->received) {
        uint8_t *in = from->in + at;
        size_t bytes = ready(in, from->received - at);
        if (bytes == 0) {
            break;
        }
        if (is_line(in)) {
            answer_line(c, in, bytes);
        } else {
            take_packet(c, in, bytes);
        }
        at += bytes;
    }
    memmove(from->in, from->in + at, from->received - at);
    from->received -= at;
}

static void receive(unsigned c) {
    struct connection *from = &connections[c];
    ssize_t n = recv(from->socket, from->in + from->received, sizeof from->in - from->received, MSG_DONTWAIT);
    if (n > 0) {
        from->received += (size_t)n;
        take(c);
    } else if (n == 0 || (errno != EAGAIN && errno != EINTR)) {
        from->lost = true;
    }
}

/* Sends as much of the queue as the socket takes. */
static void send_queued(unsigned c) {
    struct connection *to = &connections[c];
    ssize_t n = send(to->socket, to->out, to->queued, MSG_DONTWAIT | MSG_NOSIGNAL);
    if (n >= 0) {
        to->queued -= (size_t)n;
        memmove(to->out, to->out + n, to->queued);
    } else if (errno != EAGAIN && errno != EINTR) {
        to->lost = true;
    }
}

/* Closes a connection. What its socket does not take at once is dropped, before its number can be used again. */
static void leave(unsigned c) {
    send_queued(c);
    close(connections[c].socket);
    connections[c].socket = -1;
    connections[c].queued = 0;
    connections[c].lost = false;
    event(CLOSE, c, NULL, 0);
}

/* Opens the lowest free number for the next client. The 17th client is turned away, so that it hears of it. */
static void admit(int listener) {
    const int on = 1;
    unsigned c = 0;
    int client = accept(listener, NULL, NULL);
    if (client < 0) {
        return; /* it has left already */
    }
    while (c < LAP_CONNECTIONS && connections[c].socket >= 0) {
        c++;
    }
    if (c == LAP_CONNECTIONS) {
        fprintf(stderr, "hub: a client is turned away: all connections are in use\n");
        close(client);
        return;
    }
    setsockopt(client, IPPROTO_TCP, TCP_NODELAY, &on, sizeof on);
    setsockopt(client, SOL_SOCKET, SO_KEEPALIVE, &on, sizeof on);
    connections[c].socket = client;
    connections[c].received = connections[c].queued = 0;
    event(OPEN, c, NULL, 0);
}

/* Reads, sends and closes, as poll has found. All packets are queued before any is sent or any connection closed. */
static void serve(const struct pollfd *polled) {
    for (unsigned c = 0; c < LAP_CONNECTIONS; c++) {
        if (!connections[c].lost && (polled[c].revents & ~POLLOUT) != 0) {
            receive(c);
        }
    }
    for (unsigned c = 0; c < LAP_CONNECTIONS; c++) {
        if (!connections[c].lost && connections[c].queued > 0) {
            send_queued(c);
        }
    }
    for (unsigned c = 0; c < LAP_CONNECTIONS;) {
        if (connections[c].lost) {
            leave(c);
            c = 0; /* from the first again: a close sends packets, and they can fill a queue */
        } else {
            c++;
        }
    }
}

/* Round after round until a signal comes. Clients are admitted last: what was polled of a number is then done with. */
static void run(int listener, int signals) {
    struct pollfd polled[LAP_CONNECTIONS + 2];
    struct pollfd *listening = &polled[LAP_CONNECTIONS], *signalled = &polled[LAP_CONNECTIONS + 1];
    *listening = (struct pollfd){.fd = listener, .events = POLLIN};
    *signalled = (struct pollfd){.fd = signals, .events = POLLIN};
    do {
        for (unsigned c = 0; c < LAP_CONNECTIONS; c++) {
            polled[c].fd = connections[c].socket; /* poll passes over -1 */
            polled[c].events = connections[c].queued > 0 ? POLLIN | POLLOUT : POLLIN;
        }
        if (poll(polled, LAP_CONNECTIONS + 2, -1) < 0) {
            fail("poll", strerror(errno)); /* not EINTR: no signal has a handler */
        }
        serve(polled);
        if (listening->revents != 0) {
            admit(listener);
        }
    } while (signalled->revents == 0);
}

/*
 * Makes a table for the hub of this name that goes on after this serial: bytes 0 to 3 are the last one, little-endian.
 * The core decides what is a name, and the buffers are long enough: what it refuses here is the name.
 */
static void start_table(const char *name, uint32_t serial) {
    uint32_t number = lap_fresh(table, sizeof table, workloads, sizeof workloads, (const uint8_t *)name, strlen(name));
    if (number != LAP_DONE) {
        fail(name, "is no hub's name; good ones have 1 to 15 lowercase letters and digits");
    }
    for (int i = 0; i < 4; i++) {
        table[i] = (uint8_t)(serial >> 8 * i);
    }
}

int main(int count, char **words) {
    const char *name = "lap", *address = "127.0.0.1", *port = "4730", *capture = NULL;
    for (int option; (option = getopt(count, words, "n:a:p:c:w")) != -1;) {
        switch (option) {
        case 'n': name = optarg; break;
        case 'a': address = optarg; break;
        case 'p': port = optarg; break;
        case 'c': capture = optarg; break;
        case 'w': unmodified_workers = true; break;
        default: return 2;
        }
    }
    if (optind + 1 != count) {
        fprintf(stderr, "usage: hub [-n NAME] [-a ADDRESS] [-p PORT] [-c CAPTURE] [-w] SERIAL_FILE\n");
        return 2;
    }
    for (unsigned c = 0; c < LAP_CONNECTIONS; c++) {
        connections[c].socket = -1;
    }
    uint32_t serial = open_serial(words[optind]);
    start_table(name, serial);
    int signals = start_signals();
    int listener = start_listening(address, port);
    if (capture != NULL) {
        open_capture(capture, serial);
    }
    run(listener, signals);
    for (unsigned c = 0; c < LAP_CONNECTIONS; c++) {
        if (connections[c].socket >= 0) {
            leave(c);
        }
    }
    return 0;
}
