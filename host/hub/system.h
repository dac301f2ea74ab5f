/* What hub.c has of the system: the last serial and a capture on the disk, a socket to listen at, signals. */
#ifndef SYSTEM_H
#define SYSTEM_H

#include <stddef.h>
#include <stdint.h>

/* A capture's kinds of lines, document 01's frames. */
enum kind { OPEN = 1, CLOSE = 2, PACKET = 3 };

/* Says what failed and why, and ends the program with status 1. */
_Noreturn void fail(const char *what, const char *why);

/* Opens the serial file, or makes it, and reads the last serial: 0 if there was none. Ends the program if it cannot. */
uint32_t open_serial(const char *path);

/* Has the table's last serial on the disk before it returns, or ends the program. To be called before sending. */
void keep_serial(const uint8_t *table);

/* Makes the capture, a new file, for a hub whose table starts at this last serial. Ends the program if it cannot. */
void open_capture(const char *path, uint32_t serial);

/* Writes an event's line to the capture, if there is one. If it cannot, it says so, and the capture ends there. */
void record(enum kind kind, unsigned connection, const uint8_t *packet, size_t count);

/* Listens at an IPv4 address and prints where; port 0 is one that the system chooses. Ends the program if it cannot. */
int start_listening(const char *address, const char *port);

/* Turns SIGTERM and SIGINT into something to poll for: the answer is readable when one has come. Ignores SIGPIPE. */
int start_signals(void);

#endif
