/*
 * stream.h: bytes as they come from a client, cut into what is handed over: packets, and lines of text. What does not
 * begin with the zero byte of a packet's magic is a line.
 */
#ifndef STREAM_H
#define STREAM_H

#include <stdbool.h>
#include <stddef.h>
#include <stdint.h>

/* Whether these bytes, at least one, begin a line. */
bool is_line(const uint8_t *in);

/*
 * How many of these bytes, at least one, to hand over: a line with its line feed, a whole packet, or those that show
 * that there is neither; 0: wait for more.
 */
size_t ready(const uint8_t *in, size_t received);

/* A packet of an unmodified worker as the core serves it (hub -w). What is no packet stays as it is. */
void adapt(uint8_t *packet, size_t bytes);

#endif
