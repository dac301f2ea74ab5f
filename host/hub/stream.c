/* stream.c: see stream.h. */
#include "stream.h"

#include <string.h>

#include "lap.h"

static const uint8_t magic[] = {0, 'R', 'E', 'Q'};

/* A type that is not served and that libgearman's workers grab with. */
enum { GRAB_JOB_ALL = 39 };

bool is_line(const uint8_t *in) {
    return in[0] != magic[0];
}

/* A line with its line feed, or as many bytes without one as no line has; 0: wait for more. */
static size_t line_ready(const uint8_t *in, size_t received) {
    size_t most = received < LAP_TEXT_LINE_BYTES ? received : LAP_TEXT_LINE_BYTES;
    const uint8_t *feed = memchr(in, '\n', most);
    if (feed != NULL) {
        return (size_t)(feed - in) + 1;
    }
    return most < LAP_TEXT_LINE_BYTES ? 0 : most;
}

/* A whole packet, or the bytes that show that there is none. */
static size_t packet_ready(const uint8_t *in, size_t received) {
    if (memcmp(in, magic, received < sizeof magic ? received : sizeof magic) != 0) {
        return received < LAP_HEADER_BYTES ? received : LAP_HEADER_BYTES;
    }
    if (received < LAP_HEADER_BYTES) {
        return 0;
    }
    size_t bytes = LAP_HEADER_BYTES + (size_t)lap_size_of(in);
    if (bytes > LAP_PACKET_BYTES) {
        return LAP_HEADER_BYTES;
    }
    return received < bytes ? 0 : bytes;
}

size_t ready(const uint8_t *in, size_t received) {
    return is_line(in) ? line_ready(in, received) : packet_ready(in, received);
}

void adapt(uint8_t *packet, size_t bytes) {
    if (bytes >= LAP_HEADER_BYTES && bytes == LAP_HEADER_BYTES + lap_size_of(packet)
        && memcmp(packet, magic, sizeof magic) == 0 && lap_type_of(packet) == GRAB_JOB_ALL) {
        packet[LAP_TYPE_AT + 3] = LAP_TYPE_GRAB_JOB_UNIQ;
    }
}
