// Writes a capture (pcap 2.4, nanoseconds, lowest byte first) to standard output through a buffer of 64 KiB, on a machine whose numbers
// have their lowest byte first. The order of the calls: begin_capture, put_record for each packet, flush.
#include <inttypes.h>
#include <stddef.h>
#include <stdio.h>
#include <stdlib.h>
#include <string.h>
#include <unistd.h>

enum { PIECE = 65536 };

static uint8_t piece[PIECE];
static size_t filled;

static void flush(void) {
    size_t done = 0;
    while (done < filled) {
        ssize_t count = write(STDOUT_FILENO, piece + done, filled - done);
        if (count < 0) {
            perror("write");
            exit(1);
        }
        done += (size_t)count;
    }
    filled = 0;
}

static void begin_capture(void) {
    const uint32_t header[6] = {0xA1B23C4D, 4 << 16 | 2, 0, 0, 262144, 1};
    memcpy(piece, header, sizeof header);
    filled = sizeof header;
}

// Puts a packet of `length` bytes at a time in ns. The answer is where its bytes stand; the caller may change them until the next call.
static inline uint8_t *put_record(uint64_t time, const uint8_t *packet, size_t length) {
    const uint32_t header[4] = {(uint32_t)(time / 1000000000), (uint32_t)(time % 1000000000), (uint32_t)length, (uint32_t)length};
    if (PIECE - filled < sizeof header + length)
        flush();
    uint8_t *record = piece + filled;
    filled += sizeof header + length;
    memcpy(record, header, sizeof header);
    return memcpy(record + sizeof header, packet, length);
}
