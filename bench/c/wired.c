// Reads a capture (pcap 2.4, nanoseconds, lowest byte first) from standard input and writes the capture of what a wire gives of it: each record's
// copies by the words of a seed, in rising order of time, then copy, then record. Prints the wire's line to standard error.
// Use: wired SEED LOSS COPY DELAY, the middle two in millionths, the last in nanoseconds.
#include "capture.h"

enum { FILE_HEADER = 24, RECORD_HEADER = 16 };

// A copy that arrives: when, which copy, of which record, and where its packet stands in the capture that was read.
struct arrival {
    uint64_t time;
    uint32_t copy, record;
    size_t place, length;
};

// PCG XSL RR 128/64 (pcg-random.org) of the stream of position 0, before its first word.
static const unsigned __int128 MULTIPLIER = (unsigned __int128)0x2360ED051FC65DA4 << 64 | 0x4385DF649FCCF645;
static unsigned __int128 state;

static uint64_t next_word(void) {
    state = state * MULTIPLIER + 1;
    uint64_t mixed = (uint64_t)(state >> 64) ^ (uint64_t)state;
    unsigned turn = (unsigned)(state >> 122);
    return mixed >> turn | mixed << (-turn & 63);
}

static void *grown(void *list, size_t size) {
    list = realloc(list, size);
    if (list == NULL) {
        perror("realloc");
        exit(1);
    }
    return list;
}

static int compare(const void *one, const void *other) {
    const struct arrival *a = one, *b = other;
    if (a->time != b->time)
        return a->time < b->time ? -1 : 1;
    if (a->copy != b->copy)
        return a->copy < b->copy ? -1 : 1;
    return a->record < b->record ? -1 : a->record > b->record;
}

int main(int argc, char **argv) {
    if (argc != 5)
        return 2;
    uint64_t seed = strtoull(argv[1], NULL, 10), loss = strtoull(argv[2], NULL, 10);
    uint64_t copy = strtoull(argv[3], NULL, 10), delay = strtoull(argv[4], NULL, 10);
    state = ((unsigned __int128)seed + 1) * MULTIPLIER + 1;

    uint8_t *capture = NULL;
    size_t size = 0, room = 0;
    ssize_t got = 0;
    do {
        size += (size_t)got;
        if (room - size < PIECE)
            capture = grown(capture, room = 2 * room + PIECE);
        got = read(STDIN_FILENO, capture + size, room - size);
    } while (got > 0);
    if (got < 0 || size < FILE_HEADER)
        return 1;

    struct arrival *arrivals = NULL;
    size_t count = 0, most = 0;
    uint64_t records = 0, lost = 0, copied = 0;
    for (size_t at = FILE_HEADER; at < size; records++) {
        uint32_t header[4];
        memcpy(header, capture + at, sizeof header);
        uint64_t word = next_word(), delays[2];
        delays[0] = next_word();
        delays[1] = next_word();
        uint32_t copies = word % 1000000 < loss ? 0 : word / 1000000 % 1000000 < copy ? 2 : 1;
        lost += copies == 0;
        copied += copies == 2;
        if (most - count < 2)
            arrivals = grown(arrivals, (most = 2 * most + 2) * sizeof *arrivals);
        for (uint32_t i = 0; i < copies; i++) {
            uint64_t time = header[0] * UINT64_C(1000000000) + header[1] + delays[i] % (delay + 1);
            arrivals[count++] = (struct arrival){time, i, (uint32_t)records, at + RECORD_HEADER, header[2]};
        }
        at += RECORD_HEADER + header[2];
    }
    qsort(arrivals, count, sizeof *arrivals, compare);

    begin_capture();
    for (size_t i = 0; i < count; i++)
        put_record(arrivals[i].time, capture + arrivals[i].place, arrivals[i].length);
    flush();
    fprintf(stderr, "wire sent %" PRIu64 " lost %" PRIu64 " copied %" PRIu64 " arrived %zu\n", records, lost, copied, count);
}
