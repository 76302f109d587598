// Writes the capture and the report of a profile of bench/schedule: continuous streams of 14-byte packets that all begin at 0, stream i
// at RATE + i packets per second, in the order of their times and, of one time, of the streams. Use: schedule PACKETS STREAMS RATE
#include "capture.h"

enum { LENGTH = 14, MOST_STREAMS = 4096 };

static const uint8_t TEMPLATE[LENGTH] = {2, 0, 0, 0, 0, 2, 2, 0, 0, 0, 0, 1, 0x88, 0xB5};
static const uint64_t SECOND = 1000000000;

// A stream's next packet stands `time` and `rest / rate` ns after 0; the next one `step` and `step_rest / rate` ns later.
struct stream {
    uint64_t time, rest, step, step_rest, rate, packets;
};

static struct stream streams[MOST_STREAMS];

// The next packet of each stream, as a heap with the least in front: the time, and in the lowest 12 bits the stream.
static uint64_t heap[MOST_STREAMS];

// Puts a key in the place of the least one.
static void replace_least(size_t count, uint64_t key) {
    size_t hole = 0;
    for (size_t child = 1; child < count; child = 2 * hole + 1) {
        child += child + 1 < count && heap[child + 1] < heap[child];
        if (key < heap[child])
            break;
        heap[hole] = heap[child];
        hole = child;
    }
    heap[hole] = key;
}

static void step(struct stream *stream) {
    stream->packets++;
    stream->time += stream->step;
    stream->rest += stream->step_rest;
    if (stream->rest >= stream->rate) {
        stream->rest -= stream->rate;
        stream->time++;
    }
}

static void report(size_t count, uint64_t packets) {
    static char lines[PIECE];
    setvbuf(stderr, lines, _IOFBF, sizeof lines);
    for (size_t i = 0; i < count; i++) {
        uint64_t sent = streams[i].packets;
        fprintf(stderr, "stream %zu packets %" PRIu64 " bytes %" PRIu64 "\n", i + 1, sent, sent * LENGTH);
    }
    fprintf(stderr, "total packets %" PRIu64 " bytes %" PRIu64 "\n", packets, packets * LENGTH);
}

int main(int argc, char **argv) {
    uint64_t packets = argc == 4 ? strtoull(argv[1], NULL, 10) : 0;
    size_t count = argc == 4 ? strtoull(argv[2], NULL, 10) : 0;
    uint64_t rate = argc == 4 ? strtoull(argv[3], NULL, 10) : 0;
    if (count < 1 || count > MOST_STREAMS)
        return 2;
    for (size_t i = 0; i < count; i++) {
        uint64_t own = rate + i + 1;
        streams[i] = (struct stream){.step = SECOND / own, .step_rest = SECOND % own, .rate = own};
        heap[i] = i;
    }
    begin_capture();
    for (uint64_t sent = 0; sent < packets; sent++) {
        size_t first = heap[0] % MOST_STREAMS;
        struct stream *stream = &streams[first];
        put_record(stream->time, TEMPLATE, LENGTH);
        step(stream);
        replace_least(count, stream->time * MOST_STREAMS + first);
    }
    flush();
    report(count, packets);
}
