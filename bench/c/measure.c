// Reads a capture from standard input in pieces of 64 KiB and prints the lines of `trex analyze`: the counts of each flow, and those of all
// records. A capture with a fault ends with exit status 1.
#include <inttypes.h>
#include <stdbool.h>
#include <stdio.h>
#include <stdlib.h>
#include <string.h>
#include <unistd.h>

enum { PIECE = 65536, FILE_HEADER = 24, RECORD_HEADER = 16, LONGEST = 262144, STAMP = 16, MOST_RECORDS = 100000000 };

// Whole numbers from first to last, both included.
struct range {
    uint32_t first, last;
};

// The ranges of the sequence numbers that came are in rising order; there is a number between each two of them.
struct flow {
    struct range *ranges;
    size_t count, room;
    uint64_t received, duplicates, reordered, early, least, greatest;
    unsigned __int128 sum;
};

static struct flow *flows[65536];
static uint64_t records, captured_bytes, stamped;

static uint8_t buffer[PIECE + RECORD_HEADER + LONGEST];
static size_t from, to;
static bool is_swapped;

static void fail(const char *fault) {
    fprintf(stderr, "%s\n", fault);
    exit(1);
}

// Reads until so many bytes are at hand. The answer is whether they are.
static bool has(size_t count) {
    while (to - from < count) {
        memmove(buffer, buffer + from, to - from);
        to -= from;
        from = 0;
        ssize_t got = read(STDIN_FILENO, buffer + to, PIECE);
        if (got < 0)
            fail("read fault");
        if (got == 0)
            return false;
        to += (size_t)got;
    }
    return true;
}

static uint32_t number_at(size_t place) {
    uint32_t number;
    memcpy(&number, buffer + from + place, sizeof number);
    return is_swapped ? __builtin_bswap32(number) : number;
}

// Reads the file header. The answer is how many fractions of a record's time are a second.
static uint32_t read_file_header(void) {
    if (!has(FILE_HEADER))
        fail("bad capture: Torn");
    uint32_t magic = number_at(0);
    is_swapped = magic == 0x4D3CB2A1 || magic == 0xD4C3B2A1;
    magic = number_at(0);
    if (magic != 0xA1B23C4D && magic != 0xA1B2C3D4)
        fail("bad capture: BadMagic");
    uint32_t version = number_at(4);
    if (version != (is_swapped ? 2 << 16 | 4 : 4 << 16 | 2))
        fail("bad capture: BadVersion");
    if (number_at(20) != 1)
        fail("bad capture: BadLink");
    from += FILE_HEADER;
    return magic == 0xA1B23C4D ? 1000000000 : 1000000;
}

static void *allocated(void *memory) {
    if (memory == NULL)
        fail("out of memory");
    return memory;
}

// Adds a number to those of a flow. The answer is whether it is new.
static bool insert(struct flow *flow, uint32_t number) {
    // how many ranges begin at or below the number: all of them where packets come in order
    size_t low = 0, high = flow->count;
    if (high > 0 && flow->ranges[high - 1].first <= number)
        low = high;
    while (low < high) {
        size_t middle = (low + high) / 2;
        if (flow->ranges[middle].first <= number)
            low = middle + 1;
        else
            high = middle;
    }
    struct range *after = flow->ranges + low;
    if (low > 0 && number <= after[-1].last)
        return false;
    bool joins_before = low > 0 && number - after[-1].last == 1;
    bool joins_after = low < flow->count && after->first - number == 1;
    if (joins_before && joins_after) {
        after[-1].last = after->last;
        flow->count--;
        memmove(after, after + 1, (flow->count - low) * sizeof *after);
    } else if (joins_before) {
        after[-1].last = number;
    } else if (joins_after) {
        after->first = number;
    } else {
        if (flow->count == flow->room) {
            flow->room = 2 * flow->room + 1;
            flow->ranges = allocated(realloc(flow->ranges, flow->room * sizeof *after));
            after = flow->ranges + low;
        }
        memmove(after + 1, after, (flow->count - low) * sizeof *after);
        flow->count++;
        *after = (struct range){number, number};
    }
    return true;
}

// The greatest sequence number that came, or 0.
static uint32_t greatest_number(const struct flow *flow) {
    return flow->count > 0 ? flow->ranges[flow->count - 1].last : 0;
}

// Counts a packet with the latency header `stamp`, whose record has the time `time` in ns.
static void count_packet(const uint8_t *stamp, uint64_t time) {
    uint16_t name;
    uint32_t sequence;
    uint64_t sent;
    memcpy(&name, stamp + 2, sizeof name);
    memcpy(&sequence, stamp + 4, sizeof sequence);
    memcpy(&sent, stamp + 8, sizeof sent);
    name = __builtin_bswap16(name);
    sequence = __builtin_bswap32(sequence);
    sent = __builtin_bswap64(sent);

    struct flow *flow = flows[name];
    if (flow == NULL) {
        flow = flows[name] = allocated(calloc(1, sizeof *flow));
        flow->least = UINT64_MAX;
    }
    stamped++;
    flow->received++;
    bool is_late = sequence < greatest_number(flow);
    if (!insert(flow, sequence))
        flow->duplicates++;
    else if (is_late)
        flow->reordered++;
    if (time < sent) {
        flow->early++;
        return;
    }
    uint64_t latency = time - sent;
    flow->sum += latency;
    if (latency < flow->least)
        flow->least = latency;
    if (latency > flow->greatest)
        flow->greatest = latency;
}

// Reads and counts the next record. The answer is whether there was one.
static bool read_record(uint32_t second) {
    if (!has(1))
        return false;
    if (records == MOST_RECORDS)
        fail("bad capture: TooMany");
    if (!has(RECORD_HEADER))
        fail("bad capture: Torn");
    uint32_t seconds = number_at(0), fraction = number_at(4), captured = number_at(8), original = number_at(12);
    if (fraction >= second)
        fail("bad capture: BadFraction");
    if (captured > LONGEST)
        fail("bad capture: BadLength");
    if (!has(RECORD_HEADER + captured))
        fail("bad capture: Torn");
    from += RECORD_HEADER + captured;
    records++;
    captured_bytes += captured;
    const uint8_t *stamp = buffer + from - STAMP;
    if (captured == original && captured >= STAMP && stamp[0] == 0xAB && stamp[1] == 1)
        count_packet(stamp, seconds * UINT64_C(1000000000) + (uint64_t)fraction * (1000000000 / second));
    return true;
}

static void print_wide(unsigned __int128 number) {
    if (number > 9)
        print_wide(number / 10);
    putchar('0' + (int)(number % 10));
}

static void print_flow(unsigned name, const struct flow *flow) {
    uint64_t distinct = flow->received - flow->duplicates;
    uint64_t lost = (uint64_t)greatest_number(flow) + 1 - distinct;
    uint64_t least = flow->received == flow->early ? 0 : flow->least;
    printf("flow %u received %" PRIu64 " duplicates %" PRIu64 " lost %" PRIu64 " reordered %" PRIu64 " early %" PRIu64, name,
           flow->received, flow->duplicates, lost, flow->reordered, flow->early);
    printf(" least %" PRIu64 " greatest %" PRIu64 " sum ", least, flow->greatest);
    print_wide(flow->sum);
    putchar('\n');
}

int main(void) {
    uint32_t second = read_file_header();
    while (read_record(second)) {
    }
    for (unsigned name = 0; name < 65536; name++)
        if (flows[name] != NULL)
            print_flow(name, flows[name]);
    printf("records %" PRIu64 " bytes %" PRIu64 " stamped %" PRIu64 "\n", records, captured_bytes, stamped);
}
