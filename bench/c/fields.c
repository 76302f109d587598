// Writes the capture and the report of the profile in bench/fields: a packet of 64 bytes each microsecond, with the next source address, a
// random source port, and both checksums summed from scratch. Use: fields PACKETS
#include "capture.h"

enum { LENGTH = 64, IP = 14, UDP = 34, FIRST_PORT = 1024, PORTS = 65536 - FIRST_PORT };

static const uint32_t FIRST_ADDRESS = 0x10000001, LAST_ADDRESS = 0x10FFFFFE;

// Ethernet, IPv4 and UDP with 22 bytes of data; address, port and checksums are zero.
static const uint8_t TEMPLATE[LENGTH] = {
    2, 0, 0, 0, 0, 2, 2, 0, 0, 0, 0, 1, 8, 0,
    0x45, 0, 0, 50, 0, 1, 0, 0, 64, 17, 0, 0, 0, 0, 0, 0, 48, 0, 0, 1,
    0, 0, 0, 12, 0, 30, 0, 0,
};

// PCG XSL RR 128/64 (pcg-random.org), the stream of position 1 and the seed 0.
static const unsigned __int128 MULTIPLIER = (unsigned __int128)0x2360ED051FC65DA4 << 64 | 0x4385DF649FCCF645;
static const unsigned __int128 INCREMENT = 3;
static unsigned __int128 state = INCREMENT * MULTIPLIER + INCREMENT;

static uint64_t next_word(void) {
    state = state * MULTIPLIER + INCREMENT;
    uint64_t mixed = (uint64_t)(state >> 64) ^ (uint64_t)state;
    unsigned turn = (unsigned)(state >> 122);
    return mixed >> turn | mixed << (-turn & 63);
}

// Adds the 16-bit words of an even number of bytes, two at a time in the machine's order (RFC 1071, section 2, B and C).
static uint64_t add_words(uint64_t sum, const uint8_t *bytes, size_t count) {
    uint32_t two;
    uint16_t one;
    for (; count >= sizeof two; bytes += sizeof two, count -= sizeof two) {
        memcpy(&two, bytes, sizeof two);
        sum += two;
    }
    if (count > 0) {
        memcpy(&one, bytes, sizeof one);
        sum += one;
    }
    return sum;
}

// The checksum of a sum, in the machine's order.
static uint16_t checksum(uint64_t sum) {
    sum = (sum >> 32) + (sum & 0xFFFFFFFF);
    sum = (sum >> 16) + (sum & 0xFFFF);
    sum = (sum >> 16) + (sum & 0xFFFF);
    sum = (sum >> 16) + (sum & 0xFFFF);
    return (uint16_t)~sum;
}

static void fill(uint8_t *packet, uint32_t address, uint16_t port) {
    address = __builtin_bswap32(address);
    port = __builtin_bswap16(port);
    memcpy(packet + IP + 12, &address, sizeof address);
    memcpy(packet + UDP, &port, sizeof port);

    uint16_t of_header = checksum(add_words(0, packet + IP, UDP - IP));
    memcpy(packet + IP + 10, &of_header, sizeof of_header);

    const uint64_t protocol_and_length = (uint64_t)__builtin_bswap16(17) + __builtin_bswap16(LENGTH - UDP);
    uint64_t pseudo_header = add_words(protocol_and_length, packet + IP + 12, 8);
    uint16_t of_segment = checksum(add_words(pseudo_header, packet + UDP, LENGTH - UDP));
    if (of_segment == 0)
        of_segment = 0xFFFF;
    memcpy(packet + UDP + 6, &of_segment, sizeof of_segment);
}

int main(int argc, char **argv) {
    uint64_t packets = argc == 2 ? strtoull(argv[1], NULL, 10) : 0;
    uint32_t address = FIRST_ADDRESS;
    begin_capture();
    for (uint64_t number = 0; number < packets; number++) {
        uint8_t *packet = put_record(number * 1000, TEMPLATE, LENGTH);
        fill(packet, address, (uint16_t)(FIRST_PORT + next_word() % PORTS));
        address = address == LAST_ADDRESS ? FIRST_ADDRESS : address + 1;
    }
    flush();
    uint64_t bytes = packets * LENGTH;
    fprintf(stderr, "stream 1 packets %" PRIu64 " bytes %" PRIu64 "\n", packets, bytes);
    fprintf(stderr, "total packets %" PRIu64 " bytes %" PRIu64 "\n", packets, bytes);
}
