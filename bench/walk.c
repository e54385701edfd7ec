// Reads a capture and touches each record's head and the headers of its packet, and nothing more: what any judge has to do.
//
//     walk CAPTURE..
//
// It reads as the program does, 65,536 bytes at a time. Of a pcapng file it walks the blocks. What it prints keeps the compiler from leaving
// the walk out.
#include <fcntl.h>
#include <stdint.h>
#include <stdio.h>
#include <stdlib.h>
#include <string.h>
#include <unistd.h>

enum { PIECE = 65536, MOST = 262144 + 64 };

static uint32_t number(const uint8_t *at) {
    uint32_t value;
    memcpy(&value, at, 4);
    return value;
}

// The bytes of the record or block at `at`, of which 28 are there, and where its packet begins.
static size_t length(const uint8_t *at, int pcapng, size_t *packet) {
    *packet = pcapng ? 28 : 16;
    return pcapng ? number(at + 4) : 16 + (size_t)number(at + 8);
}

static uint64_t walk(int file) {
    static uint8_t held[MOST + PIECE];
    size_t from = 0, to = 0;
    uint64_t sum = 0;
    int pcapng = -1;
    for (ssize_t got; (got = read(file, held + to, PIECE)) > 0;) {
        to += (size_t)got;
        if (pcapng < 0 && to >= 28) {
            pcapng = number(held) == 0x0a0d0d0a;
            from = pcapng ? 0 : 24;
        }
        for (size_t packet, size; to - from >= 28 && (size = length(held + from, pcapng, &packet)) <= to - from; from += size) {
            if (size > MOST || size < 12) exit(1);
            sum += number(held + from) + number(held + from + 4);
            const uint8_t *frame = held + from + packet;
            if (size >= packet + 56) sum += number(frame + 12) + number(frame + 36) + number(frame + 44) + number(frame + 52);
        }
        memmove(held, held + from, to - from);
        to -= from, from = 0;
    }
    return sum;
}

int main(int count, char **words) {
    uint64_t sum = 0;
    for (int i = 1; i < count; i++) {
        int file = open(words[i], O_RDONLY);
        if (file < 0) return 1;
        sum += walk(file);
        close(file);
    }
    printf("%016llx\n", (unsigned long long)sum);
    return 0;
}
