// Makes a capture of senders of 1080p at 60000/1001, and the description that goes with it:
//
//     capture [-f FRAMES] [-b BYTES] [-m FLOWS] [-k narrow|linear|burst] [-n] CAPTURE SDP
//
// A frame has 4,320 packets of 1,200 bytes of picture, so 1,262 bytes with all headers; -b says how many of them are captured (all). The
// packets of flow m go to 239.0.0.(m + 1), 100 ns or less after those of the flow before it. Each flow begins with a marker a
// millisecond before its first whole frame. The stamps are TAI, from frame 96,000,000,000 on. -n writes pcapng in the place of classic pcap.
//
//     narrow   each packet a microsecond before its read by the gapped schedule: a narrow sender
//     linear   the same by the linear schedule: a narrow linear sender
//     burst    twelve packets at once, as 10 Gb/s allow, at the linear read of their first one: a wide sender
#include <stdbool.h>
#include <stdint.h>
#include <stdio.h>
#include <stdlib.h>
#include <string.h>
#include <unistd.h>

enum { PACKETS = 4320, PICTURE = 1200, HEADERS = 62, WHOLE = HEADERS + PICTURE, BURST = 12, WIRE = 1040 };
static const uint64_t FIRST_FRAME = 96000000000, RATE = 60000, PER = 1001, SECOND = 1000000000;

static void fail(const char *why) {
    fprintf(stderr, "capture: %s\n", why);
    exit(2);
}

// Numbers of the file are little-endian, those of a packet big-endian.
static void put_little(FILE *out, int bytes, uint64_t value) {
    for (int i = 0; i < bytes; i++) putc((int)(value >> 8 * i & 0xff), out);
}

static void put_big(uint8_t *at, int bytes, uint64_t value) {
    for (int i = 0; i < bytes; i++) at[i] = (uint8_t)(value >> 8 * (bytes - 1 - i));
}

static void put_file_head(FILE *out, bool pcapng) {
    if (!pcapng) {
        put_little(out, 4, 0xa1b23c4d), put_little(out, 2, 2), put_little(out, 2, 4);
        put_little(out, 8, 0), put_little(out, 4, 262144), put_little(out, 4, 1);
        return;
    }
    put_little(out, 4, 0x0a0d0d0a), put_little(out, 4, 28), put_little(out, 4, 0x1a2b3c4d);
    put_little(out, 2, 1), put_little(out, 2, 0), put_little(out, 8, UINT64_MAX), put_little(out, 4, 28);
    put_little(out, 4, 1), put_little(out, 4, 32), put_little(out, 4, 1), put_little(out, 4, 262144);
    put_little(out, 2, 9), put_little(out, 2, 1), put_little(out, 4, 9);  // nanoseconds
    put_little(out, 4, 0), put_little(out, 4, 32);
}

static void put_record(FILE *out, bool pcapng, uint64_t at, const uint8_t *frame, uint32_t captured) {
    uint32_t padding = pcapng ? (4 - captured % 4) % 4 : 0, block = 32 + captured + padding;
    if (pcapng) {
        put_little(out, 4, 6), put_little(out, 4, block), put_little(out, 4, 0);
        put_little(out, 4, at >> 32), put_little(out, 4, at);
    } else {
        put_little(out, 4, at / SECOND), put_little(out, 4, at % SECOND);
    }
    put_little(out, 4, captured), put_little(out, 4, WHOLE);
    fwrite(frame, 1, captured, out);
    put_little(out, (int)padding, 0);
    if (pcapng) put_little(out, 4, block);
}

// When packet `number` of a frame is sent: a microsecond before a read, of which TROFF is 43/1125 of a frame.
static uint64_t stamp(uint64_t frame, uint64_t number, char kind) {
    uint64_t first = kind == 'b' ? number - number % BURST : number;
    uint64_t part = kind == 'n' ? 1080 : 1125;
    unsigned __int128 parts = (unsigned __int128)frame * 1125 * PACKETS + 43 * PACKETS + first * part;
    return (uint64_t)(parts * (PER * SECOND) / (1125 * RATE * PACKETS)) - 1000 + (number - first) * WIRE;
}

static void begin_frame(uint8_t *frame) {
    memcpy(frame, "\x01\x00\x5e\x00\x00\x01\x02\x00\x00\x00\x00\x01\x08\x00\x45\x00", 16);
    put_big(frame + 16, 2, WHOLE - 14), put_big(frame + 20, 2, 0x4000), put_big(frame + 22, 2, 64 << 8 | 17);
    put_big(frame + 26, 4, 0xc0000201);
    put_big(frame + 34, 2, 50000), put_big(frame + 36, 2, 50000), put_big(frame + 38, 2, WHOLE - 34);
    frame[42] = 0x80;
    put_big(frame + 56, 2, PICTURE);
    for (int i = HEADERS; i < WHOLE; i++) frame[i] = (uint8_t)(i * 131 >> 3);
}

static void put_packet(FILE *out, bool pcapng, uint8_t *frame, uint32_t captured, uint64_t at, uint64_t flow, uint32_t number) {
    put_big(frame + 30, 4, 0xef000001 + flow), put_big(frame + 50, 4, 0x21100000 + flow);
    frame[5] = frame[33];
    put_big(frame + 44, 2, number), put_big(frame + 54, 2, number >> 16);
    put_record(out, pcapng, at, frame, captured);
}

static void put_description(FILE *sdp, uint64_t flows, char kind) {
    fputs("v=0\no=- 1 1 IN IP4 192.0.2.1\ns=bench\nt=0 0\n", sdp);
    for (uint64_t flow = 0; flow < flows; flow++) {
        fprintf(sdp, "m=video 50000 RTP/AVP 96\nc=IN IP4 239.0.0.%u/32\na=rtpmap:96 raw/90000\n", (unsigned)flow + 1);
        fprintf(sdp, "a=fmtp:96 sampling=YCbCr-4:2:2; width=1920; height=1080; exactframerate=60000/1001; depth=10; TCS=SDR; "
                     "colorimetry=BT709; PM=2110GPM; SSN=ST2110-20:2017; TP=2110TP%s;\n",
                kind == 'n' ? "N" : kind == 'l' ? "NL" : "W");
    }
}

int main(int count, char **words) {
    uint64_t frames = 40, flows = 1, bytes = WHOLE;
    char kind = 'n';
    bool pcapng = false;
    for (int option; (option = getopt(count, words, "f:b:m:k:n")) != -1;) {
        if (option == 'f') frames = strtoull(optarg, NULL, 10);
        else if (option == 'b') bytes = strtoull(optarg, NULL, 10);
        else if (option == 'm') flows = strtoull(optarg, NULL, 10);
        else if (option == 'k') kind = optarg[0];
        else if (option == 'n') pcapng = true;
        else fail("no such option");
    }
    if (optind + 2 != count) fail("needs CAPTURE and SDP");
    if (frames < 1 || flows < 1 || flows > 64 || bytes < HEADERS || bytes > WHOLE || !strchr("nlb", kind)) fail("out of range");
    FILE *out = fopen(words[optind], "wb"), *sdp = fopen(words[optind + 1], "wb");
    if (!out || !sdp) fail("can't write");
    setvbuf(out, NULL, _IOFBF, 1 << 20);

    static uint8_t frame[WHOLE];
    uint64_t apart = 900 / flows < 100 ? 900 / flows : 100;
    put_file_head(out, pcapng);
    begin_frame(frame);
    for (uint64_t group = 0; group <= frames; group++) {  // group 0 is the marker alone
        uint64_t picture = FIRST_FRAME + group - 1, packets = group ? PACKETS : 1;
        put_big(frame + 46, 4, (uint32_t)((unsigned __int128)picture * 90000 * PER / RATE));
        for (uint64_t number = 0; number < packets; number++) {
            uint64_t at = group ? stamp(picture, number, kind) : stamp(FIRST_FRAME, 0, kind) - 1000000;
            uint64_t before = group ? 1 + (group - 1) * PACKETS + number : 0;
            frame[43] = number + 1 == packets ? 0xe0 : 0x60;
            put_big(frame + 58, 2, number / 4);
            for (uint64_t flow = 0; flow < flows; flow++)
                put_packet(out, pcapng, frame, (uint32_t)bytes, at + flow * apart, flow, (uint32_t)(1000003 + flow * 65521 + before));
        }
    }
    put_description(sdp, flows, kind);
    if (fclose(out) || fclose(sdp)) fail("can't write");
    return 0;
}
