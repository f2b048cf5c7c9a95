/* The C side of `frame` against a second encoder, written here from what document 01 gives of the Yamux specification's
 * header ("Twelve bytes, big-endian: .."). tests/go holds it to the encoder of the specification's authors. */
#include "yamux_frame.h"

#include <stdio.h>
#include <stdlib.h>
#include <string.h>

#define RANDOM_HEADERS 400000
#define GUARD 0xa5

struct fields {
    uint8_t type;
    uint16_t flags;
    uint32_t stream_id;
    uint32_t length;
};

static unsigned long checks;

static void expect(int holds, const char *what, const struct fields *f)
{
    checks++;
    if (holds)
        return;
    printf("frame_test: %s: type %u flags %04x stream %08x length %08x\n", what, (unsigned)f->type, (unsigned)f->flags,
           (unsigned)f->stream_id, (unsigned)f->length);
    exit(1);
}

/* Bit by bit, most significant first: version 8, type 8, flags 16, stream id 32, length 32. */
static void put_bits(uint8_t *out, unsigned *at, uint32_t value, unsigned width)
{
    while (width-- > 0) {
        if (value >> width & 1)
            out[*at / 8] |= (uint8_t)(0x80u >> *at % 8);
        ++*at;
    }
}

static void by_the_bits(const struct fields *f, uint8_t out[12])
{
    unsigned at = 0;
    memset(out, 0, 12);
    put_bits(out, &at, 0, 8);
    put_bits(out, &at, f->type, 8);
    put_bits(out, &at, f->flags, 16);
    put_bits(out, &at, f->stream_id, 32);
    put_bits(out, &at, f->length, 32);
}

static uint32_t decode(const uint8_t *buf, size_t len, struct fields *f)
{
    return yamux_decode(buf, len, &f->type, &f->flags, &f->stream_id, &f->length);
}

static int same(const struct fields *a, const struct fields *b)
{
    return a->type == b->type && a->flags == b->flags && a->stream_id == b->stream_id && a->length == b->length;
}

/* Both ways, with a byte on each side of the buffer that must stay. */
static void both_ways(const struct fields *f)
{
    uint8_t want[12], buf[14], kept[14];
    struct fields got = {0x5a, 0x5a5a, 0x5a5a5a5au, 0xa5a5a5a5u};
    by_the_bits(f, want);
    memset(buf, GUARD, sizeof buf);
    expect(yamux_encode(f->type, f->flags, f->stream_id, f->length, buf + 1, 12) == YAMUX_DONE, "encode's reply", f);
    expect(memcmp(buf + 1, want, 12) == 0, "encode's bytes", f);
    expect(buf[0] == GUARD && buf[13] == GUARD, "encode wrote outside its buffer", f);
    memcpy(kept, buf, sizeof buf);
    expect(decode(want, 12, &got) == YAMUX_DONE, "decode's reply", f);
    expect(same(&got, f), "decode's fields", f);
    got = (struct fields){0, 0, 0, 0};
    expect(decode(buf + 1, 12, &got) == YAMUX_DONE && same(&got, f), "decode after encode", f);
    expect(memcmp(kept, buf, sizeof buf) == 0, "decode changed its buffer", f);
}

/* A refusal of twelve or other bytes: its number, and the numbers as they were. */
static void refused(const uint8_t *bytes, size_t len, uint32_t reply)
{
    const struct fields before = {0x77, 0x1234, 0x89abcdefu, 0x01020304u};
    struct fields got = before;
    expect(decode(bytes, len, &got) == reply, "a refusal's reply", &before);
    expect(same(&got, &before), "a refusal changed a number", &before);
}

static void not_encoded(const struct fields *f, size_t len, uint32_t reply)
{
    uint8_t buf[16], kept[16];
    memset(buf, GUARD, sizeof buf);
    memcpy(kept, buf, sizeof buf);
    expect(yamux_encode(f->type, f->flags, f->stream_id, f->length, buf, len) == reply, "encode's refusal", f);
    expect(memcmp(kept, buf, sizeof buf) == 0, "a refused encode wrote", f);
}

static uint64_t state = 0x9e3779b97f4a7c15u;

/* xorshift64: the same headers in every run */
static uint32_t next(void)
{
    state ^= state << 13;
    state ^= state >> 7;
    state ^= state << 17;
    return (uint32_t)(state >> 16);
}

int main(void)
{
    static const uint32_t edges[] = {0, 1, 2, 255, 256, 65535, 65536, 262143, 262144, 262145, 16777215, 16777216,
                                     2147483647u, 2147483648u, 4294705151u, 4294705152u, 4294967294u, 4294967295u};
    const unsigned n = sizeof edges / sizeof *edges;
    for (unsigned type = 0; type < 4; type++) {
        for (uint32_t flags = 0; flags < 65536; flags++)
            both_ways(&(struct fields){(uint8_t)type, (uint16_t)flags, 1, 2});
        for (unsigned i = 0; i < n; i++)
            for (unsigned j = 0; j < n; j++)
                both_ways(&(struct fields){(uint8_t)type, YAMUX_SYN | YAMUX_ACK, edges[i], edges[j]});
    }

    uint8_t bytes[14] = {0};
    for (unsigned version = 1; version < 256; version++)
        for (unsigned type = 0; type < 256; type++) {
            bytes[0] = (uint8_t)version;
            bytes[1] = (uint8_t)type;
            refused(bytes, 12, YAMUX_UNKNOWN_VERSION);
        }
    bytes[0] = 0;
    for (unsigned type = 4; type < 256; type++) {
        struct fields f = {(uint8_t)type, YAMUX_RST, 3, 4};
        bytes[1] = (uint8_t)type;
        refused(bytes, 12, YAMUX_UNKNOWN_TYPE);
        not_encoded(&f, 12, YAMUX_UNKNOWN_TYPE);
        not_encoded(&f, 11, YAMUX_WRONG_SIZE);
    }
    bytes[0] = 9;
    for (size_t len = 0; len < 15; len++) {
        struct fields f = {YAMUX_PING, YAMUX_SYN, 0, 7};
        if (len == 12)
            continue;
        refused(bytes, len < 14 ? len : 13, YAMUX_WRONG_SIZE);
        not_encoded(&f, len, YAMUX_WRONG_SIZE);
    }

    for (long i = 0; i < RANDOM_HEADERS; i++) {
        struct fields f = {(uint8_t)(next() % 4), (uint16_t)next(), next(), next()};
        both_ways(&f);
        for (unsigned k = 0; k < 12; k++)
            bytes[k] = (uint8_t)next();
        bytes[0] = (uint8_t)(next() % 4 == 0 ? 1 + next() % 255 : 0);
        bytes[1] = (uint8_t)(next() % 3 == 0 ? next() : next() % 4);
        if (bytes[0] != 0) {
            refused(bytes, 12, YAMUX_UNKNOWN_VERSION);
        } else if (bytes[1] > 3) {
            refused(bytes, 12, YAMUX_UNKNOWN_TYPE);
        } else {
            uint8_t back[12];
            struct fields g;
            expect(decode(bytes, 12, &g) == YAMUX_DONE, "random bytes are accepted", &f);
            by_the_bits(&g, back);
            expect(memcmp(back, bytes, 12) == 0, "random bytes, written again bit by bit", &g);
            expect(yamux_encode(g.type, g.flags, g.stream_id, g.length, back, 12) == YAMUX_DONE, "encode after decode", &g);
            expect(memcmp(back, bytes, 12) == 0, "encode after decode", &g);
        }
    }
    printf("frame_test: %lu checks hold\n", checks);
    return 0;
}
