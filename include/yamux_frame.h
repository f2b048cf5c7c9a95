/* Yamux headers for C: the two proved functions of the crate `frame_c`. Link target/staticlib/libframe.a, which README.md's
 * command makes for x86-64; it needs no other library. examples/header.c is a program that does.
 * docs/REFERENCE.md says what the fields mean. The rest of the engine cannot be called from C.
 *
 * Every argument is judged: no value makes a call fail in any way but by its reply. The functions keep nothing between
 * calls, so any number of threads may call them at once, each on memory of its own.
 *
 * What C cannot say is the caller's duty:
 * - buf points to `len` bytes, readable for decode and writable for encode;
 * - type, flags, stream_id and length of decode point to writable numbers, each aligned for its type (buf needs no
 *   alignment); none of them is null;
 * - no two of the things lent to one call overlap;
 * - while a call runs, nothing else (another thread, a signal handler, a device) writes what is lent to it, nor reads
 *   what it may write. */
#ifndef YAMUX_FRAME_H
#define YAMUX_FRAME_H

#include <stddef.h>
#include <stdint.h>

#define YAMUX_HEADER_SIZE 12u

/* the bytes that each side of a new stream may send before any window update */
#define YAMUX_INITIAL_WINDOW 262144u

/* types, with what the length field is */
#define YAMUX_DATA 0u          /* the bytes of the body, which follows the header */
#define YAMUX_WINDOW_UPDATE 1u /* the credit: so many bytes more may be sent */
#define YAMUX_PING 2u          /* a value that the answer repeats */
#define YAMUX_GO_AWAY 3u       /* one of the codes below */

/* flags */
#define YAMUX_SYN 1u
#define YAMUX_ACK 2u
#define YAMUX_FIN 4u
#define YAMUX_RST 8u

/* codes of a GoAway */
#define YAMUX_GO_AWAY_NORMAL 0u
#define YAMUX_GO_AWAY_PROTOCOL_ERROR 1u
#define YAMUX_GO_AWAY_INTERNAL_ERROR 2u

/* replies */
#define YAMUX_DONE 0u
#define YAMUX_UNKNOWN_VERSION 11u
#define YAMUX_UNKNOWN_TYPE 12u
#define YAMUX_WRONG_SIZE 14u

#ifdef __cplusplus
extern "C" {
#endif

/* Writes the twelve bytes of a header of version 0 into buf.
 * YAMUX_WRONG_SIZE where len is not 12, else YAMUX_UNKNOWN_TYPE where type is above 3; buf is then as it was. */
uint32_t yamux_encode(uint8_t type, uint16_t flags, uint32_t stream_id, uint32_t length, uint8_t *buf, size_t len);

/* Hands out the fields of the header in buf, all 16 flag bits among them.
 * YAMUX_WRONG_SIZE where len is not 12, else YAMUX_UNKNOWN_VERSION, else YAMUX_UNKNOWN_TYPE; the four numbers are then
 * as they were. */
uint32_t yamux_decode(const uint8_t *buf, size_t len, uint8_t *type, uint16_t *flags, uint32_t *stream_id,
                      uint32_t *length);

#ifdef __cplusplus
}
#endif

#endif
