/* A header from numbers to bytes and back, and one that is refused. The README says how to build it; header.out is what it
 * prints. */
#include "yamux_frame.h"

#include <inttypes.h>
#include <stdio.h>

/* Decodes twelve bytes and prints the reply, and the fields where there are any. */
static void show(const uint8_t bytes[YAMUX_HEADER_SIZE])
{
    uint8_t type;
    uint16_t flags;
    uint32_t stream_id, length;
    uint32_t reply = yamux_decode(bytes, YAMUX_HEADER_SIZE, &type, &flags, &stream_id, &length);
    if (reply == YAMUX_DONE)
        printf("type %u flags %u stream %" PRIu32 " length %" PRIu32 "\n", type, flags, stream_id, length);
    else
        printf("refused: %" PRIu32 "\n", reply);
}

int main(void)
{
    uint8_t bytes[YAMUX_HEADER_SIZE];
    if (yamux_encode(YAMUX_DATA, YAMUX_SYN, 1, 4, bytes, sizeof bytes) != YAMUX_DONE)
        return 1;
    for (unsigned i = 0; i < sizeof bytes; i++)
        printf("%02x", bytes[i]);
    printf("\n");
    show(bytes);
    bytes[0] = 1;
    show(bytes);
    return 0;
}
