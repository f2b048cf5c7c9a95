/* The codec of `frame` by lines, for header_test.go to ask. First the numbers of yamux_frame.h, each "NAME NUMBER". Then one
 * line for each that is read: "TYPE FLAGS ID LENGTH" gets encode's "REPLY BYTES", and "=BYTES" gets decode's
 * "REPLY TYPE FLAGS ID LENGTH", whose numbers start as 0. Numbers are decimal; bytes are hex, in their order. */
#include "yamux_frame.h"

#include <stdio.h>
#include <stdlib.h>
#include <string.h>

#define TELL(name) printf("%s %u\n", #name, (unsigned)name)

static const char digits[] = "0123456789abcdef";

static void encode(char *line)
{
    uint8_t buf[YAMUX_HEADER_SIZE] = {0};
    char hex[2 * YAMUX_HEADER_SIZE + 1] = "";
    uint8_t type = (uint8_t)strtoul(line, &line, 10);
    uint16_t flags = (uint16_t)strtoul(line, &line, 10);
    uint32_t id = (uint32_t)strtoul(line, &line, 10);
    uint32_t length = (uint32_t)strtoul(line, &line, 10);
    uint32_t reply = yamux_encode(type, flags, id, length, buf, sizeof buf);
    for (unsigned i = 0; i < sizeof buf; i++) {
        hex[2 * i] = digits[buf[i] / 16];
        hex[2 * i + 1] = digits[buf[i] % 16];
    }
    printf("%u %s\n", (unsigned)reply, hex);
}

static uint8_t digit(char c)
{
    return (uint8_t)(strchr(digits, c) - digits);
}

static void decode(const char *hex)
{
    uint8_t type = 0, buf[YAMUX_HEADER_SIZE];
    uint16_t flags = 0;
    uint32_t id = 0, length = 0, reply;
    for (unsigned i = 0; i < sizeof buf; i++)
        buf[i] = (uint8_t)(16 * digit(hex[2 * i]) + digit(hex[2 * i + 1]));
    reply = yamux_decode(buf, sizeof buf, &type, &flags, &id, &length);
    printf("%u %u %u %u %u\n", (unsigned)reply, (unsigned)type, (unsigned)flags, (unsigned)id, (unsigned)length);
}

int main(void)
{
    char line[80];
    TELL(YAMUX_HEADER_SIZE);
    TELL(YAMUX_DATA);
    TELL(YAMUX_WINDOW_UPDATE);
    TELL(YAMUX_PING);
    TELL(YAMUX_GO_AWAY);
    TELL(YAMUX_SYN);
    TELL(YAMUX_ACK);
    TELL(YAMUX_FIN);
    TELL(YAMUX_RST);
    TELL(YAMUX_GO_AWAY_NORMAL);
    TELL(YAMUX_GO_AWAY_PROTOCOL_ERROR);
    TELL(YAMUX_GO_AWAY_INTERNAL_ERROR);
    TELL(YAMUX_INITIAL_WINDOW);
    while (fgets(line, sizeof line, stdin)) {
        if (line[0] == '=')
            decode(line + 1);
        else
            encode(line);
    }
    return 0;
}
