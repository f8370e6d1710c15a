
/*
 * Behind the README's lines in C, which stand before this in the file that the test compiles: a board's wire and clock. Two packets of a request come
 * in, then noise, then nothing; one packet must go out, written by hand from DSP0236's header.
 */
#include <stdlib.h>
#include <string.h>

static const struct {
    size_t len;
    uint8_t bytes[7];
} coming[] = {{7, {0x01, 0x08, 0x09, 0x8B, 0x01, 'w', 'h'}}, {6, {0x01, 0x08, 0x09, 0x5B, 'o', '?'}}, {3, {0xFF, 0xFF, 0xFF}}};

static size_t asked, sent;
static uint64_t now = 1000;

size_t wire_read(uint8_t *packet, size_t room, uint64_t within_millis)
{
    size_t i = asked++;
    if (within_millis > HYPHALOOM_INTERVAL_MILLIS || i == 200)
        exit(sent == 1 && i == 200 ? 0 : 2);
    now += within_millis;
    if (i >= sizeof coming / sizeof coming[0] || coming[i].len > room)
        return 0;
    memcpy(packet, coming[i].bytes, coming[i].len);
    return coming[i].len;
}

void wire_write(const uint8_t *packet, size_t len)
{
    static const uint8_t reply[] = {0x01, 0x09, 0x08, 0xD3, 0x01, 'w', 'h', 'o', '?'};
    sent++;
    if (len != sizeof reply || memcmp(packet, reply, len) != 0)
        exit(3);
}

uint64_t clock_millis(void)
{
    return now;
}

int main(void)
{
    return board_loop();
}
