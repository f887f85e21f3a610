/* say.c - numbers as text, without a C library. */
#include "say.h"
#include "peer_table.h"

enum { NAME = 9 }; /* columns of a speaker's name */

void say_number(uint32_t number)
{
    char text[11];
    int at = 10;

    text[10] = '\0';
    do {
        text[--at] = (char)('0' + number % 10);
        number /= 10;
    } while (number > 0);
    say(text + at);
}

void say_address(uint64_t address)
{
    static const char digits[] = "0123456789abcdef";
    uint8_t octets[PEER_ADDRESS_OCTETS];
    char text[3 * PEER_ADDRESS_OCTETS];
    int i;

    peer_address_write(address, octets);
    for (i = 0; i < PEER_ADDRESS_OCTETS; i++) {
        text[3 * i] = digits[octets[i] >> 4];
        text[3 * i + 1] = digits[octets[i] & 15];
        text[3 * i + 2] = ':';
    }
    text[sizeof text - 1] = '\0';
    say(text);
}

void say_who(const char *name)
{
    int column = 0;

    say("  ");
    say(name);
    while (name[column] != '\0')
        column++;
    for (; column <= NAME; column++)
        say(" ");
}
