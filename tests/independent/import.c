/* import.c - pcap captures read into bench records: import SETTINGS CAPTURE.
 *
 * The capture is read as a stream, so it may be of any size. On standard output the settings record and
 * the records of the packets; on standard error, last, `import: P packets, L left out, refusal R`.
 */
#include "import.h"

#include <inttypes.h>
#include <string.h>

enum { FILE_HEADER = 24, LINK_TYPE_AT = 20, PACKET_HEADER = 16, LINK_TYPE = 105, TU = 1024 };
enum refusal { WHOLE = 0, OTHER_NUMBER = 1, OTHER_LINK_TYPE = 2, CUT = 3 };

struct capture {
    FILE *from;
    bool high_first;   /* the file's numbers have their highest octet first */
    uint64_t latest;   /* the latest time seen, in microseconds */
    uint64_t passed;   /* microseconds that no step has told yet */
    uint64_t packets, left_out;
    uint8_t octets[PT_FRAME_MAX];
};

static uint32_t number_at(const struct capture *c, const uint8_t *p)
{
    if (!c->high_first)
        return pt_get32(p);
    return (uint32_t)p[0] << 24 | (uint32_t)p[1] << 16 | (uint32_t)p[2] << 8 | p[3];
}

static void put_record(enum record_kind kind, const uint8_t *body, size_t length)
{
    uint8_t head[5] = { 0x0B, 0x03, (uint8_t)kind };

    pt_put16(head + 3, (uint16_t)length);
    fwrite(head, 1, sizeof head, stdout);
    fwrite(body, 1, length, stdout);
}

/* The whole TU that have passed, the longest steps first; microseconds over stay for the next. */
static void put_steps(struct capture *c)
{
    uint64_t units = c->passed / TU;

    c->passed %= TU;
    while (units > 0 && !ferror(stdout)) {
        uint16_t step = (uint16_t)(units < PT_TIME_MAX ? units : PT_TIME_MAX);
        uint8_t body[2];

        pt_put16(body, step);
        put_record(CLOCK, body, sizeof body);
        units -= step;
    }
}

/* The number in either order, then the link type in that order. */
static enum refusal read_header(struct capture *c)
{
    static const uint8_t number[4] = { 0xA1, 0xB2, 0xC3, 0xD4 };
    uint8_t head[FILE_HEADER];

    if (fread(head, 1, sizeof head, c->from) < sizeof head)
        return CUT;
    c->high_first = memcmp(head, number, sizeof number) == 0;
    if (number_at(c, head) != 0xA1B2C3D4)
        return OTHER_NUMBER;
    return number_at(c, head + LINK_TYPE_AT) == LINK_TYPE ? WHOLE : OTHER_LINK_TYPE;
}

/* The octets of a packet; of a longer one than can be kept only the last ones stay. */
static bool read_octets(struct capture *c, uint32_t length)
{
    while (length > 0) {
        size_t part = length < PT_FRAME_MAX ? length : PT_FRAME_MAX;

        if (fread(c->octets, 1, part, c->from) < part)
            return false;
        length -= (uint32_t)part;
    }
    return true;
}

/* Time that goes back counts as none. The first packet is what time is counted from. */
static void take_time(struct capture *c, uint32_t seconds, uint32_t microseconds)
{
    uint64_t now = (uint64_t)seconds * 1000000 + microseconds;

    if (c->packets > 0 && now > c->latest)
        c->passed += now - c->latest;
    if (c->packets == 0 || now > c->latest)
        c->latest = now;
}

/* Packets until the capture ends, or one is cut. One cut short in capture, or over 4,096 octets, is left
   out; its time counts. */
static enum refusal read_packets(struct capture *c)
{
    uint8_t head[PACKET_HEADER];
    size_t got;

    while ((got = fread(head, 1, sizeof head, c->from)) == sizeof head && !ferror(stdout)) {
        uint32_t captured = number_at(c, head + 8), original = number_at(c, head + 12);

        if (!read_octets(c, captured))
            return CUT;
        take_time(c, number_at(c, head), number_at(c, head + 4));
        c->packets++;
        if (captured < original || captured > PT_FRAME_MAX) {
            c->left_out++;
            continue;
        }
        put_steps(c);
        put_record(FRAME, c->octets, captured);
    }
    return got == 0 || got == sizeof head ? WHOLE : CUT;
}

/* One settings record and nothing behind it. */
static bool read_settings(const char *name, struct input *in)
{
    FILE *from = fopen(name, "rb");
    bool good = from && bench_read(from, in, true) == GOT_RECORD && getc(from) == EOF && !ferror(from);

    if (from)
        fclose(from);
    return good;
}

/* 0 where the capture could be read, whatever its refusal; else 1, and 2 for the settings. */
int import_capture(const char *settings, const char *capture)
{
    static struct input in;
    static struct capture c;
    enum refusal refusal;

    if (!read_settings(settings, &in)) {
        fprintf(stderr, "independent: '%s' is no settings record\n", settings);
        return 2;
    }
    c.from = fopen(capture, "rb");
    if (!c.from) {
        fprintf(stderr, "independent: cannot open '%s'\n", capture);
        return 1;
    }
    put_record(SETTINGS, in.body, in.length);
    refusal = read_header(&c);
    if (refusal == WHOLE)
        refusal = read_packets(&c);
    if (ferror(c.from)) {
        fprintf(stderr, "independent: cannot read '%s'\n", capture);
        return 1;
    }
    fclose(c.from);
    fprintf(stderr, "import: %" PRIu64 " packets, %" PRIu64 " left out, refusal %u\n", c.packets,
            c.left_out, (unsigned)refusal);
    return 0;
}
