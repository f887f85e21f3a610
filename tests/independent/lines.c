/* lines.c - what is printed of an event: its line, and the lines of its trace (README.md). */
#include "bench.h"

#include <inttypes.h>

/* The eight fields and a line feed; gives their length. */
int bench_line(char *text, size_t size, const struct bench *b)
{
    const struct pt_answer *a = &b->answer;

    return snprintf(text, size, "%" PRIu64 " %u %c %u %u %u %c %u\n", b->events,
                    (unsigned)a->refusal, "-AD"[a->verdict], (unsigned)a->notice,
                    (unsigned)a->code, (unsigned)a->written, "-JL"[a->ds], (unsigned)a->state);
}

/* Lowercase hexadecimal, no separators; at most a whole scratch. */
static void print_octets(const uint8_t *p, size_t n)
{
    static const char digits[] = "0123456789abcdef";
    char text[2 * SCRATCH];

    for (size_t i = 0; i < n; i++) {
        text[2 * i] = digits[p[i] >> 4];
        text[2 * i + 1] = digits[p[i] & 15];
    }
    fwrite(text, 2, n, stdout);
}

static void print_address(uint64_t address)
{
    uint8_t octets[6];

    pt_put48(octets, address);
    print_octets(octets, sizeof octets);
}

/* The links of a place, where it has some. */
static void print_links(int place, const struct pt_record *r)
{
    if (r->link_count == 0)
        return;
    printf("  links %d", place);
    for (int i = 0; i < r->link_count; i++) {
        putchar(' ');
        print_address(r->links[i]);
    }
    putchar('\n');
}

/* A place that is not free, with its links, and with its query where there is or was one. */
void bench_place(int place, const struct pt_record *r)
{
    unsigned exchange = r->phase == PT_NONE ? 0 : (r->phase - 1u) * 3 + r->kind;

    printf("  place %d ", place);
    print_address(r->address);
    printf(" %u %u %" PRIu32 " %" PRIu32 "\n", (unsigned)r->state, exchange, r->left, r->hold);
    print_links(place, r);
    if (r->identifier != 0 || r->query != PT_NO_QUERY)
        printf("  query %d %u %u %" PRIu32 "\n", place, (unsigned)r->identifier,
               (unsigned)r->query, r->query_left);
}

/* The octets written, and the current AP of a reassociation indication. */
void bench_beside(const struct bench *b)
{
    if (b->answer.written > 0) {
        printf("  octets ");
        print_octets(b->scratch, b->answer.written);
        putchar('\n');
    }
    if (b->answer.notice == PT_REASSOC_INDICATION) {
        printf("  current ");
        print_address(b->answer.current);
        putchar('\n');
    }
}

/* What stands beside the answer, then the places not free. */
void bench_trace(const struct bench *b)
{
    bench_beside(b);
    for (int i = 0; i < PT_PLACES; i++)
        if (b->table[i].state != 0)
            bench_place(i, &b->table[i]);
}
