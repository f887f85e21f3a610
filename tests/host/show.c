/* show.c - a call in print, and what is told of one that faults or does not end. */
#define _XOPEN_SOURCE 700
#include "call.h"

#include <signal.h>
#include <stdio.h>
#include <unistd.h>

static void print_hex(const char *what, const uint8_t *p, size_t count)
{
    printf("  %s, %zu octets", what, count);
    for (size_t i = 0; i < count; i++)
        printf("%s%02x", i % 32 == 0 ? "\n    " : i % 16 == 0 ? " " : "", p[i]);
    printf("\n");
}

void call_print(const struct call *c)
{
    static const char *const names[CALL_KINDS] = { "peer_receive_octets", "peer_ask_octets", "peer_pass_octets", "peer_links_octets" };
    const peer_settings *s = &c->settings;

    printf("  %s, call %lu of %s, out of %zu octets, answer of %zu\n", names[c->kind], c->index, c->source, c->out_octets,
           c->answer_octets);
    printf("  settings of %zu octets: role %u, own %012llx, rsna %u, timeouts %u and %u, edition %u, protection %u, query %u and %u,"
           " network %012llx\n", c->settings_octets, s->role, (unsigned long long)pt_get48(s->own), s->rsna, s->authentication_timeout,
           s->association_timeout, s->edition, s->protection, s->query_retry, s->query_maximum,
           (unsigned long long)pt_get48(s->network));
    if (c->kind == CALL_ASK)
        printf("  primitive %u, address %012llx, code %u\n", c->primitive, (unsigned long long)c->address, c->number);
    if (c->kind == CALL_PASS)
        printf("  clock step %u\n", c->number);
    if (c->kind == CALL_RECEIVE)
        print_hex("frame", c->frame, c->frame_octets);
    if (c->kind == CALL_LINKS)
        print_hex("device, count and links", c->frame, c->frame_octets);
    print_hex("table", c->table, c->table_octets);
}

/* The program ends here, so that what printf does in a handler does no harm. */
static void tell(int signal_number)
{
    printf("host: %s\n", signal_number == SIGALRM ? "A CALL DOES NOT END"
                                                 : "FAULT: a read or write outside of what was lent, too much stack, or a trap");
    if (call_under_way)
        call_print(call_under_way);
    else
        printf("  outside of the library: a fault of the test itself\n");
    fflush(stdout);
    _exit(1);
}

void call_watch(void)
{
    static const int signals[] = { SIGSEGV, SIGBUS, SIGILL, SIGFPE, SIGABRT, SIGTRAP, SIGALRM };
    static char stack[65536]; /* the handler's own: the fault may be that there was no more of the other */
    stack_t other = { .ss_sp = stack, .ss_size = sizeof stack };
    struct sigaction act = { .sa_handler = tell, .sa_flags = SA_ONSTACK };

    sigaltstack(&other, NULL);
    for (size_t i = 0; i < sizeof signals / sizeof *signals; i++)
        sigaction(signals[i], &act, NULL);
}
