/* side.c - the four calls over one side's own table, and answers in words. */
#include "side.h"
#include "peer_table_names.h"
#include "say.h"

/* A part of an answer: what leads to it, and its words. */
static void say_part(const char *before, const char *words)
{
    say(before);
    say(words);
}

static void say_done(const peer_answer *a)
{
    say(" done");
    if (a->verdict != PEER_NO_VERDICT)
        say_part(", ", peer_verdict_name(a->verdict));
    if (a->notice != PEER_NO_NOTICE)
        say_part(", ", peer_notice_name(a->notice));
    if (peer_code_name(a->notice)[0] != '\0') {
        say_part(" with ", peer_code_name(a->notice));
        say(" ");
        say_number(a->code);
    }
    if (a->written > 0) {
        say(", ");
        say_number(a->written);
        say(" octets written");
    }
    if (a->state != PEER_NO_STATE) {
        say(", peer in State ");
        say_number(a->state);
    }
    if (a->ds != PEER_DS_NOTHING)
        say_part(", distribution system: ", peer_ds_name(a->ds));
}

/* One line: who, what, and each part of the answer that says something. */
static peer_answer told(const struct side *side, const char *what, peer_answer a)
{
    say_who(side->name);
    say(what);
    say(":");
    if (a.refusal == PEER_DONE) {
        say_done(&a);
    } else {
        say(" refused ");
        say_number(a.refusal);
        say_part(" (", peer_refusal_name(a.refusal));
        say(")");
    }
    say("\n");
    return a;
}

peer_answer side_receive(struct side *side, const char *what, const uint8_t *frame, size_t octets)
{
    return told(side, what, peer_receive(&side->table, &side->settings, frame, octets, side->out, sizeof side->out));
}

peer_answer side_ask(struct side *side, const char *what, uint8_t primitive, uint64_t address, uint16_t code)
{
    return told(side, what, peer_ask(&side->table, &side->settings, primitive, address, code, side->out, sizeof side->out));
}

peer_answer side_links(struct side *side, const char *what, uint64_t device, const uint64_t *links, size_t count)
{
    return told(side, what, peer_links(&side->table, &side->settings, device, links, count, side->out, sizeof side->out));
}

peer_answer side_pass(struct side *side, uint16_t step)
{
    peer_answer a = peer_pass(&side->table, &side->settings, step, side->out, sizeof side->out);

    say_who(side->name);
    say("lets ");
    say_number(step);
    say(" TU pass\n");
    for (size_t i = 0; i < a.written / PEER_TIMEOUT_OCTETS; i++) {
        peer_timeout t = peer_timeout_at(side->out, a.written, i);

        say_who(side->name);
        say_part(t.kind == PEER_KIND_QUERY_DUE ? "no answer yet: " : "no answer: ", peer_kind_name(t.kind));
        say(" with ");
        say_address(t.address);
        say(t.kind == PEER_KIND_QUERY_DUE ? ", place " : " timed out, place ");
        say_number(t.place);
        say("\n");
    }
    return a;
}

uint64_t side_address(const struct side *side)
{
    return peer_address_read(side->settings.own);
}
