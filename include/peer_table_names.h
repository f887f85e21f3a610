/* peer_table_names.h - the peer table's numbers in words, for logs. A number that means nothing is "unknown". */
#ifndef PEER_TABLE_NAMES_H
#define PEER_TABLE_NAMES_H

#include <stddef.h>

static inline const char *peer_name_in(const char *const *names, size_t count, unsigned number)
{
    return number < count ? names[number] : "unknown";
}

#define PEER_NAME_IN(names, number) peer_name_in(names, sizeof(names) / sizeof(names)[0], number)

static inline const char *peer_refusal_name(unsigned number)
{
    static const char *const names[] = {
        "done", "buffer too short", "settings or table not well formed", "input not allowed", "not for us", "not for this role",
        "no place free", "no matching exchange or state", "held: this AP told us to wait", "an exchange is under way",
    };

    return PEER_NAME_IN(names, number);
}

/* The words that `bench why` prints. */
static inline const char *peer_why_name(unsigned number)
{
    static const char *const names[] = {
        "none", "refusal-1", "refusal-2", "refusal-3", "refusal-4", "refusal-5", "refusal-6", "refusal-7", "refusal-8", "refusal-9",
        "no-class", "class-filter", "group-rule", "nothing-to-do",
    };

    return PEER_NAME_IN(names, number);
}

/* The kind of a record that peer_run takes. */
static inline const char *peer_run_kind_name(unsigned number)
{
    static const char *const names[] = { "no event", "our own side asks", "frame received", "time passed", "links named" };

    return PEER_NAME_IN(names, number);
}

static inline const char *peer_verdict_name(unsigned number)
{
    static const char *const names[] = { "no verdict", "admitted", "discarded" };

    return PEER_NAME_IN(names, number);
}

static inline const char *peer_notice_name(unsigned number)
{
    static const char *const names[] = {
        "no notice",
        "asked for authentication", "authentication ended",
        "deauthenticated by the peer", "deauthenticated",
        "asked for association", "association ended",
        "asked for reassociation", "reassociation ended",
        "disassociated by the peer", "disassociated",
    };

    return PEER_NAME_IN(names, number);
}

/* What the code of a notice is; "" where it has none. */
static inline const char *peer_code_name(unsigned notice)
{
    static const char *const names[] = { "", "", "status", "reason", "reason", "", "status", "", "status", "reason", "reason" };

    return PEER_NAME_IN(names, notice);
}

static inline const char *peer_ds_name(unsigned number)
{
    static const char *const names[] = { "nothing", "joined", "left" };

    return PEER_NAME_IN(names, number);
}

static inline const char *peer_state_name(unsigned number)
{
    static const char *const names[] = { "no record", "State 1 (not authenticated)", "State 2 (authenticated)",
                                         "State 3 (associated, RSNA to come)", "State 4 (associated)" };

    return PEER_NAME_IN(names, number);
}

static inline const char *peer_exchange_name(unsigned number)
{
    static const char *const names[] = {
        "no exchange",
        "authentication asked", "association asked", "reassociation asked",
        "authentication awaits its acknowledgement", "association awaits its acknowledgement",
        "reassociation awaits its acknowledgement",
        "authentication sent", "association sent", "reassociation sent",
    };

    return PEER_NAME_IN(names, number);
}

static inline const char *peer_query_name(unsigned number)
{
    static const char *const names[] = { "no SA Query", "SA Query running", "SA Query running, its request due", "SA Query timed out" };

    return PEER_NAME_IN(names, number);
}

static inline const char *peer_kind_name(unsigned number)
{
    static const char *const names[] = { "no timeout", "authentication", "association", "reassociation", "SA Query due again", "SA Query" };

    return PEER_NAME_IN(names, number);
}

static inline const char *peer_primitive_name(unsigned number)
{
    static const char *const names[] = {
        "no primitive", "authenticate", "answer authentication", "deauthenticate", "associate", "reassociate", "disassociate",
        "answer association", "answer reassociation", "set protection", "report transmission", "send SA Query request",
    };

    return PEER_NAME_IN(names, number);
}

#undef PEER_NAME_IN

#endif
