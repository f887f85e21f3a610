/* primitives.c - who may ask each primitive, and with which codes. */
#include "rules.h"

/* Which codes a primitive allows. */
enum codes { ZERO, NOT_ZERO, ANY, ZERO_OR_ONE };

/* The roles, a bit for each, that a primitive is for. */
enum { AP = 1 << PT_AP, STATION = 1 << PT_STATION, AD_HOC = 1 << PT_AD_HOC };

/* Who may ask each primitive and with which codes. */
static const struct {
    uint8_t roles;
    uint8_t codes;
} primitives[PT_PRIMITIVES + 1] = {
    [PT_AUTHENTICATE_REQUEST] = { STATION | AD_HOC, ZERO },
    [PT_AUTHENTICATE_RESPONSE] = { AP | AD_HOC, ANY },
    [PT_DEAUTHENTICATE] = { AP | STATION | AD_HOC, NOT_ZERO },
    [PT_ASSOCIATE_REQUEST] = { STATION, ZERO },
    [PT_REASSOCIATE_REQUEST] = { STATION, ZERO },
    [PT_DISASSOCIATE] = { AP | STATION, NOT_ZERO },
    [PT_ASSOCIATE_RESPONSE] = { AP, ANY },
    [PT_REASSOCIATE_RESPONSE] = { AP, ANY },
    [PT_SETPROTECTION] = { AP | STATION, ZERO },
    [PT_TRANSMIT_REPORT] = { AP, ZERO_OR_ONE },
    [PT_SA_QUERY] = { AP, ZERO },
};

static bool code_allowed(uint8_t codes, uint16_t code)
{
    switch (codes) {
    case ZERO:
        return code == 0;
    case NOT_ZERO:
        return code != 0;
    case ZERO_OR_ONE:
        return code <= 1;
    default:
        return true;
    }
}

/* Primitives 1 to 11, each with a code that it allows. */
bool pt_known(unsigned primitive, uint16_t code)
{
    return primitive >= 1 && primitive <= PT_PRIMITIVES &&
           code_allowed(primitives[primitive].codes, code);
}

bool pt_may_ask(uint8_t role, unsigned primitive)
{
    return (primitives[primitive].roles & 1 << role) != 0;
}
