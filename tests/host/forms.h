/* forms.h - the library's forms (octets, peer_*) and the independent program's (structs, pt_*), and the ways between them. */
#ifndef FORMS_H
#define FORMS_H

#include "peer_table.h"
#include "rules.h"

/* Writes the 1,536 octets of an independent table. Its exchanges must be numbers of the library's, 0 to 9, its queries 0 to 3. */
void octets_of(const struct pt_record *table, uint8_t *octets);

/* Reads 1,536 octets; false where a place has an exchange's or a query's number that the independent form can't hold. */
bool table_of(const uint8_t *octets, struct pt_record *table);

/* The lengths of settings: 12, which are of edition 1 without protection, 14, whose query has the usual times, and 18. Then the settings of
   which so many octets are lent. */
bool settings_length(size_t octets);
struct pt_settings settings_of(const peer_settings *settings, size_t octets);

/* Writes the 24 octets of an answer. */
void octets_of_answer(const struct pt_answer *answer, uint8_t *octets);

#endif
