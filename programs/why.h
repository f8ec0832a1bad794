/* Why a text was refused, in words for people; and what others make of a text that was written. */
#ifndef TAP_WHY_H
#define TAP_WHY_H

#include <stddef.h>
#include <stdint.h>

#include "files.h"

enum { WORDS = 160 }; /* room for the words of one refusal */

/*
 * Looks at the line that the library refused again and says what is wrong with it. The library's answer alone decides:
 * where nothing better is found, this is the plain rule. The text is for the ids first to last.
 */
void why_malformed(struct bytes text, uint64_t line, char words[WORDS]);
void why_bad_plan(struct bytes text, uint64_t line, unsigned first, unsigned last, char words[WORDS]);

/*
 * How many lines of a text that was written end in a directive and have a # before it, in the name. TAP::Parser looks
 * at the first # alone, so that it takes such a skip for a plain ok.
 */
unsigned hidden_directives(struct bytes text);

#endif
