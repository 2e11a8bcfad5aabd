/* Keywords, and forms that stand for other forms: let, let*, letrec, definitions of functions. */
#ifndef SYNTAX_H
#define SYNTAX_H

#include "values.h"
#include <stdint.h>

/* The first symbols of the forms that are not calls. */
enum keyword { NO_KEYWORD, QUOTE, IF, COND, AND, OR, BEGIN, LAMBDA, DEFINE, SET, LET, LET_STAR, LETREC, ELSE, KEYWORDS };

/* Marks the symbols of all keywords. */
void make_keywords(void);

/* Returns the keyword of a value. */
enum keyword keyword_of(enum slot value);

/* Ends in an error that shows how to write the form. */
_Noreturn void fail_in(enum keyword keyword);

/* Ends in an error unless the form in EXPRESSION has from `least` to `most` elements after its keyword. Uses slot D. */
void check_form(enum keyword keyword, int64_t least, int64_t most);

/* These rewrite the form in EXPRESSION. The new form replaces it in PLACE, so that a form is rewritten once. They use slots A to D. */
void rewrite_let(void);
void rewrite_let_star(void);
void rewrite_letrec(void);
void rewrite_definition(void);

/* Rewrites a body that begins with definitions into one letrec. The body is the rest of this pair, which is in slot A. Uses the slots A to
 * D. */
void rewrite_body(void);

#endif
