/* The gatekeeper's verdict on a submission, and its printed text. */
#ifndef VERDICT_H
#define VERDICT_H

#include <stdbool.h>
#include <stdint.h>

#include "submission.h"
#include "upborliya.h"

/* What the gatekeeper answers. */
upborliya_answer judge(const struct submission *submission);

/* Whether the gatekeeper can have answered so. Any other answer would have to come from a wrong archive, and
 * is no verdict. */
bool is_verdict(const struct submission *submission, upborliya_answer answer);

/* Says on standard error that an answer, called by name, is none. The status is that of failure. */
int fail_unknown(const char *name, uint64_t answer);

/* Whether a submission can be refused so. */
bool is_refusal(unsigned refusal);

/* Prints a refusal, with all that was given and what was expected of it. The status is its own. */
int print_refused(const struct submission *submission, unsigned refusal);

/* Prints an answer that is a verdict. The status is its own. */
int print_verdict(const struct submission *submission, upborliya_answer answer);

#endif
