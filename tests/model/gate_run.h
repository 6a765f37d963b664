/* Accepted words on a channel, for the self-test and the comparison with the archive. */
#ifndef MODEL_GATE_RUN_H
#define MODEL_GATE_RUN_H

#include "draw.h"
#include "gate.h"

/* Opens a channel at the submission's level and SLI setting, puts at the end of its words and takes so many
 * steps, with a mask, a limit, tables and semaphore words that are drawn. The answer is what accepted words
 * never do, where they did it; else NULL. */
const char *run_breach(struct draw *draw, const struct submission *submission, uint32_t steps);

#endif
