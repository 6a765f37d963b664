/* A model of the path rule, written without a look at the code: which pairs are reached, and what is bad. */
#ifndef MODEL_PATH_H
#define MODEL_PATH_H

#include "gate.h"

/* Whether there is a bad place, and the lowest one, else 0. */
struct path {
    bool is_bad;
    uint32_t place;
};

/* H5: writes the exact map. Level, SLI, words and permit list of the submission must not be refused; its own
 * map is not looked at. The room is lent for two pairs a word. */
struct path model_path(const struct submission *submission, uint8_t *map, struct pair *room);

#endif
