/* Trees made of a good one: damaged, edited by libfdt, or arranged in another way. */
#ifndef DAMAGE_H
#define DAMAGE_H

#include "words.h"

typedef struct {
    size_t len;
    uint8_t bytes[MOST];
} tree;

/* Takes a tree; all its questions are asked, or a few of them. */
typedef void taker(const tree *t, bool all);

extern char what[256];          /* how the tree at hand was made */
extern const char *from;        /* of which file */
uint64_t below(uint64_t limit); /* the next number at random, from the seed */
void seed(uint64_t number);

void each_damage(const tree *good, taker *take); /* one damage at every place */
bool edit(tree *t);                              /* some edits at random by libfdt, in place */
void damage(tree *t);                            /* one damage at random */

#endif
