/* Random nets: accepted ones with rich contents, and damage done to them. */
#ifndef PEER_RANDOM_NET_H
#define PEER_RANDOM_NET_H

#include "dice.h"
#include "draft.h"

/* How large a net is to be. */
enum size { TINY, SMALL_NET, MEDIUM, LARGE, LARGEST };

/* Makes a net whose image is accepted: all kinds of nodes and operands, variables bound before they are used, sites in mid-program, full stores,
 * and levels and policies under which steps are both granted and denied. */
void random_net(struct dice *dice, enum size size, struct draft *draft);

/* Room for a damaged image. */
enum { DAMAGED_MOST = PACKED_MOST + 16 };

/* Writes the image of a draft with one damage: a field, an operand, a byte, some records, or its length. Gives the length. */
size_t damaged_image(struct dice *dice, const struct draft *draft, uint8_t *image);

#endif
