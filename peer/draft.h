/* A net in the making: five tables of records that may still be wrong, and the image packed of them. */
#ifndef PEER_DRAFT_H
#define PEER_DRAFT_H

#include "records.h"

/* Each table has room for one record more than the most, so that too many can be tried. */
struct draft {
    uint32_t held[KINDS + 1];
    struct site site[SITES_MOST + 1];
    struct node node[NODES_MOST + 1];
    struct aspect aspect[ASPECTS_MOST + 1];
    struct action action[ACTIONS_MOST + 1];
    struct row row[ROWS_MOST + 1];
};

enum { PACKED_MOST = IMAGE_MOST + 32 + 24 + 32 + 24 + 10 };

/* Writes the image of a draft, at most PACKED_MOST bytes, and gives its length. */
size_t pack(const struct draft *draft, uint8_t *image);

/* An operand that is a name. */
static inline struct operand name(uint16_t value)
{
    return (struct operand){TAG_NAME, value};
}

/* An operand that is a variable. */
static inline struct operand variable(uint16_t v)
{
    return (struct operand){TAG_VARIABLE, v};
}

/* An operand that binds a variable. */
static inline struct operand binds(uint16_t v)
{
    return (struct operand){TAG_BINDS, v};
}

/* An operand that fits all. */
static inline struct operand any(void)
{
    return (struct operand){TAG_ANY, 0};
}

/* An operand that fits a binding field. */
static inline struct operand binder(void)
{
    return (struct operand){TAG_BINDER, 0};
}

/* Empties a draft. */
void clear_draft(struct draft *draft);

/* Adds a record to its table and gives its number. */
uint16_t add_site(struct draft *draft, struct site site);
uint16_t add_node(struct draft *draft, struct node node);
uint16_t add_aspect(struct draft *draft, struct aspect aspect);
uint16_t add_action(struct draft *draft, struct action action);
uint16_t add_row(struct draft *draft, struct row row);

#endif
