/* A net in the making, and the image packed of it. */
#include "draft.h"

/* Writes record k of a kind. */
static void write_record(const struct draft *draft, unsigned kind, uint32_t k, uint8_t *p)
{
    switch (kind) {
    case SITES:
        write_site(p, &draft->site[k]);
        break;
    case NODES:
        write_node(p, &draft->node[k]);
        break;
    case ASPECTS:
        write_aspect(p, &draft->aspect[k]);
        break;
    case ACTIONS:
        write_action(p, &draft->action[k]);
        break;
    default:
        write_row(p, &draft->row[k]);
    }
}

size_t pack(const struct draft *draft, uint8_t *image)
{
    uint32_t at = HEADER_BYTES;
    write_word(image, 1);
    write_word(image + 2, KINDS);
    for (unsigned kind = SITES; kind <= KINDS; kind++) {
        uint8_t *entry = image + 8 * kind - 4;
        write_word(entry, (uint16_t)kind);
        write_word(entry + 2, (uint16_t)draft->held[kind]);
        write_long(entry + 4, at);
        for (uint32_t k = 0; k < draft->held[kind]; k++, at += limits[kind].bytes)
            write_record(draft, kind, k, image + at);
    }
    return at;
}

void clear_draft(struct draft *draft)
{
    memset(draft->held, 0, sizeof draft->held);
}

uint16_t add_site(struct draft *draft, struct site site)
{
    draft->site[draft->held[SITES]] = site;
    return (uint16_t)draft->held[SITES]++;
}

uint16_t add_node(struct draft *draft, struct node node)
{
    draft->node[draft->held[NODES]] = node;
    return (uint16_t)draft->held[NODES]++;
}

uint16_t add_aspect(struct draft *draft, struct aspect aspect)
{
    draft->aspect[draft->held[ASPECTS]] = aspect;
    return (uint16_t)draft->held[ASPECTS]++;
}

uint16_t add_action(struct draft *draft, struct action action)
{
    draft->action[draft->held[ACTIONS]] = action;
    return (uint16_t)draft->held[ACTIONS]++;
}

uint16_t add_row(struct draft *draft, struct row row)
{
    draft->row[draft->held[ROWS]] = row;
    return (uint16_t)draft->held[ROWS]++;
}
