/* The records of the image as structs, field by field, each with its reader and its writer, and the limits of each kind. */
#ifndef PEER_RECORDS_H
#define PEER_RECORDS_H

#include "libc.h"

enum { SITES = 1, NODES = 2, ASPECTS = 3, ACTIONS = 4, ROWS = 5, KINDS = 5 };

enum {
    SITES_MOST = 32,
    NODES_MOST = 1024,
    ASPECTS_MOST = 256,
    ACTIONS_MOST = 512,
    ROWS_MOST = 512,
    PROGRAM_MOST = 16, /* actions of one site */
    STORE_MOST = 16,   /* rows of one site */
    DEPTH_MOST = 8,
    STEPS_MOST = 4096
};

enum { HEADER_BYTES = 44, IMAGE_MOST = 51244, MEMORY_BYTES = 65536 };

enum { FIELDS = 4, VARIABLES = 8, TERMS = 8, NUMBER_MOST = 65535 };

enum { PUT = 1, TAKE = 2, READ = 3 };

enum { TAG_NAME = 0, TAG_VARIABLE = 1, TAG_BINDS = 2, TAG_ANY = 3, TAG_BINDER = 4, TAGS = 5 };

/* Terms of "dominates" and of the mandatory rules: levels of the source, then of the target. */
enum { SOURCE_S = 0, SOURCE_C = 1, SOURCE_O = 2, SOURCE_HS = 3, TARGET_O = 4, TARGET_HO = 5, TARGET_S = 6, TARGET_C = 7 };

/* Kinds of nodes: conditions from 1, recommendations from 16. */
enum {
    NODE_ALWAYS = 1,
    NODE_NOT = 2,
    NODE_AND = 3,
    NODE_OR = 4,
    NODE_EQUAL = 5,
    NODE_TEST = 6,
    NODE_DOMINATES = 7,
    NODE_GRANTS = 8,
    NODE_CONSTANT = 16,
    NODE_OF_CONDITION = 17,
    NODE_VALUE_NOT = 18,
    NODE_VALUE_AND = 19,
    NODE_VALUE_OR = 20,
    NODE_CONSENSUS = 21,
    NODE_GATHER = 22,
    NODE_IMPLIES = 23,
    NODE_BEFORE = 24,
    NODE_KINDS = 25
};

struct operand {
    uint16_t tag, value;
};

struct site {
    uint16_t name;
    uint16_t s, c, o, hs, ho; /* clearance, current level, class, process history, store history */
    uint16_t position, lost;
    uint16_t variable[VARIABLES];
};

struct node {
    uint8_t kind, count;
    uint16_t a, b, zero;
    struct operand operand[FIELDS];
};

struct aspect {
    uint8_t owner, capability, count, zero;
    struct operand source, target, field[FIELDS];
    uint16_t condition, recommendation;
};

struct action {
    uint8_t owner, zero, capability, count;
    struct operand target, field[FIELDS];
};

struct row {
    uint8_t owner, count;
    uint16_t field[FIELDS];
};

/* The bytes of one record and the most records of each kind. */
struct limit {
    uint32_t bytes, most;
};

static const struct limit limits[KINDS + 1] = {
    [SITES] = {32, SITES_MOST},     [NODES] = {24, NODES_MOST}, [ASPECTS] = {32, ASPECTS_MOST},
    [ACTIONS] = {24, ACTIONS_MOST}, [ROWS] = {10, ROWS_MOST},
};

/* Reads a u16. */
static inline uint16_t read_word(const uint8_t *p)
{
    return (uint16_t)(p[0] | p[1] << 8);
}

/* Reads a u32. */
static inline uint32_t read_long(const uint8_t *p)
{
    return read_word(p) | (uint32_t)read_word(p + 2) << 16;
}

/* Reads n numbers of two bytes each. */
static inline void read_words(const uint8_t *p, uint16_t *words, unsigned n)
{
    for (unsigned i = 0; i < n; i++)
        words[i] = read_word(p + 2 * i);
}

/* Reads an operand: tag, value. */
static inline struct operand read_operand(const uint8_t *p)
{
    return (struct operand){read_word(p), read_word(p + 2)};
}

/* Reads the four operands of a record. */
static inline void read_operands(const uint8_t *p, struct operand *operands)
{
    for (unsigned i = 0; i < FIELDS; i++)
        operands[i] = read_operand(p + 4 * i);
}

/* Reads a site's record. */
static inline struct site read_site(const uint8_t *p)
{
    struct site site = {
        .name = read_word(p),
        .s = read_word(p + 2),
        .c = read_word(p + 4),
        .o = read_word(p + 6),
        .hs = read_word(p + 8),
        .ho = read_word(p + 10),
        .position = read_word(p + 12),
        .lost = read_word(p + 14),
    };
    read_words(p + 16, site.variable, VARIABLES);
    return site;
}

/* Reads a node's record. */
static inline struct node read_node(const uint8_t *p)
{
    struct node node = {.kind = p[0], .count = p[1], .a = read_word(p + 2), .b = read_word(p + 4), .zero = read_word(p + 6)};
    read_operands(p + 8, node.operand);
    return node;
}

/* Reads an aspect's record. */
static inline struct aspect read_aspect(const uint8_t *p)
{
    struct aspect aspect = {
        .owner = p[0],
        .capability = p[1],
        .count = p[2],
        .zero = p[3],
        .source = read_operand(p + 4),
        .target = read_operand(p + 8),
        .condition = read_word(p + 28),
        .recommendation = read_word(p + 30),
    };
    read_operands(p + 12, aspect.field);
    return aspect;
}

/* Reads an action's record. */
static inline struct action read_action(const uint8_t *p)
{
    struct action action = {.owner = p[0], .zero = p[1], .capability = p[2], .count = p[3], .target = read_operand(p + 4)};
    read_operands(p + 8, action.field);
    return action;
}

/* Reads a row's record. */
static inline struct row read_row(const uint8_t *p)
{
    struct row row = {.owner = p[0], .count = p[1]};
    read_words(p + 2, row.field, FIELDS);
    return row;
}

/* Writes a u16. */
static inline void write_word(uint8_t *p, uint16_t value)
{
    p[0] = (uint8_t)value;
    p[1] = (uint8_t)(value >> 8);
}

/* Writes a u32. */
static inline void write_long(uint8_t *p, uint32_t value)
{
    write_word(p, (uint16_t)value);
    write_word(p + 2, (uint16_t)(value >> 16));
}

/* Writes n numbers of two bytes each. */
static inline void write_words(uint8_t *p, const uint16_t *words, unsigned n)
{
    for (unsigned i = 0; i < n; i++)
        write_word(p + 2 * i, words[i]);
}

/* Writes an operand: tag, value. */
static inline void write_operand(uint8_t *p, struct operand operand)
{
    write_word(p, operand.tag);
    write_word(p + 2, operand.value);
}

/* Writes the four operands of a record. */
static inline void write_operands(uint8_t *p, const struct operand *operands)
{
    for (unsigned i = 0; i < FIELDS; i++)
        write_operand(p + 4 * i, operands[i]);
}

/* Writes a site's record. */
static inline void write_site(uint8_t *p, const struct site *site)
{
    const uint16_t head[8] = {site->name, site->s, site->c, site->o, site->hs, site->ho, site->position, site->lost};
    write_words(p, head, 8);
    write_words(p + 16, site->variable, VARIABLES);
}

/* Writes a node's record. */
static inline void write_node(uint8_t *p, const struct node *node)
{
    p[0] = node->kind;
    p[1] = node->count;
    write_word(p + 2, node->a);
    write_word(p + 4, node->b);
    write_word(p + 6, node->zero);
    write_operands(p + 8, node->operand);
}

/* Writes an aspect's record. */
static inline void write_aspect(uint8_t *p, const struct aspect *aspect)
{
    p[0] = aspect->owner;
    p[1] = aspect->capability;
    p[2] = aspect->count;
    p[3] = aspect->zero;
    write_operand(p + 4, aspect->source);
    write_operand(p + 8, aspect->target);
    write_operands(p + 12, aspect->field);
    write_word(p + 28, aspect->condition);
    write_word(p + 30, aspect->recommendation);
}

/* Writes an action's record. */
static inline void write_action(uint8_t *p, const struct action *action)
{
    p[0] = action->owner;
    p[1] = action->zero;
    p[2] = action->capability;
    p[3] = action->count;
    write_operand(p + 4, action->target);
    write_operands(p + 8, action->field);
}

/* Writes a row's record. */
static inline void write_row(uint8_t *p, const struct row *row)
{
    p[0] = row->owner;
    p[1] = row->count;
    write_words(p + 2, row->field, FIELDS);
}

#endif
