/* Random nets: accepted ones with rich contents, and damage done to them. */
#include "random_net.h"

enum { VALUES = 6, TRIES = 8 };

enum { NO_SORT = 0, CONDITION = 1, RECOMMENDATION = 2 };

/* What is known of a node while nodes are made. A mild recommendation never has evidence against. */
struct known {
    uint8_t sort, depth;
    bool mild;
};

/* A net being made and the taste that it is made in. */
struct maker {
    struct dice *dice;
    struct draft *draft;
    uint32_t sites, nodes, aspects, program, store; /* how many at most; program and store are for one site */
    bool exact;                                     /* just as many as that */
    unsigned noise;                                 /* percent of levels that are not the usual ones */
    unsigned mild;                                  /* percent of aspects with a mild recommendation */
    unsigned full, ahead;                           /* percent of full stores, and of sites in mid-program */
    uint16_t class_level;
    unsigned count;         /* how many fields most actions, rows and tests have */
    uint16_t value[VALUES]; /* the few values that fields have */
    struct known known[NODES_MOST];
};

/* A number up to a most, or the most itself if the net is exact. */
static uint32_t up_to(struct maker *maker, uint32_t most)
{
    return maker->exact ? most : below(maker->dice, most + 1);
}

/* The larger rank and all categories of either. */
static uint16_t level_over(uint16_t x, uint16_t y)
{
    uint16_t rank = (x & 0xff00) > (y & 0xff00) ? x & 0xff00 : y & 0xff00;
    return (uint16_t)(rank + ((x | y) & 0x00ff));
}

/* A level: one of the two usual ones, or now and then another. */
static uint16_t some_level(struct maker *maker, uint16_t usual, uint16_t as_usual)
{
    static const uint16_t few[] = {0, 1, 2, 256, 257, 258, 259, 512, 513, 515, 519, 768, 65280, 65535};
    if (!chance(maker->dice, maker->noise))
        return chance(maker->dice, 50) ? usual : as_usual;
    return chance(maker->dice, 80) ? few[below(maker->dice, sizeof few / sizeof *few)] : (uint16_t)roll(maker->dice);
}

/* Sets a site's levels; without noise no mandatory rule is broken. */
static void make_levels(struct maker *maker, struct site *site)
{
    uint16_t middle = maker->class_level;
    site->c = some_level(maker, 0, middle);
    site->s = level_over(some_level(maker, 65535, middle), site->c);
    site->o = some_level(maker, middle, middle);
    site->hs = some_level(maker, 0, middle);
    site->ho = some_level(maker, 0, middle);
}

/* One of the values that fields of this net have. */
static uint16_t some_value(struct maker *maker)
{
    return maker->value[below(maker->dice, VALUES)];
}

/* The name of some site. */
static uint16_t some_place(struct maker *maker)
{
    return maker->draft->site[below(maker->dice, maker->draft->held[SITES])].name;
}

/* A variable, the low ones more often. */
static uint16_t some_variable(struct maker *maker)
{
    return (uint16_t)below(maker->dice, chance(maker->dice, 70) ? 3 : VARIABLES);
}

/* A count of fields: mostly the usual one. */
static uint8_t some_count(struct maker *maker)
{
    return (uint8_t)(chance(maker->dice, 60) ? maker->count : between(maker->dice, 1, FIELDS));
}

/* A lost count, often at the edge. */
static uint16_t some_lost(struct maker *maker)
{
    static const uint16_t few[] = {0, 0, 0, 1, 65533, 65534, 65535};
    return chance(maker->dice, 90) ? few[below(maker->dice, sizeof few / sizeof *few)] : (uint16_t)roll(maker->dice);
}

/* Makes the sites, names rising, each clearance over its current level; positions and variables come later. */
static void make_sites(struct maker *maker)
{
    static const uint32_t gaps[] = {1, 3, 2000};
    uint32_t gap = gaps[below(maker->dice, 3)], sites = maker->exact ? maker->sites : between(maker->dice, 1, maker->sites),
             last = 0;
    for (uint32_t k = 0; k < sites; k++) {
        last = k + 1 == sites && chance(maker->dice, 5) ? NUMBER_MOST : last + between(maker->dice, 1, gap);
        struct site site = {.name = (uint16_t)last, .lost = some_lost(maker)};
        make_levels(maker, &site);
        add_site(maker->draft, site);
    }
}

/* Chooses the few values of fields: some small, some names of sites, some large. */
static void choose_values(struct maker *maker)
{
    for (unsigned i = 0; i < VALUES; i++)
        maker->value[i] = (uint16_t)(i < 3   ? between(maker->dice, 1, 5)
                                     : i < 5 ? some_place(maker)
                                             : between(maker->dice, 1, NUMBER_MOST));
    if (chance(maker->dice, 30))
        maker->value[0] = NUMBER_MOST;
}

/* A variable of a mask that is not empty. */
static uint16_t variable_of(struct maker *maker, unsigned mask)
{
    uint16_t v = some_variable(maker);
    while ((mask >> v & 1) == 0)
        v = (v + 1) % VARIABLES;
    return v;
}

/* An action's target: mostly a site, now and then a variable or a name that is no site's. */
static struct operand some_target(struct maker *maker, unsigned bound)
{
    if (bound != 0 && chance(maker->dice, 20))
        return variable(variable_of(maker, bound));
    return name(chance(maker->dice, 99) ? some_place(maker) : (uint16_t)between(maker->dice, 1, NUMBER_MOST));
}

/* An action's field, given what the action uses and binds so far and what was bound before it. */
static struct operand some_field(struct maker *maker, unsigned capability, unsigned bound, unsigned *uses, unsigned *taken)
{
    uint16_t v = some_variable(maker);
    if (capability != PUT && chance(maker->dice, 45) && ((*uses | *taken) >> v & 1) == 0) {
        *taken |= 1u << v;
        return binds(v);
    }
    if ((bound & ~*taken) != 0 && chance(maker->dice, 40)) {
        v = variable_of(maker, bound & ~*taken);
        *uses |= 1u << v;
        return variable(v);
    }
    return name(some_value(maker));
}

/* Makes one action after others that bind these variables; gives the variables bound now. */
static unsigned make_action(struct maker *maker, uint32_t owner, unsigned bound)
{
    static const uint8_t capabilities[] = {PUT, PUT, PUT, TAKE, TAKE, READ, READ};
    struct action action = {.owner = (uint8_t)owner, .capability = capabilities[below(maker->dice, 7)]};
    unsigned uses = 0, taken = 0;
    action.count = some_count(maker);
    action.target = some_target(maker, bound);
    if (action.target.tag == TAG_VARIABLE)
        uses |= 1u << action.target.value;
    for (unsigned i = 0; i < action.count; i++)
        action.field[i] = some_field(maker, action.capability, bound, &uses, &taken);
    add_action(maker->draft, action);
    return bound | taken;
}

/* Makes a site's program, sets its position, and the variables that the actions before it bind. */
static void make_program(struct maker *maker, uint32_t owner)
{
    struct draft *draft = maker->draft;
    uint32_t first = draft->held[ACTIONS], length = up_to(maker, maker->program);
    unsigned bound = 0;
    for (uint32_t k = 0; k < length; k++)
        bound = make_action(maker, owner, bound);
    struct site *site = &draft->site[owner];
    site->position = (uint16_t)(chance(maker->dice, maker->ahead) ? below(maker->dice, length + 1) : 0);
    for (uint32_t k = first; k < first + site->position; k++)
        for (unsigned i = 0; i < FIELDS; i++)
            if (draft->action[k].field[i].tag == TAG_BINDS)
                site->variable[draft->action[k].field[i].value] = some_value(maker);
}

/* The value of an action's field as things stand, or some value. */
static uint16_t likely_value(struct maker *maker, const struct action *action, unsigned i)
{
    struct operand field = action->field[i];
    uint16_t value = field.tag == TAG_NAME ? field.value : maker->draft->site[action->owner].variable[field.value];
    return field.tag == TAG_BINDS || value == 0 ? some_value(maker) : value;
}

/* Makes a row for a store, often one that an action there looks for. */
static void make_row(struct maker *maker, uint32_t owner)
{
    const struct draft *draft = maker->draft;
    struct row row = {.owner = (uint8_t)owner, .count = some_count(maker)};
    const struct action *like = 0;
    for (unsigned try = 0; try < TRIES && draft->held[ACTIONS] != 0 && like == 0; try++) {
        const struct action *action = &draft->action[below(maker->dice, draft->held[ACTIONS])];
        if (action->capability != PUT && action->target.tag == TAG_NAME && action->target.value == draft->site[owner].name)
            like = action;
    }
    if (like != 0 && chance(maker->dice, 75))
        row.count = like->count;
    for (unsigned i = 0; i < row.count; i++)
        row.field[i] = like != 0 && i < like->count && chance(maker->dice, 85) ? likely_value(maker, like, i) : some_value(maker);
    add_row(maker->draft, row);
}

/* Fills a site's store. */
static void make_store(struct maker *maker, uint32_t owner)
{
    uint32_t rows = chance(maker->dice, maker->full) ? STORE_MOST : up_to(maker, maker->store);
    for (uint32_t k = 0; k < rows; k++)
        make_row(maker, owner);
}

/* A lower node of a sort with room for one level more, or -1. */
static int some_child(struct maker *maker, unsigned sort)
{
    uint32_t nodes = maker->draft->held[NODES];
    for (unsigned try = 0; try < TRIES && nodes != 0; try++) {
        uint32_t near = nodes < 12 ? nodes : 12;
        uint32_t k = chance(maker->dice, 60) ? nodes - 1 - below(maker->dice, near) : below(maker->dice, nodes);
        if (maker->known[k].sort == sort && maker->known[k].depth < DEPTH_MOST)
            return (int)k;
    }
    return -1;
}

/* An operand of a node: a name, a variable, or any where that is allowed. */
static struct operand some_operand(struct maker *maker, bool may_be_any)
{
    if (may_be_any && chance(maker->dice, 35))
        return any();
    return chance(maker->dice, 50) ? variable(some_variable(maker)) : name(some_value(maker));
}

/* A node without children. */
static struct node some_leaf(struct maker *maker)
{
    static const uint8_t leaves[] = {NODE_ALWAYS, NODE_EQUAL, NODE_TEST, NODE_DOMINATES, NODE_CONSTANT, NODE_CONSTANT};
    struct node node = {.kind = leaves[below(maker->dice, sizeof leaves)]};
    switch (node.kind) {
    case NODE_EQUAL:
        node.operand[0] = some_operand(maker, false);
        node.operand[1] = chance(maker->dice, 15) ? node.operand[0] : some_operand(maker, false);
        break;
    case NODE_TEST:
        node.a = some_place(maker);
        node.count = some_count(maker);
        for (unsigned i = 0; i < node.count; i++)
            node.operand[i] = some_operand(maker, true);
        break;
    case NODE_DOMINATES:
        node.a = (uint16_t)below(maker->dice, TERMS);
        node.b = (uint16_t)below(maker->dice, TERMS);
        break;
    case NODE_CONSTANT:
        node.a = (uint16_t)below(maker->dice, 4);
        break;
    default:
        break;
    }
    return node;
}

/* The sort of a node's children. */
static unsigned sort_of_children(unsigned kind)
{
    return kind == NODE_NOT || kind == NODE_AND || kind == NODE_OR || kind == NODE_OF_CONDITION ? CONDITION : RECOMMENDATION;
}

/* Whether a node has two children. */
static bool has_two(unsigned kind)
{
    return kind == NODE_AND || kind == NODE_OR || kind >= NODE_VALUE_AND;
}

/* A node with children; without any kind (0) if none fit. */
static struct node some_branch(struct maker *maker)
{
    static const uint8_t branches[] = {NODE_NOT,          NODE_AND,       NODE_OR,        NODE_GRANTS,   NODE_OF_CONDITION,
                                       NODE_OF_CONDITION, NODE_VALUE_NOT, NODE_VALUE_AND, NODE_VALUE_OR, NODE_GATHER,
                                       NODE_CONSENSUS,    NODE_IMPLIES,   NODE_BEFORE};
    uint8_t kind = branches[below(maker->dice, sizeof branches)];
    int a = some_child(maker, sort_of_children(kind)), b = has_two(kind) ? some_child(maker, sort_of_children(kind)) : 0;
    if (a < 0 || b < 0)
        return (struct node){0};
    return (struct node){.kind = kind, .a = (uint16_t)a, .b = (uint16_t)b};
}

/* Whether a recommendation never has evidence against, as far as its form tells. */
static bool is_mild(const struct node *node, const struct known *known)
{
    switch (node->kind) {
    case NODE_CONSTANT:
        return node->a < 2;
    case NODE_VALUE_OR:
    case NODE_CONSENSUS:
        return known[node->a].mild || known[node->b].mild;
    case NODE_IMPLIES:
        return known[node->b].mild;
    case NODE_VALUE_AND:
    case NODE_GATHER:
    case NODE_BEFORE:
        return known[node->a].mild && known[node->b].mild;
    default:
        return false;
    }
}

/* Makes one node and notes what is known of it. */
static void make_node(struct maker *maker)
{
    struct node node = chance(maker->dice, 75) ? some_branch(maker) : some_leaf(maker);
    if (node.kind == 0)
        node = some_leaf(maker);
    bool leaf =
        node.kind == NODE_ALWAYS || (NODE_EQUAL <= node.kind && node.kind <= NODE_DOMINATES) || node.kind == NODE_CONSTANT;
    struct known known = {
        .sort = node.kind < NODE_CONSTANT ? CONDITION : RECOMMENDATION, .depth = 1, .mild = is_mild(&node, maker->known)};
    if (!leaf)
        known.depth = (uint8_t)(maker->known[node.a].depth + 1);
    if (has_two(node.kind) && maker->known[node.b].depth >= known.depth)
        known.depth = (uint8_t)(maker->known[node.b].depth + 1);
    maker->known[add_node(maker->draft, node)] = known;
}

/* Makes the table of nodes. */
static void make_nodes(struct maker *maker)
{
    for (uint32_t nodes = up_to(maker, maker->nodes); nodes > 0; nodes--)
        make_node(maker);
}

/* A node of a sort, mild if that is asked, or -1. */
static int some_root(struct maker *maker, unsigned sort, bool mild)
{
    uint32_t nodes = maker->draft->held[NODES];
    for (unsigned try = 0; try < 8 * TRIES && nodes != 0; try++) {
        uint32_t k = below(maker->dice, nodes);
        if (maker->known[k].sort == sort && (!mild || maker->known[k].mild))
            return (int)k;
    }
    return -1;
}

/* An action that an owner's policy sees, if one is found soon. */
static const struct action *some_action_seen(struct maker *maker, uint32_t owner)
{
    const struct draft *draft = maker->draft;
    const struct action *action = 0;
    for (unsigned try = 0; try < TRIES && draft->held[ACTIONS] != 0; try++) {
        action = &draft->action[below(maker->dice, draft->held[ACTIONS])];
        if (action->owner == owner || (action->target.tag == TAG_NAME && action->target.value == draft->site[owner].name))
            return action;
    }
    return action;
}

/* A variable that a cut has not taken yet, or any if it would be taken twice. */
static struct operand take_once(struct maker *maker, unsigned *taken)
{
    uint16_t v = some_variable(maker);
    if ((*taken >> v & 1) != 0)
        return any();
    *taken |= 1u << v;
    return variable(v);
}

/* A part of a cut that mostly fits this operand of an action; an end is its source or target. */
static struct operand some_part(struct maker *maker, struct operand of, bool end, unsigned *taken)
{
    if (!end && chance(maker->dice, of.tag == TAG_BINDS ? 45 : 4))
        return binder();
    if (chance(maker->dice, of.tag == TAG_BINDS ? 85 : 35))
        return any();
    if (chance(maker->dice, 55))
        return take_once(maker, taken);
    if (of.tag == TAG_NAME && of.value != 0 && chance(maker->dice, 85))
        return of;
    return name(end ? some_place(maker) : some_value(maker));
}

/* Makes an aspect of an owner, mostly one that traps an action it sees. */
static void make_aspect(struct maker *maker, uint32_t owner)
{
    int condition = some_root(maker, CONDITION, false),
        recommendation = some_root(maker, RECOMMENDATION, chance(maker->dice, maker->mild));
    if (condition < 0 || recommendation < 0)
        return;
    const struct action *like = some_action_seen(maker, owner);
    struct action other = {.capability = (uint8_t)between(maker->dice, PUT, READ), .count = some_count(maker)};
    if (like == 0 || chance(maker->dice, 10))
        like = &other;
    struct aspect aspect = {.owner = (uint8_t)owner, .capability = like->capability, .count = like->count};
    unsigned taken = 0;
    aspect.source = some_part(maker, name(maker->draft->site[like->owner].name), true, &taken);
    aspect.target = some_part(maker, like->target, true, &taken);
    for (unsigned i = 0; i < aspect.count; i++)
        aspect.field[i] = some_part(maker, like->field[i], false, &taken);
    aspect.condition = (uint16_t)condition;
    aspect.recommendation = (uint16_t)recommendation;
    add_aspect(maker->draft, aspect);
}

/* Makes the table of aspects, shared out over the sites. */
static void make_aspects(struct maker *maker)
{
    uint32_t sites = maker->draft->held[SITES], share[SITES_MOST] = {0};
    for (uint32_t aspects = up_to(maker, maker->aspects); aspects > 0; aspects--)
        share[below(maker->dice, sites)]++;
    for (uint32_t owner = 0; owner < sites; owner++)
        for (uint32_t k = 0; k < share[owner]; k++)
            make_aspect(maker, owner);
}

/* Chooses the taste of a net. */
static void choose_taste(struct maker *maker, enum size size)
{
    static const uint32_t most[][5] = {
        [TINY] = {2, 6, 3, 4, 4},
        [SMALL_NET] = {4, 24, 10, 8, 8},
        [MEDIUM] = {12, 160, 40, 12, 16},
        [LARGE] = {SITES_MOST, NODES_MOST, ASPECTS_MOST, PROGRAM_MOST, STORE_MOST},
        [LARGEST] = {SITES_MOST, NODES_MOST, ASPECTS_MOST, PROGRAM_MOST, STORE_MOST},
    };
    static const unsigned noise[] = {0, 0, 3, 10, 40};
    static const unsigned mild[] = {100, 100, 97, 90, 50};
    static const unsigned percent[] = {0, 3, 10, 40, 90};
    static const uint16_t classes[] = {0, 256, 515, 65535};
    maker->sites = most[size][0];
    maker->nodes = most[size][1];
    maker->aspects = chance(maker->dice, size == LARGEST ? 0 : 25) ? 0 : most[size][2];
    maker->program = most[size][3];
    maker->store = most[size][4];
    maker->exact = size == LARGEST;
    maker->noise = noise[below(maker->dice, 5)];
    maker->mild = mild[below(maker->dice, 5)];
    maker->full = size == LARGEST ? 100 : percent[below(maker->dice, 5)];
    maker->ahead = percent[below(maker->dice, 5)];
    maker->class_level = classes[below(maker->dice, 4)];
    maker->count = between(maker->dice, 1, FIELDS);
}

void random_net(struct dice *dice, enum size size, struct draft *draft)
{
    static struct maker maker;
    memset(&maker, 0, sizeof maker);
    maker.dice = dice;
    maker.draft = draft;
    clear_draft(draft);
    choose_taste(&maker, size);
    make_sites(&maker);
    choose_values(&maker);
    for (uint32_t owner = 0; owner < draft->held[SITES]; owner++)
        make_program(&maker, owner);
    for (uint32_t owner = 0; owner < draft->held[SITES]; owner++)
        make_store(&maker, owner);
    make_nodes(&maker);
    make_aspects(&maker);
}

/* Where a table's records begin, and the bytes of one. */
static uint8_t *table_of(struct draft *draft, unsigned kind, size_t *bytes)
{
    switch (kind) {
    case SITES:
        *bytes = sizeof draft->site[0];
        return (uint8_t *)draft->site;
    case NODES:
        *bytes = sizeof draft->node[0];
        return (uint8_t *)draft->node;
    case ASPECTS:
        *bytes = sizeof draft->aspect[0];
        return (uint8_t *)draft->aspect;
    case ACTIONS:
        *bytes = sizeof draft->action[0];
        return (uint8_t *)draft->action;
    default:
        *bytes = sizeof draft->row[0];
        return (uint8_t *)draft->row;
    }
}

/* Swaps a record with the one after it. */
static void swap_records(uint8_t *record, size_t bytes)
{
    uint8_t kept[sizeof(struct aspect)];
    memcpy(kept, record, bytes);
    memcpy(record, record + bytes, bytes);
    memcpy(record + bytes, kept, bytes);
}

/* Doubles, drops, swaps or overfills records of one table. */
static void damage_draft(struct dice *dice, struct draft *draft)
{
    unsigned kind = between(dice, SITES, ROWS);
    uint32_t *held = &draft->held[kind];
    if (*held == 0)
        return;
    size_t bytes;
    uint8_t *table = table_of(draft, kind, &bytes);
    uint32_t k = below(dice, *held);
    uint8_t *record = table + k * bytes;
    switch (below(dice, 4)) {
    case 0:
        if (k + 1 < *held)
            swap_records(record, bytes);
        break;
    case 1:
        memmove(record, record + bytes, (*held - k - 1) * bytes);
        --*held;
        break;
    case 2:
        if (*held <= limits[kind].most) {
            memmove(record + bytes, record, (*held - k) * bytes);
            ++*held;
        }
        break;
    default:
        for (uint32_t copies = between(dice, 1, 20); copies > 0 && *held <= limits[kind].most; copies--) {
            memmove(record + bytes, record, (*held - k) * bytes);
            ++*held;
        }
    }
}

/* Where a record keeps its parts: how many of its first bytes are fields of one byte each (the others are words), its count, its operands, and the
 * first of them that the count counts. */
struct parts {
    uint8_t singles, count_at, operands_at, operands, fields_at;
};

static const struct parts parts[KINDS + 1] = {
    [NODES] = {2, 1, 8, 4, 8},
    [ASPECTS] = {4, 2, 4, 6, 12},
    [ACTIONS] = {4, 3, 4, 5, 8},
    [ROWS] = {2, 1, 0, 0, 2},
};

/* A value for a damaged field: an edge of some rule, a neighbour of the old value, or anything. */
static uint16_t wrong_value(struct dice *dice, uint16_t old)
{
    static const uint16_t edges[] = {0,  1,  2,  3,  4,  5,  7,   8,   9,   15,   16,   17,    18,
                                     23, 24, 25, 31, 32, 33, 255, 256, 512, 1023, 1024, 65534, 65535};
    switch (below(dice, 4)) {
    case 0:
        return (uint16_t)(old + 1);
    case 1:
        return (uint16_t)(old - 1);
    case 2:
        return (uint16_t)roll(dice);
    default:
        return edges[below(dice, sizeof edges / sizeof *edges)];
    }
}

/* Gives one field of a record another value. */
static void damage_field(struct dice *dice, uint8_t *record, unsigned kind)
{
    unsigned singles = parts[kind].singles, field = below(dice, singles + (limits[kind].bytes - singles) / 2);
    uint8_t *at = record + (field < singles ? field : singles + 2 * (field - singles));
    if (field < singles)
        *at = (uint8_t)wrong_value(dice, *at);
    else
        write_word(at, wrong_value(dice, read_word(at)));
}

/* Makes one operand of a record another, well formed or not, or the same as its neighbour. */
static void damage_operand(struct dice *dice, uint8_t *record, unsigned kind)
{
    unsigned operands = parts[kind].operands, i = below(dice, operands);
    uint8_t *first = record + parts[kind].operands_at;
    struct operand other = {(uint16_t)below(dice, TAGS + 1), (uint16_t)(chance(dice, 50) ? 0 : below(dice, VARIABLES + 1))};
    write_operand(first + 4 * i, chance(dice, 30) ? read_operand(first + 4 * below(dice, operands)) : other);
}

/* Gives a record another count, and clears the fields that it then does not count. */
static void damage_count(struct dice *dice, uint8_t *record, unsigned kind)
{
    unsigned count = below(dice, FIELDS + 2), width = kind == ROWS ? 2 : 4;
    record[parts[kind].count_at] = (uint8_t)count;
    for (unsigned i = count; i < FIELDS; i++)
        memset(record + parts[kind].fields_at + i * width, 0, width);
}

/* Does one damage to a record. */
static void damage_record(struct dice *dice, uint8_t *record, unsigned kind)
{
    if (parts[kind].operands != 0 && chance(dice, 35))
        damage_operand(dice, record, kind);
    else if (kind != SITES && chance(dice, 10))
        damage_count(dice, record, kind);
    else
        damage_field(dice, record, kind);
}

/* Does one damage to a record of an image, or to its header. */
static void damage_image(struct dice *dice, uint8_t *image, size_t n)
{
    unsigned kind = below(dice, KINDS + 1);
    uint32_t held = kind == 0 ? 0 : read_word(image + 8 * kind - 2);
    if (held == 0) {
        uint8_t *at = image + 2 * below(dice, HEADER_BYTES / 2);
        write_word(at, wrong_value(dice, read_word(at)));
        return;
    }
    size_t at = read_long(image + 8 * kind) + below(dice, held) * limits[kind].bytes;
    if (at + limits[kind].bytes <= n)
        damage_record(dice, image + at, kind);
}

size_t damaged_image(struct dice *dice, const struct draft *draft, uint8_t *image)
{
    static struct draft other;
    size_t n = pack(draft, image);
    switch (below(dice, 8)) {
    case 0:
        memcpy(&other, draft, sizeof other);
        damage_draft(dice, &other);
        return pack(&other, image);
    case 1:
        image[below(dice, (uint32_t)n)] = (uint8_t)roll(dice);
        return n;
    case 2:
        return chance(dice, 50) ? below(dice, (uint32_t)n) : n - 1;
    case 3:
        memset(image + n, chance(dice, 50) ? 0 : (int)below(dice, 256), DAMAGED_MOST - PACKED_MOST);
        return n + between(dice, 1, DAMAGED_MOST - PACKED_MOST);
    default:
        damage_image(dice, image, n);
        return n;
    }
}
