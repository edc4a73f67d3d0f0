/* An independent monitor: it has document 01 in common with the proved one, and no code.
 *
 * The inside of net memory: five record counts (u16, kinds 1 to 5), zeros up to byte 64, then each table of records at a place of its own with
 * room for the most records of its kind. Records are written as in the image. Whatever is not used is 0, so an image fixes every byte. */
#include "monitor.h"
#include "records.h"

enum {
    SITES_AT = 64,
    NODES_AT = SITES_AT + 32 * SITES_MOST,
    ASPECTS_AT = NODES_AT + 24 * NODES_MOST,
    ACTIONS_AT = ASPECTS_AT + 32 * ASPECTS_MOST,
    ROWS_AT = ACTIONS_AT + 24 * ACTIONS_MOST,
    TABLES_END = ROWS_AT + 10 * ROWS_MOST
};
_Static_assert((int)TABLES_END <= (int)MEMORY_BYTES, "the tables fit into net memory");

static const uint32_t place[KINDS + 1] = {0, SITES_AT, NODES_AT, ASPECTS_AT, ACTIONS_AT, ROWS_AT};

/* A net to read: where each table of records stands, in an image or in memory, and how many records it holds. */
struct net {
    const uint8_t *table[KINDS + 1];
    uint32_t held[KINDS + 1];
};

/* Record k of a kind. */
static inline const uint8_t *record(const struct net *net, unsigned kind, uint32_t k)
{
    return net->table[kind] + (size_t)k * limits[kind].bytes;
}

/* ---- Levels and the four values ---- */

/* Whether x has at least y's rank and every category of y. */
static bool dominates(uint16_t x, uint16_t y)
{
    return x >> 8 >= y >> 8 && (y & ~x & 0xff) == 0;
}

/* The larger rank and all categories of either. */
static uint16_t join(uint16_t x, uint16_t y)
{
    uint16_t rank = x >> 8 > y >> 8 ? x >> 8 : y >> 8;
    return (uint16_t)(rank << 8 | ((x | y) & 0xff));
}

enum { EVIDENCE_FOR = 1, EVIDENCE_AGAINST = 2, YES = 1, NO = 2 };

/* Swaps the evidence for and against. */
static unsigned value_not(unsigned p)
{
    return (p & EVIDENCE_FOR) << 1 | p >> 1;
}

/* For if both have for, against if either has against. */
static unsigned value_and(unsigned p, unsigned q)
{
    return (p & q & EVIDENCE_FOR) | ((p | q) & EVIDENCE_AGAINST);
}

/* The dual of "and". */
static unsigned value_or(unsigned p, unsigned q)
{
    return ((p | q) & EVIDENCE_FOR) | (p & q & EVIDENCE_AGAINST);
}

/* Whether a value grants: it has no evidence against. */
static bool grants(unsigned p)
{
    return (p & EVIDENCE_AGAINST) == 0;
}

/* ---- Which records are good ---- */

/* The tags that each place of the image allows, one bit each. */
enum {
    IN_EQUAL = 1 << TAG_NAME | 1 << TAG_VARIABLE,
    IN_TEST = IN_EQUAL | 1 << TAG_ANY,
    IN_CUT_END = IN_TEST,
    IN_CUT_FIELD = IN_TEST | 1 << TAG_BINDER,
    IN_TARGET = IN_EQUAL,
    IN_PUT = IN_EQUAL,
    IN_TAKE_OR_READ = IN_EQUAL | 1 << TAG_BINDS
};

/* Whether an operand has an allowed tag and a value that goes with it. */
static bool good_operand(struct operand operand, unsigned allowed)
{
    if (operand.tag >= TAGS || (allowed >> operand.tag & 1) == 0)
        return false;
    switch (operand.tag) {
    case TAG_NAME:
        return operand.value != 0;
    case TAG_VARIABLE:
    case TAG_BINDS:
        return operand.value < VARIABLES;
    default:
        return operand.value == 0;
    }
}

/* Whether the first operands are good and the others, not used, are 0. */
static bool good_operands(const struct operand *operand, unsigned used, unsigned allowed)
{
    for (unsigned i = 0; i < FIELDS; i++)
        if (i < used ? !good_operand(operand[i], allowed) : operand[i].tag != 0 || operand[i].value != 0)
            return false;
    return true;
}

/* Whether a capability and a count of fields are in range. */
static bool good_form(unsigned capability, unsigned count)
{
    return PUT <= capability && capability <= READ && 1 <= count && count <= FIELDS;
}

/* The owners of a table's records so far: the last one and how many records it has. */
struct owners {
    uint32_t last, held;
};

/* Takes the next record's owner: a site's number, not below the last, with no more records than the most. */
static bool next_owner(struct owners *owners, uint32_t owner, uint32_t sites, uint32_t most)
{
    if (owner < owners->last || owner >= sites)
        return false;
    owners->held = owner == owners->last ? owners->held + 1 : 1;
    owners->last = owner;
    return owners->held <= most;
}

/* The number of the site with a name, or the number of sites if there is none: names rise strictly. */
static uint32_t find_site(const struct net *net, uint16_t name)
{
    uint32_t low = 0, high = net->held[SITES];
    while (low < high) {
        uint32_t middle = (low + high) / 2;
        uint16_t here = read_word(record(net, SITES, middle));
        if (here == name)
            return middle;
        if (here < name)
            low = middle + 1;
        else
            high = middle;
    }
    return net->held[SITES];
}

/* The first site whose name does not rise or whose clearance does not dominate its current level. */
static uint32_t first_bad_site(const struct net *net)
{
    uint16_t last = 0;
    for (uint32_t k = 0; k < net->held[SITES]; k++) {
        struct site site = read_site(record(net, SITES, k));
        if (site.name <= last || !dominates(site.s, site.c))
            return k;
        last = site.name;
    }
    return net->held[SITES];
}

enum { NEITHER = 0, CONDITION = 1, RECOMMENDATION = 2 };

/* What a node keeps in a or b. */
enum { UNUSED = 0, A_CONDITION, A_RECOMMENDATION, A_TERM, A_VALUE, A_PLACE };

/* The sort of each kind of node, and what it keeps in a and b. */
struct shape {
    uint8_t sort, a, b;
};

static const struct shape shapes[NODE_KINDS] = {
    [NODE_ALWAYS] = {CONDITION, UNUSED, UNUSED},
    [NODE_NOT] = {CONDITION, A_CONDITION, UNUSED},
    [NODE_AND] = {CONDITION, A_CONDITION, A_CONDITION},
    [NODE_OR] = {CONDITION, A_CONDITION, A_CONDITION},
    [NODE_EQUAL] = {CONDITION, UNUSED, UNUSED},
    [NODE_TEST] = {CONDITION, A_PLACE, UNUSED},
    [NODE_DOMINATES] = {CONDITION, A_TERM, A_TERM},
    [NODE_GRANTS] = {CONDITION, A_RECOMMENDATION, UNUSED},
    [NODE_CONSTANT] = {RECOMMENDATION, A_VALUE, UNUSED},
    [NODE_OF_CONDITION] = {RECOMMENDATION, A_CONDITION, UNUSED},
    [NODE_VALUE_NOT] = {RECOMMENDATION, A_RECOMMENDATION, UNUSED},
    [NODE_VALUE_AND] = {RECOMMENDATION, A_RECOMMENDATION, A_RECOMMENDATION},
    [NODE_VALUE_OR] = {RECOMMENDATION, A_RECOMMENDATION, A_RECOMMENDATION},
    [NODE_CONSENSUS] = {RECOMMENDATION, A_RECOMMENDATION, A_RECOMMENDATION},
    [NODE_GATHER] = {RECOMMENDATION, A_RECOMMENDATION, A_RECOMMENDATION},
    [NODE_IMPLIES] = {RECOMMENDATION, A_RECOMMENDATION, A_RECOMMENDATION},
    [NODE_BEFORE] = {RECOMMENDATION, A_RECOMMENDATION, A_RECOMMENDATION},
};

/* The shape of a kind, that of an unknown kind being neither sort. */
static struct shape shape_of(unsigned kind)
{
    return kind < NODE_KINDS ? shapes[kind] : shapes[0];
}

/* Whether node k of the table, if there is one, is of a sort. */
static bool is_sort(const struct net *net, uint32_t nodes, uint32_t k, unsigned sort)
{
    return k < nodes && shape_of(*record(net, NODES, k)).sort == sort;
}

/* Whether node k may keep this value in a part of its own. */
static bool good_part(const struct net *net, uint32_t k, unsigned part, uint16_t value)
{
    switch (part) {
    case A_CONDITION:
        return is_sort(net, k, value, CONDITION);
    case A_RECOMMENDATION:
        return is_sort(net, k, value, RECOMMENDATION);
    case A_TERM:
        return value < TERMS;
    case A_VALUE:
        return value < 4;
    case A_PLACE:
        return find_site(net, value) < net->held[SITES];
    default:
        return value == 0;
    }
}

/* Whether node k, whose kind has this shape, keeps its parts, its count and its operands. */
static bool good_node(const struct net *net, uint32_t k, const struct node *node, struct shape shape)
{
    if (shape.sort == NEITHER || node->zero != 0)
        return false;
    if (!good_part(net, k, shape.a, node->a) || !good_part(net, k, shape.b, node->b))
        return false;
    if (node->kind == NODE_TEST)
        return 1 <= node->count && node->count <= FIELDS && good_operands(node->operand, node->count, IN_TEST);
    return node->count == 0 && good_operands(node->operand, node->kind == NODE_EQUAL ? 2 : 0, IN_EQUAL);
}

/* The depth that a part adds below its node: a child's own, else 0. */
static unsigned depth_of_part(unsigned part, uint16_t value, const uint8_t *depth)
{
    return part == A_CONDITION || part == A_RECOMMENDATION ? depth[value] : 0;
}

/* The first node that breaks its form or stands too deep. */
static uint32_t first_bad_node(const struct net *net)
{
    uint8_t depth[NODES_MOST];
    for (uint32_t k = 0; k < net->held[NODES]; k++) {
        struct node node = read_node(record(net, NODES, k));
        struct shape shape = shape_of(node.kind);
        if (!good_node(net, k, &node, shape))
            return k;
        unsigned below = depth_of_part(shape.a, node.a, depth), other = depth_of_part(shape.b, node.b, depth);
        depth[k] = (uint8_t)(1 + (below > other ? below : other));
        if (depth[k] > DEPTH_MOST)
            return k;
    }
    return net->held[NODES];
}

/* Adds the variable of an operand with this tag to a mask; false if the mask has it already. */
static bool add_variable(struct operand operand, unsigned tag, unsigned *mask)
{
    if (operand.tag != tag)
        return true;
    unsigned bit = 1u << operand.value;
    bool first = (*mask & bit) == 0;
    *mask |= bit;
    return first;
}

/* Whether an aspect's cut takes no variable twice. */
static bool takes_each_once(const struct aspect *aspect)
{
    unsigned taken = 0;
    bool once = add_variable(aspect->source, TAG_VARIABLE, &taken) && add_variable(aspect->target, TAG_VARIABLE, &taken);
    for (unsigned i = 0; i < FIELDS && once; i++)
        once = add_variable(aspect->field[i], TAG_VARIABLE, &taken);
    return once;
}

/* Whether an aspect, its owner apart, is good. */
static bool good_aspect(const struct net *net, const struct aspect *aspect)
{
    return aspect->zero == 0 && good_form(aspect->capability, aspect->count) && good_operand(aspect->source, IN_CUT_END) &&
           good_operand(aspect->target, IN_CUT_END) && good_operands(aspect->field, aspect->count, IN_CUT_FIELD) &&
           takes_each_once(aspect) && is_sort(net, net->held[NODES], aspect->condition, CONDITION) &&
           is_sort(net, net->held[NODES], aspect->recommendation, RECOMMENDATION);
}

/* The first aspect that breaks its form or the order of owners. */
static uint32_t first_bad_aspect(const struct net *net)
{
    struct owners owners = {0, 0};
    for (uint32_t k = 0; k < net->held[ASPECTS]; k++) {
        struct aspect aspect = read_aspect(record(net, ASPECTS, k));
        if (!next_owner(&owners, aspect.owner, net->held[SITES], ASPECTS_MOST) || !good_aspect(net, &aspect))
            return k;
    }
    return net->held[ASPECTS];
}

/* The variables that a good action binds. */
static unsigned bound_by(const struct action *action)
{
    unsigned bound = 0;
    for (unsigned i = 0; i < FIELDS; i++)
        add_variable(action->field[i], TAG_BINDS, &bound);
    return bound;
}

/* Whether an action binds no variable twice, none that it uses, and uses only those bound before it. */
static bool good_variables(const struct action *action, unsigned bound_before)
{
    unsigned binds = 0, uses = 0;
    add_variable(action->target, TAG_VARIABLE, &uses);
    for (unsigned i = 0; i < FIELDS; i++) {
        if (!add_variable(action->field[i], TAG_BINDS, &binds))
            return false;
        add_variable(action->field[i], TAG_VARIABLE, &uses);
    }
    return (binds & uses) == 0 && (uses & ~bound_before) == 0;
}

/* Whether an action, its owner apart, is good after actions that bind these variables. */
static bool good_action(const struct action *action, unsigned bound_before)
{
    return action->zero == 0 && good_form(action->capability, action->count) && good_operand(action->target, IN_TARGET) &&
           good_operands(action->field, action->count, action->capability == PUT ? IN_PUT : IN_TAKE_OR_READ) &&
           good_variables(action, bound_before);
}

/* The first action that breaks its form, its program's length or the order of owners. */
static uint32_t first_bad_action(const struct net *net)
{
    struct owners owners = {0, 0};
    unsigned bound = 0;
    for (uint32_t k = 0; k < net->held[ACTIONS]; k++) {
        struct action action = read_action(record(net, ACTIONS, k));
        if (action.owner != owners.last)
            bound = 0;
        if (!next_owner(&owners, action.owner, net->held[SITES], PROGRAM_MOST) || !good_action(&action, bound))
            return k;
        bound |= bound_by(&action);
    }
    return net->held[ACTIONS];
}

/* Whether a row has 1 to 4 fields, none of them 0, and 0 in the others. */
static bool good_row(const struct row *row)
{
    if (row->count < 1 || row->count > FIELDS)
        return false;
    for (unsigned i = 0; i < FIELDS; i++)
        if ((i < row->count) != (row->field[i] != 0))
            return false;
    return true;
}

/* The first row that breaks its form, its store's room or the order of owners. */
static uint32_t first_bad_row(const struct net *net)
{
    struct owners owners = {0, 0};
    for (uint32_t k = 0; k < net->held[ROWS]; k++) {
        struct row row = read_row(record(net, ROWS, k));
        if (!next_owner(&owners, row.owner, net->held[SITES], STORE_MOST) || !good_row(&row))
            return k;
    }
    return net->held[ROWS];
}

/* The variables that a site has set. */
static unsigned set_variables(const struct site *site)
{
    unsigned set = 0;
    for (unsigned v = 0; v < VARIABLES; v++)
        if (site->variable[v] != 0)
            set |= 1u << v;
    return set;
}

/* The first site whose position is past its program, or whose variables are not just those bound before its position. */
static uint32_t first_bad_state(const struct net *net)
{
    uint32_t next = 0;
    for (uint32_t k = 0; k < net->held[SITES]; k++) {
        struct site site = read_site(record(net, SITES, k));
        unsigned done = 0, bound = 0;
        for (; next < net->held[ACTIONS] && *record(net, ACTIONS, next) == k; next++) {
            if (done == site.position)
                continue;
            struct action action = read_action(record(net, ACTIONS, next));
            bound |= bound_by(&action);
            done++;
        }
        if (done != site.position || set_variables(&site) != bound)
            return k;
    }
    return net->held[SITES];
}

/* A refusal that carries a record's number. */
static uint32_t refusal(uint32_t number, uint32_t k)
{
    return number + 256 * k;
}

/* The verdict on the tables of a net, kind by kind, then on its state. */
static uint32_t verdict(const struct net *net)
{
    uint32_t k;
    if ((k = first_bad_site(net)) < net->held[SITES])
        return refusal(SITE, k);
    if ((k = first_bad_node(net)) < net->held[NODES])
        return refusal(NODE, k);
    if ((k = first_bad_aspect(net)) < net->held[ASPECTS])
        return refusal(ASPECT, k);
    if ((k = first_bad_action(net)) < net->held[ACTIONS])
        return refusal(ACTION, k);
    if ((k = first_bad_row(net)) < net->held[ROWS])
        return refusal(ROW, k);
    if ((k = first_bad_state(net)) < net->held[SITES])
        return refusal(STATE, k);
    return 0;
}

/* ---- Images ---- */

enum { FIRST_EDITION = 1, ENTRY_BYTES = 8 };

/* Finds the tables of an image by its header, or refuses it: size, edition, contents. */
static uint32_t open_image(const uint8_t *image, size_t n, struct net *net)
{
    if (n < HEADER_BYTES || n > IMAGE_MOST)
        return SIZE;
    if (read_word(image) != FIRST_EDITION)
        return EDITION;
    if (read_word(image + 2) != KINDS)
        return CONTENTS;
    size_t at = HEADER_BYTES;
    for (unsigned kind = SITES; kind <= KINDS; kind++) {
        const uint8_t *entry = image + 4 + ENTRY_BYTES * (kind - 1);
        uint32_t held = read_word(entry + 2);
        if (read_word(entry) != kind || held > limits[kind].most || read_long(entry + 4) != at ||
            held * limits[kind].bytes > n - at)
            return CONTENTS;
        net->table[kind] = image + at;
        net->held[kind] = held;
        at += held * limits[kind].bytes;
    }
    return net->held[SITES] == 0 || at != n ? CONTENTS : 0;
}

/* Finds the tables of an image, or refuses it. */
static uint32_t accept(const uint8_t *image, size_t n, struct net *net)
{
    uint32_t refused = open_image(image, n, net);
    return refused != 0 ? refused : verdict(net);
}

/* The length of a net's image. */
static size_t image_length(const struct net *net)
{
    size_t length = HEADER_BYTES;
    for (unsigned kind = SITES; kind <= KINDS; kind++)
        length += net->held[kind] * limits[kind].bytes;
    return length;
}

/* Writes the image of a net. */
static void write_image(const struct net *net, uint8_t *out)
{
    uint32_t at = HEADER_BYTES;
    write_word(out, FIRST_EDITION);
    write_word(out + 2, KINDS);
    for (unsigned kind = SITES; kind <= KINDS; kind++) {
        uint8_t *entry = out + 4 + ENTRY_BYTES * (kind - 1);
        uint32_t length = net->held[kind] * limits[kind].bytes;
        write_word(entry, (uint16_t)kind);
        write_word(entry + 2, (uint16_t)net->held[kind]);
        write_long(entry + 4, at);
        memcpy(out + at, net->table[kind], length);
        at += length;
    }
}

/* ---- Net memory ---- */

/* Where memory keeps the record count of a kind. */
static size_t count_at(unsigned kind)
{
    return 2 * (kind - 1);
}

/* Whether bytes are all 0. */
static bool all_zero(const uint8_t *bytes, size_t n)
{
    uint8_t any = 0;
    for (size_t i = 0; i < n; i++)
        any |= bytes[i];
    return any == 0;
}

/* Whether memory is 0 wherever its counts and records are not. */
static bool rest_is_zero(const uint8_t *memory, const struct net *net)
{
    size_t at = count_at(KINDS) + 2;
    for (unsigned kind = SITES; kind <= KINDS; kind++) {
        if (!all_zero(memory + at, place[kind] - at))
            return false;
        at = place[kind] + net->held[kind] * limits[kind].bytes;
    }
    return all_zero(memory + at, MEMORY_BYTES - at);
}

/* Finds the tables of the net that memory holds, if it holds one. */
static bool holds(const uint8_t *memory, size_t m, struct net *net)
{
    if (m != MEMORY_BYTES)
        return false;
    for (unsigned kind = SITES; kind <= KINDS; kind++) {
        net->table[kind] = memory + place[kind];
        net->held[kind] = read_word(memory + count_at(kind));
        if (net->held[kind] > limits[kind].most)
            return false;
    }
    return net->held[SITES] != 0 && rest_is_zero(memory, net) && verdict(net) == 0;
}

/* A net at work: its memory, its tables, and where each site's aspects, actions and rows begin. */
struct live {
    uint8_t *memory;
    struct net net;
    uint16_t first[KINDS + 1][SITES_MOST + 1];
};

/* Notes where each site's records of a kind begin; the site after the last one marks the end. */
static void share_out(struct live *live, unsigned kind)
{
    uint16_t k = 0;
    for (uint32_t site = 0; site <= live->net.held[SITES]; site++) {
        live->first[kind][site] = k;
        while (k < live->net.held[kind] && *record(&live->net, kind, k) == site)
            k++;
    }
}

/* Sets the net in memory to work, if there is one. */
static bool wake(struct live *live, uint8_t *memory, size_t m)
{
    if (!holds(memory, m, &live->net))
        return false;
    live->memory = memory;
    for (unsigned kind = ASPECTS; kind <= ROWS; kind++)
        share_out(live, kind);
    return true;
}

/* Writes a site back to memory. */
static void keep_site(const struct live *live, uint32_t k, const struct site *site)
{
    write_site(live->memory + SITES_AT + k * limits[SITES].bytes, site);
}

/* How many rows a store holds. */
static uint32_t rows_held(const struct live *live, uint32_t site)
{
    return (uint32_t)(live->first[ROWS][site + 1] - live->first[ROWS][site]);
}

/* Notes that one row more (or less) stands in a store. */
static void count_rows(struct live *live, uint32_t site, int more)
{
    live->net.held[ROWS] += (uint32_t)more;
    write_word(live->memory + count_at(ROWS), (uint16_t)live->net.held[ROWS]);
    for (uint32_t k = site + 1; k <= live->net.held[SITES]; k++)
        live->first[ROWS][k] = (uint16_t)(live->first[ROWS][k] + more);
}

/* Adds a row last to its owner's store; there is room. */
static void add_row(struct live *live, const struct row *row)
{
    size_t bytes = limits[ROWS].bytes, k = live->first[ROWS][row->owner + 1];
    uint8_t *at = live->memory + ROWS_AT + k * bytes;
    memmove(at + bytes, at, (live->net.held[ROWS] - k) * bytes);
    write_row(at, row);
    count_rows(live, row->owner, 1);
}

/* Removes row k from a store; the others keep their order. */
static void remove_row(struct live *live, uint32_t site, uint32_t k)
{
    size_t bytes = limits[ROWS].bytes, after = live->net.held[ROWS] - k - 1;
    uint8_t *at = live->memory + ROWS_AT + k * bytes;
    memmove(at, at + bytes, after * bytes);
    memset(at + after * bytes, 0, bytes);
    count_rows(live, site, -1);
}

/* ---- Asking ---- */

/* The next action of a site with its values: what the rules and policies look at. */
struct act {
    uint32_t source, target;
    uint16_t source_name, target_name;
    struct action action;
    uint16_t field[FIELDS]; /* 0 where it binds and past the count */
    uint16_t term[TERMS];
};

/* The value of a name or a variable; 0 of an unset variable and of any other operand. */
static uint16_t value_of(struct operand operand, const uint16_t *variable)
{
    if (operand.tag == TAG_NAME)
        return operand.value;
    return operand.tag == TAG_VARIABLE ? variable[operand.value] : 0;
}

/* Whether a row has this count and every wanted field (0 wants nothing). */
static bool row_fits(const struct row *row, unsigned count, const uint16_t *wanted)
{
    if (row->count != count)
        return false;
    for (unsigned i = 0; i < count; i++)
        if (wanted[i] != 0 && wanted[i] != row->field[i])
            return false;
    return true;
}

/* The oldest row of a store that fits, or the end of the store. */
static uint32_t oldest_fitting(const struct live *live, uint32_t site, unsigned count, const uint16_t *wanted)
{
    uint32_t k = live->first[ROWS][site], end = live->first[ROWS][site + 1];
    for (; k < end; k++) {
        struct row row = read_row(record(&live->net, ROWS, k));
        if (row_fits(&row, count, wanted))
            break;
    }
    return k;
}

/* What a trapped aspect's nodes are evaluated in: the net, the action and the variables that the cut took (0 is unset). */
struct scene {
    const struct live *live;
    const struct act *act;
    uint16_t variable[VARIABLES];
};

/* Whether some row at the named place has the test's count and fits its operands. */
static bool test_holds(const struct scene *scene, const struct node *node)
{
    uint16_t wanted[FIELDS];
    for (unsigned i = 0; i < node->count; i++) {
        wanted[i] = value_of(node->operand[i], scene->variable);
        if (wanted[i] == 0 && node->operand[i].tag == TAG_VARIABLE)
            return false;
    }
    uint32_t site = find_site(&scene->live->net, node->a);
    return oldest_fitting(scene->live, site, node->count, wanted) < scene->live->first[ROWS][site + 1];
}

/* Whether two operands have one value, and neither is unset. */
static bool equal_holds(const struct scene *scene, const struct node *node)
{
    uint16_t one = value_of(node->operand[0], scene->variable), other = value_of(node->operand[1], scene->variable);
    return one != 0 && one == other;
}

static unsigned recommendation(const struct scene *scene, uint32_t k);

/* Whether the condition at node k is true. */
static bool condition(const struct scene *scene, uint32_t k)
{
    struct node node = read_node(record(&scene->live->net, NODES, k));
    switch (node.kind) {
    case NODE_ALWAYS:
        return true;
    case NODE_NOT:
        return !condition(scene, node.a);
    case NODE_AND:
        return condition(scene, node.a) && condition(scene, node.b);
    case NODE_OR:
        return condition(scene, node.a) || condition(scene, node.b);
    case NODE_EQUAL:
        return equal_holds(scene, &node);
    case NODE_TEST:
        return test_holds(scene, &node);
    case NODE_DOMINATES:
        return dominates(scene->act->term[node.a], scene->act->term[node.b]);
    default: /* NODE_GRANTS */
        return grants(recommendation(scene, node.a));
    }
}

/* The value of the recommendation at node k. */
static unsigned recommendation(const struct scene *scene, uint32_t k)
{
    struct node node = read_node(record(&scene->live->net, NODES, k));
    if (node.kind == NODE_CONSTANT)
        return node.a;
    if (node.kind == NODE_OF_CONDITION)
        return condition(scene, node.a) ? YES : NO;
    unsigned p = recommendation(scene, node.a);
    if (node.kind == NODE_VALUE_NOT)
        return value_not(p);
    if (node.kind == NODE_IMPLIES)
        return grants(p) ? recommendation(scene, node.b) : YES;
    if (node.kind == NODE_BEFORE)
        return p != 0 ? p : recommendation(scene, node.b);
    unsigned q = recommendation(scene, node.b);
    switch (node.kind) {
    case NODE_VALUE_AND:
        return value_and(p, q);
    case NODE_VALUE_OR:
        return value_or(p, q);
    case NODE_CONSENSUS:
        return p & q;
    default: /* NODE_GATHER */
        return p | q;
    }
}

/* Whether a part of a cut fits a value (0: a binding field); a variable takes it. */
static bool part_fits(struct operand part, uint16_t value, uint16_t *variable)
{
    switch (part.tag) {
    case TAG_NAME:
        return part.value == value;
    case TAG_VARIABLE:
        variable[part.value] = value;
        return value != 0;
    case TAG_ANY:
        return true;
    default: /* TAG_BINDER */
        return value == 0;
    }
}

/* Whether an aspect traps the action; its variables then have what the cut took. */
static bool traps(const struct aspect *aspect, const struct act *act, uint16_t *variable)
{
    if (aspect->capability != act->action.capability || aspect->count != act->action.count)
        return false;
    bool fits = part_fits(aspect->source, act->source_name, variable) && part_fits(aspect->target, act->target_name, variable);
    for (unsigned i = 0; i < aspect->count && fits; i++)
        fits = part_fits(aspect->field[i], act->field[i], variable);
    return fits;
}

/* A site's policy on an action: what its aspects give, gathered. */
static unsigned policy(const struct live *live, const struct act *act, uint32_t site)
{
    unsigned value = 0;
    for (uint32_t k = live->first[ASPECTS][site]; k < live->first[ASPECTS][site + 1]; k++) {
        struct aspect aspect = read_aspect(record(&live->net, ASPECTS, k));
        struct scene scene = {.live = live, .act = act};
        if (traps(&aspect, act, scene.variable) && condition(&scene, aspect.condition))
            value |= recommendation(&scene, aspect.recommendation);
    }
    return value;
}

/* The mandatory rules: for a capability, the left term must dominate the right. */
static const struct {
    uint8_t capability, left, right;
} mandatory_rules[] = {
    {PUT, TARGET_O, SOURCE_C},  {PUT, TARGET_O, SOURCE_HS},  {TAKE, TARGET_O, SOURCE_C}, {TAKE, TARGET_O, SOURCE_HS},
    {TAKE, SOURCE_S, TARGET_O}, {TAKE, SOURCE_S, TARGET_HO}, {READ, SOURCE_S, TARGET_O}, {READ, SOURCE_S, TARGET_HO},
};

/* What the mandatory rules give, gathered: evidence against wherever one is broken. */
static unsigned mandatory(const struct act *act)
{
    unsigned value = 0;
    for (unsigned i = 0; i < sizeof mandatory_rules / sizeof *mandatory_rules; i++)
        if (mandatory_rules[i].capability == act->action.capability &&
            !dominates(act->term[mandatory_rules[i].left], act->term[mandatory_rules[i].right]))
            value = NO;
    return value;
}

/* Whether the mandatory rules and both policies, gathered, grant: nothing gathered later takes evidence against away. */
static bool granted(const struct live *live, const struct act *act)
{
    unsigned value = mandatory(act);
    if (grants(value))
        value |= policy(live, act, act->source);
    if (grants(value))
        value |= policy(live, act, act->target);
    return grants(value);
}

/* Works out the values of an action that a site is about to try; its target is known. */
static void resolve(struct act *act, const struct site *source, const struct site *target)
{
    const uint16_t term[TERMS] = {source->s, source->c, source->o, source->hs, target->o, target->ho, target->s, target->c};
    memcpy(act->term, term, sizeof term);
    act->source_name = source->name;
    act->target_name = target->name;
    for (unsigned i = 0; i < FIELDS; i++)
        act->field[i] = value_of(act->action.field[i], source->variable);
}

/* ---- Doing ---- */

/* Puts the action's row: added last and the store's history joined, or dropped and counted as lost. */
static void do_put(struct live *live, const struct act *act)
{
    struct site source = read_site(record(&live->net, SITES, act->source));
    source.position++;
    keep_site(live, act->source, &source);
    struct site target = read_site(record(&live->net, SITES, act->target));
    if (rows_held(live, act->target) < STORE_MOST) {
        struct row row = {.owner = (uint8_t)act->target, .count = act->action.count};
        memcpy(row.field, act->field, sizeof row.field);
        add_row(live, &row);
        target.ho = join(target.ho, join(source.c, source.hs));
    } else if (target.lost < NUMBER_MOST) {
        target.lost++;
    }
    keep_site(live, act->target, &target);
}

/* Takes or reads row k: binds the variables, joins the process history, and a take removes the row. */
static void do_take_or_read(struct live *live, const struct act *act, uint32_t k)
{
    struct site source = read_site(record(&live->net, SITES, act->source));
    struct row row = read_row(record(&live->net, ROWS, k));
    for (unsigned i = 0; i < act->action.count; i++)
        if (act->action.field[i].tag == TAG_BINDS)
            source.variable[act->action.field[i].value] = row.field[i];
    source.position++;
    source.hs = join(source.hs, join(act->term[TARGET_O], act->term[TARGET_HO]));
    keep_site(live, act->source, &source);
    if (act->action.capability == TAKE)
        remove_row(live, act->target, k);
}

/* Tries the next action of a site. */
static uint32_t step(struct live *live, uint64_t number)
{
    if (number >= live->net.held[SITES])
        return NOSITE;
    struct act act = {.source = (uint32_t)number};
    struct site source = read_site(record(&live->net, SITES, act.source));
    uint32_t next = live->first[ACTIONS][act.source] + (uint32_t)source.position;
    if (next >= live->first[ACTIONS][act.source + 1])
        return DONE;
    act.action = read_action(record(&live->net, ACTIONS, next));
    act.target = find_site(&live->net, value_of(act.action.target, source.variable));
    if (act.target >= live->net.held[SITES])
        return NOPLACE;
    struct site target = read_site(record(&live->net, SITES, act.target));
    resolve(&act, &source, &target);
    if (!granted(live, &act))
        return DENIED;
    if (act.action.capability == PUT) {
        do_put(live, &act);
        return GRANTED;
    }
    uint32_t row = oldest_fitting(live, act.target, act.action.count, act.field);
    if (row >= live->first[ROWS][act.target + 1])
        return NOMATCH;
    do_take_or_read(live, &act, row);
    return GRANTED;
}

/* ---- The calls ---- */

uint32_t peer_check(const uint8_t *image, size_t n)
{
    struct net net;
    return accept(image, n, &net);
}

uint32_t peer_load(const uint8_t *image, size_t n, uint8_t *memory, size_t m)
{
    if (m != MEMORY_BYTES)
        return SMALL;
    struct net net;
    uint32_t refused = accept(image, n, &net);
    if (refused != 0)
        return refused;
    memset(memory, 0, MEMORY_BYTES);
    for (unsigned kind = SITES; kind <= KINDS; kind++) {
        write_word(memory + count_at(kind), (uint16_t)net.held[kind]);
        memcpy(memory + place[kind], net.table[kind], net.held[kind] * limits[kind].bytes);
    }
    return 0;
}

uint64_t peer_save(const uint8_t *memory, size_t m, uint8_t *out, size_t k)
{
    struct net net;
    if (!holds(memory, m, &net))
        return NONET;
    uint64_t length = image_length(&net);
    if (k < length)
        return ROOM;
    write_image(&net, out);
    return 256 * length;
}

uint32_t peer_step(uint8_t *memory, size_t m, uint64_t site)
{
    struct live live;
    return wake(&live, memory, m) ? step(&live, site) : NONET;
}

uint32_t peer_run(uint8_t *memory, size_t m, const uint8_t *steps, size_t n, uint8_t *answers, size_t k)
{
    if (n > STEPS_MOST || k < n)
        return LONG;
    struct live live;
    if (!wake(&live, memory, m))
        return NONET;
    for (size_t i = 0; i < n; i++)
        answers[i] = (uint8_t)step(&live, steps[i]);
    return 0;
}

uint64_t peer_body(const uint8_t *image, size_t n, uint32_t kind)
{
    struct net net;
    if (kind < SITES || kind > KINDS || accept(image, n, &net) != 0 || net.held[kind] == 0)
        return 0;
    uint64_t start = (uint64_t)(net.table[kind] - image), length = net.held[kind] * limits[kind].bytes;
    return start + (length << 32);
}
