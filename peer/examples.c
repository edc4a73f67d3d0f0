/* The paper's own examples and edges, with the numbers it gives: both sides are held to them. */
#include "examples.h"
#include "compare.h"
#include "draft.h"
#include "monitor.h"

static struct draft draft;
static uint8_t image[PACKED_MOST];

/* The verdict on the draft. */
static uint32_t check_draft(void)
{
    return both_check(image, pack(&draft, image));
}

/* Loads the draft, which is accepted. */
static void load_draft(void)
{
    expect("load of an accepted image", both_load(image, pack(&draft, image), MEMORY_BYTES), 0);
}

/* Loads the draft and gives its first site's answer. */
static uint32_t first_answer(void)
{
    load_draft();
    return both_step(MEMORY_BYTES, 0);
}

/* A site of the net in memory. */
static struct site site_now(unsigned k)
{
    return read_site(memory_now() + HEADER_BYTES + k * limits[SITES].bytes);
}

/* How many rows the net in memory holds in all. */
static unsigned rows_now(void)
{
    return read_word(memory_now() + 38);
}

/* A draft of one site, name 10, all levels 0. */
static void one_site(void)
{
    clear_draft(&draft);
    add_site(&draft, (struct site){.name = 10});
}

/* Adds an action of site 0 with one field. */
static void action_on(unsigned capability, struct operand target, struct operand field)
{
    add_action(&draft, (struct action){.capability = (uint8_t)capability, .count = 1, .target = target, .field = {field}});
}

/* The stepping program's worked example. */
static void try_worked_example(void)
{
    static const uint8_t steps[] = {0, 0, 0, 1, 2}, answers[] = {GRANTED, GRANTED, DENIED, DONE, NOSITE};
    begin("the worked example", 0);
    clear_draft(&draft);
    add_site(&draft, (struct site){.name = 10, .s = 512});
    add_site(&draft, (struct site){.name = 20, .s = 512, .c = 512, .o = 512});
    action_on(PUT, name(20), name(7));
    action_on(READ, name(20), binds(0));
    action_on(PUT, name(10), name(8));
    load_draft();
    expect("run", both_run(MEMORY_BYTES, steps, sizeof steps, sizeof steps), 0);
    for (unsigned i = 0; i < sizeof steps; i++)
        expect("answer", answers_now()[i], answers[i]);
    expect("HS of site 10", site_now(0).hs, 512);
    expect("HO of site 10", site_now(0).ho, 0);
    expect("variable 0 of site 10", site_now(0).variable[0], 7);
    expect("position of site 10", site_now(0).position, 2);
    expect("HS of site 20", site_now(1).hs, 0);
    expect("HO of site 20", site_now(1).ho, 0);
    expect("rows held", rows_now(), 1);
}

/* Sizes at the edges: 43, 44, 76, 51,244 and 51,245 bytes. */
static void try_sizes(void)
{
    begin("sizes", 0);
    clear_draft(&draft);
    size_t n = pack(&draft, image);
    expect("44 bytes with no site", both_check(image, n), CONTENTS);
    expect("43 bytes", both_check(image, n - 1), SIZE);
    expect("no bytes", both_check(image, 0), SIZE);
    one_site();
    expect("length with one site", pack(&draft, image), 76);
    expect("76 bytes, one site", check_draft(), 0);
    expect("77 bytes", both_check(image, 77), CONTENTS);
    expect("75 bytes", both_check(image, 75), CONTENTS);
    expect("51,244 bytes, one site", both_check(image, IMAGE_MOST), CONTENTS);
    expect("51,245 bytes", both_check(image, IMAGE_MOST + 1), SIZE);
    write_word(image, 2);
    expect("edition 2", both_check(image, 76), EDITION);
    note(SMALLEST_IMAGE);
}

/* Adds a chain of "not" over "always" until it has this depth. */
static void add_chain(unsigned depth)
{
    uint16_t top = add_node(&draft, (struct node){.kind = NODE_ALWAYS});
    while (--depth > 0)
        top = add_node(&draft, (struct node){.kind = NODE_NOT, .a = top});
}

/* Depth 8 and 9, also through both sorts. */
static void try_depths(void)
{
    begin("depths", 0);
    one_site();
    add_chain(8);
    expect("depth 8", check_draft(), 0);
    add_node(&draft, (struct node){.kind = NODE_OF_CONDITION, .a = 7});
    expect("depth 9 through both sorts", check_draft(), NODE + 256 * 8);
    one_site();
    add_chain(9);
    expect("depth 9", check_draft(), NODE + 256 * 8);
}

/* A sixteenth and a seventeenth row, and the same of actions. */
static void try_rooms(void)
{
    begin("rooms", 0);
    one_site();
    for (unsigned k = 0; k < STORE_MOST; k++)
        add_row(&draft, (struct row){.count = 1, .field = {5}});
    expect("a sixteenth row", check_draft(), 0);
    add_row(&draft, (struct row){.count = 1, .field = {5}});
    expect("a seventeenth row", check_draft(), ROW + 256 * 16);
    one_site();
    for (unsigned k = 0; k < PROGRAM_MOST; k++)
        action_on(PUT, name(10), name(5));
    expect("a sixteenth action", check_draft(), 0);
    action_on(PUT, name(10), name(5));
    expect("a seventeenth action", check_draft(), ACTION + 256 * 16);
}

/* The answer to a read by a site with clearance s of a store of class o, with a row or with none. */
static uint32_t read_across(uint16_t s, uint16_t o, bool row)
{
    clear_draft(&draft);
    add_site(&draft, (struct site){.name = 10, .s = s});
    add_site(&draft, (struct site){.name = 20, .o = o});
    action_on(READ, name(20), binds(0));
    if (row)
        add_row(&draft, (struct row){.owner = 1, .count = 1, .field = {5}});
    return first_answer();
}

/* Dominance as reads show it. */
static void try_levels(void)
{
    begin("levels", 0);
    expect("S 256 reads class 257 with a row", read_across(256, 257, true), DENIED);
    expect("S 256 reads class 257 with none", read_across(256, 257, false), DENIED);
    expect("512 does not dominate 257", read_across(512, 257, true), DENIED);
    expect("513 dominates 257", read_across(513, 257, true), GRANTED);
    expect("261 does not dominate 515", read_across(261, 515, true), DENIED);
    expect("515 does not dominate 261", read_across(515, 261, true), DENIED);
    expect("519 dominates 261", read_across(519, 261, true), GRANTED);
    expect("519 dominates 515", read_across(519, 515, true), GRANTED);
    expect("top dominates top", read_across(65535, 65535, true), GRANTED);
    expect("bottom dominates bottom", read_across(0, 0, true), GRANTED);
}

/* The histories of a read and a put: joins of rank and categories. */
static void try_histories(void)
{
    begin("histories", 0);
    clear_draft(&draft);
    add_site(&draft, (struct site){.name = 10, .s = 65535, .c = 261, .o = 65535});
    add_site(&draft, (struct site){.name = 20, .o = 65535, .ho = 515});
    action_on(PUT, name(20), name(5));
    action_on(READ, name(20), binds(0));
    action_on(TAKE, name(20), variable(0));
    action_on(READ, name(20), name(5));
    expect("put", first_answer(), GRANTED);
    expect("HO joined: 261 and 515 are 519", site_now(1).ho, 519);
    expect("read", both_step(MEMORY_BYTES, 0), GRANTED);
    expect("HS joined with O and HO", site_now(0).hs, 65535);
    expect("take", both_step(MEMORY_BYTES, 0), GRANTED);
    expect("HO after a take", site_now(1).ho, 519);
    expect("rows after a take", rows_now(), 0);
    expect("a read that finds nothing", both_step(MEMORY_BYTES, 0), NOMATCH);
    expect("it waits", site_now(0).position, 3);
}

/* The answer to a read of fields from a store that holds the row (5, 6, 9). */
static uint32_t read_row_569(unsigned count, uint16_t second)
{
    one_site();
    struct action action = {.capability = READ, .count = (uint8_t)count, .target = name(10), .field = {name(5)}};
    if (count == 3)
        action.field[1] = name(second);
    action.field[count - 1] = binds(0);
    add_action(&draft, action);
    add_row(&draft, (struct row){.count = 3, .field = {5, 6, 9}});
    return first_answer();
}

/* Which rows fit. */
static void try_matching(void)
{
    begin("matching", 0);
    expect("(5, 6, 9) fits (5, 6, bind 0)", read_row_569(3, 6), GRANTED);
    expect("the variable bound", site_now(0).variable[0], 9);
    expect("(5, 6, 9) does not fit (5, 7, bind 0)", read_row_569(3, 7), NOMATCH);
    expect("(5, 6, 9) does not fit (5, bind 0)", read_row_569(2, 0), NOMATCH);
}

/* A put to a full store with this lost count: gives the lost count after it. */
static uint16_t lost_after_drop(uint16_t lost)
{
    clear_draft(&draft);
    add_site(&draft, (struct site){.name = 10, .s = 1, .c = 1});
    add_site(&draft, (struct site){.name = 20, .o = 1, .lost = lost});
    action_on(PUT, name(20), name(5));
    for (unsigned k = 0; k < STORE_MOST; k++)
        add_row(&draft, (struct row){.owner = 1, .count = 1, .field = {6}});
    expect("put to a full store", first_answer(), GRANTED);
    expect("rows of a full store", rows_now(), STORE_MOST);
    expect("HO of a full store", site_now(1).ho, 0);
    expect("position after a drop", site_now(0).position, 1);
    return site_now(1).lost;
}

/* Full stores. */
static void try_full_stores(void)
{
    begin("full stores", 0);
    expect("lost from 0", lost_after_drop(0), 1);
    expect("lost from 65,534", lost_after_drop(65534), 65535);
    expect("lost from 65,535", lost_after_drop(65535), 65535);
}

/* The oldest fitting row is taken, and the others keep their order. */
static void try_order(void)
{
    begin("order of rows", 0);
    one_site();
    add_action(&draft, (struct action){.capability = TAKE, .count = 2, .target = name(10), .field = {name(5), binds(0)}});
    for (uint16_t k = 1; k <= 4; k++)
        add_row(&draft, (struct row){.count = 2, .field = {k == 1 ? 4 : 5, k}});
    expect("take", first_answer(), GRANTED);
    expect("the oldest that fits", site_now(0).variable[0], 2);
    const uint8_t *rows = memory_now() + read_long(memory_now() + 40);
    static const uint16_t left[] = {1, 3, 4};
    for (unsigned k = 0; k < 3; k++)
        expect("what is left", read_row(rows + 10 * k).field[1], left[k]);
}

/* A put by site 0 that its policy meets with the recommendation at a node. */
static uint32_t put_under(uint16_t recommendation)
{
    uint16_t always = add_node(&draft, (struct node){.kind = NODE_ALWAYS});
    draft.held[ASPECTS] = draft.held[ACTIONS] = 0;
    add_aspect(&draft, (struct aspect){.capability = PUT,
                                       .count = 1,
                                       .source = any(),
                                       .target = any(),
                                       .field = {any()},
                                       .condition = always,
                                       .recommendation = recommendation});
    action_on(PUT, name(10), name(5));
    return first_answer();
}

/* The four tables' rows of each two-place operator, kinds 19 to 24. */
static const uint8_t tables[6][4][4] = {
    {{0, 0, 2, 2}, {0, 1, 2, 3}, {2, 2, 2, 2}, {2, 3, 2, 3}}, /* and */
    {{0, 1, 0, 1}, {1, 1, 1, 1}, {0, 1, 2, 3}, {1, 1, 3, 3}}, /* or */
    {{0, 0, 0, 0}, {0, 1, 0, 1}, {0, 0, 2, 2}, {0, 1, 2, 3}}, /* consensus */
    {{0, 1, 2, 3}, {1, 1, 3, 3}, {2, 3, 2, 3}, {3, 3, 3, 3}}, /* gather */
    {{0, 1, 2, 3}, {0, 1, 2, 3}, {1, 1, 1, 1}, {1, 1, 1, 1}}, /* implies */
    {{0, 1, 2, 3}, {1, 1, 1, 1}, {2, 2, 2, 2}, {3, 3, 3, 3}}, /* before */
};

/* Every entry of every table: evidence against denies a step, and evidence for denies under "not". */
static void try_operator(unsigned kind, uint16_t p, uint16_t q)
{
    unsigned value = tables[kind - NODE_VALUE_AND][p][q];
    one_site();
    uint16_t a = add_node(&draft, (struct node){.kind = NODE_CONSTANT, .a = p}),
             b = add_node(&draft, (struct node){.kind = NODE_CONSTANT, .a = q});
    uint16_t both = add_node(&draft, (struct node){.kind = (uint8_t)kind, .a = a, .b = b});
    expect("evidence against", put_under(both), value & 2 ? DENIED : GRANTED);
    uint16_t swapped = add_node(&draft, (struct node){.kind = NODE_VALUE_NOT, .a = both});
    expect("evidence for", put_under(swapped), value & 1 ? DENIED : GRANTED);
    uint16_t asked = add_node(&draft, (struct node){.kind = NODE_GRANTS, .a = both});
    uint16_t answered = add_node(&draft, (struct node){.kind = NODE_OF_CONDITION, .a = asked});
    expect("grants asked", put_under(answered), value & 2 ? DENIED : GRANTED);
}

/* The six operators on all values. */
static void try_operators(void)
{
    begin("operators", 0);
    for (unsigned kind = NODE_VALUE_AND; kind <= NODE_BEFORE; kind++)
        for (uint16_t p = 0; p < 4; p++)
            for (uint16_t q = 0; q < 4; q++)
                try_operator(kind, p, q);
}

/* Whether a put is denied by its site's policy under a condition: the policy says no where it is true. */
static uint32_t put_if(struct aspect cut, struct node condition)
{
    one_site();
    add_row(&draft, (struct row){.count = 1, .field = {6}});
    action_on(PUT, name(10), name(5));
    cut.capability = PUT;
    cut.count = 1;
    cut.condition = add_node(&draft, condition);
    cut.recommendation = add_node(&draft, (struct node){.kind = NODE_CONSTANT, .a = 2});
    add_aspect(&draft, cut);
    return first_answer();
}

/* Conditions on what a cut took, and on unset variables. */
static void try_conditions(void)
{
    const struct aspect all = {.source = any(), .target = any(), .field = {any()}};
    const struct aspect take = {.source = variable(0), .target = variable(1), .field = {variable(2)}};
    const struct aspect bound = {.source = any(), .target = any(), .field = {binder()}};
    const struct node always = {.kind = NODE_ALWAYS};
    begin("conditions", 0);
    expect("always", put_if(all, always), DENIED);
    expect("binder does not fit a name", put_if(bound, always), GRANTED);
    expect("source and target are equal", put_if(take, (struct node){.kind = NODE_EQUAL, .operand = {variable(0), variable(1)}}),
           DENIED);
    expect("the field is 5", put_if(take, (struct node){.kind = NODE_EQUAL, .operand = {variable(2), name(5)}}), DENIED);
    expect("the field is not 6", put_if(take, (struct node){.kind = NODE_EQUAL, .operand = {variable(2), name(6)}}), GRANTED);
    expect("unset equals unset", put_if(all, (struct node){.kind = NODE_EQUAL, .operand = {variable(3), variable(3)}}), GRANTED);
    expect("test finds 6", put_if(all, (struct node){.kind = NODE_TEST, .count = 1, .a = 10, .operand = {name(6)}}), DENIED);
    expect("test finds any", put_if(all, (struct node){.kind = NODE_TEST, .count = 1, .a = 10, .operand = {any()}}), DENIED);
    expect("test of another count", put_if(all, (struct node){.kind = NODE_TEST, .count = 2, .a = 10, .operand = {any(), any()}}),
           GRANTED);
    expect("test of an unset variable",
           put_if(all, (struct node){.kind = NODE_TEST, .count = 1, .a = 10, .operand = {variable(7)}}), GRANTED);
    expect("test of what the cut took",
           put_if(take, (struct node){.kind = NODE_TEST, .count = 1, .a = 10, .operand = {variable(2)}}), GRANTED);
}

/* A put of (1, 2, 3, 4) that the policy denies if its cut fits and a row (6, 7, 8, 9) fits the test. */
static uint32_t put_four(struct operand cut, struct operand tested)
{
    one_site();
    add_row(&draft, (struct row){.count = 4, .field = {6, 7, 8, 9}});
    add_action(&draft,
               (struct action){.capability = PUT, .count = 4, .target = name(10), .field = {name(1), name(2), name(3), name(4)}});
    add_node(&draft, (struct node){.kind = NODE_TEST, .count = 4, .a = 10, .operand = {name(6), any(), name(8), tested}});
    add_node(&draft, (struct node){.kind = NODE_CONSTANT, .a = 2});
    add_aspect(&draft, (struct aspect){.capability = PUT,
                                       .count = 4,
                                       .source = name(10),
                                       .target = variable(0),
                                       .field = {variable(1), any(), name(3), cut},
                                       .recommendation = 1});
    return first_answer();
}

/* The last of four fields counts as the first does. */
static void try_last_fields(void)
{
    begin("last fields", 0);
    expect("all fits", put_four(name(4), name(9)), DENIED);
    expect("the cut's last field does not fit", put_four(name(5), name(9)), GRANTED);
    expect("the test's last field does not fit", put_four(name(4), name(8)), GRANTED);
    put_four(variable(2), name(9));
    draft.aspect[0].field[3] = variable(1);
    expect("a variable taken twice by the fields", check_draft(), ASPECT);
    draft.aspect[0].field[3] = variable(0);
    expect("a variable taken by the target and the last field", check_draft(), ASPECT);
    draft.aspect[0].field[3] = any();
    draft.aspect[0].source = variable(0);
    expect("a variable taken by the source and the target", check_draft(), ASPECT);
}

/* The acting site's variables are not the aspect's: what the cut does not take is unset, though the site has it. */
static void try_own_variables(void)
{
    begin("an aspect's own variables", 0);
    one_site();
    add_row(&draft, (struct row){.count = 1, .field = {5}});
    action_on(READ, name(10), binds(0));
    action_on(PUT, name(10), variable(0));
    add_node(&draft, (struct node){.kind = NODE_EQUAL, .operand = {variable(0), name(5)}});
    add_node(&draft, (struct node){.kind = NODE_CONSTANT, .a = 2});
    add_aspect(&draft,
               (struct aspect){
                   .capability = PUT, .count = 1, .source = any(), .target = any(), .field = {name(5)}, .recommendation = 1});
    expect("read", first_answer(), GRANTED);
    expect("variable 0 is unset in the aspect", both_step(MEMORY_BYTES, 0), GRANTED);
    draft.aspect[0].field[0] = variable(0);
    expect("read", first_answer(), GRANTED);
    expect("variable 0 is taken by the cut", both_step(MEMORY_BYTES, 0), DENIED);
}

/* A put from site 10 to site 20, whose eight terms all have ranks of their own, that the policy denies if term a dominates term b. */
static uint32_t put_if_dominates(uint16_t a, uint16_t b)
{
    clear_draft(&draft);
    add_site(&draft, (struct site){.name = 10, .c = 0x100, .hs = 0x200, .o = 0x300, .s = 0x400});
    add_site(&draft, (struct site){.name = 20, .c = 0x500, .ho = 0x600, .s = 0x700, .o = 0x800});
    add_node(&draft, (struct node){.kind = NODE_DOMINATES, .a = a, .b = b});
    add_node(&draft, (struct node){.kind = NODE_CONSTANT, .a = 2});
    add_aspect(
        &draft,
        (struct aspect){.capability = PUT, .count = 1, .source = any(), .target = any(), .field = {any()}, .recommendation = 1});
    action_on(PUT, name(20), name(5));
    return first_answer();
}

/* The eight terms, each against each. */
static void try_terms(void)
{
    static const uint16_t ranks[TERMS] = {4, 1, 3, 2, 8, 6, 7, 5};
    begin("terms", 0);
    for (uint16_t a = 0; a < TERMS; a++)
        for (uint16_t b = 0; b < TERMS; b++)
            expect("dominates", put_if_dominates(a, b), ranks[a] >= ranks[b] ? DENIED : GRANTED);
}

/* A draft whose only fault is its first node: the verdict on it. */
static uint32_t check_node(struct node node)
{
    one_site();
    add_node(&draft, node);
    return check_draft();
}

/* Nodes with one thing wrong. */
static void try_bad_nodes(void)
{
    begin("bad nodes", 0);
    expect("a term of 7", check_node((struct node){.kind = NODE_DOMINATES, .a = 7, .b = 7}), 0);
    expect("a term above 7", check_node((struct node){.kind = NODE_DOMINATES, .a = 8}), NODE);
    expect("equal with a count", check_node((struct node){.kind = NODE_EQUAL, .count = 2, .operand = {name(1), name(1)}}), NODE);
    expect("equal with any", check_node((struct node){.kind = NODE_EQUAL, .operand = {name(1), any()}}), NODE);
    expect("equal with name 0", check_node((struct node){.kind = NODE_EQUAL, .operand = {name(1), name(0)}}), NODE);
    expect("a test at no site", check_node((struct node){.kind = NODE_TEST, .a = 11, .count = 1, .operand = {any()}}), NODE);
    expect("a test of no fields", check_node((struct node){.kind = NODE_TEST, .a = 10}), NODE);
    expect("a node below itself", check_node((struct node){.kind = NODE_NOT, .a = 0}), NODE);
    expect("a kind of 0", check_node((struct node){.kind = 0}), NODE);
    expect("a kind of 9", check_node((struct node){.kind = 9}), NODE);
    expect("a kind of 15", check_node((struct node){.kind = 15}), NODE);
    expect("a kind of 25", check_node((struct node){.kind = 25}), NODE);
    expect("a constant of 4", check_node((struct node){.kind = NODE_CONSTANT, .a = 4}), NODE);
}

/* Actions with one thing wrong, and the number of the record. */
static void try_bad_actions(void)
{
    begin("bad actions", 0);
    one_site();
    action_on(READ, name(10), binds(0));
    action_on(PUT, name(10), variable(1));
    expect("a variable used and never bound", check_draft(), ACTION + 256);
    one_site();
    action_on(PUT, name(10), binds(0));
    expect("a put that binds", check_draft(), ACTION);
    one_site();
    add_action(&draft, (struct action){.capability = READ, .target = name(10)});
    expect("an action of no fields", check_draft(), ACTION);
    one_site();
    action_on(PUT, any(), name(5));
    expect("an action at any target", check_draft(), ACTION);
    one_site();
    add_action(&draft, (struct action){.capability = READ, .count = 2, .target = name(10), .field = {binds(0), binds(0)}});
    expect("a variable bound twice", check_draft(), ACTION);
    one_site();
    action_on(READ, name(10), binds(0));
    action_on(READ, variable(0), binds(0));
    expect("a variable bound and used as the target", check_draft(), ACTION + 256);
}

/* Sites with one thing wrong, in themselves or in their state. */
static void try_bad_sites(void)
{
    begin("bad sites", 0);
    one_site();
    draft.site[0].position = 1;
    expect("a position past the program", check_draft(), STATE);
    one_site();
    draft.site[0].variable[7] = 1;
    expect("a variable set too early", check_draft(), STATE);
    one_site();
    action_on(READ, name(10), binds(0));
    draft.site[0].position = 1;
    expect("a variable not set", check_draft(), STATE);
    one_site();
    add_site(&draft, (struct site){.name = 10});
    expect("a name that does not rise", check_draft(), SITE + 256);
    one_site();
    draft.site[0].c = 1;
    expect("a clearance that does not dominate", check_draft(), SITE);
}

/* What load, run, save and body do at the edges of what is lent. */
static void try_edges(void)
{
    static uint8_t steps[STEPS_MOST + 1], zeros[BUFFER_BYTES];
    begin("edges", 0);
    one_site();
    size_t n = pack(&draft, image);
    set_memory(zeros);
    expect("step on zeros", both_step(MEMORY_BYTES, 0), NONET);
    expect("memory too small", both_load(image, n, MEMORY_BYTES - 1), SMALL);
    expect("memory too large", both_load(image, n, MEMORY_BYTES + 1), SMALL);
    expect("memory before size", both_load(image, 0, 0), SMALL);
    load_draft();
    expect("step on less than memory", both_step(MEMORY_BYTES - 1, 0), NONET);
    expect("step on more than memory", both_step(MEMORY_BYTES + 1, 0), NONET);
    expect("the largest site number", both_step(MEMORY_BYTES, ~(uint64_t)0), NOSITE);
    expect("2^32 is not site 0", both_step(MEMORY_BYTES, (uint64_t)1 << 32), NOSITE);
    expect("4,096 steps", both_run(MEMORY_BYTES, steps, STEPS_MOST, STEPS_MOST), 0);
    expect("4,097 steps", both_run(MEMORY_BYTES, steps, STEPS_MOST + 1, STEPS_MOST + 1), LONG);
    expect("too few answer bytes", both_run(MEMORY_BYTES, steps, 2, 1), LONG);
    expect("LONG before NONET", both_run(0, steps, 2, 1), LONG);
    expect("no steps", both_run(MEMORY_BYTES, steps, 0, 0), 0);
    expect("save without room", both_save(MEMORY_BYTES, n - 1), ROOM);
    expect("NONET before ROOM", both_save(MEMORY_BYTES - 1, 0), NONET);
    expect("save", both_save(MEMORY_BYTES, n), 256 * n);
    expect("saved bytes are the image's", (uint64_t)memcmp(output_now(), image, n), 0);
    expect("body of sites", both_body(image, n, SITES), HEADER_BYTES + ((uint64_t)32 << 32));
    expect("an empty body", both_body(image, n, ROWS), 0);
    expect("kind 0", both_body(image, n, 0), 0);
    expect("kind 6", both_body(image, n, 6), 0);
    expect("kind 65,535", both_body(image, n, 65535), 0);
    expect("kind 65,537", both_body(image, n, 65537), 0);
    expect("body of a refused image", both_body(image, n - 1, SITES), 0);
}

void try_examples(void)
{
    try_worked_example();
    try_sizes();
    try_depths();
    try_rooms();
    try_levels();
    try_histories();
    try_matching();
    try_full_stores();
    try_order();
    try_operators();
    try_conditions();
    try_last_fields();
    try_own_variables();
    try_terms();
    try_bad_nodes();
    try_bad_actions();
    try_bad_sites();
    try_edges();
}
