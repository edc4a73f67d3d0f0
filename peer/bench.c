/* The benchmarks: the proved library and the independent monitor side by side, compiled alike and run in one process, by turns.
 *   bench WAY               times every case and prints both sides and the ratio ours/peer; WAY is native or emulator
 *   bench --cases           prints the names of the cases
 *   bench --only CASE SIDE TIMES    makes one side's calls (ours, peer or none) and prints nothing, for counting instructions */
#include "boardmarten.h"
#include "draft.h"
#include "monitor.h"

enum { ROUNDS = 15, SETTLED_NS = 3000000, TIMES_MOST = 2000 };

/* The calls of one side. */
struct side {
    uint32_t (*check)(const uint8_t *image, size_t n);
    uint32_t (*load)(const uint8_t *image, size_t n, uint8_t *memory, size_t m);
    uint64_t (*save)(const uint8_t *memory, size_t m, uint8_t *out, size_t k);
    uint32_t (*step)(uint8_t *memory, size_t m, uint64_t site);
    uint32_t (*run)(uint8_t *memory, size_t m, const uint8_t *steps, size_t n, uint8_t *answers, size_t k);
};

static const struct side ours = {boardmarten_check, boardmarten_load, boardmarten_save, boardmarten_step, boardmarten_run};
static const struct side peers = {peer_check, peer_load, peer_save, peer_step, peer_run};

/* How large a net is, and how many records each of its sites owns. */
struct scale {
    uint32_t sites, nodes, aspects, program, rows;
};

static const struct scale small = {2, 0, 0, 3, 2};
static const struct scale plain = {SITES_MOST, 32, 0, PROGRAM_MOST, STORE_MOST};
static const struct scale largest = {SITES_MOST, 32, 8, PROGRAM_MOST, STORE_MOST};

enum call { CHECK, LOAD, SAVE, STEP, RUN, CALLS };

/* One case: a call on a net. */
struct bench_case {
    const char *name;
    enum call call;
    const struct scale *scale;
};

static const struct bench_case cases[] = {
    {"check of the largest image", CHECK, &largest},
    {"load of the largest image", LOAD, &largest},
    {"save of the largest net", SAVE, &largest},
    {"step, small net", STEP, &small},
    {"step, largest net, empty policies", STEP, &plain},
    {"step, largest net, 256 aspects of depth 8", STEP, &largest},
    {"run of 4,096, small net", RUN, &small},
    {"run of 4,096, largest net, empty policies", RUN, &plain},
    {"run of 4,096, largest net, 256 aspects of depth 8", RUN, &largest},
};
enum { CASES = sizeof cases / sizeof *cases };

/* ---- Nets ---- */

/* Adds a node of two children. */
static uint16_t over(struct draft *draft, unsigned kind, uint16_t a, uint16_t b)
{
    return add_node(draft, (struct node){.kind = (uint8_t)kind, .a = a, .b = b});
}

/* Adds a condition of depth 8 that is true and needs every node below it. */
static uint16_t add_condition(struct draft *draft, uint16_t place)
{
    uint16_t equal = add_node(draft, (struct node){.kind = NODE_EQUAL, .operand = {variable(0), variable(0)}});
    uint16_t found =
        add_node(draft, (struct node){.kind = NODE_TEST, .count = 4, .a = place, .operand = {name(1), any(), any(), any()}});
    uint16_t higher = add_node(draft, (struct node){.kind = NODE_DOMINATES, .a = SOURCE_S, .b = TARGET_O});
    uint16_t below = over(draft, NODE_AND, equal, found), top = over(draft, NODE_AND, below, higher);
    for (unsigned depth = 4; depth <= DEPTH_MOST; depth++) {
        uint16_t next = over(draft, NODE_AND, top, below);
        below = top;
        top = next;
    }
    return top;
}

/* Adds a recommendation of depth 8 that says yes and needs every node below it: no operator is decided by its first value. */
static uint16_t add_recommendation(struct draft *draft)
{
    static const uint8_t kinds[] = {NODE_VALUE_AND, NODE_VALUE_OR, NODE_GATHER, NODE_CONSENSUS, NODE_IMPLIES, NODE_GATHER};
    uint16_t always = add_node(draft, (struct node){.kind = NODE_ALWAYS});
    uint16_t below = add_node(draft, (struct node){.kind = NODE_CONSTANT, .a = 0});
    uint16_t top = add_node(draft, (struct node){.kind = NODE_OF_CONDITION, .a = always});
    for (unsigned depth = 3; depth <= DEPTH_MOST; depth++) {
        uint16_t next = over(draft, kinds[depth - 3], top, below);
        below = top;
        top = next;
    }
    return top;
}

/* Adds a site's nodes and aspects: half of the aspects are for read, a quarter each for take and put, and all trap. */
static void add_policy(struct draft *draft, const struct scale *scale, uint32_t owner)
{
    uint32_t first = draft->held[NODES];
    if (scale->nodes == 0)
        return;
    uint16_t condition = add_condition(draft, draft->site[owner].name), recommendation = add_recommendation(draft);
    while (draft->held[NODES] < first + scale->nodes)
        add_node(draft, (struct node){.kind = NODE_TEST,
                                      .count = 4,
                                      .a = draft->site[owner].name,
                                      .operand = {name(1), variable(0), any(), any()}});
    for (uint32_t k = 0; k < scale->aspects; k++)
        add_aspect(draft, (struct aspect){.owner = (uint8_t)owner,
                                          .capability = (uint8_t)(k % 4 < 2    ? READ
                                                                  : k % 4 == 2 ? TAKE
                                                                               : PUT),
                                          .count = 4,
                                          .source = variable(0),
                                          .target = any(),
                                          .field = {any(), any(), any(), any()},
                                          .condition = condition,
                                          .recommendation = recommendation});
}

/* Adds a site's program on the next site: it takes a row and puts it back by turns, and at its end waits to read a row that never comes. */
static void add_program(struct draft *draft, const struct scale *scale, uint32_t owner)
{
    struct operand target = name(draft->site[(owner + 1) % scale->sites].name);
    for (uint32_t k = 0; k < scale->program; k++) {
        struct action action = {
            .owner = (uint8_t)owner, .capability = k % 2 == 0 ? TAKE : PUT, .count = 4, .target = target, .field = {name(1)}};
        for (uint16_t v = 0; v < 3; v++)
            action.field[v + 1] = k % 2 == 0 ? binds(v) : variable(v);
        if (k + 1 == scale->program) {
            action.capability = READ;
            action.field[3] = name(9999);
        }
        add_action(draft, action);
    }
}

/* Makes the net of a scale. */
static void make_net(struct draft *draft, const struct scale *scale)
{
    clear_draft(draft);
    for (uint32_t k = 0; k < scale->sites; k++)
        add_site(draft, (struct site){.name = (uint16_t)(10 * k + 10), .s = 65535, .o = 515});
    for (uint32_t k = 0; k < scale->sites; k++) {
        add_policy(draft, scale, k);
        add_program(draft, scale, k);
        for (uint32_t i = 0; i < scale->rows; i++)
            add_row(draft, (struct row){.owner = (uint8_t)k, .count = 4, .field = {1, (uint16_t)(i + 1), 3, 4}});
    }
}

/* ---- Measuring ---- */

/* A case set up: the image, and the net as each side keeps it. */
struct stage {
    const struct side *side;
    enum call call;
    uint8_t image[PACKED_MOST];
    size_t n;
    uint8_t fresh[MEMORY_BYTES], memory[MEMORY_BYTES], out[IMAGE_MOST];
    uint8_t steps[STEPS_MOST], answers[STEPS_MOST];
};

static struct stage our_stage, peers_stage;

/* Sets a case up for a side. */
static void set_stage(struct stage *stage, const struct side *side, enum call call, const struct scale *scale)
{
    static struct draft draft;
    make_net(&draft, scale);
    stage->side = side;
    stage->call = call;
    stage->n = pack(&draft, stage->image);
    side->load(stage->image, stage->n, stage->fresh, MEMORY_BYTES);
    memcpy(stage->memory, stage->fresh, MEMORY_BYTES);
    for (unsigned i = 0; i < STEPS_MOST; i++)
        stage->steps[i] = (uint8_t)(i % scale->sites);
}

/* Makes memory fresh again for a call that changes it. */
static void refresh(struct stage *stage)
{
    if (stage->call == STEP || stage->call == RUN)
        memcpy(stage->memory, stage->fresh, MEMORY_BYTES);
}

/* Makes the call of a case once; gives the number, which is 0. */
static uint64_t make_call(struct stage *stage)
{
    switch (stage->call) {
    case CHECK:
        return stage->side->check(stage->image, stage->n);
    case LOAD:
        return stage->side->load(stage->image, stage->n, stage->memory, MEMORY_BYTES);
    case SAVE:
        return stage->side->save(stage->memory, MEMORY_BYTES, stage->out, sizeof stage->out) % 256;
    case STEP:
        return stage->side->step(stage->memory, MEMORY_BYTES, 0);
    default:
        return stage->side->run(stage->memory, MEMORY_BYTES, stage->steps, STEPS_MOST, stage->answers, STEPS_MOST);
    }
}

/* Nanoseconds since some moment. */
static int64_t nanoseconds(void)
{
    struct timespec now;
    clock_gettime(CLOCK_MONOTONIC, &now);
    return now.tv_sec * 1000000000 + now.tv_nsec;
}

/* Whether a call was ever refused: then nothing was measured. */
static bool refused;

/* The nanoseconds of one call, over so many calls. */
static double time_calls(struct stage *stage, unsigned times)
{
    int64_t spent = 0;
    for (unsigned i = 0; i < times; i++) {
        refresh(stage);
        int64_t start = nanoseconds();
        refused |= make_call(stage) != 0;
        spent += nanoseconds() - start;
    }
    return (double)spent / times;
}

/* The middle one of some numbers. */
static double median(double *numbers, unsigned n)
{
    for (unsigned i = 1; i < n; i++)
        for (unsigned j = i; j > 0 && numbers[j - 1] > numbers[j]; j--) {
            double kept = numbers[j];
            numbers[j] = numbers[j - 1];
            numbers[j - 1] = kept;
        }
    return numbers[n / 2];
}

/* What was measured of a case: nanoseconds of one call on each side, and their ratio. */
struct measure {
    double ours, peers, ratio;
};

/* Measures a call on a net: both sides by turns, the median of all rounds. */
static struct measure measure(enum call call, const struct scale *scale)
{
    double our_times[ROUNDS], peers_times[ROUNDS], ratios[ROUNDS];
    set_stage(&our_stage, &ours, call, scale);
    set_stage(&peers_stage, &peers, call, scale);
    double one = time_calls(&peers_stage, 1) + time_calls(&our_stage, 1);
    unsigned times = one > SETTLED_NS ? 1 : (unsigned)(SETTLED_NS / (one + 1)) + 1;
    if (times > TIMES_MOST)
        times = TIMES_MOST;
    for (unsigned round = 0; round < ROUNDS; round++) {
        our_times[round] = time_calls(&our_stage, times);
        peers_times[round] = time_calls(&peers_stage, times);
        ratios[round] = our_times[round] / peers_times[round];
    }
    return (struct measure){median(our_times, ROUNDS), median(peers_times, ROUNDS), median(ratios, ROUNDS)};
}

/* Prints a line for every case. */
static void print_cases(void)
{
    printf("%-52s %12s %12s %10s\n", "case", "ours, ns", "peer, ns", "ours/peer");
    for (unsigned i = 0; i < CASES; i++) {
        struct measure got = measure(cases[i].call, cases[i].scale);
        printf("%-52s %12.0f %12.0f %10.2f\n", cases[i].name, got.ours, got.peers, got.ratio);
        fflush(stdout);
    }
}

/* Prints how each call's cost grows with the number of sites, all else in proportion. */
static void print_growth(void)
{
    printf("\ngrowth: ours, ns (ours/peer)\n%5s %7s %18s %18s %18s %18s %18s\n", "sites", "bytes", "check", "load", "save",
           "step", "run");
    for (uint32_t sites = 1; sites <= SITES_MOST; sites *= 2) {
        struct scale scale = largest;
        scale.sites = sites;
        for (unsigned call = CHECK; call < CALLS; call++) {
            struct measure got = measure(call, &scale);
            if (call == CHECK)
                printf("%5u %7zu", sites, our_stage.n);
            printf(" %11.0f (%.2f)", got.ours, got.ratio);
            fflush(stdout);
        }
        printf("\n");
    }
}

/* Makes the calls of one case on one side; "none" makes all but the calls. */
static void make_only(const char *number, const char *side, const char *times)
{
    const struct bench_case *only = &cases[strtoull(number, 0, 10) % CASES];
    bool none = strcmp(side, "none") == 0;
    set_stage(&our_stage, strcmp(side, "ours") == 0 ? &ours : &peers, only->call, only->scale);
    for (uint64_t i = strtoull(times, 0, 10); i > 0; i--) {
        refresh(&our_stage);
        if (!none)
            refused |= make_call(&our_stage) != 0;
    }
}

int main(int count, char **words)
{
    if (count == 2 && strcmp(words[1], "--cases") == 0) {
        for (unsigned i = 0; i < CASES; i++)
            printf("%s\n", cases[i].name);
    } else if (count == 5 && strcmp(words[1], "--only") == 0) {
        make_only(words[2], words[3], words[4]);
    } else if (count == 2) {
        printf("way: %s%s\n", words[1],
               strcmp(words[1], "native") == 0 ? "" : " (the kit's emulator: only the ratios mean anything)");
        print_cases();
        print_growth();
    } else {
        return 2;
    }
    if (refused)
        printf("a call was refused: nothing was measured\n");
    return refused;
}
