/* Every call made twice, on the proved library and on the oracle, with everything compared. */
#include "compare.h"
#include "boardmarten.h"
#include "oracle.h"
#include "records.h"

enum { GUARD = 64, ROOM_BYTES = BUFFER_BYTES + 2 * GUARD, NUMBERS = 21, REPORTS_MOST = 20 };

/* One lent slice on both sides, each with guard bytes around it that differ from side to side, and what it was before the call. */
struct lent {
    const char *name;
    size_t n;
    uint8_t ours[ROOM_BYTES], oracles[ROOM_BYTES], before[BUFFER_BYTES];
};

static const uint8_t our_guard = 0x5a, oracles_guard = 0xa5;

static struct lent image_lent = {.name = "image"}, memory_lent = {.name = "memory"}, steps_lent = {.name = "steps"},
                   answers_lent = {.name = "answers"}, out_lent = {.name = "output"};

static const char *doing = "";
static uint64_t seed_of_doing, fine, wrong;

/* The call being made, and its numbers: lengths, and a site or kind. */
static struct {
    const char *name;
    uint64_t numbers[3];
} calling;

/* How often each number came back from each call; answers are those inside of runs. */
enum { CHECKS, LOADS, SAVES, STEPS, RUNS, ANSWERS, BODIES, CALLS };
static uint64_t given[CALLS][NUMBERS];
static uint64_t happened[EVENTS];

void begin(const char *what, uint64_t seed)
{
    doing = what;
    seed_of_doing = seed;
}

/* Begins a call with its numbers. */
static void begin_call(const char *name, uint64_t one, uint64_t two, uint64_t three)
{
    calling.name = name;
    calling.numbers[0] = one;
    calling.numbers[1] = two;
    calling.numbers[2] = three;
}

/* Counts a difference and says at which call; true if there is still to be a report of it. */
static bool differs(void)
{
    wrong++;
    if (wrong > REPORTS_MOST)
        return false;
    printf("DIFFERS in %s, seed %llu, %s(%llu, %llu, %llu): ", doing, (unsigned long long)seed_of_doing, calling.name,
           (unsigned long long)calling.numbers[0], (unsigned long long)calling.numbers[1],
           (unsigned long long)calling.numbers[2]);
    return true;
}

/* Says which call crashed, and ends the run. */
static void report_crash(int number)
{
    differs();
    printf("crash (signal %d)\n%llu passed, %llu failed\n", number, (unsigned long long)fine, (unsigned long long)wrong);
    fflush(stdout);
    _exit(1);
}

void watch_for_crashes(void)
{
    signal(SIGSEGV, report_crash);
}

/* The first place at which bytes differ, or n. */
static size_t first_difference(const uint8_t *one, const uint8_t *other, size_t n)
{
    if (memcmp(one, other, n) == 0)
        return n;
    size_t i = 0;
    while (one[i] == other[i])
        i++;
    return i;
}

/* Whether all bytes of a stretch are the guard's. */
static bool guard_whole(const uint8_t *bytes, size_t n, uint8_t guard)
{
    for (size_t i = 0; i < n; i++)
        if (bytes[i] != guard)
            return false;
    return true;
}

/* Puts n bytes into both sides of a slice, with guards on both ends. */
static void lend(struct lent *lent, const uint8_t *bytes, size_t n)
{
    lent->n = n;
    memset(lent->ours, our_guard, GUARD);
    memset(lent->oracles, oracles_guard, GUARD);
    memcpy(lent->ours + GUARD, bytes, n);
    memcpy(lent->oracles + GUARD, bytes, n);
    memset(lent->ours + GUARD + n, our_guard, GUARD);
    memset(lent->oracles + GUARD + n, oracles_guard, GUARD);
    memcpy(lent->before, bytes, n);
}

/* Puts n bytes of one value into both sides of a slice. */
static void lend_filled(struct lent *lent, size_t n)
{
    static uint8_t bytes[BUFFER_BYTES];
    memset(bytes, 170, sizeof bytes);
    lend(lent, bytes, n);
}

/* Compares both sides of a slice, its guards, and, if it may not have changed, what it was. */
static bool compare_lent(struct lent *lent, bool may_change)
{
    const uint8_t *ours = lent->ours + GUARD, *oracles = lent->oracles + GUARD;
    size_t n = lent->n, at = first_difference(ours, oracles, n);
    if (at < n) {
        if (differs())
            printf("%s byte %zu is %d, not %d\n", lent->name, at, ours[at], oracles[at]);
        return false;
    }
    if (!guard_whole(lent->ours, GUARD, our_guard) || !guard_whole(ours + n, GUARD, our_guard) ||
        !guard_whole(lent->oracles, GUARD, oracles_guard) || !guard_whole(oracles + n, GUARD, oracles_guard)) {
        if (differs())
            printf("bytes beside the %s are changed\n", lent->name);
        return false;
    }
    at = may_change ? n : first_difference(ours, lent->before, n);
    if (at < n && differs())
        printf("%s byte %zu may not change and is %d, not %d\n", lent->name, at, ours[at], lent->before[at]);
    return at == n;
}

/* Compares what both sides gave back, and counts it. */
static bool compare_given(unsigned which, uint64_t ours, uint64_t oracles, uint64_t number)
{
    if (ours != oracles) {
        if (differs())
            printf("gave %llu + 256 * %llu, not %llu + 256 * %llu\n", (unsigned long long)ours % 256,
                   (unsigned long long)ours / 256, (unsigned long long)oracles % 256, (unsigned long long)oracles / 256);
        return false;
    }
    given[which][number]++;
    return true;
}

/* Notes memory as it is before a call. */
static void remember_memory(void)
{
    memcpy(memory_lent.before, memory_lent.ours + GUARD, BUFFER_BYTES);
}

/* Takes the oracle's memory on both sides, so that one difference is reported once. */
static void agree_on_memory(void)
{
    memcpy(memory_lent.ours + GUARD, memory_lent.oracles + GUARD, BUFFER_BYTES);
}

/* Ends a call that lends the first m bytes of memory: it is compared, and the bytes beyond m are as before. */
static bool compare_memory(size_t m, bool may_change)
{
    bool same = compare_lent(&memory_lent, may_change);
    size_t beyond = BUFFER_BYTES - m;
    size_t at = first_difference(memory_lent.ours + GUARD + m, memory_lent.before + m, beyond);
    if (same && at < beyond) {
        if (differs())
            printf("memory byte %zu was not lent and is changed\n", m + at);
        same = false;
    }
    if (!same)
        agree_on_memory();
    return same;
}

/* Counts a call that showed no difference. */
static void end(bool same)
{
    if (same)
        fine++;
}

uint32_t both_check(const uint8_t *image, size_t n)
{
    begin_call("check", n, 0, 0);
    lend(&image_lent, image, n);
    uint32_t ours = boardmarten_check(image_lent.ours + GUARD, n), oracles = oracle_check(image_lent.oracles + GUARD, n);
    bool same = compare_given(CHECKS, ours, oracles, oracles % 256);
    end(compare_lent(&image_lent, false) && same);
    return oracles;
}

uint32_t both_load(const uint8_t *image, size_t n, size_t m)
{
    begin_call("load", n, m, 0);
    lend(&image_lent, image, n);
    remember_memory();
    uint32_t ours = boardmarten_load(image_lent.ours + GUARD, n, memory_lent.ours + GUARD, m);
    uint32_t oracles = oracle_load(image_lent.oracles + GUARD, n, memory_lent.oracles + GUARD, m);
    bool same = compare_given(LOADS, ours, oracles, oracles % 256);
    same &= compare_memory(m, oracles == 0);
    end(compare_lent(&image_lent, false) && same);
    return oracles;
}

uint64_t both_save(size_t m, size_t k)
{
    begin_call("save", m, k, 0);
    lend_filled(&out_lent, k);
    remember_memory();
    uint64_t ours = boardmarten_save(memory_lent.ours + GUARD, m, out_lent.ours + GUARD, k);
    uint64_t oracles = oracle_save(memory_lent.oracles + GUARD, m, out_lent.oracles + GUARD, k);
    bool same = compare_given(SAVES, ours, oracles, oracles % 256);
    same &= compare_memory(m, false);
    end(compare_lent(&out_lent, oracles % 256 == 0) && same);
    return oracles;
}

uint32_t both_step(size_t m, uint64_t site)
{
    begin_call("step", m, site, 0);
    remember_memory();
    uint32_t ours = boardmarten_step(memory_lent.ours + GUARD, m, site),
             oracles = oracle_step(memory_lent.oracles + GUARD, m, site);
    bool same = compare_given(STEPS, ours, oracles, oracles);
    end(compare_memory(m, oracles == 0) && same);
    return oracles;
}

uint32_t both_run(size_t m, const uint8_t *steps, size_t n, size_t k)
{
    begin_call("run", m, n, k);
    lend(&steps_lent, steps, n);
    lend_filled(&answers_lent, k);
    remember_memory();
    uint32_t ours = boardmarten_run(memory_lent.ours + GUARD, m, steps_lent.ours + GUARD, n, answers_lent.ours + GUARD, k);
    uint32_t oracles = oracle_run(memory_lent.oracles + GUARD, m, steps_lent.oracles + GUARD, n, answers_lent.oracles + GUARD, k);
    bool same = compare_given(RUNS, ours, oracles, oracles);
    same &= compare_memory(m, oracles == 0);
    same &= compare_lent(&steps_lent, false);
    end(compare_lent(&answers_lent, oracles == 0) && same);
    for (size_t i = 0; i < n && oracles == 0; i++)
        given[ANSWERS][answers_now()[i]]++;
    return oracles;
}

uint64_t both_body(const uint8_t *image, size_t n, uint32_t kind)
{
    begin_call("body", n, kind, 0);
    lend(&image_lent, image, n);
    uint64_t ours = boardmarten_body(image_lent.ours + GUARD, n, kind),
             oracles = oracle_body(image_lent.oracles + GUARD, n, kind);
    bool same = compare_given(BODIES, ours, oracles, oracles == 0 ? 0 : kind);
    end(compare_lent(&image_lent, false) && same);
    return oracles;
}

const uint8_t *memory_now(void)
{
    return memory_lent.oracles + GUARD;
}

const uint8_t *memory_before(void)
{
    return memory_lent.before;
}

const uint8_t *answers_now(void)
{
    return answers_lent.oracles + GUARD;
}

const uint8_t *output_now(void)
{
    return out_lent.oracles + GUARD;
}

void set_memory(const uint8_t *bytes)
{
    lend(&memory_lent, bytes, BUFFER_BYTES);
}

void poke_memory(size_t at, uint8_t byte)
{
    memory_lent.ours[GUARD + at] = byte;
    memory_lent.oracles[GUARD + at] = byte;
}

void expect(const char *what, uint64_t got, uint64_t wanted)
{
    if (got == wanted)
        fine++;
    else if (differs())
        printf("%s is %llu, not %llu\n", what, (unsigned long long)got, (unsigned long long)wanted);
}

void note(unsigned event)
{
    happened[event]++;
}

uint64_t passed(void)
{
    return fine;
}

uint64_t failed(void)
{
    return wrong;
}

/* A number that a call must have given back in a full run. */
struct wanted {
    unsigned call, number;
    const char *name;
};

static const struct wanted wanted[] = {
    {CHECKS, 0, "check 0"},
    {CHECKS, 10, "check 10 SIZE"},
    {CHECKS, 11, "check 11 EDITION"},
    {CHECKS, 12, "check 12 CONTENTS"},
    {CHECKS, 13, "check 13 SITE"},
    {CHECKS, 14, "check 14 NODE"},
    {CHECKS, 15, "check 15 ASPECT"},
    {CHECKS, 16, "check 16 ACTION"},
    {CHECKS, 17, "check 17 ROW"},
    {CHECKS, 18, "check 18 STATE"},
    {LOADS, 0, "load 0"},
    {LOADS, 10, "load 10 SIZE"},
    {LOADS, 11, "load 11 EDITION"},
    {LOADS, 12, "load 12 CONTENTS"},
    {LOADS, 13, "load 13 SITE"},
    {LOADS, 14, "load 14 NODE"},
    {LOADS, 15, "load 15 ASPECT"},
    {LOADS, 16, "load 16 ACTION"},
    {LOADS, 17, "load 17 ROW"},
    {LOADS, 18, "load 18 STATE"},
    {LOADS, 19, "load 19 SMALL"},
    {SAVES, 0, "save 0"},
    {SAVES, 6, "save 6 NONET"},
    {SAVES, 20, "save 20 ROOM"},
    {STEPS, 0, "step 0 GRANTED"},
    {STEPS, 1, "step 1 DONE"},
    {STEPS, 2, "step 2 DENIED"},
    {STEPS, 3, "step 3 NOMATCH"},
    {STEPS, 4, "step 4 NOPLACE"},
    {STEPS, 5, "step 5 NOSITE"},
    {STEPS, 6, "step 6 NONET"},
    {RUNS, 0, "run 0"},
    {RUNS, 6, "run 6 NONET"},
    {RUNS, 7, "run 7 LONG"},
    {ANSWERS, 0, "in a run 0"},
    {ANSWERS, 1, "in a run 1"},
    {ANSWERS, 2, "in a run 2"},
    {ANSWERS, 3, "in a run 3"},
    {ANSWERS, 4, "in a run 4"},
    {ANSWERS, 5, "in a run 5"},
    {BODIES, 0, "body, empty"},
    {BODIES, 1, "body 1 sites"},
    {BODIES, 2, "body 2 nodes"},
    {BODIES, 3, "body 3 aspects"},
    {BODIES, 4, "body 4 actions"},
    {BODIES, 5, "body 5 rows"},
};

static const char *const event_names[EVENTS] = {
    [ROW_ADDED] = "row added by a put",
    [ROW_TAKEN] = "row removed by a take",
    [ROW_READ] = "row read",
    [ROW_DROPPED] = "row dropped, lost count risen",
    [ROW_DROPPED_UNCOUNTED] = "row dropped, lost count at 65,535",
    [SELF_STEP] = "granted step with source and target one site",
    [TARGET_BY_VARIABLE] = "granted step whose target is a variable",
    [DAMAGE_ACCEPTED] = "damaged image still accepted",
    [SMALLEST_IMAGE] = "image of 76 bytes",
    [LARGEST_IMAGE] = "image of 51,244 bytes",
    [MEMORY_CHANGED_HOLDS] = "memory with one byte changed still holds a net",
};

/* Prints one line of counts; gives 1 if the count is 0. */
static unsigned print_count(const char *what, uint64_t count)
{
    printf("  %-48s %9llu%s\n", what, (unsigned long long)count, count == 0 ? "  NEVER" : "");
    return count == 0;
}

unsigned print_counts(void)
{
    unsigned never = 0;
    for (unsigned i = 0; i < sizeof wanted / sizeof *wanted; i++)
        never += print_count(wanted[i].name, given[wanted[i].call][wanted[i].number]);
    for (unsigned event = 0; event < EVENTS; event++)
        never += print_count(event_names[event], happened[event]);
    return never;
}
