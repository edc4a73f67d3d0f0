/* The differential tests: the proved library against the independent monitor, on the paper's examples, on every byte of small images changed, and on
 * random nets.
 *   tests [--seed N] [--operations N] [--soak SECONDS]
 * A scene is made from one seed; a difference prints that seed, and --seed makes that scene the first. */
#include "compare.h"
#include "examples.h"
#include "monitor.h"
#include "random_net.h"

/* How many operations on random nets make a full run, in which every number must come back. */
enum { OPERATIONS = 150000 };

/* A scene: its dice, its net and the image of it, and the sites that could do nothing since the last granted step. */
struct scene {
    struct dice dice;
    struct draft draft;
    uint8_t image[PACKED_MOST];
    size_t n;
    uint64_t idle;
};

/* The memory size of a call: nearly always the right one. */
static size_t some_memory_size(struct dice *dice)
{
    static const size_t wrong[] = {0, 1, 43, 44, 76, 51244, 65535, 65537, 65600};
    return chance(dice, 97) ? MEMORY_BYTES : wrong[below(dice, sizeof wrong / sizeof *wrong)];
}

/* A site number: mostly one of the net's. */
static uint64_t some_site(struct dice *dice, uint32_t sites)
{
    if (chance(dice, 96))
        return below(dice, sites);
    switch (below(dice, 4)) {
    case 0:
        return sites;
    case 1:
        return below(dice, 300);
    case 2:
        return (uint64_t)between(dice, 1, 3) << 32 | below(dice, sites);
    default:
        return roll(dice) | (uint64_t)1 << 63;
    }
}

/* The action that a site was about to try, in the memory before the last call; null if there is none. */
static const uint8_t *action_tried(uint32_t site, const struct site *at)
{
    const uint8_t *memory = memory_before(), *actions = memory + read_long(memory + 32);
    uint32_t held = read_word(memory + 30), k = 0;
    while (k < held && actions[24 * k] < site)
        k++;
    k += at->position;
    return k < held && actions[24 * k] == site ? actions + 24 * k : 0;
}

/* Notes what a granted step did. */
static void note_granted(uint32_t number)
{
    struct site source = read_site(memory_before() + HEADER_BYTES + 32 * number);
    const uint8_t *at = action_tried(number, &source);
    if (at == 0)
        return;
    struct action action = read_action(at);
    bool by_variable = action.target.tag == TAG_VARIABLE;
    uint16_t target = by_variable ? source.variable[action.target.value] : action.target.value;
    if (by_variable)
        note(TARGET_BY_VARIABLE);
    if (target == source.name)
        note(SELF_STEP);
    if (action.capability == TAKE)
        note(ROW_TAKEN);
    else if (action.capability == READ)
        note(ROW_READ);
    else if (read_word(memory_now() + 38) > read_word(memory_before() + 38))
        note(ROW_ADDED);
    else
        for (uint32_t k = 0; k < read_word(memory_now() + 6); k++) {
            struct site site = read_site(memory_now() + HEADER_BYTES + 32 * k);
            if (site.name == target)
                note(site.lost > read_site(memory_before() + HEADER_BYTES + 32 * k).lost ? ROW_DROPPED : ROW_DROPPED_UNCOUNTED);
        }
}

/* One step, mostly of a site that may have something to do. */
static void try_step(struct scene *scene)
{
    size_t m = some_memory_size(&scene->dice);
    uint64_t site = some_site(&scene->dice, scene->draft.held[SITES]);
    for (unsigned again = 0; again < 4 && site < SITES_MOST && (scene->idle >> site & 1) != 0; again++)
        site = below(&scene->dice, scene->draft.held[SITES]);
    uint32_t answer = both_step(m, site);
    if (answer == GRANTED) {
        scene->idle = 0;
        note_granted((uint32_t)site);
    } else if (answer <= NOPLACE) {
        scene->idle |= (uint64_t)1 << site;
    }
}

/* How many steps a run has: mostly few, at times the most or one more. */
static size_t some_run_length(struct dice *dice)
{
    if (chance(dice, 4))
        return between(dice, STEPS_MOST - 1, STEPS_MOST + 1);
    return below(dice, chance(dice, 15) ? 1000 : 60);
}

/* One run, with answer bytes exact, more or too few. */
static void try_run(struct scene *scene)
{
    static uint8_t steps[STEPS_MOST + 1];
    struct dice *dice = &scene->dice;
    size_t n = some_run_length(dice), k = n;
    for (size_t i = 0; i < n; i++)
        steps[i] = (uint8_t)some_site(dice, scene->draft.held[SITES]);
    if (chance(dice, 40))
        k += below(dice, 40);
    else if (n > 0 && chance(dice, 15))
        k = below(dice, (uint32_t)n);
    both_run(some_memory_size(dice), steps, n, k);
}

/* One save, with an output exact, longer or too short. */
static void try_save(struct scene *scene)
{
    struct dice *dice = &scene->dice;
    const uint8_t *memory = memory_now();
    uint64_t length = read_long(memory + 40) + (uint64_t)10 * read_word(memory + 38);
    size_t k = length <= IMAGE_MOST ? length : IMAGE_MOST;
    if (chance(dice, 20))
        k += below(dice, 100);
    else if (k > 0 && chance(dice, 40))
        k = chance(dice, 50) ? k - 1 : below(dice, (uint32_t)k);
    both_save(some_memory_size(dice), k);
}

/* One body, of any kind. */
static void try_body(struct scene *scene, const uint8_t *image, size_t n)
{
    static const uint32_t kinds[] = {0, 1, 2, 3, 4, 5, 1, 2, 3, 4, 5, 6, 7, 255, 256, 257, 65535, 65536, 65537, 0xffffffff};
    both_body(image, n, kinds[below(&scene->dice, sizeof kinds / sizeof *kinds)]);
}

/* Any call on the net in memory, steps most of all; where nothing more goes on, the scene at times begins anew. */
static void try_call(struct scene *scene)
{
    uint64_t all = ((uint64_t)1 << scene->draft.held[SITES]) - 1;
    uint32_t which = below(&scene->dice, 100);
    if (scene->idle == all && which < 40) {
        both_load(scene->image, scene->n, MEMORY_BYTES);
        scene->idle = 0;
    } else if (which < 82) {
        try_step(scene);
    } else if (which < 90) {
        try_run(scene);
    } else {
        try_save(scene);
    }
}

/* Loads an image and makes some calls on what memory then is. */
static void try_image(struct scene *scene, const uint8_t *image, size_t n, unsigned calls)
{
    both_load(image, n, some_memory_size(&scene->dice));
    scene->idle = 0;
    for (; calls > 0; calls--)
        try_call(scene);
}

/* One damaged image: checked, looked into, and at times loaded and gone on with. */
static void try_damage(struct scene *scene)
{
    static uint8_t image[DAMAGED_MOST];
    size_t n = damaged_image(&scene->dice, &scene->draft, image);
    uint32_t verdict = both_check(image, n);
    if (verdict == 0)
        note(DAMAGE_ACCEPTED);
    if (verdict == 0 || chance(&scene->dice, 50))
        try_image(scene, image, n, verdict == 0 ? 6 : 1);
    if (chance(&scene->dice, 30))
        try_body(scene, image, n);
}

/* A changed byte in memory: in the image's bytes, or in the zeros behind. */
static void try_changed_memory(struct scene *scene)
{
    static uint8_t kept[BUFFER_BYTES];
    struct dice *dice = &scene->dice;
    memcpy(kept, memory_now(), sizeof kept);
    size_t at = below(dice, chance(dice, 70) ? (uint32_t)scene->n : MEMORY_BYTES);
    poke_memory(at, (uint8_t)(chance(dice, 50) ? roll(dice) : kept[at] + 1u));
    if (both_save(MEMORY_BYTES, MEMORY_BYTES) % 256 == 0 && memcmp(kept, memory_now(), sizeof kept) != 0)
        note(MEMORY_CHANGED_HOLDS);
    try_call(scene);
    set_memory(kept);
}

/* A changed byte in the independent monitor's own memory: if it still holds a net, loading the image of that net leaves it so. */
static void try_peers_memory(struct scene *scene)
{
    static uint8_t memory[MEMORY_BYTES], again[MEMORY_BYTES], image[IMAGE_MOST];
    struct dice *dice = &scene->dice;
    peer_load(scene->image, scene->n, memory, sizeof memory);
    uint8_t *at = memory + below(dice, chance(dice, 50) ? 2000 : MEMORY_BYTES);
    *at = (uint8_t)(chance(dice, 50) ? roll(dice) : *at + 1u);
    uint64_t saved = peer_save(memory, sizeof memory, image, sizeof image);
    if (saved % 256 != 0)
        return;
    expect("the image that the peer saved is accepted", peer_load(image, saved / 256, again, sizeof again), 0);
    expect("the peer's memory is fixed by that image", (uint64_t)memcmp(memory, again, sizeof memory), 0);
}

/* Memory that was never loaded: all random, small numbers, a header alone, or a damaged image and zeros. */
static void try_wild_memory(struct scene *scene)
{
    static uint8_t wild[BUFFER_BYTES];
    struct dice *dice = &scene->dice;
    uint32_t which = below(dice, 4);
    memset(wild, 0, sizeof wild);
    if (which < 2)
        for (size_t i = 0; i < sizeof wild; i++)
            wild[i] = (uint8_t)(which == 0 ? roll(dice) : below(dice, 3));
    else if (which == 2)
        memcpy(wild, scene->image, HEADER_BYTES);
    else
        damaged_image(dice, &scene->draft, wild);
    set_memory(wild);
    try_call(scene);
}

/* The size of a scene's net: mostly small. */
static enum size some_size(struct dice *dice)
{
    uint32_t which = below(dice, 100);
    return which < 30 ? TINY : which < 65 ? SMALL_NET : which < 90 ? MEDIUM : which < 98 ? LARGE : LARGEST;
}

/* Makes a scene's net; it must be accepted. */
static void set_scene(struct scene *scene, uint64_t seed, enum size size)
{
    random_net(&scene->dice, size, &scene->draft);
    scene->n = pack(&scene->draft, scene->image);
    begin("a random net", seed);
    expect("a made image is accepted", both_check(scene->image, scene->n), 0);
    if (scene->n == IMAGE_MOST)
        note(LARGEST_IMAGE);
}

/* One scene: a random net at work, then damaged in many ways. */
static void try_scene(uint64_t seed)
{
    static struct scene scene;
    scene.dice.state = seed;
    set_scene(&scene, seed, some_size(&scene.dice));
    for (unsigned i = 0; i < 3; i++)
        try_body(&scene, scene.image, scene.n);
    both_load(scene.image, scene.n, MEMORY_BYTES);
    try_image(&scene, scene.image, scene.n, between(&scene.dice, 10, 60));
    for (unsigned i = 0; i < 3; i++)
        try_changed_memory(&scene);
    for (unsigned i = 0; i < 20; i++)
        try_damage(&scene);
    for (unsigned i = 0; i < 5; i++)
        try_peers_memory(&scene);
    try_wild_memory(&scene);
}

/* Every byte of a small image changed to each of many values: the verdict on it. */
static void sweep_image(struct scene *scene, bool all_values)
{
    static const uint8_t edges[] = {0, 1, 2, 3, 4, 5, 7, 8, 9, 16, 17, 24, 25, 32, 128, 255};
    for (size_t at = 0; at < scene->n; at++) {
        uint8_t kept = scene->image[at];
        for (unsigned i = 0; i < (all_values ? 256 : sizeof edges); i++) {
            scene->image[at] = all_values ? (uint8_t)i : edges[i];
            both_check(scene->image, scene->n);
        }
        scene->image[at] = kept;
    }
}

/* Every byte of net memory about a small image changed by one: a step on it, and a save of it. */
static void sweep_memory(struct scene *scene)
{
    both_load(scene->image, scene->n, MEMORY_BYTES);
    static uint8_t kept[BUFFER_BYTES];
    memcpy(kept, memory_now(), sizeof kept);
    for (size_t at = 0; at < scene->n + 40; at++) {
        poke_memory(at, (uint8_t)(kept[at] + 1));
        both_step(MEMORY_BYTES, at % scene->draft.held[SITES]);
        set_memory(kept);
        poke_memory(at, (uint8_t)(kept[at] - 1));
        both_save(MEMORY_BYTES, scene->n + 10);
        set_memory(kept);
    }
}

/* Small nets with records of every kind, swept. */
static void try_sweeps(uint64_t seed)
{
    static struct scene scene;
    for (unsigned done = 0; done < 4; seed++) {
        scene.dice.state = seed;
        random_net(&scene.dice, SMALL_NET, &scene.draft);
        const uint32_t *held = scene.draft.held;
        if (held[NODES] < 8 || held[ASPECTS] < 2 || held[ACTIONS] < 3 || held[ROWS] < 3 || pack(&scene.draft, scene.image) > 1000)
            continue;
        scene.dice.state = seed;
        set_scene(&scene, seed, SMALL_NET);
        begin("a sweep", seed);
        sweep_image(&scene, done == 0);
        sweep_memory(&scene);
        done++;
    }
}

/* Seconds since some moment. */
static uint64_t seconds(void)
{
    struct timespec now;
    clock_gettime(CLOCK_MONOTONIC, &now);
    return (uint64_t)now.tv_sec;
}

/* What the command line asks for. */
struct wish {
    uint64_t seed, operations, soak;
};

/* Reads the command line; false if it is not understood. */
static bool read_wish(int count, char **words, struct wish *wish)
{
    for (int i = 1; i < count; i += 2) {
        uint64_t *number = strcmp(words[i], "--seed") == 0         ? &wish->seed
                           : strcmp(words[i], "--operations") == 0 ? &wish->operations
                           : strcmp(words[i], "--soak") == 0       ? &wish->soak
                                                                   : 0;
        char *end;
        if (number == 0 || i + 1 == count)
            return false;
        *number = strtoull(words[i + 1], &end, 10);
        if (*end != 0)
            return false;
    }
    return true;
}

int main(int count, char **words)
{
    static const uint8_t zeros[BUFFER_BYTES];
    struct wish wish = {.seed = 1, .operations = OPERATIONS};
    if (!read_wish(count, words, &wish)) {
        printf("tests [--seed N] [--operations N] [--soak SECONDS]\n");
        return 2;
    }
    watch_for_crashes();
    set_memory(zeros);
    try_examples();
    try_sweeps(wish.seed);
    uint64_t start = seconds(), before = passed(), seed = wish.seed;
    for (; failed() == 0 && (passed() - before < wish.operations || seconds() - start < wish.soak); seed++)
        try_scene(seed);
    unsigned never = print_counts();
    uint64_t failures = failed() != 0 || wish.operations < OPERATIONS ? failed() : never;
    printf("%llu scenes from seed %llu\n", (unsigned long long)(seed - wish.seed), (unsigned long long)wish.seed);
    printf("%llu passed, %llu failed\n", (unsigned long long)passed(), (unsigned long long)failures);
    return failures != 0;
}
