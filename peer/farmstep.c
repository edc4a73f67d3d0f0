/* farmstep on the independent monitor: reads an image length u32, the image and one byte per step from standard input, and prints a line per
 * step and a line per site, or what was refused. */
#include "monitor.h"
#include "records.h"

enum { INPUT_MOST = 60000, LENGTH_BYTES = 4 };

/* Prints a line per step: index, site, answer. */
static void print_steps(const uint8_t *steps, const uint8_t *answers, size_t n)
{
    for (size_t i = 0; i < n; i++)
        printf("%zu %d %d\n", i, steps[i], answers[i]);
}

/* How many rows of an image's body have this owner. */
static unsigned rows_of(const uint8_t *rows, size_t length, unsigned owner)
{
    unsigned held = 0;
    for (size_t at = 0; at < length; at += limits[ROWS].bytes)
        held += rows[at] == owner;
    return held;
}

/* Prints a line per site of a saved image: name, HS, HO, rows held, lost. */
static void print_sites(const uint8_t *image, size_t n)
{
    uint64_t sites = peer_body(image, n, SITES), rows = peer_body(image, n, ROWS);
    unsigned held = (unsigned)(sites >> 32) / limits[SITES].bytes;
    for (unsigned k = 0; k < held; k++) {
        struct site site = read_site(image + (uint32_t)sites + k * limits[SITES].bytes);
        unsigned stored = rows_of(image + (uint32_t)rows, rows >> 32, k);
        printf("site %d %d %d %u %d\n", site.name, site.hs, site.ho, stored, site.lost);
    }
}

/* Loads an image, runs steps on it and prints what came of it. */
static void step_through(const uint8_t *image, size_t length, const uint8_t *steps, size_t n)
{
    static uint8_t memory[MEMORY_BYTES], answers[STEPS_MOST], saved[IMAGE_MOST];
    uint32_t loaded = peer_load(image, length, memory, sizeof memory);
    if (loaded != 0) {
        printf("load %u %u\n", loaded % 256, loaded / 256);
        return;
    }
    uint32_t ran = peer_run(memory, sizeof memory, steps, n, answers, sizeof answers);
    if (ran != 0) {
        printf("run %u\n", ran);
        return;
    }
    print_steps(steps, answers, n);
    print_sites(saved, peer_save(memory, sizeof memory, saved, sizeof saved) / 256);
}

int main(void)
{
    static uint8_t input[INPUT_MOST + 1];
    size_t n = fread(input, 1, sizeof input, stdin);
    if (n > INPUT_MOST || n < LENGTH_BYTES || read_long(input) > n - LENGTH_BYTES) {
        printf("input\n");
        return 0;
    }
    const uint8_t *image = input + LENGTH_BYTES;
    uint32_t length = read_long(input);
    step_through(image, length, image + length, n - LENGTH_BYTES - length);
    return 0;
}
