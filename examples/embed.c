/* Boardmarten inside a C program: loads an image, runs five steps, saves, and prints what came back. The net is the worked example of the stepping
 * program: site 10 puts (7) at site 20, reads it back, and may then no longer put at its own, lower store. */
#include "boardmarten.h"

int printf(const char *format, ...);

/* The two bytes of a number. */
#define W(x) (x) & 255, (x) >> 8

static const uint8_t image[] = {
    W(1), W(5),                                     /* edition, entries */
    W(1), W(2), W(44), W(0),                        /* two sites */
    W(2), W(0), W(108), W(0),                       /* no nodes */
    W(3), W(0), W(108), W(0),                       /* no aspects */
    W(4), W(3), W(108), W(0),                       /* three actions */
    W(5), W(0), W(180), W(0),                       /* no rows */
    [44] = W(10), W(512),                           /* site 10: S 512 */
    [76] = W(20), W(512), W(512), W(512),           /* site 20: S, C, O 512 */
    [108] = 0, 0, 1, 1, W(0), W(20), W(0), W(7),    /* site 10: put (7) at 20 */
    [132] = 0, 0, 3, 1, W(0), W(20), W(2), W(0),    /* read (bind 0) at 20 */
    [156] = 0, 0, 1, 1, W(0), W(10), W(0), W(8),    /* put (8) at 10 */
    [179] = 0,
};

int main(void)
{
    static uint8_t memory[BOARDMARTEN_MEMORY_BYTES], saved[BOARDMARTEN_IMAGE_MOST];
    const uint8_t steps[] = {0, 0, 0, 1, 2};
    uint8_t answers[sizeof steps];
    uint32_t loaded = boardmarten_load(image, sizeof image, memory, sizeof memory);
    printf("load %u %u\n", loaded % 256, loaded / 256);
    uint32_t ran = boardmarten_run(memory, sizeof memory, steps, sizeof steps, answers, sizeof answers);
    printf("run %u:", ran);
    for (size_t i = 0; ran == BOARDMARTEN_GRANTED && i < sizeof steps; i++)
        printf(" %d", answers[i]);
    uint64_t kept = boardmarten_save(memory, sizeof memory, saved, sizeof saved);
    printf("\nsave %u, %u bytes\n", (unsigned)(kept % 256), (unsigned)(kept / 256));
    uint64_t rows = boardmarten_body(saved, kept / 256, 5);
    printf("rows: %u bytes from byte %u\n", (unsigned)(rows >> 32), (unsigned)rows);
    return 0;
}
