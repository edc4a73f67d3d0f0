/* vectors FILE...: runs scripts of calls on the oracle and prints what each call gave back: the expected output for a program that
 * runs the same scripts on the proved monitor.
 *
 * A script is a sequence of operations, little-endian, each an op byte and its arguments. There is one memory buffer of 65,600 bytes,
 * zero at the start of each script, of which a call lends the first m bytes. S is an Adler-32 sum.
 *   1 CHECK: u32 n, n image bytes                    check N R
 *   2 LOAD:  u32 m, u32 n, n image bytes             load N R memory S
 *   3 STEP:  u32 m, u64 site                         step N memory S
 *   4 RUN:   u32 m, u32 n, n step bytes, u32 k       run N, the first 40 of k answer bytes, sum S memory S
 *   5 SAVE:  u32 m, u32 k                            save N L sum S
 *   6 BODY:  u32 n, n image bytes, u16 kind          body L sum S
 *   7 POKE:  u32 at, u8 value                        prints nothing
 *   8 TEXT:  u8 n, n bytes                           these bytes
 * Answers and output are filled with 170 before a call. An unknown op, a script that ends inside an operation, and an m, k or place
 * beyond its buffer print `script` and end the script. */
#include "libc.h"
#include "oracle.h"
#include "records.h"

enum { CHECK_OP = 1, LOAD_OP = 2, STEP_OP = 3, RUN_OP = 4, SAVE_OP = 5, BODY_OP = 6, POKE_OP = 7, TEXT_OP = 8 };

enum { BUFFER_BYTES = 65600, ANSWERS_MOST = 5000, OUTPUT_MOST = 65536, SHOWN_MOST = 40, FILL = 170, SCRIPT_MOST = 1 << 26 };

static uint8_t memory[BUFFER_BYTES];

/* What is left of a script; once too much is asked of it, it is broken and gives zeros. */
struct script {
    const uint8_t *at;
    size_t left;
    bool broken;
};

/* The next n bytes. */
static const uint8_t *next_bytes(struct script *script, size_t n)
{
    static const uint8_t zeros[8];
    if (n > script->left) {
        script->broken = true;
        script->left = 0;
        return zeros;
    }
    const uint8_t *bytes = script->at;
    script->at += n;
    script->left -= n;
    return bytes;
}

/* The next u8. */
static uint8_t next_byte(struct script *script)
{
    return *next_bytes(script, 1);
}

/* The next u16. */
static uint16_t next_word(struct script *script)
{
    return read_word(next_bytes(script, 2));
}

/* The next u32. */
static uint32_t next_long(struct script *script)
{
    return read_long(next_bytes(script, 4));
}

/* The next u32, which must not exceed a most. */
static uint32_t next_size(struct script *script, uint32_t most)
{
    uint32_t size = next_long(script);
    if (size > most)
        script->broken = true;
    return size;
}

/* The Adler-32 sum of bytes. */
static uint32_t sum(const uint8_t *bytes, size_t n)
{
    uint32_t a = 1, b = 0;
    for (size_t i = 0; i < n; i++) {
        a = (a + bytes[i]) % 65521;
        b = (b + a) % 65521;
    }
    return b * 65536 + a;
}

/* Ends the line of a call that may have changed memory. */
static void print_memory(void)
{
    printf(" memory %u\n", sum(memory, sizeof memory));
}

/* Runs CHECK. */
static void run_check(struct script *script)
{
    uint32_t n = next_long(script);
    const uint8_t *image = next_bytes(script, n);
    if (script->broken)
        return;
    uint32_t verdict = oracle_check(image, n);
    printf("check %u %u\n", verdict % 256, verdict / 256);
}

/* Runs LOAD. */
static void run_load(struct script *script)
{
    uint32_t m = next_size(script, BUFFER_BYTES), n = next_long(script);
    const uint8_t *image = next_bytes(script, n);
    if (script->broken)
        return;
    uint32_t verdict = oracle_load(image, n, memory, m);
    printf("load %u %u", verdict % 256, verdict / 256);
    print_memory();
}

/* Runs STEP. */
static void run_step(struct script *script)
{
    uint32_t m = next_size(script, BUFFER_BYTES);
    uint64_t low = next_long(script), high = next_long(script);
    if (script->broken)
        return;
    printf("step %u", oracle_step(memory, m, low | high << 32));
    print_memory();
}

/* Runs RUN. */
static void run_run(struct script *script)
{
    static uint8_t answers[ANSWERS_MOST];
    uint32_t m = next_size(script, BUFFER_BYTES), n = next_long(script);
    const uint8_t *steps = next_bytes(script, n);
    uint32_t k = next_size(script, ANSWERS_MOST);
    if (script->broken)
        return;
    memset(answers, FILL, sizeof answers);
    printf("run %u", oracle_run(memory, m, steps, n, answers, k));
    for (uint32_t i = 0; i < k && i < SHOWN_MOST; i++)
        printf(" %d", answers[i]);
    printf(" sum %u", sum(answers, k));
    print_memory();
}

/* Runs SAVE. */
static void run_save(struct script *script)
{
    static uint8_t output[OUTPUT_MOST];
    uint32_t m = next_size(script, BUFFER_BYTES), k = next_size(script, OUTPUT_MOST);
    if (script->broken)
        return;
    memset(output, FILL, sizeof output);
    uint64_t saved = oracle_save(memory, m, output, k);
    printf("save %u %u sum %u\n", (uint32_t)(saved % 256), (uint32_t)(saved / 256), sum(output, k));
}

/* Runs BODY. */
static void run_body(struct script *script)
{
    uint32_t n = next_long(script);
    const uint8_t *image = next_bytes(script, n);
    uint16_t kind = next_word(script);
    if (script->broken)
        return;
    uint64_t body = oracle_body(image, n, kind);
    uint32_t start = (uint32_t)body, length = (uint32_t)(body >> 32);
    printf("body %u sum %u\n", length, sum(image + start, length));
}

/* Runs POKE. */
static void run_poke(struct script *script)
{
    uint32_t at = next_size(script, BUFFER_BYTES - 1);
    uint8_t value = next_byte(script);
    if (!script->broken)
        memory[at] = value;
}

/* Runs TEXT. */
static void run_text(struct script *script)
{
    uint8_t n = next_byte(script);
    const uint8_t *text = next_bytes(script, n);
    if (script->broken)
        return;
    fwrite(text, 1, n, stdout);
    printf("\n");
}

/* Runs the next operation. */
static void run_operation(struct script *script)
{
    static void (*const operations[])(struct script *) = {
        [CHECK_OP] = run_check, [LOAD_OP] = run_load, [STEP_OP] = run_step, [RUN_OP] = run_run,
        [SAVE_OP] = run_save,   [BODY_OP] = run_body, [POKE_OP] = run_poke, [TEXT_OP] = run_text,
    };
    uint8_t op = next_byte(script);
    if (op < CHECK_OP || op > TEXT_OP)
        script->broken = true;
    else
        operations[op](script);
}

/* Runs one script from memory that is zero. */
static void run_script(struct script script)
{
    memset(memory, 0, sizeof memory);
    while (script.left > 0 && !script.broken)
        run_operation(&script);
    if (script.broken)
        printf("script\n");
}

int main(int count, char **paths)
{
    static uint8_t bytes[SCRIPT_MOST];
    for (int i = 1; i < count; i++) {
        FILE *file = fopen(paths[i], "rb");
        if (file == 0) {
            printf("cannot read %s\n", paths[i]);
            return 2;
        }
        size_t n = fread(bytes, 1, sizeof bytes, file);
        fclose(file);
        run_script((struct script){.at = bytes, .left = n});
    }
    return 0;
}
