/*
 * Encrypts and decrypts one block by both engines: the vector of RFC 5794, A.1. Then it shows a refusal.
 *
 * From the repository's top, after `tools/build.sh aria_c`:
 *
 *   cc -Iinclude examples/c/block.c target/staticlib/libaria.a -o target/block && target/block
 *
 * It prints what it got, and ends with status 0 only if that is what the RFC publishes.
 */
#include "aria.h"

#include <stdio.h>
#include <string.h>

enum { BLOCK_LEN = 16 };

static const uint8_t KEY[16] = {0x00, 0x01, 0x02, 0x03, 0x04, 0x05, 0x06, 0x07,
                                0x08, 0x09, 0x0a, 0x0b, 0x0c, 0x0d, 0x0e, 0x0f};

static const uint8_t PLAINTEXT[BLOCK_LEN] = {0x00, 0x11, 0x22, 0x33, 0x44, 0x55, 0x66, 0x77,
                                             0x88, 0x99, 0xaa, 0xbb, 0xcc, 0xdd, 0xee, 0xff};

static const uint8_t CIPHERTEXT[BLOCK_LEN] = {0xd7, 0x18, 0xfb, 0xd6, 0xab, 0x64, 0x4c, 0x73,
                                              0x9d, 0xa9, 0x5f, 0x3b, 0xe6, 0x45, 0x17, 0x78};

/* The type that both calls have. */
typedef uint32_t block_run(const uint8_t *key, size_t key_len, uint32_t direction, uint8_t *run,
                           size_t run_len);

/* Runs the block in place and prints it: 0 if it is then the expected one, else 1, having said why. */
static int run_block(const char *engine, block_run *run, uint32_t direction, uint8_t block[BLOCK_LEN],
                     const uint8_t expected[BLOCK_LEN])
{
    const char *name = direction == ARIA_FORWARD ? "forward" : "back";
    uint32_t answer = run(KEY, sizeof KEY, direction, block, BLOCK_LEN);
    if (answer != ARIA_OK) {
        fprintf(stderr, "%s %s: refused %u\n", engine, name, (unsigned)answer);
        return 1;
    }

    printf("%s %s ", engine, name);
    for (size_t i = 0; i < BLOCK_LEN; i++)
        printf("%02x", block[i]);
    printf("\n");

    if (memcmp(block, expected, BLOCK_LEN) != 0) {
        fprintf(stderr, "%s %s: not the published block\n", engine, name);
        return 1;
    }
    return 0;
}

/* A key of 15 bytes: 0 if the call is refused for it and the block is as it was, else 1. */
static int show_refusal(const char *engine, block_run *run)
{
    uint8_t block[BLOCK_LEN];
    memcpy(block, PLAINTEXT, sizeof block);

    uint32_t answer = run(KEY, 15, ARIA_FORWARD, block, sizeof block);
    printf("%s with a key of 15 bytes: refused %u\n", engine, (unsigned)answer);
    if (answer != ARIA_REFUSED_KEY_LENGTH || memcmp(block, PLAINTEXT, sizeof block) != 0) {
        fprintf(stderr, "%s: a short key was not refused as it should be\n", engine);
        return 1;
    }
    return 0;
}

static int show(const char *engine, block_run *run)
{
    uint8_t block[BLOCK_LEN];
    memcpy(block, PLAINTEXT, sizeof block);

    return run_block(engine, run, ARIA_FORWARD, block, CIPHERTEXT) ||
           run_block(engine, run, ARIA_BACK, block, PLAINTEXT) || show_refusal(engine, run);
}

int main(void)
{
    return show("plain", aria_run_plain) || show("tables", aria_run_tables);
}
