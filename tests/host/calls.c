/*
 * What include/aria.h says of NULL, of refusals, of tags and of versions, seen on the machine code:
 * a pointer may be NULL where its length is 0, a refused run or tag is as it was, tags are those of
 * another implementation and wrong ones are told, and the version macros agree.
 *
 * C99 and C++ alike. The header is included twice, as happens by way of other headers.
 */
#include "aria.h"
#include "aria.h"

#include <stdio.h>
#include <string.h>

typedef uint32_t block_run(const uint8_t *key, size_t key_len, uint32_t direction, uint8_t *run,
                           size_t run_len);

static unsigned calls = 0;
static unsigned wrong = 0;

static void expect(const char *engine, block_run *run, const uint8_t *key, size_t key_len,
                   uint32_t direction, uint8_t *blocks, size_t blocks_len, uint32_t expected)
{
    uint32_t answer = run(key, key_len, direction, blocks, blocks_len);
    calls++;
    if (answer != expected) {
        wrong++;
        fprintf(stderr, "%s, key %s of %u bytes, direction %lu, run %s of %u bytes: %lu, not %lu\n", engine,
                key ? "there" : "NULL", (unsigned)key_len, (unsigned long)direction,
                blocks ? "there" : "NULL", (unsigned)blocks_len, (unsigned long)answer,
                (unsigned long)expected);
    }
}

static void try_engine(const char *engine, block_run *run)
{
    static const uint32_t DIRECTIONS[] = {ARIA_FORWARD, ARIA_BACK, 2, UINT32_MAX};
    static const size_t KEY_LENGTHS[] = {16, 24, 32};
    uint8_t key[32], blocks[32], before[32];
    size_t d, k;

    memset(key, 0x3c, sizeof key);
    memset(blocks, 0x5a, sizeof blocks);
    memcpy(before, blocks, sizeof blocks);

    for (d = 0; d < sizeof DIRECTIONS / sizeof *DIRECTIONS; d++) {
        uint32_t direction = DIRECTIONS[d];
        int known = direction == ARIA_FORWARD || direction == ARIA_BACK;
        uint32_t empty_run = known ? ARIA_OK : ARIA_REFUSED_DIRECTION;
        uint32_t part_run = known ? ARIA_REFUSED_RUN_LENGTH : ARIA_REFUSED_DIRECTION;

        expect(engine, run, NULL, 0, direction, NULL, 0, ARIA_REFUSED_KEY_LENGTH);
        expect(engine, run, NULL, 0, direction, blocks, sizeof blocks, ARIA_REFUSED_KEY_LENGTH);
        expect(engine, run, key, 0, direction, NULL, 0, ARIA_REFUSED_KEY_LENGTH);
        for (k = 0; k < sizeof KEY_LENGTHS / sizeof *KEY_LENGTHS; k++) {
            expect(engine, run, key, KEY_LENGTHS[k] - 1, direction, NULL, 0, ARIA_REFUSED_KEY_LENGTH);
            expect(engine, run, key, KEY_LENGTHS[k], direction, NULL, 0, empty_run);
            expect(engine, run, key, KEY_LENGTHS[k], direction, blocks, 0, empty_run);
            expect(engine, run, key, KEY_LENGTHS[k], direction, blocks, 31, part_run);
        }
    }
    if (memcmp(blocks, before, sizeof blocks) != 0) {
        wrong++;
        fprintf(stderr, "%s: a refused or an empty run changed bytes\n", engine);
    }
}

enum { TAG_LEN = 16, BESIDE = 16 };

/* Of the bytes 00, 01, 02 and so on the first are the key, and the first the run. The tags are
 * those that OpenSSL's libcrypto makes, in hexadecimal. */
static const struct {
    size_t key_len, run_len;
    const char *tag;
} KNOWN[] = {
    {16, 0, "67a59b2eb6f1fcbe11d03b919ce21d74"},
    {16, 1, "4121535f4602c9acdbba29300d92b8ff"},
    {16, 16, "d9c1f6185b481580607670f0208cc0cd"},
    {16, 40, "0735c4de33de1e03247ec2e521d9f74e"},
    {16, 64, "9e9f34fb110933f0d12b6540019d19e5"},
    {24, 0, "00156f2f78986f1745c837a2146c8db7"},
    {24, 1, "f74fdc026a39ea534af9b7758c2fc6be"},
    {24, 16, "6a9fb56c0a9e83d6cd2323084d22f7fa"},
    {24, 40, "abdc80a9d4320c99d85990d0f6835ab7"},
    {24, 64, "7b0978cd30a2428858967994d37951fb"},
    {32, 0, "aad0ba9f52018182de6f2ce6a1c75bf1"},
    {32, 1, "c14cc6ad47199020d1211c017a5f61f7"},
    {32, 16, "07dca7c5ff1e6eece355893077fdf2c5"},
    {32, 40, "7203671b9f7a507b5fdf9a8d0a3d0ca1"},
    {32, 64, "3973c0840bfeb5211e01a510a39d09fc"},
};

static void expect_tag(const char *call, uint32_t answer, size_t key_len, const uint8_t *run,
                       size_t run_len, const uint8_t *tag, size_t tag_len, uint32_t expected)
{
    calls++;
    if (answer != expected) {
        wrong++;
        fprintf(stderr, "%s, key of %u bytes, run %s of %u, tag %s of %u: %lu, not %lu\n", call,
                (unsigned)key_len, run ? "there" : "NULL", (unsigned)run_len,
                tag ? "there" : "NULL", (unsigned)tag_len, (unsigned long)answer,
                (unsigned long)expected);
    }
}

static void make(const uint8_t *key, size_t key_len, const uint8_t *run, size_t run_len,
                 uint8_t *tag, size_t tag_len, uint32_t expected)
{
    uint32_t answer = aria_cmac(key, key_len, run, run_len, tag, tag_len);
    expect_tag("cmac", answer, key_len, run, run_len, tag, tag_len, expected);
}

static void verify(const uint8_t *key, size_t key_len, const uint8_t *run, size_t run_len,
                   const uint8_t *tag, size_t tag_len, uint32_t expected)
{
    uint32_t answer = aria_cmac_verify(key, key_len, run, run_len, tag, tag_len);
    expect_tag("cmac_verify", answer, key_len, run, run_len, tag, tag_len, expected);
}

/* Both calls, which are refused alike. */
static void refuse(const uint8_t *key, size_t key_len, const uint8_t *run, size_t run_len,
                   uint8_t *tag, size_t tag_len, uint32_t expected)
{
    make(key, key_len, run, run_len, tag, tag_len, expected);
    verify(key, key_len, run, run_len, tag, tag_len, expected);
}

static void try_known_tag(const uint8_t *key, size_t key_len, const uint8_t *run, size_t run_len,
                          const char *known)
{
    uint8_t lent[BESIDE + TAG_LEN + BESIDE], before[sizeof lent], other[64];
    uint8_t *tag = lent + BESIDE;
    char text[2 * TAG_LEN + 1];
    size_t i;

    memset(before, 0x5a, sizeof before);
    memcpy(lent, before, sizeof lent);
    make(key, key_len, run, run_len, tag, TAG_LEN, ARIA_OK);
    for (i = 0; i < TAG_LEN; i++)
        snprintf(text + 2 * i, 3, "%02x", tag[i]);
    if (strcmp(text, known) != 0) {
        wrong++;
        fprintf(stderr, "cmac, key of %u bytes, run of %u bytes: %s, not %s\n", (unsigned)key_len,
                (unsigned)run_len, text, known);
    }
    memcpy(before + BESIDE, tag, TAG_LEN);

    verify(key, key_len, run, run_len, tag, TAG_LEN, ARIA_OK);
    for (i = 0; i < 8 * TAG_LEN; i++) {
        memcpy(other, tag, TAG_LEN);
        other[i / 8] ^= (uint8_t)(1u << i % 8);
        verify(key, key_len, run, run_len, other, TAG_LEN, ARIA_TAG_DIFFERS);
    }
    for (i = 0; i < run_len; i++) {
        memcpy(other, run, run_len);
        other[i] ^= 1;
        verify(key, key_len, other, run_len, tag, TAG_LEN, ARIA_TAG_DIFFERS);
    }
    if (memcmp(lent, before, sizeof lent) != 0) {
        wrong++;
        fprintf(stderr, "cmac: bytes beside a tag, or a tag that was verified, changed\n");
    }
}

static void try_tags(void)
{
    static const size_t KEY_LENGTHS[] = {16, 24, 32};
    uint8_t key[32], run[64], tag[TAG_LEN + 1];
    uint8_t key_before[sizeof key], run_before[sizeof run], tag_before[sizeof tag];
    size_t i;

    for (i = 0; i < sizeof run; i++)
        run[i] = (uint8_t)i;
    memcpy(key, run, sizeof key);
    memset(tag, 0x5a, sizeof tag);
    memcpy(key_before, key, sizeof key);
    memcpy(run_before, run, sizeof run);
    memcpy(tag_before, tag, sizeof tag);

    for (i = 0; i < sizeof KNOWN / sizeof *KNOWN; i++) {
        try_known_tag(key, KNOWN[i].key_len, run, KNOWN[i].run_len, KNOWN[i].tag);
        if (KNOWN[i].run_len == 0)
            try_known_tag(key, KNOWN[i].key_len, NULL, 0, KNOWN[i].tag);
        /* what is only read may overlap */
        try_known_tag(run, KNOWN[i].key_len, run, KNOWN[i].run_len, KNOWN[i].tag);
    }
    verify(run, 16, run, sizeof run, run + 8, TAG_LEN, ARIA_TAG_DIFFERS);

    refuse(NULL, 0, NULL, 0, NULL, 0, ARIA_REFUSED_KEY_LENGTH);
    refuse(NULL, 0, run, sizeof run, tag, TAG_LEN, ARIA_REFUSED_KEY_LENGTH);
    refuse(key, 0, run, sizeof run, tag, TAG_LEN, ARIA_REFUSED_KEY_LENGTH);
    for (i = 0; i < sizeof KEY_LENGTHS / sizeof *KEY_LENGTHS; i++) {
        size_t key_len = KEY_LENGTHS[i];
        refuse(key, key_len - 1, run, sizeof run, tag, TAG_LEN, ARIA_REFUSED_KEY_LENGTH);
        refuse(key, key_len - 1, run, sizeof run, tag, TAG_LEN - 1, ARIA_REFUSED_KEY_LENGTH);
        refuse(key, key_len - 1, NULL, 0, NULL, 0, ARIA_REFUSED_KEY_LENGTH);
        refuse(key, key_len, NULL, 0, NULL, 0, ARIA_REFUSED_TAG_LENGTH);
        refuse(key, key_len, run, sizeof run, NULL, 0, ARIA_REFUSED_TAG_LENGTH);
        refuse(key, key_len, run, sizeof run, tag, 0, ARIA_REFUSED_TAG_LENGTH);
        refuse(key, key_len, run, sizeof run, tag, TAG_LEN - 1, ARIA_REFUSED_TAG_LENGTH);
        refuse(key, key_len, run, sizeof run, tag, TAG_LEN + 1, ARIA_REFUSED_TAG_LENGTH);
    }
    if (memcmp(tag, tag_before, sizeof tag) != 0) {
        wrong++;
        fprintf(stderr, "cmac: a refused tag changed\n");
    }
    if (memcmp(key, key_before, sizeof key) != 0 || memcmp(run, run_before, sizeof run) != 0) {
        wrong++;
        fprintf(stderr, "cmac: a key or a run changed\n");
    }
}

static void try_version(void)
{
    char text[32];
    snprintf(text, sizeof text, "%d.%d.%d", ARIA_VERSION_MAJOR, ARIA_VERSION_MINOR, ARIA_VERSION_PATCH);
    if (strcmp(text, ARIA_VERSION) != 0) {
        wrong++;
        fprintf(stderr, "ARIA_VERSION is %s, its parts say %s\n", ARIA_VERSION, text);
    }
}

int main(void)
{
    try_engine("plain", aria_run_plain);
    try_engine("tables", aria_run_tables);
    try_tags();
    try_version();
    printf("version %s: %u calls, %u wrong\n", ARIA_VERSION, calls, wrong);
    return wrong != 0;
}
