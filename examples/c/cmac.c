/*
 * Makes the tag of a message by CMAC and verifies it; then sees that another message does not pass
 * for it, and shows a refusal.
 *
 * From the repository's top, after `tools/build.sh aria_c`:
 *
 *   cc -Iinclude examples/c/cmac.c target/staticlib/libaria.a -o target/cmac && target/cmac
 *
 * It prints what it got, and ends with status 0 only if the tag is the one that OpenSSL's libcrypto
 * makes and each answer is the right one.
 */
#include "aria.h"

#include <stdio.h>
#include <string.h>

enum { TAG_LEN = 16 };

/* A key for tags alone: nothing is encrypted under it. */
static const uint8_t KEY[16] = {0x10, 0x11, 0x12, 0x13, 0x14, 0x15, 0x16, 0x17,
                                0x18, 0x19, 0x1a, 0x1b, 0x1c, 0x1d, 0x1e, 0x1f};

/* A run of any length will do. */
static const char MESSAGE[] = "24000017 dried";
static const char CHANGED[] = "24000018 dried";

static const uint8_t TAG[TAG_LEN] = {0x4f, 0x38, 0xf0, 0x3b, 0xd9, 0x72, 0x00, 0x3e,
                                     0xf9, 0xeb, 0x57, 0x3f, 0xbb, 0x66, 0xc2, 0xf8};

/* Makes the message's tag and prints it: 0 if it is the expected one, else 1, having said why. */
static int make(uint8_t tag[TAG_LEN])
{
    uint32_t answer =
        aria_cmac(KEY, sizeof KEY, (const uint8_t *)MESSAGE, strlen(MESSAGE), tag, TAG_LEN);
    if (answer != ARIA_OK) {
        fprintf(stderr, "tag: refused %u\n", (unsigned)answer);
        return 1;
    }

    printf("tag ");
    for (size_t i = 0; i < TAG_LEN; i++)
        printf("%02x", tag[i]);
    printf("\n");

    if (memcmp(tag, TAG, TAG_LEN) != 0) {
        fprintf(stderr, "tag: not the one that libcrypto makes\n");
        return 1;
    }
    return 0;
}

/* Prints whether the tag is the message's: 0 if that is the expected answer, else 1. */
static int verify(const char *what, const char *message, const uint8_t *tag, size_t tag_len,
                  uint32_t expected)
{
    uint32_t answer =
        aria_cmac_verify(KEY, sizeof KEY, (const uint8_t *)message, strlen(message), tag, tag_len);

    if (answer == ARIA_OK)
        printf("%s: yes\n", what);
    else if (answer == ARIA_TAG_DIFFERS)
        printf("%s: no\n", what);
    else
        printf("%s: refused %u\n", what, (unsigned)answer);

    if (answer != expected) {
        fprintf(stderr, "%s: not the answer that it should be\n", what);
        return 1;
    }
    return 0;
}

int main(void)
{
    uint8_t tag[TAG_LEN];

    return make(tag) || verify("the message", MESSAGE, tag, sizeof tag, ARIA_OK) ||
           verify("another message", CHANGED, tag, sizeof tag, ARIA_TAG_DIFFERS) ||
           verify("the message with half a tag", MESSAGE, tag, 8, ARIA_REFUSED_TAG_LENGTH);
}
