/*
 * The ARIA block cipher (RFC 5794) on runs of blocks, and CMAC (NIST SP 800-38B) with it, for C and
 * C++ on x86-64 Linux.
 *
 * Link target/staticlib/libaria.a, which `tools/build.sh aria_c` proves and writes. Of the C library
 * it needs memcpy and memset and nothing else; a freestanding program supplies these two. How to link
 * it, also as a shared library and by pkg-config, is in docs/LINKING.md.
 *
 * A block is 16 bytes. aria_run_plain and aria_run_tables encrypt or decrypt each block of a run on
 * its own, in place and in order (ECB). aria_cmac makes the tag of a run of any length, and
 * aria_cmac_verify says whether a tag is the run's. Other modes of operation are the caller's
 * affair.
 *
 * The two block runs give the same bytes and the same answers; they differ in speed and stack. Each
 * call prepares its key anew, which takes as long as several blocks do, so hand over long runs.
 * aria_run_tables also makes larger tables first, and then takes less time for a block: it is
 * faster from about four blocks on (where the two cross varies between one block and ten), and on
 * long runs takes two thirds of the time. On fewer blocks aria_run_plain is faster. So it was with
 * the toolchain before today's. The calls of CMAC make these tables too.
 *
 * A call keeps no state, allocates nothing and may be made from several threads at once, as long as
 * no other thread writes what it was handed, or touches what it writes, meanwhile. It takes about
 * 8 KiB of stack (plain) or 18 KiB (tables, CMAC). Its time may depend on the key and on the bytes,
 * by way of the processor's cache.
 */
#ifndef ARIA_H
#define ARIA_H

#include <stddef.h>
#include <stdint.h>

#ifdef __cplusplus
extern "C" {
#endif

/* The version of this interface. */
#define ARIA_VERSION_MAJOR 0
#define ARIA_VERSION_MINOR 2
#define ARIA_VERSION_PATCH 0
#define ARIA_VERSION "0.2.0"

/* Directions. */
#define ARIA_FORWARD UINT32_C(0) /* encrypt */
#define ARIA_BACK UINT32_C(1)    /* decrypt */

/* Answers: ARIA_OK, or the first that applies, in this order. The numbers leave gaps because they
 * are those of the README's list of refusals, of which a block run can give three, CMAC two, and its
 * comparison one more. */
#define ARIA_OK UINT32_C(0)
#define ARIA_REFUSED_KEY_LENGTH UINT32_C(1)  /* the key is not 16, 24 or 32 bytes long */
#define ARIA_REFUSED_DIRECTION UINT32_C(2)   /* the direction is neither 0 nor 1 */
#define ARIA_REFUSED_RUN_LENGTH UINT32_C(4)  /* the run's length is not a multiple of 16 */
#define ARIA_REFUSED_TAG_LENGTH UINT32_C(23) /* the lent tag is not 16 bytes long */
#define ARIA_TAG_DIFFERS UINT32_C(25)        /* aria_cmac_verify's no; ARIA_OK is its yes */

/*
 * Encrypts or decrypts every block of the run in place, by byte boxes.
 *
 *   key        the key; read, never written.
 *   key_len    the number of bytes at key: 16, 24 or 32, else the answer is 1.
 *   direction  0 encrypts and 1 decrypts; on any other number the answer is 2.
 *   run        the blocks, one after the other, at any address; they are overwritten by the result.
 *   run_len    the number of bytes at run: a multiple of 16, 0 included, else the answer is 4.
 *
 * Returns 0, or 1, 2 or 4 when the call is refused, and then the run is as it was.
 *
 * The caller's duty: key and run are valid for their lengths and do not overlap. A pointer may be NULL
 * where its length is 0: a NULL key is refused with 1 like any key of 0 bytes, and a NULL run is an
 * empty run.
 */
uint32_t aria_run_plain(const uint8_t *key, size_t key_len, uint32_t direction, uint8_t *run,
                        size_t run_len);

/*
 * Encrypts or decrypts every block of the run in place, by tables of 32-bit words. Arguments, answer,
 * bytes and the caller's duty are those of aria_run_plain.
 */
uint32_t aria_run_tables(const uint8_t *key, size_t key_len, uint32_t direction, uint8_t *run,
                         size_t run_len);

/*
 * Writes the CMAC of the run under the key: the whole tag of sixteen bytes, not cut short.
 *
 * Keep a key for tags alone. Under a key that also encrypts, whoever knows blocks both in plain and
 * encrypted can make other bytes with the same tag.
 *
 *   key        the key; read, never written.
 *   key_len    the number of bytes at key: 16, 24 or 32, else the answer is 1.
 *   run        the bytes that the tag is for, at any address; read, never written.
 *   run_len    the number of bytes at run: any, 0 included, and no multiple of 16 is needed.
 *   tag        where the tag goes, at any address; what stands there is overwritten.
 *   tag_len    the number of bytes at tag: 16, else the answer is 23.
 *
 * Returns 0, or 1 or 23, the first that applies, when the call is refused, and then the bytes at
 * tag are as they were.
 *
 * The caller's duty: key, run and tag are valid for their lengths, and tag overlaps neither key nor
 * run. A pointer may be NULL where its length is 0: a NULL key is refused with 1 like any key of 0
 * bytes, a NULL tag with 23 like any tag of 0 bytes, and a NULL run is an empty run, which has a
 * tag like any other.
 */
uint32_t aria_cmac(const uint8_t *key, size_t key_len, const uint8_t *run, size_t run_len,
                   uint8_t *tag, size_t tag_len);

/*
 * Says whether the sixteen bytes at tag are the CMAC of the run under the key. It makes the run's
 * tag and looks at all sixteen bytes of both, whatever they are, rather than end where they first
 * differ. Nothing is written.
 *
 *   key        the key.
 *   key_len    the number of bytes at key: 16, 24 or 32, else the answer is 1.
 *   run        the bytes that the tag is said to be for, at any address.
 *   run_len    the number of bytes at run: any, 0 included, and no multiple of 16 is needed.
 *   tag        the tag to be verified, at any address.
 *   tag_len    the number of bytes at tag: 16, else the answer is 23.
 *
 * Returns 0 where the tag is the run's, and 25 where it is not; or 1 or 23, the first that applies,
 * when the call is refused. So 0 alone says yes.
 *
 * The caller's duty: key, run and tag are valid for their lengths; they may overlap. A pointer may
 * be NULL where its length is 0, as for aria_cmac.
 */
uint32_t aria_cmac_verify(const uint8_t *key, size_t key_len, const uint8_t *run, size_t run_len,
                          const uint8_t *tag, size_t tag_len);

#ifdef __cplusplus
}
#endif

#endif
