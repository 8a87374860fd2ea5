/*
 * SPDX-License-Identifier: Apache-2.0 OR MIT
 *
 * isonkaypu.h: the proved checker for C and C++. These are all the functions of libisonkaypu.a.
 * `page/isonkaypu-sys/archive` makes the library; of the C library it needs `memcpy` and `memset`, no more.
 *
 * What a caller guarantees
 *   - A pointer with a length points to that many elements: bytes of an image or a name, 16-bit
 *     words of a lent buffer. Where the length is 0 the pointer may be null and nothing is read or
 *     written through it. No other pointer may be null.
 *   - What is written (`place`, `from`, `to`, `numbers`, `yes`, `words`, `count`) overlaps neither
 *     what is read (`image`, `name`) nor anything else that is written. Image and name may overlap.
 *   - Pointers are aligned as their types ask, and no other thread writes to any of this memory, or
 *     reads what is written, while the call runs.
 *   - The thread has ISONKAYPU_STACK bytes of stack left.
 *
 * What a caller need not look after
 *   - Every byte string of every length may be given as an image, and every one as a name. What is
 *     no image is refused by number.
 *   - Every call ends. It takes no memory but its stack, reads and writes no file, and keeps nothing
 *     from one call to the next: there is no global state, so any number of threads may call at once.
 *
 * The number that a function returns; each has a name below
 *   0         accepted, answered or listed
 *   1 to 8    the image is refused; docs/HELP.md says which fault has which number
 *   9         isonkaypu_list only: the buffer is too short
 *   10, 13    isonkaypu_why only: the buffer is too short; no lot stands at the place
 *   20 to 62  resolve, access and linear only: the code of the first offence
 *             (resolve 20 to 40, access 50 and 51, linear 60 to 62)
 * Let a contract through only where every number is ISONKAYPU_ACCEPTED: later versions may have more.
 *
 * What a call writes
 *   `place`, `from`, `to`, `yes`, `count` and `numbers` are answers: every call writes those it has.
 *   (The `place` of isonkaypu_why is none: it is a number that is given, and no pointer.)
 *   On each of 1 to 10 and 13 they are 0, but for the refusal itself, which stands in `numbers` three
 *   times; and no word of a lent buffer has changed. An image and a name are never written to.
 */
#ifndef ISONKAYPU_H
#define ISONKAYPU_H

#include <stddef.h>
#include <stdint.h>

/* The version of the library. */
#define ISONKAYPU_VERSION_MAJOR 0
#define ISONKAYPU_VERSION_MINOR 1
#define ISONKAYPU_VERSION_PATCH 0
#define ISONKAYPU_VERSION "0.1.0"

/*
 * Bytes of stack that are enough for any call, with room to spare. Measured of every function by
 * painting a stack and looking how far down a call had written, over the images at every limit of
 * document 01, its patterns, the benchmark's contracts and 20,000 generated images. On x86-64 the most
 * are 35,688 bytes, by isonkaypu_verdicts (the crates of commit 360cd1f); isonkaypu_why, which came
 * later, takes under 15,000. The first call of a program that binds `memset` lazily takes more, since
 * the dynamic linker works on the same stack: 38,664, of one image (samples/ward.image). On aarch64
 * 38,864 were measured, in an earlier build. No function calls itself and the frames are of fixed
 * size, so the need does not grow with the image.
 */
#define ISONKAYPU_STACK 65536

/* Whoever does not look at the number lets everything through. Compilers that can say so do. */
#if defined(__GNUC__)
#define ISONKAYPU_MUST_USE __attribute__((warn_unused_result))
#else
#define ISONKAYPU_MUST_USE
#endif

/* The numbers by name, with document 01's condition in a few words; docs/HELP.md has each at length. */
enum {
    ISONKAYPU_ACCEPTED = 0, /* accepted, answered or listed */

    /* refusals of the image, in the order in which they are tested */
    ISONKAYPU_IMAGE_LENGTH = 1, /* length under 24 or over 51,226 */
    ISONKAYPU_IMAGE_VERSION = 2, /* version not 1, or header zero not 0 */
    ISONKAYPU_IMAGE_COUNTS = 3, /* no nodes, over 2,048 nodes, or over 1,024 names */
    ISONKAYPU_IMAGE_OFFSETS = 4, /* an offset or the total is not as it must be */
    ISONKAYPU_IMAGE_NAMES = 5, /* text offsets, a name's length or form, or the order of names */
    ISONKAYPU_IMAGE_TREE = 6, /* the nodes do not form a contract's tree */
    ISONKAYPU_IMAGE_DEPTH = 7, /* a node has over 64 ancestors */
    ISONKAYPU_IMAGE_UNUSED_NAME = 8, /* a name is unused */

    ISONKAYPU_LIST_TOO_SHORT = 9, /* isonkaypu_list only: fewer than 4 words per offence */
    ISONKAYPU_BUFFER_TOO_SHORT = 10, /* isonkaypu_why only: fewer than 2 words per clause and use */
    ISONKAYPU_NO_LOT_THERE = 13, /* isonkaypu_why only: the place is that of no tracked asset */

    /* offences of resolve */
    ISONKAYPU_FIELD_TWICE = 20, /* field name met before */
    ISONKAYPU_EVENT_TWICE = 21, /* event name met before */
    ISONKAYPU_MINT_ASSET_OF_SEVERAL = 22, /* mint_asset is called with over one asset declared */
    ISONKAYPU_ENTRY_TWICE = 23, /* entry whose signature equals an earlier one's */
    ISONKAYPU_PARAMETER_IS_STATE = 24, /* parameter has a state name */
    ISONKAYPU_PARAMETER_TWICE = 25, /* parameter name met before in this entry */
    ISONKAYPU_LET_USED_BEFORE = 26, /* name of a let used before that let */
    ISONKAYPU_LET_TWICE = 27, /* let has the name of an earlier let */
    ISONKAYPU_LET_IS_STATE = 28, /* let has a state name */
    ISONKAYPU_LET_IS_PARAMETER = 29, /* let has a parameter's name */
    ISONKAYPU_EVENT_UNDECLARED = 30, /* emitted event not declared */
    ISONKAYPU_EVENT_VALUES = 31, /* emitted with another number of values than declared */
    ISONKAYPU_DEPLOYER_OUTSIDE_GENESIS = 32, /* deployer used in an entry or an invariant */
    ISONKAYPU_GENESIS_ASSIGNS_NO_STATE = 33, /* genesis assigns to what is no state name */
    ISONKAYPU_CALL_UNKNOWN = 34, /* call that the language does not have */
    ISONKAYPU_SIGNER_NO_STATE = 35, /* signer is no state name */
    ISONKAYPU_CLAUSE_NO_STATE = 36, /* writes or reads names what is no state name */
    ISONKAYPU_CONSERVES_UNKNOWN = 37, /* conserves names an unknown asset */
    ISONKAYPU_MINTS_UNDECLARED = 38, /* mints names an asset that is not declared */
    ISONKAYPU_BURNS_UNDECLARED = 39, /* burns names an asset that is not declared */
    ISONKAYPU_ADDRESS_CALLED = 40, /* call on caller or on an address */

    /* offences of access */
    ISONKAYPU_INVARIANT_NO_STATE = 50, /* invariant names what is no state name */
    ISONKAYPU_WRITE_NOT_NAMED = 51, /* state name written that no writes clause has */

    /* offences of linear */
    ISONKAYPU_LOT_RENAMED = 60, /* let gives a lot a second name */
    ISONKAYPU_LOT_UNUSED = 61, /* lot without a use */
    ISONKAYPU_LOT_USED_TWICE = 62 /* lot with more than one use */
};

#ifdef __cplusplus
extern "C" {
#endif

/* 0 where the image is admitted, else its refusal, 1 to 8. */
ISONKAYPU_MUST_USE size_t isonkaypu_refusal(const uint8_t *image, size_t image_len);

/*
 * The verdict of one pass: 0 accepted, 1 to 8 the image's refusal, else the code of the pass's first
 * offence. `place` is the number of the node where that offence stands, and `from` and `to` are this
 * node's two span words, as the image carries them. All three are written in every case: 0 on
 * acceptance and on refusal.
 */
ISONKAYPU_MUST_USE size_t isonkaypu_resolve(
    const uint8_t *image, size_t image_len, uint16_t *place, uint32_t *from, uint32_t *to);
ISONKAYPU_MUST_USE size_t isonkaypu_access(
    const uint8_t *image, size_t image_len, uint16_t *place, uint32_t *from, uint32_t *to);
ISONKAYPU_MUST_USE size_t isonkaypu_linear(
    const uint8_t *image, size_t image_len, uint16_t *place, uint32_t *from, uint32_t *to);

/*
 * The three verdicts, with the image checked once. Always writes 12 numbers: the verdict's number,
 * place, from and to of resolve, then of access, then of linear. A refused image gives each of the
 * three its refusal and zeros.
 */
void isonkaypu_verdicts(const uint8_t *image, size_t image_len, size_t numbers[12]);

/*
 * Questions about a name: is it a state field, a declared asset, a known asset? Names are equal only
 * when their bytes are. Returns 0 and sets `yes` to 1 for yes and 0 for no; or returns the image's
 * refusal, 1 to 8, with `yes` 0.
 */
ISONKAYPU_MUST_USE size_t isonkaypu_is_state(
    const uint8_t *image, size_t image_len, const uint8_t *name, size_t name_len, uint8_t *yes);
ISONKAYPU_MUST_USE size_t isonkaypu_is_declared_asset(
    const uint8_t *image, size_t image_len, const uint8_t *name, size_t name_len, uint8_t *yes);
ISONKAYPU_MUST_USE size_t isonkaypu_is_known_asset(
    const uint8_t *image, size_t image_len, const uint8_t *name, size_t name_len, uint8_t *yes);

/*
 * The full list: every offence of resolve, then of access, then of linear. A record is four words:
 * code, place, related node (0 where there is none), and the Entry node that contains the place (0
 * outside entries). Related are, for 20, 21, 23, 25 and 27, the first earlier declaration of that name
 * (23: of that signature), and for 62 the other use of the lot: where a Burns clause uses it already,
 * the first counted occurrence, else the second.
 * Returns 0, `count` is the number of records, and they stand in `words` from its start; words past
 * the last record are as they were.
 * A buffer with fewer than four words for each offence gives 9, a broken image its refusal, 1 to 8:
 * then `count` is 0 and nothing was written to `words`.
 */
ISONKAYPU_MUST_USE size_t isonkaypu_list(
    const uint8_t *image, size_t image_len, uint16_t *words, size_t words_len, size_t *count);

/*
 * One pass's own part of the list, in the same form. This is never refused with 9: `count` is the
 * number of all records of the pass, and as many of their words are written as fit. So `count` can be
 * more than what was written; the last record written may be cut short; and with `words_len` 0 the
 * records are only counted. Four times the sum of the three counts is the room that isonkaypu_list
 * asks for. A broken image gives its refusal, 1 to 8, `count` 0 and an unchanged buffer.
 */
ISONKAYPU_MUST_USE size_t isonkaypu_resolve_list(
    const uint8_t *image, size_t image_len, uint16_t *words, size_t words_len, size_t *count);
ISONKAYPU_MUST_USE size_t isonkaypu_access_list(
    const uint8_t *image, size_t image_len, uint16_t *words, size_t words_len, size_t *count);
ISONKAYPU_MUST_USE size_t isonkaypu_linear_list(
    const uint8_t *image, size_t image_len, uint16_t *words, size_t words_len, size_t *count);

/*
 * Why a lot is refused, or is not: every clause that burns it and every use of it. `place` is the lot's own
 * node, as 61 and 62 have it: the Name of a parameter of type Q_Asset, or a Let whose value is a call of
 * `split` or `mint`. Any number may be given.
 * An entry is two words. First, for each burn mark of the lot, in the order of the parameters: the Name in
 * the first Burns clause that gives the mark, and 0. Then, for each counted occurrence, in preorder: its
 * Ident, and the Call or the Assign that takes it. Where parameters have one name, all marks are the first
 * one's and all occurrences the last one's; a clause that marks two of them is there twice.
 * Returns 0, `count` is the number of words, twice that of the entries, and they stand in `words` from its
 * start; words past them are as they were. A lot of a 61 has no entry, one of a 62 has two or more, any
 * other has one. 4,096 words are enough for every image.
 * A broken image gives its refusal, 1 to 8; a place at which no lot stands 13; a buffer with fewer words
 * than are asked for 10, in this order: then `count` is 0 and nothing was written to `words`.
 */
ISONKAYPU_MUST_USE size_t isonkaypu_why(
    const uint8_t *image, size_t image_len, size_t place, uint16_t *words, size_t words_len, size_t *count);

#ifdef __cplusplus
}
#endif

#endif
