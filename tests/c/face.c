/*
 * The library as a C or C++ program meets it: every function of isonkaypu.h on document 01's example
 * P2, whose bytes are built here from the page, on P2 with version 2, and on no bytes at all; why a
 * lot is refused on P9 with one use more; and the entries of records on two entries of one name. What
 * is expected is what documents 01 and 02 say. All runs on a thread that has no more stack left than
 * the header asks for.
 */
#define _POSIX_C_SOURCE 200809L
#include "isonkaypu.h"

#include <limits.h>
#include <pthread.h>
#include <stdio.h>
#include <string.h>

enum { LENGTH = 172, P9_LENGTH = 380, NAMESAKES_LENGTH = 303, RECORD = 4, ROOM = 20 };

/* What lent memory holds before a call, so that what is not written shows. */
static const uint16_t UNSET = 0xa5a5;

typedef size_t Pass(const uint8_t *, size_t, uint16_t *, uint32_t *, uint32_t *);
typedef size_t Question(const uint8_t *, size_t, const uint8_t *, size_t, uint8_t *);
typedef size_t List(const uint8_t *, size_t, uint16_t *, size_t, size_t *);

static int passed, failed;

static void expect(const char *what, int holds)
{
    if (holds) {
        passed++;
    } else {
        failed++;
        printf("FAILED: %s\n", what);
    }
}

/* --- the bytes of an image --- */

/* A node without its spans: kind, name number, end. */
typedef struct {
    uint32_t kind, name, end;
} Node;

/* The nodes of a contract, and its names in the order of their numbers. */
typedef struct {
    const Node *nodes;
    const char *const *names;
    uint32_t n, m;
} Contract;

static const Node P2_NODES[] = {
    {1, 0, 8},  /* 0 Contract */
    {23, 2, 2}, /* 1   Name c */
    {9, 0, 8},  /* 2   Entry */
    {23, 3, 4}, /* 3     Name e */
    {10, 0, 8}, /* 4     Param */
    {23, 4, 6}, /* 5       Name x */
    {11, 0, 8}, /* 6       Type */
    {23, 1, 8}, /* 7         Name Q_Asset */
};
static const char *const P2_NAMES[] = {"Q_Asset", "c", "e", "x"};
static const Contract P2 = {P2_NODES, P2_NAMES, 8, 4};

/* P9, and behind its `send(to, x)` an assignment of x. */
static const Node P9_NODES[] = {
    {1, 0, 20},   /* 0 Contract */
    {23, 3, 2},   /* 1   Name c */
    {9, 0, 20},   /* 2   Entry */
    {23, 4, 4},   /* 3     Name e */
    {10, 0, 10},  /* 4     Param */
    {23, 8, 6},   /* 5       Name x */
    {11, 0, 10},  /* 6       Type */
    {23, 1, 8},   /* 7         Name Q_Asset */
    {11, 0, 10},  /* 8         Type */
    {23, 2, 10},  /* 9           Name T */
    {18, 0, 12},  /* 10    Burns */
    {23, 2, 12},  /* 11      Name T */
    {28, 0, 17},  /* 12    Stmt::Expr */
    {43, 0, 17},  /* 13      Call */
    {35, 6, 15},  /* 14        Ident send */
    {35, 7, 16},  /* 15        Ident to */
    {35, 8, 17},  /* 16        Ident x */
    {27, 0, 20},  /* 17    Assign */
    {35, 5, 19},  /* 18      Ident s */
    {35, 8, 20},  /* 19      Ident x */
};
static const char *const P9_NAMES[] = {"Q_Asset", "T", "c", "e", "s", "send", "to", "x"};
static const Contract P9 = {P9_NODES, P9_NAMES, 20, 8};

/* An invariant of what is no state field, and P2's entry twice. */
static const Node NAMESAKES_NODES[] = {
    {1, 0, 16},  /* 0 Contract */
    {23, 2, 2},  /* 1   Name c */
    {8, 0, 4},   /* 2   Invariant */
    {35, 5, 4},  /* 3     Ident y */
    {9, 0, 10},  /* 4   Entry */
    {23, 3, 6},  /* 5     Name e */
    {10, 0, 10}, /* 6     Param */
    {23, 4, 8},  /* 7       Name x */
    {11, 0, 10}, /* 8       Type */
    {23, 1, 10}, /* 9         Name Q_Asset */
    {9, 0, 16},  /* 10  Entry */
    {23, 3, 12}, /* 11    Name e */
    {10, 0, 16}, /* 12    Param */
    {23, 4, 14}, /* 13      Name x */
    {11, 0, 16}, /* 14      Type */
    {23, 1, 16}, /* 15        Name Q_Asset */
};
static const char *const NAMESAKES_NAMES[] = {"Q_Asset", "c", "e", "x", "y"};
static const Contract NAMESAKES = {NAMESAKES_NODES, NAMESAKES_NAMES, 16, 5};

/* The records of P2 and of the namesakes: code, place, related, entry. */
static const uint16_t P2_RECORDS[] = {61, 5, 0, 2};
static const uint16_t NAMESAKES_RECORDS[] = {23, 11, 5, 10, 50, 3, 0, 0, 61, 7, 0, 4, 61, 13, 0, 10};

static uint8_t *put(uint8_t *at, uint32_t value, int bytes)
{
    int k;
    for (k = 0; k < bytes; k++) *at++ = (uint8_t)(value >> 8 * k);
    return at;
}

/* How many bytes the first names have together. */
static uint32_t text_of(const Contract *of, uint32_t names)
{
    uint32_t k, bytes = 0;
    for (k = 0; k < names; k++) bytes += (uint32_t)strlen(of->names[k]);
    return bytes;
}

/* Version 1, how many nodes and names, zero; the offsets of nodes, names and text; the total. */
static uint8_t *put_header(uint8_t *at, const Contract *of)
{
    const uint32_t names = 24 + 16 * of->n, text = names + 2 * (of->m + 1);
    at = put(at, 1, 2);
    at = put(at, of->n, 2);
    at = put(at, of->m, 2);
    at = put(at, 0, 2);
    at = put(at, 24, 4);
    at = put(at, names, 4);
    at = put(at, text, 4);
    return put(at, text + text_of(of, of->m), 4);
}

/* Kind, zero, name number, end, zero, spans 10i and 10i+1. */
static uint8_t *put_node(uint8_t *at, uint32_t i, const Node *node)
{
    at = put(at, node->kind, 1);
    at = put(at, 0, 1);
    at = put(at, node->name, 2);
    at = put(at, node->end, 2);
    at = put(at, 0, 2);
    at = put(at, 10 * i, 4);
    return put(at, 10 * i + 1, 4);
}

/* Where each name begins in the text, and where it ends; the text. */
static uint8_t *put_names(uint8_t *at, const Contract *of)
{
    uint32_t k;
    for (k = 0; k <= of->m; k++) at = put(at, text_of(of, k), 2);
    for (k = 0; k < of->m; k++) {
        memcpy(at, of->names[k], strlen(of->names[k]));
        at += strlen(of->names[k]);
    }
    return at;
}

/* Builds the image, and gives its length. */
static size_t build(const Contract *of, uint8_t *image)
{
    uint8_t *at = put_header(image, of);
    uint32_t i;
    for (i = 0; i < of->n; i++) at = put_node(at, i, &of->nodes[i]);
    return (size_t)(put_names(at, of) - image);
}

/* --- one call, held against what it must answer --- */

static void verdict(const char *what, Pass *pass, const uint8_t *image, size_t length,
                    size_t number, uint16_t place, uint32_t from, uint32_t to)
{
    uint16_t p = UNSET;
    uint32_t f = UNSET, t = UNSET;
    size_t n = pass(image, length, &p, &f, &t);
    expect(what, n == number && p == place && f == from && t == to);
}

static void verdicts(const char *what, const uint8_t *image, size_t length, const size_t expected[12])
{
    size_t numbers[13], k;
    for (k = 0; k < 13; k++) numbers[k] = UNSET;
    isonkaypu_verdicts(image, length, numbers);
    expect(what, memcmp(numbers, expected, 12 * sizeof *numbers) == 0 && numbers[12] == UNSET);
}

static void question(const char *what, Question *ask, const uint8_t *image, size_t length,
                     const char *name, size_t number, uint8_t answer)
{
    uint8_t yes = 0xa5;
    size_t n = ask(image, length, (const uint8_t *)name, name ? strlen(name) : 0, &yes);
    expect(what, n == number && yes == answer);
}

/* A list in `lent` words: what it answers, and that it writes the first `written` of these words. */
static void list_of(const char *what, List *part, const uint8_t *image, size_t length, size_t lent,
                    size_t number, size_t records, size_t written, const uint16_t *expected)
{
    uint16_t words[ROOM];
    size_t count = UNSET, n, k;
    int same = 1;
    for (k = 0; k < ROOM; k++) words[k] = UNSET;
    n = part(image, length, lent ? words : NULL, lent, &count);
    for (k = 0; k < ROOM; k++) same = same && words[k] == (k < written ? expected[k] : UNSET);
    expect(what, n == number && count == records && same);
}

/* The same of P2's record. */
static void list(const char *what, List *part, const uint8_t *image, size_t length, size_t lent,
                 size_t number, size_t records, size_t written)
{
    list_of(what, part, image, length, lent, number, records, written, P2_RECORDS);
}

/* Why the lot at `place` of P9 is refused, in `lent` words: what it answers, and that it writes so many. */
static void why(const char *what, const uint8_t *image, size_t length, size_t place, size_t lent,
                size_t number, size_t written)
{
    static const uint16_t entries[6] = {11, 0, 16, 13, 19, 17};
    uint16_t words[ROOM];
    size_t count = UNSET, n, k;
    int same = 1;
    for (k = 0; k < ROOM; k++) words[k] = UNSET;
    n = isonkaypu_why(image, length, place, lent ? words : NULL, lent, &count);
    for (k = 0; k < ROOM; k++) same = same && words[k] == (k < written ? entries[k] : UNSET);
    expect(what, n == number && count == written && same);
}

/* --- the images --- */

static void on_p2(const uint8_t *p2)
{
    static const size_t numbers[12] = {0, 0, 0, 0, 0, 0, 0, 0, 61, 5, 50, 51};
    expect("P2 is admitted", isonkaypu_refusal(p2, LENGTH) == 0);
    verdict("P2: resolve", isonkaypu_resolve, p2, LENGTH, 0, 0, 0, 0);
    verdict("P2: access", isonkaypu_access, p2, LENGTH, 0, 0, 0, 0);
    verdict("P2: linear", isonkaypu_linear, p2, LENGTH, 61, 5, 50, 51);
    verdicts("P2: verdicts", p2, LENGTH, numbers);
}

static void questions_of_p2(const uint8_t *p2)
{
    question("QTOV is no state field", isonkaypu_is_state, p2, LENGTH, "QTOV", 0, 0);
    question("QTOV is not declared", isonkaypu_is_declared_asset, p2, LENGTH, "QTOV", 0, 0);
    question("QTOV is known", isonkaypu_is_known_asset, p2, LENGTH, "QTOV", 0, 1);
    question("qtov is not known", isonkaypu_is_known_asset, p2, LENGTH, "qtov", 0, 0);
    question("x is no state field", isonkaypu_is_state, p2, LENGTH, "x", 0, 0);
    question("x is not declared", isonkaypu_is_declared_asset, p2, LENGTH, "x", 0, 0);
    question("x is not known", isonkaypu_is_known_asset, p2, LENGTH, "x", 0, 0);
    question("no name is not known", isonkaypu_is_known_asset, p2, LENGTH, NULL, 0, 0);
}

static void lists_of_p2(const uint8_t *p2)
{
    list("the list with room to spare", isonkaypu_list, p2, LENGTH, ROOM, 0, 1, RECORD);
    list("the list in an exact buffer", isonkaypu_list, p2, LENGTH, RECORD, 0, 1, RECORD);
    list("the list one word short", isonkaypu_list, p2, LENGTH, RECORD - 1, 9, 0, 0);
    list("the list in no words", isonkaypu_list, p2, LENGTH, 0, 9, 0, 0);
    list("resolve's part", isonkaypu_resolve_list, p2, LENGTH, RECORD, 0, 0, 0);
    list("access's part", isonkaypu_access_list, p2, LENGTH, RECORD, 0, 0, 0);
    list("linear's part", isonkaypu_linear_list, p2, LENGTH, RECORD, 0, 1, RECORD);
    list("linear's part one word short", isonkaypu_linear_list, p2, LENGTH, RECORD - 1, 0, 1, RECORD - 1);
    list("linear's part, counted only", isonkaypu_linear_list, p2, LENGTH, 0, 0, 1, 0);
}

/* Each record has the entry that its place stands in: of two of one name its own, and 0 in the invariant. */
static void entries_of_namesakes(void)
{
    uint8_t image[NAMESAKES_LENGTH];
    const uint16_t *all = NAMESAKES_RECORDS;
    expect("the namesakes have 303 bytes", build(&NAMESAKES, image) == NAMESAKES_LENGTH);
    expect("the namesakes are admitted", isonkaypu_refusal(image, NAMESAKES_LENGTH) == 0);
    list_of("entries: with room to spare", isonkaypu_list, image, NAMESAKES_LENGTH, ROOM, 0, 4, 4 * RECORD, all);
    list_of("entries: in an exact buffer", isonkaypu_list, image, NAMESAKES_LENGTH, 4 * RECORD, 0, 4, 4 * RECORD, all);
    list_of("entries: one word short", isonkaypu_list, image, NAMESAKES_LENGTH, 4 * RECORD - 1, 9, 0, 0, all);
    list_of("entries: three words for each", isonkaypu_list, image, NAMESAKES_LENGTH, 12, 9, 0, 0, all);
    list_of("entries: resolve's part", isonkaypu_resolve_list, image, NAMESAKES_LENGTH, ROOM, 0, 1, RECORD, all);
    list_of("entries: access's part", isonkaypu_access_list, image, NAMESAKES_LENGTH, ROOM, 0, 1, RECORD,
            all + RECORD);
    list_of("entries: linear's part", isonkaypu_linear_list, image, NAMESAKES_LENGTH, ROOM, 0, 2, 2 * RECORD,
            all + 2 * RECORD);
    list_of("entries: linear's part one word short", isonkaypu_linear_list, image, NAMESAKES_LENGTH,
            2 * RECORD - 1, 0, 2, 2 * RECORD - 1, all + 2 * RECORD);
}

/* The lot of P2, which nothing uses, is at 5; no other number is a lot's place. */
static void why_p2(const uint8_t *p2)
{
    static const size_t no_lot[] = {0, 1, 4, 6, 7, 8, 2048, 65535, 65536 + 5, SIZE_MAX - 5, SIZE_MAX};
    size_t k;
    why("why: nothing uses the lot", p2, LENGTH, 5, ROOM, 0, 0);
    why("why: no word is asked for", p2, LENGTH, 5, 0, 0, 0);
    for (k = 0; k < sizeof no_lot / sizeof *no_lot; k++) {
        why("why: no lot, with room", p2, LENGTH, no_lot[k], ROOM, 13, 0);
        why("why: no lot, without room", p2, LENGTH, no_lot[k], 0, 13, 0);
    }
}

/* The lot of P9: the clause, then the two uses with what takes them. */
static void why_p9(void)
{
    uint8_t p9[P9_LENGTH];
    expect("P9 with one use more has 380 bytes", build(&P9, p9) == P9_LENGTH);
    expect("P9 with one use more is admitted", isonkaypu_refusal(p9, P9_LENGTH) == 0);
    verdict("P9 with one use more: linear", isonkaypu_linear, p9, P9_LENGTH, 62, 5, 50, 51);
    why("why: with room to spare", p9, P9_LENGTH, 5, ROOM, 0, 6);
    why("why: in an exact buffer", p9, P9_LENGTH, 5, 6, 0, 6);
    why("why: one word short", p9, P9_LENGTH, 5, 5, 10, 0);
    why("why: a whole entry short", p9, P9_LENGTH, 5, 4, 10, 0);
    why("why: in no words", p9, P9_LENGTH, 5, 0, 10, 0);
    why("why: an occurrence is no lot", p9, P9_LENGTH, 16, 0, 13, 0);
    why("why: a clause is no lot", p9, P9_LENGTH, 11, ROOM, 13, 0);
}

/* Every function refuses the image with this number. */
static void on_refused(const char *what, const uint8_t *image, size_t length, size_t number)
{
    size_t numbers[12] = {0};
    numbers[0] = numbers[4] = numbers[8] = number;
    expect(what, isonkaypu_refusal(image, length) == number);
    verdict(what, isonkaypu_resolve, image, length, number, 0, 0, 0);
    verdict(what, isonkaypu_access, image, length, number, 0, 0, 0);
    verdict(what, isonkaypu_linear, image, length, number, 0, 0, 0);
    verdicts(what, image, length, numbers);
    question(what, isonkaypu_is_state, image, length, "x", number, 0);
    question(what, isonkaypu_is_declared_asset, image, length, "x", number, 0);
    question(what, isonkaypu_is_known_asset, image, length, "QTOV", number, 0);
    list(what, isonkaypu_list, image, length, ROOM, number, 0, 0);
    list(what, isonkaypu_list, image, length, 0, number, 0, 0);
    list(what, isonkaypu_resolve_list, image, length, ROOM, number, 0, 0);
    list(what, isonkaypu_access_list, image, length, ROOM, number, 0, 0);
    list(what, isonkaypu_linear_list, image, length, ROOM, number, 0, 0);
    why(what, image, length, 5, ROOM, number, 0);
    why(what, image, length, SIZE_MAX, 0, number, 0);
}

static void run_all(void)
{
    uint8_t image[LENGTH];
    expect("P2 has 172 bytes", build(&P2, image) == LENGTH);
    on_p2(image);
    questions_of_p2(image);
    lists_of_p2(image);
    entries_of_namesakes();
    why_p2(image);
    why_p9();
    image[0] = 2;
    on_refused("version 2", image, LENGTH, 2);
    on_refused("no bytes", NULL, 0, 1);
}

/* Some systems give no thread as little as the header asks for: what is over is taken up first. */
static void run_below(size_t surplus)
{
    volatile char taken[4096];
    taken[0] = 0;
    if (surplus < sizeof taken) {
        run_all();
    } else {
        run_below(surplus - sizeof taken);
    }
    taken[sizeof taken - 1] = taken[0];
}

static void *run(void *surplus)
{
    run_below(*(const size_t *)surplus);
    return NULL;
}

static int run_on_small_stack(void)
{
    const size_t least = (size_t)PTHREAD_STACK_MIN;
    const size_t size = least < ISONKAYPU_STACK ? (size_t)ISONKAYPU_STACK : least;
    size_t surplus = size - ISONKAYPU_STACK;
    pthread_attr_t attributes;
    pthread_t thread;
    return pthread_attr_init(&attributes) == 0
        && pthread_attr_setstacksize(&attributes, size) == 0
        && pthread_create(&thread, &attributes, run, &surplus) == 0
        && pthread_join(thread, NULL) == 0;
}

int main(void)
{
    expect("a thread with the stack that the header asks for", run_on_small_stack());
    printf("%d passed, %d failed\n", passed, failed);
    return failed != 0;
}
