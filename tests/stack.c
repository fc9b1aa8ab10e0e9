/* How deep the calls go into the stack, arguments included: the stack below is painted, a call made, and the paint that is gone counted.
 * The table is large enough that each call takes all of its turns. Prints the deepest of krz_build and krz_check and the deepest of the
 * others, and fails where one is deeper than the header says. */
#include <stdio.h>
#include <string.h>

#include "krzewido.h"

#define STANDS 256
#define TEXT_BYTES (4 * STANDS)
#define PAINTED 32768
#define PAINT 0xA5

/* As the header says. */
#define BUILDING 7680
#define OTHERS 2048

static uint8_t text[TEXT_BYTES];
static uint32_t starts[STANDS + 1];
static int32_t east[STANDS];
static int32_t north[STANDS];
static uint32_t score[STANDS];
static const krz_grid grid = {-400, -400, 100};

static uint32_t order[KRZ_ORDER_WORDS(STANDS)];
static uint32_t nodes[KRZ_NODES_WORDS_FOR_TEXT(TEXT_BYTES)];
static uint32_t entries[KRZ_ENTRIES_WORDS_FOR_TEXT(TEXT_BYTES, STANDS)];
static uint32_t bits[KRZ_BITS_WORDS(STANDS)];
static uint32_t found[STANDS];
static uint64_t values[KRZ_K_MOST];
static krz_session session;
static uint32_t refused;

#define TABLE text, TEXT_BYTES, starts, STANDS + 1, east, STANDS, north, STANDS, score, STANDS, grid
#define INDEX order, KRZ_ORDER_WORDS(STANDS), nodes, KRZ_NODES_WORDS_FOR_TEXT(TEXT_BYTES), \
              entries, KRZ_ENTRIES_WORDS_FOR_TEXT(TEXT_BYTES, STANDS), bits, KRZ_BITS_WORDS(STANDS)
#define SET TABLE, INDEX

static const krz_place here = {7, -9};
static const krz_rect wide = {-400, 399, -390, 399};

/* Names aaaa, aaab, .. in order, spread over all cells. */
static void fill(void)
{
    uint32_t i;
    for (i = 0; i < STANDS; i++) {
        memcpy(text + 4 * i, "aaaa", 4);
        text[4 * i + 2] = (uint8_t)('a' + i / 16);
        text[4 * i + 3] = (uint8_t)('a' + i % 16);
        starts[i + 1] = 4 * (i + 1);
        east[i] = (int32_t)(i * 37 % 800) - 400;
        north[i] = (int32_t)(i * 91 % 800) - 400;
        score[i] = i * 13 % 1001;
    }
}

static void build(void) { refused |= krz_build(TABLE, INDEX).refusal; }
static void check(void) { refused |= !krz_check(SET).lawful; }
static void region(void) { refused |= krz_region(grid, here).refusal; }
static void range(void) { refused |= krz_range(SET, text, 2, wide, found, STANDS).refusal; }
static void any(void) { refused |= krz_any(SET, text, 2, wide).refusal; }
static void ranked(void) { refused |= krz_ranked(SET, text, 2, here, 8, 16, found, STANDS, values, KRZ_K_MOST).refusal; }
static void type(void) { refused |= krz_type(SET, &session, 'a'); }
static void range_typed(void) { refused |= krz_range_typed(SET, session, wide, found, STANDS).refusal; }
static void any_typed(void) { refused |= krz_any_typed(SET, session, wide).refusal; }
static void ranked_typed(void) { refused |= krz_ranked_typed(SET, session, here, 8, 16, found, STANDS, values, KRZ_K_MOST).refusal; }
static void rub_out(void) { refused |= krz_rub_out(SET, &session); }
static void fresh(void) { session = krz_fresh(); }
static void rest(void) { refused |= krz_rest(text, TEXT_BYTES, starts, STANDS + 1, 9, text, 2).length != 2; }

/* From the frame of this function down to the last byte that the call wrote. It is made once before, since a program's first use of a
 * function of the C library may go through the loader. */
__attribute__((noinline)) static unsigned depth(void (*volatile call)(void))
{
    volatile uint8_t *const top = (volatile uint8_t *)__builtin_frame_address(0) - 256;
    volatile uint8_t *at;
    call();
    for (at = top - PAINTED; at < top; at++) *at = PAINT;
    call();
    for (at = top - PAINTED; at < top && *at == PAINT; at++) {}
    return (unsigned)(top - at) + 256;
}

static unsigned deepest(void (*const calls[])(void), unsigned count)
{
    unsigned bytes = 0;
    unsigned i;
    for (i = 0; i < count; i++) {
        unsigned one = depth(calls[i]);
        if (one > bytes) bytes = one;
    }
    return bytes;
}

int main(void)
{
    static void (*const of_building[])(void) = {build, check};
    static void (*const others[])(void) = {region, range, any, ranked, fresh, type, range_typed, any_typed, ranked_typed, rub_out, rest};
    unsigned building;
    unsigned other;
    fill();
    building = deepest(of_building, sizeof of_building / sizeof of_building[0]);
    other = deepest(others, sizeof others / sizeof others[0]);
    printf("stack: building and checking %u bytes, every other call at most %u\n", building, other);
    if (refused) printf("stack: a call refused\n");
    return building >= BUILDING || other >= OTHERS || refused;
}
