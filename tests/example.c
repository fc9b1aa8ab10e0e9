/* The small scheme by the C calls: five stands are built into an index, asked by text and by letters typed, and shown. */
#include <stdio.h>
#include <string.h>
#include <inttypes.h> /* behind the others: newlib's has no PRIu64 otherwise */

#include "krzewido.h"

#define STANDS 5
#define TEXT_BYTES (sizeof text - 1)

static const uint8_t text[] = "kibokibokiborikitomto";
static const uint32_t starts[STANDS + 1] = {0, 4, 8, 14, 18, 21};
static const int32_t east[STANDS] = {5, 75, 12, 9, 10};
static const int32_t north[STANDS] = {5, 75, 5, 9, 9};
static const uint32_t score[STANDS] = {100, 900, 400, 400, 0};
static const krz_grid grid = {0, 0, 10};

#define ORDER_WORDS KRZ_ORDER_WORDS(STANDS)
#define NODES_WORDS KRZ_NODES_WORDS_FOR_TEXT(TEXT_BYTES)
#define ENTRIES_WORDS KRZ_ENTRIES_WORDS_FOR_TEXT(TEXT_BYTES, STANDS)
#define BITS_WORDS KRZ_BITS_WORDS(STANDS)

static uint32_t order[ORDER_WORDS];
static uint32_t nodes[NODES_WORDS];
static uint32_t entries[ENTRIES_WORDS];
static uint32_t bits[BITS_WORDS];

#define TABLE text, TEXT_BYTES, starts, STANDS + 1, east, STANDS, north, STANDS, score, STANDS, grid
#define INDEX order, ORDER_WORDS, nodes, NODES_WORDS, entries, ENTRIES_WORDS, bits, BITS_WORDS
#define SET TABLE, INDEX

/* The record is laid out for C and for the library alike. */
typedef char a_session_has_128_bytes[sizeof(krz_session) == 128 ? 1 : -1];

/* How many of each the index has. Of twelve nodes four have bits of their own: the root, "kibor", "kit" and "m". */
static void show_counts(uint32_t node_count, uint32_t entry_count, uint32_t record_count)
{
    printf(" nodes %" PRIu32 " entries %" PRIu32 " bit records %" PRIu32 "\n", node_count, entry_count, record_count);
}

/* A hit as the handheld shows it: what was typed, then the rest of the name. */
static void show(uint32_t stand, const char *typed)
{
    krz_part rest = krz_rest(text, TEXT_BYTES, starts, STANDS + 1, stand, (const uint8_t *)typed, strlen(typed));
    printf("  %" PRIu32 " %s|%.*s", stand, typed, (int)rest.length, (const char *)text + rest.start);
}

static void show_range(krz_found answer, const uint32_t *found, const char *typed)
{
    uint32_t i;
    printf("refusal %" PRIu32 " count %" PRIu32 "\n", answer.refusal, answer.count);
    for (i = 0; answer.refusal == 0 && i < answer.count; i++) {
        show(found[i], typed);
        printf("\n");
    }
}

/* With a yes the stand is shown, too. */
static void show_any(krz_any_found answer, const char *typed)
{
    printf("refusal %" PRIu32 " yes %" PRIu32 " stand %" PRIu32 "\n", answer.refusal, answer.yes, answer.stand);
    if (answer.yes) {
        show(answer.stand, typed);
        printf("\n");
    }
}

static void show_ranked(krz_found answer, const uint32_t *found, const uint64_t *values, const char *typed)
{
    uint32_t i;
    printf("refusal %" PRIu32 " count %" PRIu32 "\n", answer.refusal, answer.count);
    for (i = 0; answer.refusal == 0 && i < answer.count; i++) {
        show(found[i], typed);
        printf(" %" PRIu64 "\n", values[i]);
    }
}

static void keys(krz_session *session, const char *typed)
{
    for (; *typed != 0; typed++) {
        uint32_t refusal = krz_type(SET, session, (uint8_t)*typed);
        printf("type %c: refusal %" PRIu32 ", node %" PRIu32 "\n", *typed, refusal, session->path[session->len]);
    }
}

static void rub_out(krz_session *session)
{
    uint32_t refusal = krz_rub_out(SET, session);
    printf("rub out: refusal %" PRIu32 ", node %" PRIu32 "\n", refusal, session->path[session->len]);
}

int main(void)
{
    const krz_place here = {5, 5};
    const krz_place beyond = {80, 79};
    const krz_rect near = {0, 12, 0, 9};
    const krz_rect wide = {0, 80, 0, 80};
    const krz_rect reversed = {1, 0, 0, 0};
    const krz_rect from_6 = {6, 80, 0, 80};   /* has the stands 3, 2 and 1, by region */
    const krz_rect between = {13, 74, 0, 74}; /* touches the cells of 2 and 1, and has neither */
    const uint8_t *ki = (const uint8_t *)"ki";
    const uint8_t *capitals = (const uint8_t *)"Ki";
    const uint8_t *kibo = (const uint8_t *)"kibo";
    krz_session session = krz_fresh();
    uint32_t found[KRZ_K_MOST];
    uint64_t values[KRZ_K_MOST];
    krz_built built;
    krz_checked checked;
    krz_located located;

    built = krz_build(TABLE, INDEX);
    printf("build: refusal %" PRIu32, built.refusal);
    show_counts(built.nodes, built.entries, built.bits);
    checked = krz_check(SET);
    printf("check: lawful %" PRIu32, checked.lawful);
    show_counts(checked.nodes, checked.entries, checked.bits);
    located = krz_region(grid, here);
    printf("region of (5, 5): refusal %" PRIu32 " region %" PRIu32 "\n", located.refusal, located.region);
    located = krz_region(grid, beyond);
    printf("region of (80, 79): refusal %" PRIu32 " region %" PRIu32 "\n", located.refusal, located.region);

    printf("range ki: ");
    show_range(krz_range(SET, ki, 2, near, found, KRZ_K_MOST), found, "ki");
    printf("range Ki: ");
    show_range(krz_range(SET, capitals, 2, near, found, KRZ_K_MOST), found, "Ki");
    printf("range kibo, three places: ");
    show_range(krz_range(SET, kibo, 4, wide, found, 3), found, "kibo");
    printf("range kibo, two places: ");
    show_range(krz_range(SET, kibo, 4, wide, found, 2), found, "kibo");
    printf("range reversed: ");
    show_range(krz_range(SET, ki, 2, reversed, found, KRZ_K_MOST), found, "ki");
    printf("any ki: ");
    show_any(krz_any(SET, ki, 2, from_6), "ki");
    printf("any ki, none there: ");
    show_any(krz_any(SET, ki, 2, between), "ki");
    printf("any reversed: ");
    show_any(krz_any(SET, ki, 2, reversed), "ki");
    printf("ranked ki, weight 8, k 4: ");
    show_ranked(krz_ranked(SET, ki, 2, here, 8, 4, found, KRZ_K_MOST, values, KRZ_K_MOST), found, values, "ki");
    printf("ranked ki, k 17: ");
    show_ranked(krz_ranked(SET, ki, 2, here, 8, 17, found, KRZ_K_MOST, values, KRZ_K_MOST), found, values, "ki");

    rub_out(&session);
    keys(&session, "Kiz");
    printf("letters: %.*s\n", (int)session.len, (const char *)session.text);
    printf("range kiz: ");
    show_range(krz_range_typed(SET, session, wide, found, KRZ_K_MOST), found, "kiz");
    printf("any kiz: ");
    show_any(krz_any_typed(SET, session, wide), "kiz");
    rub_out(&session);
    keys(&session, "[");
    printf("range ki, typed: ");
    show_range(krz_range_typed(SET, session, near, found, KRZ_K_MOST), found, "ki");
    printf("any ki, typed: ");
    show_any(krz_any_typed(SET, session, from_6), "ki");
    printf("any ki, typed, reversed: ");
    show_any(krz_any_typed(SET, session, reversed), "ki");
    printf("ranked ki, typed, weight 16, k 2: ");
    show_ranked(krz_ranked_typed(SET, session, here, 16, 2, found, KRZ_K_MOST, values, KRZ_K_MOST), found, values, "ki");
    return 0;
}
