/* Krzewido, the stand finder, for C. Link with libfinder_c.a: `tests/library` proves the library and writes it for x86-64 to
 * target/staticlib, `tools/library TARGET` for another processor to target/TARGET (README, "Linking it"). It needs memcpy and memset and
 * nothing else of a C library (on Arm by their names __aeabi_memcpy, __aeabi_memclr and so on); on a processor that cannot divide, as a
 * Cortex-M0, also the helpers that its compiler links by itself.
 *
 * A slice is a pointer and, right behind it, how many elements it has (not bytes). No pointer may be null, not even one of a slice with no
 * elements; each must be aligned for its type. What a call may write (no `const`) must not overlap anything else that is lent to it.
 * Nothing else is asked: any numbers and any words may be passed. A call ends, reads and writes only what it is lent, keeps no pointer,
 * and takes no memory from elsewhere. Calls may run at once where none writes what another is lent. krz_build and krz_check go less than
 * 7.5 KiB deep into the stack, every other call less than 2 KiB; measured they are 6.9 and 1.0 KiB on x86-64, 6.8 and 0.9 KiB on AArch64,
 * 7.3 and 1.3 KiB on a Cortex-M4 with -Os.
 *
 * The table: N stands, at most 1,024, a stand's number being its position from 0.
 *   text    the bytes of all names, one behind the other; a name has 1 to 24 bytes, each a to z, 0 to 9 or space
 *   starts  N + 1 places in text: stand i's name is from starts[i] to short of starts[i + 1]; the first is 0, the last the text's length
 *   east, north   where each stand is, in metres
 *   score   0 to 1,000 for each stand
 * Names stand in byte order, a shorter one before a longer one that begins with it; equal names are two stands.
 *
 * A typed text, given to a call or letter by letter, has at most 24 bytes, each a to z, 0 to 9, space, or A to Z. A capital is read as its
 * small letter before it is judged or stored: "Ki" finds what "ki" finds, and the session holds "ki". In a name a capital is refused.
 *
 * The index is four buffers of words that krz_build fills: order, nodes, entries, bits. Table, grid and index together are a set, passed
 * to every call in the same order. A set is lawful if krz_check says so; a set that krz_build has just written is. Words are in the
 * machine's byte order: saved and brought to a machine of the other order, they are no lawful index there.
 *
 * Macros of your own keep the calls short, as in tests/example.c:
 *   #define TABLE text, TEXT_BYTES, starts, STANDS + 1, east, STANDS, north, STANDS, score, STANDS, grid
 *   #define INDEX order, ORDER_WORDS, nodes, NODES_WORDS, entries, ENTRIES_WORDS, bits, BITS_WORDS
 *   #define SET TABLE, INDEX
 *   built = krz_build(TABLE, INDEX);
 *   answer = krz_ranked(SET, typed, typed_bytes, here, 8, 5, found, KRZ_K_MOST, values, KRZ_K_MOST);
 *   refusal = krz_type(SET, &session, 'k');
 */
#ifndef KRZEWIDO_H
#define KRZEWIDO_H

#include <stddef.h>
#include <stdint.h>

#ifdef __cplusplus
extern "C" {
#endif

#define KRZ_STANDS_MOST 1024
#define KRZ_NAME_MOST 24
#define KRZ_SCORE_MOST 1000
#define KRZ_EDGE_MOST 1000000
#define KRZ_CELL_MOST 8192
#define KRZ_GRID_SIDE 8
#define KRZ_WEIGHT_MOST 16
#define KRZ_K_MOST 16
#define KRZ_NODE_WORDS 8
#define KRZ_ENTRY_WORDS 4
#define KRZ_RECORD_WORDS 2

/* Room that is always enough for the index of N stands, in words, and never 0. What krz_build answers tells how much of it is used. */
#define KRZ_ORDER_WORDS(stands) ((stands) > 0 ? (stands) : 1)
#define KRZ_NODES_WORDS(stands) KRZ_NODES_WORDS_FOR_TEXT(KRZ_NAME_MOST * (stands))
#define KRZ_ENTRIES_WORDS(stands) KRZ_ENTRIES_WORDS_FOR_TEXT(KRZ_NAME_MOST * (stands), stands)
#define KRZ_BITS_WORDS(stands) ((stands) > 0 ? KRZ_RECORD_WORDS * (2 * (stands) - 1) : KRZ_RECORD_WORDS)

/* The same where the table's text is known, which mostly is far shorter than 24 bytes a name: as many nodes as the text has bytes and one
 * more, as many entries as it has bytes and stands. Bit records are fewer than two for each stand, whatever the text. */
#define KRZ_NODES_WORDS_FOR_TEXT(bytes) (KRZ_NODE_WORDS * ((bytes) + 1))
#define KRZ_ENTRIES_WORDS_FOR_TEXT(bytes, stands) ((bytes) + (stands) > 0 ? KRZ_ENTRY_WORDS * ((bytes) + (stands)) : 1)

/* A refusal's number; where nothing is refused it is 0. With a refusal every other number of the answer is 0, but for the matches that
 * krz_range and krz_range_typed tell with 13; and nothing is written. Where several hold, the first in the order given at the call is told.
 * The desk program has a number 14 for its input, which no call gives. */
enum krz_refusal {
    KRZ_NOT_REFUSED = 0,
    KRZ_TABLE_MISSHAPEN = 1,           /* over 1,024 stands, parts of unequal length, or starts that do not go from 0 to the text's end */
    KRZ_GRID_OUTSIDE_LIMITS = 2,       /* an edge or the cell side */
    KRZ_NAME_NOT_ALLOWED = 3,          /* a name's length or a byte of it, a capital among them */
    KRZ_NAMES_OUT_OF_ORDER = 4,        /* a name stands before a smaller one */
    KRZ_STAND_NOT_ALLOWED = 5,         /* a stand outside the grid, or a score over 1,000 */
    KRZ_BUFFER_TOO_SMALL = 6,          /* one of the four buffers has no room for its part of the index */
    KRZ_NOT_LAWFUL = 7,                /* set or session is not lawful, and the call noticed; never given for a lawful one */
    KRZ_TEXT_BYTE_NOT_ALLOWED = 8,     /* a byte of the text, or the byte typed; never A to Z */
    KRZ_TEXT_TOO_LONG = 9,             /* over 24 bytes, or a 25th typed */
    KRZ_NOTHING_TO_RUB_OUT = 10,       /* no letter stands */
    KRZ_RECT_REVERSED = 11,            /* west over east or south over north */
    KRZ_QUESTION_OUTSIDE_LIMITS = 12,  /* a place outside the grid, a weight over 16, or k not 1 to 16 */
    KRZ_ROOM_TOO_SMALL = 13            /* a room has fewer places than the answer needs */
};

/* The grid: 8 by 8 square cells from its west and south edge on. Edges are -1,000,000 to 1,000,000, a cell's side is 1 to 8,192 metres. */
typedef struct {
    int32_t west, south;
    uint32_t cell;
} krz_grid;

typedef struct {
    int32_t east, north;
} krz_place;

/* All four edges belong to it, and may lie anywhere. */
typedef struct {
    int32_t west, east, south, north;
} krz_rect;

/* The letters typed so far. Begin with krz_fresh, change it by krz_type and krz_rub_out only, and use it with one set. It may be copied. */
typedef struct {
    uint8_t text[KRZ_NAME_MOST];
    uint32_t len;
    uint32_t path[KRZ_NAME_MOST + 1];
} krz_session;

typedef struct {
    uint32_t refusal, region;
} krz_located;

/* bits is how many bit records there are: the root has one, and each node whose regions are not its parent's. */
typedef struct {
    uint32_t refusal, nodes, entries, bits;
} krz_built;

typedef struct {
    uint32_t lawful, nodes, entries, bits;
} krz_checked;

typedef struct {
    uint32_t refusal, count;
} krz_found;

/* yes is 1 or 0, and without a yes stand is 0. */
typedef struct {
    uint32_t refusal, yes, stand;
} krz_any_found;

typedef struct {
    uint32_t start, length;
} krz_part;

/* The region of a place: row times 8 and column, from the south-west, 0 to 63. Refuses 2, then 12 for a place outside the grid. */
krz_located krz_region(krz_grid grid, krz_place place);

/* Writes the index of a table: N words of order, 8 for each node, 4 for each entry and 2 for each bit record, at the start of the four
 * buffers; words behind these stay as they were. Answers how many nodes, entries and bit records there are. Refuses 1 to 6, in this
 * order, and then writes nothing. */
krz_built krz_build(
    const uint8_t *text, size_t text_len, const uint32_t *starts, size_t starts_len,
    const int32_t *east, size_t east_len, const int32_t *north, size_t north_len,
    const uint32_t *score, size_t score_len, krz_grid grid,
    uint32_t *order, size_t order_len, uint32_t *nodes, size_t nodes_len,
    uint32_t *entries, size_t entries_len, uint32_t *bits, size_t bits_len);

/* Whether a set is lawful: the table and the grid would not be refused 1 to 5, and the four buffers begin with what krz_build writes.
 * lawful is 1, with the numbers of nodes, entries and bit records, or 0 with zeros. To be asked once where a set comes from outside. */
krz_checked krz_check(
    const uint8_t *text, size_t text_len, const uint32_t *starts, size_t starts_len,
    const int32_t *east, size_t east_len, const int32_t *north, size_t north_len,
    const uint32_t *score, size_t score_len, krz_grid grid,
    const uint32_t *order, size_t order_len, const uint32_t *nodes, size_t nodes_len,
    const uint32_t *entries, size_t entries_len, const uint32_t *bits, size_t bits_len);

/* The stands whose name begins with the typed text and which are in the rectangle: smaller region first, in a region smaller number first.
 * Their numbers go to found[0] to found[count - 1]; found[count] and on stay as they were. Refuses 7, 9, 8, 11, then 13 where more match
 * than found has places; count is then how many match, and the call can be made again with that room. */
krz_found krz_range(
    const uint8_t *text, size_t text_len, const uint32_t *starts, size_t starts_len,
    const int32_t *east, size_t east_len, const int32_t *north, size_t north_len,
    const uint32_t *score, size_t score_len, krz_grid grid,
    const uint32_t *order, size_t order_len, const uint32_t *nodes, size_t nodes_len,
    const uint32_t *entries, size_t entries_len, const uint32_t *bits, size_t bits_len,
    const uint8_t *typed, size_t typed_len, krz_rect rect, uint32_t *found, size_t found_len);

/* Whether any stand whose name begins with the typed text is in the rectangle, for greying out an empty map: yes with the first stand that
 * krz_range would list, or no. It looks no further than that stand and wants no room. Refuses 7, 9, 8, 11. */
krz_any_found krz_any(
    const uint8_t *text, size_t text_len, const uint32_t *starts, size_t starts_len,
    const int32_t *east, size_t east_len, const int32_t *north, size_t north_len,
    const uint32_t *score, size_t score_len, krz_grid grid,
    const uint32_t *order, size_t order_len, const uint32_t *nodes, size_t nodes_len,
    const uint32_t *entries, size_t entries_len, const uint32_t *bits, size_t bits_len,
    const uint8_t *typed, size_t typed_len, krz_rect rect);

/* The best k stands whose name begins with the typed text, best first; all of them where there are fewer. A stand's value is
 *   weight * score * D + (16 - weight) * (D - d) * 1,000,
 * d the distance to the place and D the root of 128 * cell * cell, both in whole metres, rounded down: weight 16 goes by score alone,
 * weight 0 by nearness alone. No value is over 1,482,896,000. Of equal values the smaller stand number is the better.
 * Numbers go to found[0] to found[count - 1], values to values likewise; what is behind them stays as it was.
 * Refuses 7, 9, 8, 12, then 13 where found or values has fewer than k places. */
krz_found krz_ranked(
    const uint8_t *text, size_t text_len, const uint32_t *starts, size_t starts_len,
    const int32_t *east, size_t east_len, const int32_t *north, size_t north_len,
    const uint32_t *score, size_t score_len, krz_grid grid,
    const uint32_t *order, size_t order_len, const uint32_t *nodes, size_t nodes_len,
    const uint32_t *entries, size_t entries_len, const uint32_t *bits, size_t bits_len,
    const uint8_t *typed, size_t typed_len, krz_place place, uint32_t weight, uint32_t k,
    uint32_t *found, size_t found_len, uint64_t *values, size_t values_len);

/* The session of no letters. */
krz_session krz_fresh(void);

/* Types a letter, a capital as its small letter. It is kept also where no name begins so. Gives the refusal: 7, 9, 8, and then the session
 * is as it was. */
uint32_t krz_type(
    const uint8_t *text, size_t text_len, const uint32_t *starts, size_t starts_len,
    const int32_t *east, size_t east_len, const int32_t *north, size_t north_len,
    const uint32_t *score, size_t score_len, krz_grid grid,
    const uint32_t *order, size_t order_len, const uint32_t *nodes, size_t nodes_len,
    const uint32_t *entries, size_t entries_len, const uint32_t *bits, size_t bits_len,
    krz_session *session, uint8_t byte);

/* Takes the last letter back. Gives the refusal: 7, 10, and then the session is as it was. */
uint32_t krz_rub_out(
    const uint8_t *text, size_t text_len, const uint32_t *starts, size_t starts_len,
    const int32_t *east, size_t east_len, const int32_t *north, size_t north_len,
    const uint32_t *score, size_t score_len, krz_grid grid,
    const uint32_t *order, size_t order_len, const uint32_t *nodes, size_t nodes_len,
    const uint32_t *entries, size_t entries_len, const uint32_t *bits, size_t bits_len,
    krz_session *session);

/* krz_range with the session's letters for its text. */
krz_found krz_range_typed(
    const uint8_t *text, size_t text_len, const uint32_t *starts, size_t starts_len,
    const int32_t *east, size_t east_len, const int32_t *north, size_t north_len,
    const uint32_t *score, size_t score_len, krz_grid grid,
    const uint32_t *order, size_t order_len, const uint32_t *nodes, size_t nodes_len,
    const uint32_t *entries, size_t entries_len, const uint32_t *bits, size_t bits_len,
    krz_session session, krz_rect rect, uint32_t *found, size_t found_len);

/* krz_any with the session's letters for its text. */
krz_any_found krz_any_typed(
    const uint8_t *text, size_t text_len, const uint32_t *starts, size_t starts_len,
    const int32_t *east, size_t east_len, const int32_t *north, size_t north_len,
    const uint32_t *score, size_t score_len, krz_grid grid,
    const uint32_t *order, size_t order_len, const uint32_t *nodes, size_t nodes_len,
    const uint32_t *entries, size_t entries_len, const uint32_t *bits, size_t bits_len,
    krz_session session, krz_rect rect);

/* krz_ranked with the session's letters for its text. */
krz_found krz_ranked_typed(
    const uint8_t *text, size_t text_len, const uint32_t *starts, size_t starts_len,
    const int32_t *east, size_t east_len, const int32_t *north, size_t north_len,
    const uint32_t *score, size_t score_len, krz_grid grid,
    const uint32_t *order, size_t order_len, const uint32_t *nodes, size_t nodes_len,
    const uint32_t *entries, size_t entries_len, const uint32_t *bits, size_t bits_len,
    krz_session session, krz_place place, uint32_t weight, uint32_t k,
    uint32_t *found, size_t found_len, uint64_t *values, size_t values_len);

/* What is left of a stand's name after the typed text, for showing a hit: length bytes from text[start] on; "Ki" leaves "bori" of kibori.
 * Start and length are 0 for a stand without two starts, with starts that fall or pass the text's end, or whose name does not begin so.
 * Refuses nothing. */
krz_part krz_rest(
    const uint8_t *text, size_t text_len, const uint32_t *starts, size_t starts_len,
    uint32_t stand, const uint8_t *typed, size_t typed_len);

#ifdef __cplusplus
}
#endif

#endif
