/* Gillcurtain: a proved subsetter of OpenType layout subtables.
 *
 * One call cuts one subtable down to the glyphs and lookups that are kept, or
 * refuses by number. It asks the system for nothing, keeps nothing between
 * calls and takes no lock: any number of threads may call it at once.
 * gillcurtain_subset makes its scratch on the stack. gillcurtain_subset_with
 * takes it from the caller: it answers the same, is somewhat faster, and needs
 * little stack.
 *
 * What a caller owes:
 * - each pointer and its length are bytes that can be read, and those of `out`
 *   and of the scratch can be written too; these two overlap none of the
 *   others, nor each other; source and maps may overlap each other;
 * - a part of length 0 may have any pointer, null too;
 * - no other thread writes to these bytes, or reads `out` or the scratch,
 *   during the call: a thread needs scratch of its own;
 * - GILLCURTAIN_STACK bytes of stack; with GILLCURTAIN_SCRATCH bytes of scratch
 *   GILLCURTAIN_LITTLE_STACK are enough. With less, the call may end the
 *   process.
 * Nothing is asked of what the bytes are: any content gets its answer. */
#ifndef GILLCURTAIN_H
#define GILLCURTAIN_H

#include <stddef.h>
#include <stdint.h>

#ifdef __cplusplus
extern "C" {
#endif

/* The version, as a text and by its parts. */
#define GILLCURTAIN_VERSION "0.1.0"
#define GILLCURTAIN_VERSION_MAJOR 0
#define GILLCURTAIN_VERSION_MINOR 1
#define GILLCURTAIN_VERSION_PATCH 0

/* The kinds of subtable. */
enum gillcurtain_kind {
  GILLCURTAIN_CONTEXT = 1,
  GILLCURTAIN_CHAINED = 2,
  GILLCURTAIN_LIGATURE = 3,
  GILLCURTAIN_PAIR = 4,
  GILLCURTAIN_SINGLE = 5        /* single substitution */
};

/* The forms of a glyph map, by the bytes of an entry. */
enum gillcurtain_form {
  GILLCURTAIN_PAIRS = 4,        /* the old number and the new one */
  GILLCURTAIN_RUNS = 6          /* first old number, first new number and count: so many pairs in step */
};

/* The layouts of what is kept. */
enum gillcurtain_layout {
  GILLCURTAIN_PLAIN = 0,        /* no part is shared */
  GILLCURTAIN_PACKED = 1        /* equal sets, coverages and class tables are written once */
};

/* The answers. Where several apply, the first of 1, 13, 14, 2 to 7, 12, 8, 9, 10 is given, in that order. */
enum gillcurtain_answer {
  GILLCURTAIN_KEPT = 0,         /* the length is that of the small subtable */
  GILLCURTAIN_BAD_KIND = 1,
  GILLCURTAIN_BAD_GLYPHS = 2,
  GILLCURTAIN_BAD_LOOKUPS = 3,
  GILLCURTAIN_LONG_SOURCE = 4,  /* over 262,144 bytes */
  GILLCURTAIN_BAD_FORMAT = 5,
  GILLCURTAIN_MALFORMED = 6,    /* the length is the place: where the lowest faulty part starts */
  GILLCURTAIN_DEVICE = 7,       /* a device table or variation index */
  GILLCURTAIN_NOTHING = 8,      /* nothing survives */
  GILLCURTAIN_TOO_BIG = 9,      /* in this layout: over 262,144 bytes, or an offset or a count over 65,535 */
  GILLCURTAIN_NO_ROOM = 10,     /* `out` is too short; the length is what is needed */
  GILLCURTAIN_PAST_RULE = 12,   /* a record's sequence index is not below its rule's input count */
  GILLCURTAIN_BAD_FORM = 13,    /* no form of a glyph map has this mark */
  GILLCURTAIN_BAD_LAYOUT = 14   /* no layout has this mark */
};

/* The stack, in bytes, that a call may use at most: 1.5 MiB. hosts/c/limits.c
 * holds calls that go deep to it. */
#define GILLCURTAIN_STACK (3u << 19)

/* The same where GILLCURTAIN_SCRATCH bytes of scratch are lent. */
#define GILLCURTAIN_LITTLE_STACK (1u << 17)

/* The scratch that is enough for any call: so many cells of 32 bits, so many
 * bytes of area, and both in one piece. */
#define GILLCURTAIN_CELLS 270338u
#define GILLCURTAIN_AREA 655360u
#define GILLCURTAIN_SCRATCH (4u * GILLCURTAIN_CELLS + GILLCURTAIN_AREA)

/* Cuts `source`, a subtable of this kind. `glyphs` and `lookups` are maps, of
 * numbers of two bytes, big-endian. An entry of `lookups` has four bytes, the
 * old number and the new one, with the old numbers ascending. `glyphs` is of the
 * same pairs, or of runs, as `form` says, and in it the new numbers ascend too.
 * A run has a count other than 0, goes to 65,535 at most in both columns, and
 * starts in both after the run before it has ended; all 65,536 glyphs take two.
 * A map gives the same bytes in either form.
 * The small subtable is written to the front of `out`, in this layout; bytes
 * after it keep what they held, and a refusal writes nothing. In the packed
 * layout a set with its rules, a coverage or a class table that is equal to an
 * earlier one of its kind is not written again: the header points to the earlier
 * one. It says the same as the plain layout, and is never longer.
 * The result is the answer times 2^56, plus the length, which is 0 with every
 * refusal but two: with GILLCURTAIN_NO_ROOM it is what is needed, and with
 * GILLCURTAIN_MALFORMED it is the place of the fault, in bytes from the
 * source's start. Parts are the header (place 0), sets, rules, ligatures, pair
 * sets, coverages and class tables; the place is the lowest start among the
 * parts that are faulty by their own bytes. It lies past the source's end, at
 * most at 131,070, where an offset points outside. `tools/job show --kind K
 * SOURCE` names the part and says what is wrong with it. */
uint64_t gillcurtain_subset (uint64_t kind, uint64_t form, uint64_t layout,
                             const uint8_t *source, size_t source_len,
                             const uint8_t *glyphs, size_t glyphs_len,
                             const uint8_t *lookups, size_t lookups_len,
                             uint8_t *out, size_t out_len);

static inline unsigned gillcurtain_number (uint64_t result) { return (unsigned) (result >> 56); }
static inline size_t gillcurtain_length (uint64_t result) { return (size_t) (result & 0xFFFFFFFFFFFFFFu); }

/* The same with lent scratch in its two parts, of any lengths and whatever they
 * hold. A call for which they are too short makes scratch of its own on the
 * stack, as gillcurtain_subset does. What they hold afterwards says nothing. */
uint64_t gillcurtain_subset_in (uint64_t kind, uint64_t form, uint64_t layout,
                                const uint8_t *source, size_t source_len,
                                const uint8_t *glyphs, size_t glyphs_len,
                                const uint8_t *lookups, size_t lookups_len,
                                uint32_t *cells, size_t cells_len,
                                uint8_t *area, size_t area_len,
                                uint8_t *out, size_t out_len);

/* The same with one piece of scratch, of any length and alignment. Of a piece
 * that is shorter than GILLCURTAIN_SCRATCH half is area, as long as that is no
 * more than GILLCURTAIN_AREA. */
static inline uint64_t gillcurtain_subset_with (uint64_t kind, uint64_t form, uint64_t layout,
                                                const uint8_t *source, size_t source_len,
                                                const uint8_t *glyphs, size_t glyphs_len,
                                                const uint8_t *lookups, size_t lookups_len,
                                                void *scratch, size_t scratch_len,
                                                uint8_t *out, size_t out_len)
{
  size_t skipped = (size_t) (-(uintptr_t) scratch & 3u);
  if (scratch_len < skipped) skipped = scratch_len;
  size_t left = scratch_len - skipped;
  size_t area_len = left / 2 < GILLCURTAIN_AREA ? left / 2 : GILLCURTAIN_AREA;
  size_t cells_len = (left - area_len) / 4;
  uint8_t *start = (uint8_t *) scratch + skipped;
  return gillcurtain_subset_in (kind, form, layout, source, source_len, glyphs, glyphs_len, lookups, lookups_len,
                                (uint32_t *) (void *) start, cells_len, start + 4 * cells_len, area_len, out, out_len);
}

/* The answers of a replay. Where several apply, the first of 15, 4, 5, 6, 12,
 * 16, 17, 18 is given, in that order; 4, 5, 6 and 12 as for a cut. */
enum gillcurtain_replay_answer {
  GILLCURTAIN_REPLAYED = 0,     /* all runs were replayed */
  GILLCURTAIN_BAD_LIST = 15,    /* not of whole entries, over 16, another kind, or a part outside the buffer */
  GILLCURTAIN_BAD_TRACE = 16,   /* cut short, or a count over 64 */
  GILLCURTAIN_NO_SUCH_LOOKUP = 17, /* a record names no lookup of the list */
  GILLCURTAIN_TOO_DEEP = 18     /* a record would run a lookup at depth 9; the tally is as before that run */
};

/* The bytes of a tally. */
#define GILLCURTAIN_TALLY 24u

/* Replays a recorded trace over a list of lookups. The list has ten bytes a
 * lookup: its kind (1, 2 or 5), and start and length of its subtable in
 * `buffer`, in two, four and four bytes. The trace has for each run a count, so
 * many glyphs that went in, and as many that came out, two bytes each. All
 * numbers are big-endian.
 * The tally is written to the front of `tally`, which overlaps none of the
 * others: how many runs there were, how many agree, and the first that does
 * not, from 1 (0 if none), eight bytes each; a shorter slice gets what fits.
 * The result is the answer times 2^56, plus the place, which is 0 save with
 * GILLCURTAIN_MALFORMED.
 * Lookups that call each other can take more steps than anyone waits for, and
 * none of them is refused: ask what a list from an unknown hand may cost, or
 * replay it under a time limit of your own. */
uint64_t gillcurtain_replay (const uint8_t *list, size_t list_len,
                             const uint8_t *buffer, size_t buffer_len,
                             const uint8_t *trace, size_t trace_len,
                             uint8_t *tally, size_t tally_len);

/* The bytes of a number of steps, and the number at which it is cut off. */
#define GILLCURTAIN_STEPS 8u
#define GILLCURTAIN_MANY_STEPS ((uint64_t) 1 << 63)

/* What a replay over this list may cost, told before any run: the most lookups
 * that are asked, each at one place, for each glyph that went into the runs.
 * That is a bound: most runs ask far fewer.
 * It is written to the front of `steps`, which overlaps none of the others, in
 * eight bytes; a shorter slice gets what fits. GILLCURTAIN_MANY_STEPS says that
 * many or more. The result is that of gillcurtain_replay, with its refusals of
 * the list and its lookups; with a refusal the steps are 0. */
uint64_t gillcurtain_replay_cost (const uint8_t *list, size_t list_len,
                                  const uint8_t *buffer, size_t buffer_len,
                                  uint8_t *steps, size_t steps_len);

static inline unsigned gillcurtain_replay_number (uint64_t result) { return gillcurtain_number (result); }
static inline uint64_t gillcurtain_replay_place (uint64_t result) { return gillcurtain_length (result); }

/* A number of a tally: 0 runs, 1 agreements, 2 the first run that disagrees. */
static inline uint64_t gillcurtain_tallied (const uint8_t *tally, unsigned which)
{
  uint64_t n = 0;
  for (unsigned i = 0; i < 8; i++) n = n << 8 | tally[8 * which + i];
  return n;
}

/* The number of steps. */
static inline uint64_t gillcurtain_stepped (const uint8_t *steps) { return gillcurtain_tallied (steps, 0); }

/* What differs between two subtables: an entry of the list, six words of two
 * bytes each, big-endian. What does not apply is 0. */
struct gillcurtain_difference {
  uint16_t sort;                /* gillcurtain_sort */
  uint16_t side;                /* 0 left or moved, 1 right; of a value its field, 0 to 7 */
  uint16_t first;               /* the first glyph */
  uint16_t rank;                /* the rule's rank in its set, from 0, of a moved one the left; or the second glyph */
  uint16_t left, right;         /* formats, ranks of a moved rule, or values, which are signed */
};

enum gillcurtain_sort {
  GILLCURTAIN_DIFFERENT_FORMAT = 1,
  GILLCURTAIN_ONE_GLYPH = 2,    /* covered in one only */
  GILLCURTAIN_ONE_RULE = 3,     /* a rule or a ligature in one only */
  GILLCURTAIN_MOVED_RULE = 4,
  GILLCURTAIN_ONE_PAIR = 5,
  GILLCURTAIN_OTHER_VALUE = 6   /* fields 0 to 3 are the first record's 0x0001 to 0x0008, 4 to 7 the second's */
};

/* The bytes of an entry. */
#define GILLCURTAIN_DIFFERENCE 12u

/* The scratch that is enough for any comparison: so many cells of 32 bits in
 * four parts, and all of them in one piece. */
#define GILLCURTAIN_COMPARE_NUM 262144u
#define GILLCURTAIN_COMPARE_NUMS 131075u
#define GILLCURTAIN_COMPARE_HEADS 589828u
#define GILLCURTAIN_COMPARE_LINKS 458752u
#define GILLCURTAIN_COMPARE_CELLS (GILLCURTAIN_COMPARE_NUM + GILLCURTAIN_COMPARE_NUMS \
                                   + GILLCURTAIN_COMPARE_HEADS + GILLCURTAIN_COMPARE_LINKS)
#define GILLCURTAIN_COMPARE_SCRATCH (4u * GILLCURTAIN_COMPARE_CELLS)

/* The stack, in bytes, that a comparison may use at most with scratch of its
 * own: 6 MiB. With GILLCURTAIN_COMPARE_SCRATCH bytes of lent scratch it is
 * GILLCURTAIN_LITTLE_STACK. */
#define GILLCURTAIN_COMPARE_STACK (6u << 20)

/* Compares two subtables of this kind, 1 to 4 (of pairs format 1 alone), and
 * lists what differs in `out`, which overlaps none of the others, in the order
 * of first glyph, rank, side. The list is empty exactly if both say the same.
 * The answers are those of a cut: 0 with the length of the list; 1; then 4, 5,
 * 6 with its place, and 7 of the left subtable, then those of the right one;
 * then 10 with the length needed, where nothing is written. The result is the
 * answer times 2^56, plus the length, which can pass 32 bits. */
uint64_t gillcurtain_compare (uint64_t kind,
                              const uint8_t *left, size_t left_len,
                              const uint8_t *right, size_t right_len,
                              uint8_t *out, size_t out_len);

/* The same with lent scratch in its four parts, of any lengths and whatever
 * they hold. Where one is too short, the call makes scratch of its own. */
uint64_t gillcurtain_compare_in (uint64_t kind,
                                 const uint8_t *left, size_t left_len,
                                 const uint8_t *right, size_t right_len,
                                 uint32_t *num, size_t num_len,
                                 uint32_t *nums, size_t nums_len,
                                 uint32_t *heads, size_t heads_len,
                                 uint32_t *links, size_t links_len,
                                 uint8_t *out, size_t out_len);

/* The same with one piece of scratch, of any length; it is used if it begins
 * where a cell may, and has GILLCURTAIN_COMPARE_SCRATCH bytes or more. */
static inline uint64_t gillcurtain_compare_with (uint64_t kind,
                                                 const uint8_t *left, size_t left_len,
                                                 const uint8_t *right, size_t right_len,
                                                 void *scratch, size_t scratch_len,
                                                 uint8_t *out, size_t out_len)
{
  if (scratch_len < GILLCURTAIN_COMPARE_SCRATCH || (uintptr_t) scratch % 4u)
    return gillcurtain_compare (kind, left, left_len, right, right_len, out, out_len);
  uint32_t *num = (uint32_t *) scratch;
  uint32_t *nums = num + GILLCURTAIN_COMPARE_NUM;
  uint32_t *heads = nums + GILLCURTAIN_COMPARE_NUMS;
  uint32_t *links = heads + GILLCURTAIN_COMPARE_HEADS;
  return gillcurtain_compare_in (kind, left, left_len, right, right_len, num, GILLCURTAIN_COMPARE_NUM,
                                 nums, GILLCURTAIN_COMPARE_NUMS, heads, GILLCURTAIN_COMPARE_HEADS,
                                 links, GILLCURTAIN_COMPARE_LINKS, out, out_len);
}

static inline unsigned gillcurtain_compare_number (uint64_t result) { return gillcurtain_number (result); }
static inline uint64_t gillcurtain_compare_length (uint64_t result) { return gillcurtain_length (result); }

/* The i-th entry of a list, from 0. */
static inline struct gillcurtain_difference gillcurtain_difference_at (const uint8_t *list, size_t i)
{
  uint16_t w[6];
  for (unsigned k = 0; k < 6; k++)
    w[k] = (uint16_t) (list[GILLCURTAIN_DIFFERENCE * i + 2 * k] << 8 | list[GILLCURTAIN_DIFFERENCE * i + 2 * k + 1]);
  struct gillcurtain_difference d = { w[0], w[1], w[2], w[3], w[4], w[5] };
  return d;
}

#ifdef __cplusplus
}
#endif
#endif
