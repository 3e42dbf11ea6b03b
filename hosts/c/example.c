/* Cuts the first worked example, P1, and says in words what came back: a
 * context by glyph with three rules, of which the maps leave two. Cuts it again
 * with the glyph map as runs, a context that covers a long run of glyphs, and in
 * both layouts a chained context that has one coverage at three places. Then
 * replays three recorded runs over one lookup, after asking what that may cost.
 * Last, lists what differs between P1 and what is kept of it. */
#include <stdio.h>
#include <stdlib.h>
#include "gillcurtain.h"

static const uint8_t source[] = {
  0, 1, 0, 48, 0, 2, 0, 10, 0, 36,              /* format 1, coverage, two sets */
  0, 2, 0, 6, 0, 16,                            /* the set of glyph 3: two rules */
  0, 2, 0, 1, 0, 9, 0, 0, 0, 7,                 /* 3 9: lookup 7 */
  0, 2, 0, 1, 0, 6, 0, 0, 0, 4,                 /* 3 6: lookup 4 */
  0, 1, 0, 4,                                   /* the set of glyph 5: one rule */
  0, 1, 0, 1, 0, 0, 0, 5,                       /* 5: lookup 5 */
  0, 1, 0, 2, 0, 3, 0, 5                        /* the coverage: 3 5 */
};
static const uint8_t glyphs[] = { 0, 3, 0, 1, 0, 5, 0, 2, 0, 9, 0, 3 };  /* 3:1 5:2 9:3 */
static const uint8_t runs[] = { 0, 3, 0, 1, 0, 1, 0, 5, 0, 2, 0, 1, 0, 9, 0, 3, 0, 1 };  /* the same, a glyph a run */
static const uint8_t lookups[] = { 0, 4, 0, 0, 0, 7, 0, 2 };             /* 4:0 7:2 */

static const char *const meaning[] = {
  [GILLCURTAIN_KEPT] = "kept",
  [GILLCURTAIN_BAD_KIND] = "the kind is none of 1 to 5",
  [GILLCURTAIN_BAD_FORM] = "the glyph map is neither of pairs nor of runs",
  [GILLCURTAIN_BAD_LAYOUT] = "the layout is neither the plain nor the packed one",
  [GILLCURTAIN_BAD_GLYPHS] = "the glyph map is not good",
  [GILLCURTAIN_BAD_LOOKUPS] = "the lookup map is not good",
  [GILLCURTAIN_LONG_SOURCE] = "the source is over 262,144 bytes",
  [GILLCURTAIN_BAD_FORMAT] = "the kind has no such format",
  [GILLCURTAIN_MALFORMED] = "the source is malformed",
  [GILLCURTAIN_DEVICE] = "a value format asks for a device table",
  [GILLCURTAIN_PAST_RULE] = "a record points past its rule",
  [GILLCURTAIN_NOTHING] = "nothing survives",
  [GILLCURTAIN_TOO_BIG] = "the result is over 262,144 bytes, or an offset or a count in it over 65,535",
  [GILLCURTAIN_NO_ROOM] = "the buffer is too short"
};

/* Says what came back for the first so many bytes of P1 and a buffer of `room` bytes. */
static void say (size_t length, size_t room, const char *how, uint64_t result)
{
  unsigned number = gillcurtain_number (result);
  printf ("%zu bytes of P1 into %zu%s: answer %u, %s", length, room, how, number, meaning[number]);
  if (number == GILLCURTAIN_KEPT) printf (": %zu bytes", gillcurtain_length (result));
  if (number == GILLCURTAIN_NO_ROOM) printf (": it takes %zu", gillcurtain_length (result));
  if (number == GILLCURTAIN_MALFORMED) printf (", in the part at 0x%04zx", gillcurtain_length (result));
  printf ("\n");
}

/* Cuts the first so many bytes of P1 into so many bytes of `out`. */
static uint64_t cut (size_t length, uint8_t *out, size_t room)
{
  uint64_t result = gillcurtain_subset (GILLCURTAIN_CONTEXT, GILLCURTAIN_PAIRS, GILLCURTAIN_PLAIN, source, length,
                                        glyphs, sizeof glyphs, lookups, sizeof lookups, out, room);
  say (length, room, "", result);
  return result;
}

/* Cuts P1 with the glyph map as runs. */
static uint64_t cut_by_runs (uint8_t *out, size_t room)
{
  uint64_t result = gillcurtain_subset (GILLCURTAIN_CONTEXT, GILLCURTAIN_RUNS, GILLCURTAIN_PLAIN, source, sizeof source,
                                        runs, sizeof runs, lookups, sizeof lookups, out, room);
  say (sizeof source, room, " with the map as runs", result);
  return result;
}

/* Cuts P1 with scratch that is asked for once and serves any number of calls. */
static uint64_t cut_with_scratch (uint8_t *out, size_t room)
{
  void *scratch = malloc (GILLCURTAIN_SCRATCH);
  if (!scratch) return 0;
  uint64_t result = gillcurtain_subset_with (GILLCURTAIN_CONTEXT, GILLCURTAIN_PAIRS, GILLCURTAIN_PLAIN,
                                             source, sizeof source, glyphs, sizeof glyphs, lookups, sizeof lookups,
                                             scratch, GILLCURTAIN_SCRATCH, out, room);
  say (sizeof source, room, " with lent scratch", result);
  free (scratch);
  return result;
}

static void print (const uint8_t *bytes, size_t n)
{
  for (size_t i = 0; i < n; i++) printf ("%02x%s", bytes[i], i % 16 == 15 || i + 1 == n ? "\n" : "");
}

/* Glyphs 1000 to 1999 become 0 to 999: one run. Of the covered glyphs 990 to 1009 ten are retained. */
static const uint8_t wide[] = { 0, 3, 0, 1, 0, 0, 0, 8, 0, 2, 0, 1, 3, 222, 3, 241, 0, 0 };
static const uint8_t thousand[] = { 3, 232, 0, 0, 3, 232 };

static int cut_wide (uint8_t *out, size_t room)
{
  uint64_t result = gillcurtain_subset (GILLCURTAIN_CONTEXT, GILLCURTAIN_RUNS, GILLCURTAIN_PLAIN, wide, sizeof wide,
                                        thousand, sizeof thousand, NULL, 0, out, room);
  unsigned number = gillcurtain_number (result);
  printf ("a run of 1000 glyphs, in %zu bytes: answer %u, %s\n", sizeof thousand, number, meaning[number]);
  if (number != GILLCURTAIN_KEPT) return 0;
  print (out, gillcurtain_length (result));
  return 1;
}

/* A chained context with glyphs 3 and 5 before, at and after the place, by one coverage. */
static const uint8_t thrice[] = {
  0, 3, 0, 1, 0, 16, 0, 1, 0, 16, 0, 1, 0, 16, 0, 0,   /* format 3, three places, no record */
  0, 1, 0, 2, 0, 3, 0, 5                               /* the coverage: 3 5 */
};

/* Cuts it into `out` in a layout; how long it becomes, 0 if it is refused. */
static size_t cut_thrice (enum gillcurtain_layout layout, uint8_t *out, size_t room)
{
  uint64_t result = gillcurtain_subset (GILLCURTAIN_CHAINED, GILLCURTAIN_PAIRS, layout, thrice, sizeof thrice,
                                        glyphs, sizeof glyphs, lookups, sizeof lookups, out, room);
  return gillcurtain_number (result) == GILLCURTAIN_KEPT ? gillcurtain_length (result) : 0;
}

/* Cuts it in both layouts, which say the same; the packed one has the coverage once. */
static int cut_packed (void)
{
  uint8_t plain[64], packed[64];
  size_t plain_len = cut_thrice (GILLCURTAIN_PLAIN, plain, sizeof plain);
  size_t packed_len = cut_thrice (GILLCURTAIN_PACKED, packed, sizeof packed);
  uint64_t differences = gillcurtain_compare (GILLCURTAIN_CHAINED, plain, plain_len, packed, packed_len, NULL, 0);
  printf ("one coverage at three places: %zu bytes plain, %zu packed\n", plain_len, packed_len);
  print (packed, packed_len);
  return packed_len && packed_len <= plain_len && differences == 0;
}

/* One lookup, kind 5, which puts glyph 6 for glyph 5; of the three runs the last was not recorded so. */
static const uint8_t list[] = { 0, 5, 0, 0, 0, 0, 0, 0, 0, 12 };
static const uint8_t buffer[] = { 0, 1, 0, 6, 0, 1, 0, 1, 0, 1, 0, 5 };
static const uint8_t trace[] = {
  0, 2, 0, 5, 0, 7, 0, 6, 0, 7,                 /* 5 7 -> 6 7 */
  0, 1, 0, 7, 0, 7,                             /* 7 -> 7 */
  0, 1, 0, 5, 0, 5                              /* 5 -> 5 */
};

static int replay (void)
{
  uint8_t tally[GILLCURTAIN_TALLY], steps[GILLCURTAIN_STEPS];
  uint64_t cost = gillcurtain_replay_cost (list, sizeof list, buffer, sizeof buffer, steps, sizeof steps);
  printf ("cost: answer %u, at most %u lookups asked for each glyph\n", gillcurtain_replay_number (cost),
          (unsigned) gillcurtain_stepped (steps));
  uint64_t result = gillcurtain_replay (list, sizeof list, buffer, sizeof buffer, trace, sizeof trace,
                                        tally, sizeof tally);
  printf ("replay: answer %u, %u runs, %u agree, the first that does not is run %u\n",
          gillcurtain_replay_number (result), (unsigned) gillcurtain_tallied (tally, 0),
          (unsigned) gillcurtain_tallied (tally, 1), (unsigned) gillcurtain_tallied (tally, 2));
  return gillcurtain_replay_number (result) == GILLCURTAIN_REPLAYED;
}

/* Lists what differs between P1 and the small subtable, with lent scratch. */
static int differ (const uint8_t *kept, size_t kept_len)
{
  uint8_t listed[16 * GILLCURTAIN_DIFFERENCE];
  void *scratch = malloc (GILLCURTAIN_COMPARE_SCRATCH);
  if (!scratch) return 0;
  uint64_t result = gillcurtain_compare_with (GILLCURTAIN_CONTEXT, source, sizeof source, kept, kept_len,
                                              scratch, GILLCURTAIN_COMPARE_SCRATCH, listed, sizeof listed);
  free (scratch);
  if (gillcurtain_compare_number (result) != GILLCURTAIN_KEPT) return 0;
  size_t n = gillcurtain_compare_length (result) / GILLCURTAIN_DIFFERENCE;
  printf ("compare: answer %u, %zu differences\n", gillcurtain_compare_number (result), n);
  for (size_t i = 0; i < n; i++)
  {
    struct gillcurtain_difference d = gillcurtain_difference_at (listed, i);
    printf ("  sort %u, side %u, glyph %u, rank %u\n", d.sort, d.side, d.first, d.rank);
  }
  return gillcurtain_compare (GILLCURTAIN_CONTEXT, source, sizeof source, source, sizeof source, NULL, 0) == 0;
}

int main (void)
{
  uint8_t out[sizeof source];
  /* Without its last two bytes the coverage, at 48, is cut short. */
  if (gillcurtain_number (cut (sizeof source - 2, out, sizeof out)) != GILLCURTAIN_MALFORMED) return 1;
  size_t needed = gillcurtain_length (cut (sizeof source, NULL, 0));
  if (sizeof out < needed) return 1;
  uint64_t result = cut (sizeof source, out, needed);
  if (gillcurtain_number (result) != GILLCURTAIN_KEPT) return 1;
  print (out, gillcurtain_length (result));
  result = cut_with_scratch (out, sizeof out);
  if (gillcurtain_number (result) != GILLCURTAIN_KEPT) return 1;
  print (out, gillcurtain_length (result));
  result = cut_by_runs (out, sizeof out);
  if (gillcurtain_number (result) != GILLCURTAIN_KEPT) return 1;
  print (out, gillcurtain_length (result));
  uint8_t small[sizeof wide];
  if (!cut_wide (small, sizeof small) || !cut_packed ()) return 1;
  return replay () && differ (out, gillcurtain_length (result)) ? 0 : 1;
}
