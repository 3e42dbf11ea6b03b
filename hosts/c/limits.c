/* Holds the calls to what gillcurtain.h says of pointers and of the stack.
 *
 * Each part in turn is empty and its pointer null; marks differ from good ones
 * by 2^32. Then tables of each kind, among them some whose slots share one set,
 * are cut in both layouts under maps of all glyphs, as pairs, as two runs and as
 * runs of one, and compared with themselves, with scratch of the call's own, with
 * lent scratch and with too little of it. Each call runs on as much stack as the
 * header says, above pages that nobody may touch, which was filled before; the
 * most that was used of it is printed. */
#define _GNU_SOURCE
#include <pthread.h>
#include <stdio.h>
#include <stdlib.h>
#include <string.h>
#include <sys/mman.h>
#include "gillcurtain.h"

enum { GLYPHS = 65536, PAGE = 4096, MORE = 64 * PAGE, FILL = 0xA5 };

/* The length of what is kept of `source`, where no part is shared, and where the three class tables are one, and the
 * length of a lookup record. */
enum { KEPT = 68, PACKED = 52, RECORD = 4 };

/* Glyph 1 is covered and of class 1; its one rule, of class 1 before, at and
 * after the place, runs a lookup. */
static const uint8_t source[] = {
  0, 2, 0, 38, 0, 44, 0, 44, 0, 44, 0, 2, 0, 0, 0, 16,    /* format 2, coverage, classes, two slots */
  0, 1, 0, 4,                                             /* the set of class 1: one rule */
  0, 1, 0, 1, 0, 2, 0, 1, 0, 1, 0, 1, 0, 1, 0, 0, 0, 0,   /* 1 before, 1 1 at, 1 after, a record */
  0, 1, 0, 1, 0, 1,                                       /* the coverage: 1 */
  0, 1, 0, 1, 0, 1, 0, 1                                  /* the classes: glyph 1 is of class 1 */
};
static const uint8_t lookup[] = { 0, 0, 0, 0 };

/* Tables with 300 slots, all of which have the one set, and four lookups. */
enum { SLOTS = 300, CROWDED = 1024 };
static uint8_t shared[CROWDED], shared_by_glyph[CROWDED], shared_ligatures[CROWDED];
static const uint8_t lookups[] = { 0, 0, 0, 0, 0, 1, 0, 1, 0, 2, 0, 2, 0, 3, 0, 3 };

/* All glyphs keep their numbers: as pairs, in as few runs as they take, and in as many. */
static uint8_t pairs_of_all[GILLCURTAIN_PAIRS * GLYPHS], runs_of_one[GILLCURTAIN_RUNS * GLYPHS];
static const uint8_t two_runs[] = { 0, 0, 0, 0, 255, 255, 255, 255, 255, 255, 0, 1 };
static const struct { unsigned form; const uint8_t *at; size_t len; } maps[] = {
  { GILLCURTAIN_PAIRS, pairs_of_all, sizeof pairs_of_all },
  { GILLCURTAIN_RUNS, two_runs, sizeof two_runs },
  { GILLCURTAIN_RUNS, runs_of_one, sizeof runs_of_one }
};
enum { MAPS = sizeof maps / sizeof *maps };

static int faults;

static void expect (const char *what, uint64_t result, unsigned number, size_t length)
{
  if (gillcurtain_number (result) == number && gillcurtain_length (result) == length) return;
  printf ("%s: answer %u, length %zu\n", what, gillcurtain_number (result), gillcurtain_length (result));
  faults++;
}

static void word (uint8_t *at, unsigned w) { at[0] = w >> 8; at[1] = w & 255; }

/* The table `from`, whose `had` slots stand at `slots`, behind its offsets and their count, with SLOTS of them, which all
 * lead to what stood right behind the slots. */
static void share (uint8_t *to, const uint8_t *from, size_t len, unsigned slots, unsigned had)
{
  const unsigned behind = slots + 2 * had, shift = 2 * (SLOTS - had);
  memcpy (to, from, slots);
  memcpy (to + behind + shift, from + behind, len - behind);
  for (unsigned at = 2; at < slots - 2; at += 2)
    word (to + at, from[at + 1] + shift);
  word (to + slots - 2, SLOTS);
  for (unsigned i = 0; i < SLOTS; i++)
    word (to + slots + 2 * i, behind + shift);
}

static void fill_maps (void)
{
  for (unsigned i = 0; i < GLYPHS; i++)
  {
    uint8_t *pair = pairs_of_all + GILLCURTAIN_PAIRS * i, *run = runs_of_one + GILLCURTAIN_RUNS * i;
    word (pair, i);
    word (pair + 2, i);
    memcpy (run, pair, GILLCURTAIN_PAIRS);
    word (run + GILLCURTAIN_PAIRS, 1);
  }
}

/* A part: where it starts, and how long it is. */
struct part { const uint8_t *at; size_t len; };

/* The chained context, cut in the plain layout into so many bytes of `out`, with the glyph map in a form. */
static uint64_t chained (unsigned form, struct part from, struct part map, struct part kept, uint8_t *out, size_t room)
{
  return gillcurtain_subset (GILLCURTAIN_CHAINED, form, GILLCURTAIN_PLAIN, from.at, from.len, map.at, map.len,
                             kept.at, kept.len, out, room);
}

static void empty_parts (void)
{
  const struct part none = { NULL, 0 }, whole = { source, sizeof source }, pair = { pairs_of_all, 8 },
                    run = { two_runs, 6 }, one = { lookup, sizeof lookup };
  uint8_t out[KEPT];
  expect ("no source", chained (GILLCURTAIN_PAIRS, none, pair, one, out, KEPT), GILLCURTAIN_MALFORMED, 0);
  expect ("no pair", chained (GILLCURTAIN_PAIRS, whole, none, one, out, KEPT), GILLCURTAIN_NOTHING, 0);
  expect ("no run", chained (GILLCURTAIN_RUNS, whole, none, one, out, KEPT), GILLCURTAIN_NOTHING, 0);
  expect ("no lookup", chained (GILLCURTAIN_PAIRS, whole, pair, none, out, KEPT), GILLCURTAIN_KEPT, KEPT - RECORD);
  expect ("no room", chained (GILLCURTAIN_RUNS, whole, run, one, NULL, 0), GILLCURTAIN_NO_ROOM, KEPT);
  expect ("no left", gillcurtain_compare (GILLCURTAIN_CHAINED, NULL, 0, source, sizeof source, out, KEPT),
          GILLCURTAIN_MALFORMED, 0);
  expect ("no list", gillcurtain_compare (GILLCURTAIN_CHAINED, source, sizeof source, source, sizeof source, NULL, 0),
          GILLCURTAIN_KEPT, 0);
}

/* Marks are numbers of 64 bits, and each of them counts. */
static void bad_marks (void)
{
  const uint64_t high = (uint64_t) 1 << 32;
  uint8_t out[KEPT];
  expect ("a kind", gillcurtain_subset (high + GILLCURTAIN_CHAINED, 0, 2, source, sizeof source,
                                        lookup, 1, lookup, sizeof lookup, out, KEPT), GILLCURTAIN_BAD_KIND, 0);
  expect ("a form", gillcurtain_subset (GILLCURTAIN_CHAINED, high + GILLCURTAIN_PAIRS, high, source, sizeof source,
                                        lookup, 1, lookup, sizeof lookup, out, KEPT), GILLCURTAIN_BAD_FORM, 0);
  expect ("a layout", gillcurtain_subset (GILLCURTAIN_CHAINED, GILLCURTAIN_RUNS, high + GILLCURTAIN_PACKED, source,
                                          sizeof source, lookup, 1, lookup, sizeof lookup, out, KEPT),
          GILLCURTAIN_BAD_LAYOUT, 0);
}

/* Tables that say little, for calls that go deep since the map is long. */
static const uint8_t by_glyph[] = { 0, 1, 0, 16, 0, 1, 0, 8, 0, 1, 0, 4, 0, 1, 0, 0, 0, 1, 0, 1, 0, 1 };
static const uint8_t by_cover[] = { 0, 3, 0, 1, 0, 0, 0, 8, 0, 1, 0, 1, 0, 1 };
static const uint8_t ligatures[] = { 0, 1, 0, 16, 0, 1, 0, 8, 0, 1, 0, 4, 0, 2, 0, 1, 0, 1, 0, 1, 0, 1 };
static const uint8_t pairs[] = { 0, 1, 0, 18, 0, 4, 0, 0, 0, 1, 0, 12, 0, 1, 0, 1, 0, 9, 0, 1, 0, 1, 0, 1 };
static const uint8_t cells[] = {
  0, 2, 0, 18, 0, 4, 0, 0, 0, 24, 0, 28, 0, 1, 0, 1, 0, 9, 0, 1, 0, 1, 0, 1, 0, 2, 0, 0, 0, 2, 0, 0
};
static const uint8_t singles[] = { 0, 1, 0, 6, 0, 0, 0, 1, 0, 1, 0, 1 };

/* With each the length of what is kept in the plain layout, how much shorter the packed one is, and the answer where it
 * is compared with itself. The two class tables of `cells` are equal. */
static const struct {
  const char *name; unsigned kind; const uint8_t *at; size_t len, kept, shorter; unsigned compared;
} deep[] = {
  { "chained by class", GILLCURTAIN_CHAINED, shared, CROWDED, KEPT, KEPT - PACKED, GILLCURTAIN_KEPT },
  { "by glyph, shared", GILLCURTAIN_CONTEXT, shared_by_glyph, CROWDED, sizeof by_glyph, 0, GILLCURTAIN_KEPT },
  { "ligatures, shared", GILLCURTAIN_LIGATURE, shared_ligatures, CROWDED, sizeof ligatures, 0, GILLCURTAIN_KEPT },
  { "by glyph", GILLCURTAIN_CONTEXT, by_glyph, sizeof by_glyph, sizeof by_glyph, 0, GILLCURTAIN_KEPT },
  { "by cover", GILLCURTAIN_CONTEXT, by_cover, sizeof by_cover, sizeof by_cover, 0, GILLCURTAIN_KEPT },
  { "ligatures", GILLCURTAIN_LIGATURE, ligatures, sizeof ligatures, sizeof ligatures, 0, GILLCURTAIN_KEPT },
  { "pairs", GILLCURTAIN_PAIR, pairs, sizeof pairs, sizeof pairs, 0, GILLCURTAIN_KEPT },
  { "pairs by class", GILLCURTAIN_PAIR, cells, sizeof cells, sizeof cells, 4, GILLCURTAIN_BAD_FORMAT },
  { "singles", GILLCURTAIN_SINGLE, singles, sizeof singles, sizeof singles, 0, GILLCURTAIN_BAD_KIND }
};
enum { DEEP = sizeof deep / sizeof *deep };

struct run;

/* A way of calling: under the first so many maps, with so much lent scratch, or none of it, and on so much stack. */
struct way {
  const char *name;
  void (*call) (const struct run *run, uint8_t *out);
  unsigned maps;
  uint8_t *scratch;
  size_t scratch_len, most;
};

/* A call, of which table and under which map, on a stack that begins at `stack`, and what it used of it. */
struct run { const struct way *way; unsigned which, map; uint8_t *stack; size_t used; };

static void cut (const struct run *run, unsigned layout, uint8_t *out)
{
  const struct way *way = run->way;
  unsigned which = run->which, map = run->map;
  uint64_t result = way->scratch
    ? gillcurtain_subset_with (deep[which].kind, maps[map].form, layout, deep[which].at, deep[which].len,
                               maps[map].at, maps[map].len, lookups, sizeof lookups,
                               way->scratch, way->scratch_len, out, KEPT)
    : gillcurtain_subset (deep[which].kind, maps[map].form, layout, deep[which].at, deep[which].len,
                          maps[map].at, maps[map].len, lookups, sizeof lookups, out, KEPT);
  size_t shorter = layout == GILLCURTAIN_PACKED ? deep[which].shorter : 0;
  expect (deep[which].name, result, GILLCURTAIN_KEPT, deep[which].kept - shorter);
}

static void cut_plain (const struct run *run, uint8_t *out) { cut (run, GILLCURTAIN_PLAIN, out); }

static void cut_packed (const struct run *run, uint8_t *out) { cut (run, GILLCURTAIN_PACKED, out); }

static void compare (const struct run *run, uint8_t *out)
{
  const struct way *way = run->way;
  unsigned which = run->which;
  uint64_t result = gillcurtain_compare_with (deep[which].kind, deep[which].at, deep[which].len, deep[which].at,
                                              deep[which].len, way->scratch, way->scratch_len, out, KEPT);
  expect (deep[which].name, result, deep[which].compared, 0);
}

/* The call on what is left of the stack here, cut down to what it may use and the rest of a page. */
static void *on_stack (void *given)
{
  struct run *run = given;
  uint8_t out[KEPT];
  uint8_t *here = out;
  size_t below = (size_t) (here - run->stack - run->way->most) / PAGE * PAGE;
  uint8_t *low = run->stack + below;
  if (mprotect (run->stack, below, PROT_NONE)) { perror ("mprotect"); faults++; return NULL; }
  run->way->call (run, out);
  while (*low == FILL) low++;
  run->used = (size_t) (here - low);
  return NULL;
}

/* How much stack the call used, in a thread whose stack was filled before. */
static size_t stack_used (const struct way *way, unsigned which, unsigned map)
{
  size_t size = way->most + MORE;
  struct run run = { way, which, map, mmap (NULL, size, PROT_READ | PROT_WRITE, MAP_PRIVATE | MAP_ANONYMOUS, -1, 0), 0 };
  pthread_t thread;
  pthread_attr_t attr;
  if (run.stack == MAP_FAILED) { perror ("mmap"); exit (1); }
  memset (run.stack, FILL, size);
  if (pthread_attr_init (&attr) || pthread_attr_setstack (&attr, run.stack, size)
      || pthread_create (&thread, &attr, on_stack, &run) || pthread_join (thread, NULL))
  { printf ("no thread\n"); exit (1); }
  pthread_attr_destroy (&attr);
  munmap (run.stack, size);
  return run.used;
}

/* The most stack that these calls used; whether it is no more than they may. */
static int holds (const struct way *way)
{
  size_t most = 0;
  for (unsigned each = 0; each < DEEP * way->maps; each++)
  {
    size_t used = stack_used (way, each / way->maps, each % way->maps);
    if (most < used) most = used;
  }
  printf ("%s: %zu of %zu bytes of stack used\n", way->name, most, way->most);
  return most <= way->most;
}

int main (void)
{
  static uint8_t scratch[GILLCURTAIN_SCRATCH + 4];
  static uint32_t compare_scratch[GILLCURTAIN_COMPARE_CELLS];
  uint8_t *lent = (uint8_t *) compare_scratch;
  const struct way ways[] = {
    { "own scratch", cut_plain, MAPS, NULL, 0, GILLCURTAIN_STACK },
    { "lent scratch", cut_plain, MAPS, scratch, sizeof scratch, GILLCURTAIN_LITTLE_STACK },
    { "too little scratch", cut_plain, MAPS, scratch, 64, GILLCURTAIN_STACK },
    { "packed, own scratch", cut_packed, MAPS, NULL, 0, GILLCURTAIN_STACK },
    { "packed, lent scratch", cut_packed, MAPS, scratch, sizeof scratch, GILLCURTAIN_LITTLE_STACK },
    { "packed, too little scratch", cut_packed, MAPS, scratch, 64, GILLCURTAIN_STACK },
    { "compared, own scratch", compare, 1, NULL, 0, GILLCURTAIN_COMPARE_STACK },
    { "compared, lent scratch", compare, 1, lent, sizeof compare_scratch, GILLCURTAIN_LITTLE_STACK },
    { "compared, too little scratch", compare, 1, lent, sizeof compare_scratch - 4, GILLCURTAIN_COMPARE_STACK }
  };
  int good = 1;
  fill_maps ();
  empty_parts ();
  bad_marks ();
  share (shared, source, sizeof source, 12, 2);
  share (shared_by_glyph, by_glyph, sizeof by_glyph, 6, 1);
  share (shared_ligatures, ligatures, sizeof ligatures, 6, 1);
  for (unsigned w = 0; w < sizeof ways / sizeof *ways; w++)
    good &= holds (&ways[w]);
  return faults || !good;
}
