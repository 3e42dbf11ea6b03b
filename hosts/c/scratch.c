/* Holds the call with lent scratch to the call without: the same answer and the
 * same buffer, for one piece of scratch of many lengths and of each alignment,
 * from none to more than enough, whatever it holds, for glyph maps of pairs and of
 * runs and for both layouts; and nothing beside the piece is written. */
#include <stdio.h>
#include <stdlib.h>
#include <string.h>
#include "gillcurtain.h"

enum { ROOM = 512, BESIDE = 64, GLYPHS = 3000, FILL = 0xA5 };

/* A context by glyph, one by class, a chained one by coverages, ligatures, pairs, pairs by class and single
 * substitutions, of glyphs 1 to 4. */
static const uint8_t by_glyph[] = {
  0, 1, 0, 28, 0, 2, 0, 10, 0, 10, 0, 1, 0, 4, 0, 3, 0, 1, 0, 2, 0, 3, 0, 1, 0, 0, 0, 0, 0, 1, 0, 2, 0, 1, 0, 4
};
static const uint8_t by_class[] = {
  0, 2, 0, 26, 0, 32, 0, 2, 0, 0, 0, 12, 0, 1, 0, 4, 0, 2, 0, 1, 0, 1, 0, 0, 0, 0, 0, 1, 0, 1, 0, 1, 0, 1, 0, 1, 0, 2, 0, 1, 0, 1
};
static const uint8_t by_cover[] = {
  0, 3, 0, 1, 0, 20, 0, 1, 0, 20, 0, 1, 0, 20, 0, 1, 0, 0, 0, 0, 0, 2, 0, 1, 0, 1, 0, 4, 0, 0
};
static const uint8_t ligatures[] = { 0, 1, 0, 18, 0, 1, 0, 8, 0, 1, 0, 4, 0, 4, 0, 2, 0, 2, 0, 1, 0, 1, 0, 1 };
static const uint8_t pairs[] = { 0, 1, 0, 22, 0, 4, 0, 0, 0, 1, 0, 12, 0, 2, 0, 1, 0, 9, 0, 4, 0, 7, 0, 1, 0, 1, 0, 2 };
static const uint8_t cells[] = {
  0, 2, 0, 24, 0, 4, 0, 0, 0, 32, 0, 40, 0, 2, 0, 2, 0, 1, 0, 2, 0, 3, 255, 255, 0, 1, 0, 2, 0, 1, 0, 2, 0, 1, 0, 2, 0, 1, 0, 1,
  0, 1, 0, 4, 0, 1, 0, 1
};
static const uint8_t by_delta[] = { 0, 1, 0, 6, 0, 1, 0, 1, 0, 2, 0, 1, 0, 3 };
static const uint8_t by_list[] = { 0, 2, 0, 10, 0, 2, 0, 2, 0, 1, 0, 1, 0, 2, 0, 1, 0, 3 };

static const struct { const char *name; unsigned kind; const uint8_t *at; size_t len; } sources[] = {
  { "by glyph", GILLCURTAIN_CONTEXT, by_glyph, sizeof by_glyph },
  { "by class", GILLCURTAIN_CONTEXT, by_class, sizeof by_class },
  { "by cover", GILLCURTAIN_CHAINED, by_cover, sizeof by_cover },
  { "ligatures", GILLCURTAIN_LIGATURE, ligatures, sizeof ligatures },
  { "pairs", GILLCURTAIN_PAIR, pairs, sizeof pairs },
  { "pairs by class", GILLCURTAIN_PAIR, cells, sizeof cells },
  { "by delta", GILLCURTAIN_SINGLE, by_delta, sizeof by_delta },
  { "by list", GILLCURTAIN_SINGLE, by_list, sizeof by_list },
  { "cut short", GILLCURTAIN_PAIR, pairs, sizeof pairs - 1 }
};
static const size_t lengths[] = {
  0, 1, 2, 3, 4, 5, 7, 8, 9, 100, 101, 1000, 4099, 20000, 65536, 300001, 524288, GILLCURTAIN_SCRATCH - 4,
  GILLCURTAIN_SCRATCH, GILLCURTAIN_SCRATCH + 1001
};
static const uint8_t lookups[] = { 0, 0, 0, 5 };

/* A glyph map in a form, by its name. */
struct map { const char *name; unsigned form; size_t len; uint8_t at[4 * GLYPHS]; };

static void word (uint8_t *at, size_t w) { at[0] = w >> 8; at[1] = w & 255; }

/* The map of the glyphs 1 to `n` to one more each, in pairs or in runs of up to seven. */
static void one_more (struct map *map, unsigned form, size_t n)
{
  size_t step = form == GILLCURTAIN_RUNS ? 7 : 1;
  map->name = form == GILLCURTAIN_RUNS ? "runs" : "pairs", map->form = form, map->len = 0;
  for (size_t i = 0; i < n; i += step, map->len += form)
  {
    uint8_t *entry = map->at + map->len;
    word (entry, i + 1);
    word (entry + 2, i + 2);
    if (form == GILLCURTAIN_RUNS) word (entry + 4, n - i < step ? n - i : step);
  }
}

/* Whether bytes are all as they were filled. */
static int filled (const uint8_t *at, size_t n)
{
  while (n && *at == FILL) at++, n--;
  return n == 0;
}

/* Whether the call with the piece of scratch answers as the one without, in this layout, into a buffer of `room` bytes. */
static int same (unsigned which, const struct map *map, unsigned layout, uint8_t *scratch, size_t len, size_t room)
{
  uint8_t without[ROOM], with[ROOM];
  memset (without, FILL, ROOM);
  memset (with, FILL, ROOM);
  memset (scratch - BESIDE, FILL, len + 2 * BESIDE);
  uint64_t expected = gillcurtain_subset (sources[which].kind, map->form, layout,
                                          sources[which].at, sources[which].len, map->at, map->len,
                                          lookups, sizeof lookups, without, room);
  uint64_t result = gillcurtain_subset_with (sources[which].kind, map->form, layout,
                                             sources[which].at, sources[which].len, map->at, map->len,
                                             lookups, sizeof lookups, scratch, len, with, room);
  if (result == expected && !memcmp (without, with, ROOM)
      && filled (scratch - BESIDE, BESIDE) && filled (scratch + len, BESIDE)) return 1;
  printf ("%s, %zu %s, layout %u, scratch of %zu bytes, buffer of %zu: answer %u, length %zu\n", sources[which].name,
          map->len / map->form, map->name, layout, len, room, gillcurtain_number (result), gillcurtain_length (result));
  return 0;
}

/* Every source under this map, in this layout, with scratch of every length and alignment, into buffers of some lengths
 * in turn. */
static unsigned all_scratch (const struct map *map, unsigned layout, uint8_t *piece, unsigned *calls)
{
  static const size_t rooms[] = { 0, 20, ROOM };
  unsigned faults = 0;
  for (unsigned which = 0; which < sizeof sources / sizeof *sources; which++)
    for (unsigned l = 0; l < sizeof lengths / sizeof *lengths; l++)
      for (unsigned shift = 0; shift < 4; shift++, ++*calls)
        faults += !same (which, map, layout, piece + BESIDE + shift, lengths[l], rooms[*calls % 3]);
  return faults;
}

int main (void)
{
  static const size_t glyphs[] = { 0, 2, 4, 20, GLYPHS };
  static const unsigned forms[] = { GILLCURTAIN_PAIRS, GILLCURTAIN_RUNS };
  static struct map map;
  uint8_t *piece = malloc (GILLCURTAIN_SCRATCH + 1001 + 4 + 2 * BESIDE), out[ROOM];
  unsigned calls = 0, faults = 0;
  if (!piece) { perror ("malloc"); return 1; }
  for (unsigned f = 0; f < sizeof forms / sizeof *forms; f++)
    for (unsigned g = 0; g < sizeof glyphs / sizeof *glyphs; g++)
    {
      one_more (&map, forms[f], glyphs[g]);
      faults += all_scratch (&map, GILLCURTAIN_PLAIN, piece, &calls);
      faults += all_scratch (&map, GILLCURTAIN_PACKED, piece, &calls);
    }
  one_more (&map, GILLCURTAIN_PAIRS, 4);
  uint64_t none = gillcurtain_subset_with (GILLCURTAIN_PAIR, map.form, GILLCURTAIN_PLAIN, pairs, sizeof pairs,
                                           map.at, map.len, NULL, 0, NULL, 0, out, ROOM);
  if (gillcurtain_number (none) != GILLCURTAIN_KEPT) { printf ("no scratch: answer %u\n", gillcurtain_number (none)); faults++; }
  printf ("%u calls with lent scratch answered as without\n", calls - faults);
  free (piece);
  return faults != 0;
}
