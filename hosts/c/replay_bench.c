/* Times the replay of recorded runs, given as replay files, and beside it, where it is compiled with -DHARFBUZZ,
 * hb_shape over the same runs with a font that has the same lookups and nothing else (docs/SPEED.md).
 * With --record the glyphs that came out are first set to those that HarfBuzz gives, so that all runs have to agree. */
#include <stdio.h>
#include <stdlib.h>
#include <string.h>
#include <time.h>
#include "gillcurtain.h"
#ifdef HARFBUZZ
#include <hb.h>
#include <hb-ot.h>
#endif

enum { TRAILER = 28, ROUNDS = 5 };

struct part { uint8_t *at; size_t len; };

static size_t word (const uint8_t *p) { return (size_t) p[0] << 8 | p[1]; }
static size_t number (const uint8_t *p) { return word (p) << 16 | word (p + 2); }

static double now (void)
{
  struct timespec t;
  clock_gettime (CLOCK_PROCESS_CPUTIME_ID, &t);
  return (double) t.tv_sec + 1e-9 * (double) t.tv_nsec;
}

static struct part read_file (const char *name)
{
  struct part file = { NULL, 0 };
  FILE *f = fopen (name, "rb");
  if (!f || fseek (f, 0, SEEK_END)) return file;
  long len = ftell (f);
  rewind (f);
  file.at = malloc ((size_t) len + 1);
  if (file.at && fread (file.at, 1, (size_t) len, f) == (size_t) len) file.len = (size_t) len;
  fclose (f);
  return file;
}

#ifdef HARFBUZZ
/* Glyph g is asked for as the character FIRST + g, of a private plane. */
enum { FIRST = 0xF0000 };

static hb_bool_t glyph_of (hb_font_t *font, void *data, hb_codepoint_t c, hb_codepoint_t *glyph, void *user)
{
  (void) font; (void) data; (void) user;
  *glyph = c - FIRST;
  return 1;
}

static uint8_t *put (uint8_t *p, size_t n) { p[0] = (uint8_t) (n >> 8); p[1] = (uint8_t) n; return p + 2; }

/* A font whose one feature has the listed lookups in order. */
static hb_font_t *font_of (struct part list, struct part buffer)
{
  static const uint8_t head[] = { 0, 1, 0, 0, 0, 10, 0, 30, 0, 0, 0, 1, 'D', 'F', 'L', 'T', 0, 8, 0, 4, 0, 0, 0, 0, 255, 255,
                                  0, 1, 0, 0, 0, 1, 'c', 'c', 'm', 'p', 0, 8, 0, 0 };
  static const uint8_t maxp[] = { 0, 0, 0x50, 0, 0xFF, 0xFF };
  static const size_t types[] = { 0, 5, 6, 0, 0, 1 };
  size_t n = list.len / 10, lookups = sizeof head + 2 + 2 * n, first = lookups + 2 + 2 * n, data = first + 16 * n;
  uint8_t *table = malloc (data + buffer.len), *p = table + sizeof head;
  memcpy (table, head, sizeof head);
  put (table + 8, lookups);
  p = put (p, n);
  for (size_t i = 0; i < n; i++) p = put (p, i);
  p = put (p, n);
  for (size_t i = 0; i < n; i++) p = put (p, first - lookups + 16 * i);
  for (size_t i = 0; i < n; i++) {
    size_t to = data + number (list.at + 10 * i + 2) - (first + 16 * i + 8);
    p = put (put (put (put (p, 7), 0), 1), 8);
    p = put (put (put (put (p, 1), types[word (list.at + 10 * i)]), to >> 16), to);
  }
  memcpy (p, buffer.at, buffer.len);
  hb_face_t *face = hb_face_builder_create ();
  hb_face_builder_add_table (face, HB_TAG ('G', 'S', 'U', 'B'), hb_blob_create ((char *) table, (unsigned) (data + buffer.len), HB_MEMORY_MODE_READONLY, table, free));
  hb_face_builder_add_table (face, HB_TAG ('m', 'a', 'x', 'p'), hb_blob_create ((const char *) maxp, sizeof maxp, HB_MEMORY_MODE_READONLY, NULL, NULL));
  hb_font_t *font = hb_font_create (face);
  hb_font_funcs_t *funcs = hb_font_funcs_create ();
  hb_font_funcs_set_nominal_glyph_func (funcs, glyph_of, NULL, NULL);
  hb_font_set_funcs (font, funcs, NULL, NULL);
  return font;
}

/* Shapes each run, and counts those that come out as recorded; with `record` sets what came out. */
static size_t shape (hb_font_t *font, hb_buffer_t *b, struct part trace, int record)
{
  size_t agreed = 0;
  for (uint8_t *run = trace.at; run < trace.at + trace.len; run += 2 + 4 * word (run)) {
    size_t n = word (run), same = 1;
    hb_codepoint_t text[64];
    for (size_t i = 0; i < n; i++) text[i] = FIRST + (hb_codepoint_t) word (run + 2 + 2 * i);
    hb_buffer_clear_contents (b);
    hb_buffer_set_direction (b, HB_DIRECTION_LTR);
    hb_buffer_set_script (b, HB_SCRIPT_COMMON);
    hb_buffer_add_codepoints (b, text, (int) n, 0, (int) n);
    hb_shape (font, b, NULL, 0);
    unsigned len;
    hb_glyph_info_t *out = hb_buffer_get_glyph_infos (b, &len);
    for (size_t i = 0; i < n; i++) {
      uint8_t *came = run + 2 + 2 * n + 2 * i;
      if (record) put (came, out[i].codepoint);
      same &= len == n && out[i].codepoint == word (came);
    }
    agreed += same;
  }
  return agreed;
}
#endif

static void replay_file (const char *name, int record)
{
  struct part file = read_file (name);
  if (file.len < TRAILER) { printf ("%s: no replay file\n", name); return; }
  const uint8_t *t = file.at + file.len - TRAILER;
  struct part parts[3];
  for (int i = 0; i < 3; i++) parts[i] = (struct part) { file.at + number (t + 8 * i), number (t + 8 * i + 4) };
  struct part list = parts[0], buffer = parts[1], trace = parts[2];
  uint8_t tally[GILLCURTAIN_TALLY], steps[GILLCURTAIN_STEPS];
  double best = 1e9;
#ifdef HARFBUZZ
  hb_font_t *font = font_of (list, buffer);
  hb_buffer_t *b = hb_buffer_create ();
  double theirs = 1e9;
  size_t agreed = 0;
  if (record) shape (font, b, trace, 1);
  for (int i = 0; i < ROUNDS; i++) {
    double from = now ();
    agreed = shape (font, b, trace, 0);
    double took = now () - from;
    if (took < theirs) theirs = took;
  }
  printf ("%s: hb_shape %.3f s, %zu agree\n", name, theirs, agreed);
#else
  (void) record;
#endif
  uint64_t result = 0;
  for (int i = 0; i < ROUNDS; i++) {
    double from = now ();
    result = gillcurtain_replay (list.at, list.len, buffer.at, buffer.len, trace.at, trace.len, tally, sizeof tally);
    double took = now () - from;
    if (took < best) best = took;
  }
  gillcurtain_replay_cost (list.at, list.len, buffer.at, buffer.len, steps, sizeof steps);
  printf ("%s: replay %.3f s, answer %u, %llu runs, %llu agree, at most %llu lookups asked for each glyph\n", name, best,
          gillcurtain_replay_number (result), (unsigned long long) gillcurtain_tallied (tally, 0),
          (unsigned long long) gillcurtain_tallied (tally, 1), (unsigned long long) gillcurtain_stepped (steps));
  free (file.at);
}

int main (int n, char **names)
{
  int record = 1 < n && !strcmp (names[1], "--record");
  for (int i = 1 + record; i < n; i++) replay_file (names[i], record);
  return 0;
}
