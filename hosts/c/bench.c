/* Times the exported calls on job files.
 *
 *   bench [--packed] MILLISECONDS job...
 *
 * For each job: its kind, the source's bytes, the retained glyphs, the answer
 * with its length, and nanoseconds of processor time a call (the fastest batch
 * counts), with scratch of its own and with lent scratch. Buffer and scratch
 * are lent anew for each call and not cleared. With --packed the calls are for
 * the packed layout, and else for the plain one. A file may be longer than a
 * label job: the calls have no limit but that of the source. Its glyph map is of
 * pairs or of runs, as its tag says.
 *
 * Compiled with WITH_HARFBUZZ, and linked with HarfBuzz's own cut of a subtable
 * behind the functions of hbx.h, it times that too, batch by batch in turn, and
 * prints nanoseconds of it, how many times as long the calls take, and the bytes
 * that it keeps. HarfBuzz gets a map of runs spelled out in pairs, which is not
 * timed. */
#include <stdio.h>
#include <stdlib.h>
#include <string.h>
#include <time.h>
#include "gillcurtain.h"
#ifdef WITH_HARFBUZZ
#include "hbx.h"
#endif

enum { TRAILER = 30, ROOM = 262144, GLYPHS = 65536 };

/* A job's parts, its glyph map in pairs, and what each way of cutting needs beside them. */
struct part { const uint8_t *at; size_t len; };
struct job
{
  unsigned kind, form, layout;
  struct part source, glyphs, lookups, pairs;
  uint8_t *out, *scratch;
#ifdef WITH_HARFBUZZ
  hbx_t *harfbuzz;
#endif
};

/* A way of cutting: its name, what cuts once, and what was measured of it. */
struct way
{
  const char *name;
  uint64_t (*cut) (const struct job *);
  uint64_t result;
  unsigned batch;
  double best;
};

static uint64_t cut_own (const struct job *j)
{
  return gillcurtain_subset (j->kind, j->form, j->layout, j->source.at, j->source.len,
                             j->glyphs.at, j->glyphs.len, j->lookups.at, j->lookups.len, j->out, ROOM);
}

static uint64_t cut_lent (const struct job *j)
{
  return gillcurtain_subset_with (j->kind, j->form, j->layout, j->source.at, j->source.len,
                                  j->glyphs.at, j->glyphs.len, j->lookups.at, j->lookups.len,
                                  j->scratch, GILLCURTAIN_SCRATCH, j->out, ROOM);
}

#ifdef WITH_HARFBUZZ
/* What the call does: both maps, the check and the cut; the bytes that are kept. */
static uint64_t cut_harfbuzz (const struct job *j)
{
  unsigned length = 0;
  hbx_maps (j->harfbuzz, j->pairs.at, j->pairs.len, j->lookups.at, j->lookups.len);
  hbx_subset (j->harfbuzz, j->kind, j->source.at, j->source.len, 1, j->out, ROOM, &length);
  return length;
}
#endif

/* Processor time, so that what else the machine does counts little. */
static double now (void)
{
  struct timespec t;
  clock_gettime (CLOCK_PROCESS_CPUTIME_ID, &t);
  return t.tv_sec * 1e9 + t.tv_nsec;
}

static unsigned u16 (const uint8_t *p) { return p[0] << 8 | p[1]; }
static size_t u32 (const uint8_t *p) { return (size_t) u16 (p) << 16 | u16 (p + 2); }

/* The part of the file that a field of the trailer names; whether it lies inside. */
static int part_at (const uint8_t *file, size_t len, const uint8_t *field, struct part *part)
{
  size_t at = u32 (field);
  part->len = u32 (field + 4);
  if (at > len || part->len > len - at) return 0;
  part->at = file + at;
  return 1;
}

/* The whole file, and its length; the program ends where it cannot be read. */
static uint8_t *read_file (const char *name, size_t *len)
{
  FILE *f = fopen (name, "rb");
  size_t room = 0;
  uint8_t *bytes = NULL;
  *len = 0;
  if (!f) { perror (name); exit (1); }
  do
  {
    room = 2 * room + ROOM;
    bytes = realloc (bytes, room);
    if (!bytes) { perror (name); exit (1); }
    *len += fread (bytes + *len, 1, room - *len, f);
  } while (*len == room);
  fclose (f);
  return bytes;
}

/* The form that a file's tag stands for; 0 if it has none. */
static unsigned form_of (const uint8_t *file, size_t len)
{
  if (len < TRAILER) return 0;
  if (!memcmp (file + len - 4, "LSJ1", 4)) return GILLCURTAIN_PAIRS;
  return memcmp (file + len - 4, "LSJ2", 4) ? 0 : GILLCURTAIN_RUNS;
}

/* The runs of a map spelled out, as far as there is room for a good map. */
static struct part spelled_out (struct part runs)
{
  static uint8_t pairs[GILLCURTAIN_PAIRS * GLYPHS];
  struct part out = { pairs, 0 };
  for (const uint8_t *run = runs.at; runs.at + runs.len - run >= GILLCURTAIN_RUNS; run += GILLCURTAIN_RUNS)
    for (unsigned i = 0; i < u16 (run + 4) && out.len < sizeof pairs; i++, out.len += GILLCURTAIN_PAIRS)
    {
      uint8_t *pair = pairs + out.len;
      unsigned old = u16 (run) + i, new = u16 (run + 2) + i;
      pair[0] = old >> 8, pair[1] = old, pair[2] = new >> 8, pair[3] = new;
    }
  return out;
}

/* The job that a file holds; whether it is one. */
static int read_job (const uint8_t *file, size_t len, struct job *j)
{
  j->form = form_of (file, len);
  if (!j->form) return 0;
  const uint8_t *t = file + len - TRAILER;
  j->kind = u16 (t);
  return part_at (file, len - TRAILER, t + 2, &j->source) && part_at (file, len - TRAILER, t + 10, &j->glyphs)
         && part_at (file, len - TRAILER, t + 18, &j->lookups);
}

/* One batch; a batch that was short makes the next one longer. */
static void time_batch (struct way *w, const struct job *j)
{
  double from = now ();
  for (unsigned i = 0; i < w->batch; i++)
    w->result = w->cut (j);
  double took = now () - from;
  if (took / w->batch < w->best) w->best = took / w->batch;
  if (took < 2e6) w->batch *= 2;
}

/* Batches of each way in turn, for so many nanoseconds each. */
static void time_job (struct way *ways, unsigned n, const struct job *j, double budget)
{
  double start = now ();
  for (unsigned w = 0; w < n; w++) { ways[w].batch = 1; ways[w].best = 1e18; }
  do
    for (unsigned w = 0; w < n; w++)
      time_batch (&ways[w], j);
  while (now () - start < n * budget);
}

int main (int argc, char **argv)
{
  static uint8_t out[ROOM];
  uint8_t *scratch = malloc (GILLCURTAIN_SCRATCH);
  struct way ways[] = {
    { .name = "own", .cut = cut_own },
    { .name = "lent", .cut = cut_lent },
#ifdef WITH_HARFBUZZ
    { .name = "HarfBuzz", .cut = cut_harfbuzz },
#endif
  };
  const unsigned n = sizeof ways / sizeof *ways;
  unsigned layout = GILLCURTAIN_PLAIN;
  if (argc > 1 && !strcmp (argv[1], "--packed")) { layout = GILLCURTAIN_PACKED; argc--; argv++; }
  if (argc < 3) { fprintf (stderr, "usage: bench [--packed] MILLISECONDS job...\n"); return 2; }
  if (!scratch) { perror ("malloc"); return 1; }
  printf ("# job\tkind\tin\tglyphs\tanswer\tlength");
  for (unsigned w = 0; w < n; w++) printf ("\t%s", ways[w].name);
  for (unsigned w = 0; w < 2 && 2 < n; w++) printf ("\t%s / %s", ways[w].name, ways[2].name);
  if (2 < n) printf ("\t%s's length", ways[2].name);
  printf ("\n");
  for (int a = 2; a < argc; a++)
  {
    const char *slash = strrchr (argv[a], '/'), *name = slash ? slash + 1 : argv[a];
    struct job job = { .layout = layout, .out = out, .scratch = scratch };
    size_t len;
    uint8_t *file = read_file (argv[a], &len);
    if (!read_job (file, len, &job)) { printf ("%s\tfaulty\n", name); free (file); continue; }
    job.pairs = job.form == GILLCURTAIN_RUNS ? spelled_out (job.glyphs) : job.glyphs;
#ifdef WITH_HARFBUZZ
    job.harfbuzz = hbx_new (1);
#endif
    time_job (ways, n, &job, atof (argv[1]) * 1e6);
    if (ways[0].result != ways[1].result) { printf ("%s\tthe two calls differ\n", name); return 1; }
    printf ("%s\t%u\t%zu\t%zu\t%u\t%zu", name, job.kind, job.source.len, job.pairs.len / GILLCURTAIN_PAIRS,
            gillcurtain_number (ways[0].result), gillcurtain_length (ways[0].result));
    for (unsigned w = 0; w < n; w++) printf ("\t%.0f", ways[w].best);
    for (unsigned w = 0; w < 2 && 2 < n; w++) printf ("\t%.2f", ways[w].best / ways[2].best);
    if (2 < n) printf ("\t%zu", (size_t) ways[2].result);
    printf ("\n");
    fflush (stdout);
#ifdef WITH_HARFBUZZ
    hbx_free (job.harfbuzz);
#endif
    free (file);
  }
  free (scratch);
  return 0;
}
