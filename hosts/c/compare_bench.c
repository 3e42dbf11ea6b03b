/* Times the comparison of two subtables, given as compare files, with scratch of the call's own and with lent scratch:
 * the least of some rounds, in milliseconds of processor time. The buffer has room for the whole list. */
#include <stdio.h>
#include <stdlib.h>
#include <time.h>
#include "gillcurtain.h"

enum { TRAILER = 22, ROUNDS = 5 };

static size_t word (const uint8_t *p) { return (size_t) p[0] << 8 | p[1]; }
static size_t number (const uint8_t *p) { return word (p) << 16 | word (p + 2); }

static double now (void)
{
  struct timespec t;
  clock_gettime (CLOCK_PROCESS_CPUTIME_ID, &t);
  return 1e3 * (double) t.tv_sec + 1e-6 * (double) t.tv_nsec;
}

static uint8_t *read_file (const char *name, size_t *len)
{
  FILE *f = fopen (name, "rb");
  if (!f || fseek (f, 0, SEEK_END)) return NULL;
  *len = (size_t) ftell (f);
  rewind (f);
  uint8_t *at = malloc (*len + 1);
  if (at && fread (at, 1, *len, f) != *len) *len = 0;
  fclose (f);
  return at;
}

/* A call with this much lent scratch, or with none, and how long it took at the least. */
static uint64_t timed (const uint8_t *file, size_t len, void *scratch, uint8_t *out, size_t room, double *best)
{
  const uint8_t *t = file + len - TRAILER;
  uint64_t result = 0;
  *best = 1e12;
  for (int i = 0; i < ROUNDS && (i == 0 || *best < 2e3); i++)
  {
    double from = now ();
    result = gillcurtain_compare_with (word (t), file + number (t + 2), number (t + 6), file + number (t + 10),
                                       number (t + 14), scratch, scratch ? GILLCURTAIN_COMPARE_SCRATCH : 0, out, room);
    double took = now () - from;
    if (took < *best) *best = took;
  }
  return result;
}

static void compare_file (const char *name, void *scratch)
{
  size_t len = 0;
  uint8_t *file = read_file (name, &len);
  if (!file || len < TRAILER) { printf ("%s: no compare file\n", name); free (file); return; }
  double own, lent;
  uint64_t result = timed (file, len, NULL, NULL, 0, &own);
  size_t room = gillcurtain_compare_number (result) == GILLCURTAIN_NO_ROOM ? gillcurtain_compare_length (result) : 0;
  uint8_t *out = room < (size_t) 1 << 30 ? malloc (room + 1) : NULL;
  if (out) timed (file, len, NULL, out, room, &own);
  result = timed (file, len, scratch, out, out ? room : 0, &lent);
  printf ("%s\t%u\t%llu\t%.3f\t%.3f\n", name, gillcurtain_compare_number (result),
          (unsigned long long) gillcurtain_compare_length (result), own, lent);
  free (out);
  free (file);
}

int main (int n, char **names)
{
  void *scratch = malloc (GILLCURTAIN_COMPARE_SCRATCH);
  if (!scratch) return 1;
  printf ("file\tanswer\tlength\town ms\tlent ms\n");
  for (int i = 1; i < n; i++) compare_file (names[i], scratch);
  free (scratch);
  return 0;
}
