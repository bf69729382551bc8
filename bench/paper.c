/* The recursive version of the seeds algorithm of source 000, section 3, as the paper prints it, in plain C: the count of the
   descendants of a semigroup at a genus, and the same recursion with each semigroup of that genus written into a buffer.
   Strings are stored as 64-bit numbers with bit l worth 2^l, so that the paper's >> is C's <<. */
#include <stddef.h>
#include <stdint.h>

static uint64_t count(unsigned gamma, uint64_t G, uint64_t S, unsigned c, unsigned g, unsigned m) {
  if (g == gamma) return 1;
  uint64_t n = 0, rake = G;
  unsigned last = 0;
  for (unsigned s = 0; s < m; s++)
    if (S & (UINT64_C(1) << s)) {
      for (; last < s; last++) {
        rake <<= 1;
        S &= rake;
      }
      unsigned next = c + s + 1;
      n += count(gamma, G | UINT64_C(1) << (next - 2), S >> s >> 1 | UINT64_C(7) << (next - 3), next, g + 1,
                 s == 0 && m == c ? next : m);
    }
  return n;
}

/* The number of semigroups of a genus. The recursion starts at the semigroup of genus 1, whose strings are 1 and 11. */
uint64_t paper_count(unsigned genus) { return genus == 0 ? 1 : count(genus, 1, 3, 2, 1, 2); }

/* A buffer of words, and what is done with them when it is full. */
struct sink {
  uint64_t *words;
  size_t length, used;
  void (*full)(const uint64_t *words, size_t count, void *to);
  void *to;
};

static void flush(struct sink *k) {
  k->full(k->words, k->used, k->to);
  k->used = 0;
}

static void walk(unsigned gamma, uint64_t G, uint64_t S, unsigned c, unsigned g, unsigned m, struct sink *k) {
  if (g == gamma) {
    if (k->used == k->length) flush(k);
    k->words[k->used++] = G;
    return;
  }
  uint64_t rake = G;
  unsigned last = 0;
  for (unsigned s = 0; s < m; s++)
    if (S & (UINT64_C(1) << s)) {
      for (; last < s; last++) {
        rake <<= 1;
        S &= rake;
      }
      unsigned next = c + s + 1;
      walk(gamma, G | UINT64_C(1) << (next - 2), S >> s >> 1 | UINT64_C(7) << (next - 3), next, g + 1,
           s == 0 && m == c ? next : m, k);
    }
}

/* All semigroups of a genus through a buffer. */
void paper_words(unsigned genus, uint64_t *words, size_t length, void (*full)(const uint64_t *, size_t, void *), void *to) {
  struct sink k = {words, length, 0, full, to};
  if (genus == 0)
    k.words[k.used++] = 0;
  else
    walk(genus, 1, 3, 2, 1, 2, &k);
  flush(&k);
}

struct mixture {
  uint64_t total, mixed;
};

/* A full buffer is read once, as a caller would. */
static void mix(const uint64_t *words, size_t count, void *to) {
  struct mixture *m = to;
  for (size_t i = 0; i < count; i++) m->mixed = m->mixed * 31 + words[i];
  m->total += count;
}

/* How many semigroups of a genus there are, and a number mixed from their words in order. */
uint64_t paper_walk(unsigned genus, uint64_t *words, size_t length, uint64_t *mixed) {
  struct mixture m = {0, 0};
  paper_words(genus, words, length, mix, &m);
  *mixed = m.mixed;
  return m.total;
}
