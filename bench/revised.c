/* The revised seeds algorithm of source 001 in plain C, the quickest for the number of semigroups of a genus in the source's table of times:
   the recursion of source 000, ended three levels above the genus by source 001's formulas for the number of great-grandchildren. Row 0 is read
   by trailing zeros and not place by place as source 000 prints it and paper.c has it, which takes two thirds of the time. Left out are workers
   in parallel, and strings by formulas for k up to 3, which few semigroups have. It gives numbers and no words, so that there is no walk by it.
   Strings are stored as in paper.c. */
#include <stdint.h>

/* The number of ones. */
static uint64_t ones(uint64_t x) { return (uint64_t)__builtin_popcountll(x); }

static uint64_t choose3(uint64_t n) { return n * (n - 1) * (n - 2) / 6; }

/* The ones up to the first zero of a string, and one more: with G from an element on, the places of the row of S that begins there. */
static uint64_t places(uint64_t x) { return x ^ (x + 1); }

/* The number of great-grandchildren with k = 1. The source leaves out m = 3, where 1 is added as for m = 2. */
static uint64_t great_with_one(uint64_t m) { return choose3(m) + 3 * m + (m < 4 ? 1 : 3); }

/* The same with k = 2. */
static uint64_t great_with_two(uint64_t m, uint64_t u) {
  unsigned a = m < 2 * u, b = u == m || 2 * u != m, c = u < m - 1 && 2 * u + 1 != m, d = u == m - 1;
  return choose3(m - 1) + (u - a) * (m - 2) + b + 2 * c + d;
}

/* The same with any k but 0. The source's u, the length of row 1, is found in G, where it took no longer than to pass it along; so are the
   places of the rows, by which the ones are those of the bounded weights. */
static uint64_t great(uint64_t G, uint64_t S, unsigned c, unsigned g, unsigned m) {
  unsigned k = c - g;
  if (k == 1) return great_with_one(m);
  unsigned u = __builtin_ctzll(~(G >> m)) + 1;
  if (k == 2) return great_with_two(m, u);
  uint64_t row = S & places(G);
  if (row == 0) return 0;
  uint64_t n = ones(row);
  return choose3(n) + ones(S & S >> m & places(G >> m)) * (n - 1) + ones(S & S >> u & S >> (u + m) & places(G >> (u + m)));
}

static uint64_t count(unsigned gamma, uint64_t G, uint64_t S, unsigned c, unsigned g, unsigned m) {
  if (g + 3 == gamma) return great(G, S, c, g, m);
  uint64_t n = 0, rake = G;
  unsigned last = 0;
  for (uint64_t row = S & places(G); row; row &= row - 1) {
    unsigned s = __builtin_ctzll(row);
    for (; last < s; last++) {
      rake <<= 1;
      S &= rake;
    }
    unsigned next = c + s + 1;
    n += count(gamma, G | UINT64_C(1) << (next - 2), S >> s >> 1 | UINT64_C(7) << (next - 3), next, g + 1,
               s == 0 && m == c ? next : m);
  }
  return n;
}

/* The number of semigroups of a genus. The semigroup of all numbers, k = 0, has one child, two grandchildren and four great-grandchildren; the
   recursion starts at the semigroup of genus 1, whose strings are 1 and 11. */
uint64_t revised_count(unsigned genus) {
  static const unsigned below[] = {1, 1, 2, 4};
  return genus < 4 ? below[genus] : count(genus, 1, 3, 2, 1, 2);
}
