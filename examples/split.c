/* Lists one part of a genus, which is split by ancestors as a long job is split among machines. The descendants of each word of a smaller
   genus stand side by side in the list of the genus, in the order of these words; so a part is the descendants of some of them in a row, and
   the parts, joined, are the lines of the whole listing.  Usage: split GENUS ANCESTORS PART PARTS, with the genus of the ancestors and a part
   from 1 to PARTS */
#include <inttypes.h>
#include <stdio.h>
#include <stdlib.h>
#include "atlas.h"

static int refused(uint64_t number) {
  printf("refused %" PRIu64 "\n", number);
  return 1;
}

/* Prints the descendants of a word, which are `count`, by batches from the first of them on. */
static void print_descendants(uint64_t ancestor, uint64_t genus, uint64_t count) {
  atlas_found first = atlas_first_descendant(ancestor, genus);
  if (!first.found) return;
  atlas_walk walk = atlas_start(first.word).walk;
  for (uint64_t left = count; left > 0;) {
    uint64_t words[64];
    atlas_moved moved = atlas_batch(walk, words, left < 64 ? left : 64);
    for (size_t i = 0; i < moved.count; i++) {
      atlas_report report = atlas_look(words[i]);
      printf("%" PRIu64 " %" PRIu64 " %" PRIu64 "\n", words[i], report.conductor, report.multiplicity);
    }
    left -= moved.count;
    walk = moved.walk;
  }
}

int main(int argc, char **argv) {
  if (argc != 5) return 2;
  uint64_t genus = strtoull(argv[1], NULL, 10), part = strtoull(argv[3], NULL, 10), parts = strtoull(argv[4], NULL, 10);
  atlas_begun begun = atlas_fresh(strtoull(argv[2], NULL, 10));
  if (begun.refused) return refused(begun.refused);
  atlas_number all = atlas_count(0, genus);
  if (all.refused) return refused(all.refused);
  /* The descendants of an ancestor start at a place in the list that is the sum of the counts before it. They belong to the part in which
     that place lies, where the list is cut into parts of the same length. */
  uint64_t place = 0;
  for (atlas_walk walk = begun.walk; !walk.finished;) {
    uint64_t ancestor;
    walk = atlas_batch(walk, &ancestor, 1).walk;
    uint64_t count = atlas_count(ancestor, genus).value;
    if (place * parts / all.value + 1 == part) print_descendants(ancestor, genus, count);
    place += count;
  }
  return 0;
}
