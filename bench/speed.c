/* Speed of the atlas as ratios: the count and the whole walk of a genus by batches of 4,096 words, ours against the paper's recursive
   algorithm in C and against plain Rust, and the count against the revised algorithm in C, the same work in turn in one run; then the census
   of a genus, calls on every word of it, the walk of it cut by ancestors, and the walk of a window of it and searches in it, against the walk
   of it; looks at words of several kinds against looks that try every element; and changes of lists of generators against calls for their
   words. Each time is the least of several runs. */
#include <inttypes.h>
#include <stdio.h>
#include <stdlib.h>
#include <string.h>
#include <time.h>
#include "../include/atlas.h"

uint64_t paper_count(unsigned genus);
uint64_t paper_walk(unsigned genus, uint64_t *words, size_t length, uint64_t *mixed);
uint64_t revised_count(unsigned genus);
uint64_t plain_count(unsigned genus);
uint64_t plain_walk(unsigned genus, uint64_t *words, size_t length, uint64_t *mixed);
atlas_report plain_look(uint64_t word);

enum { LENGTH = 4096, RUNS = 9 };
static uint64_t words[LENGTH];

/* The counts with the parameters of a walk, of which they need the genus alone. */
static uint64_t our_counted(unsigned genus, uint64_t *out, size_t length, uint64_t *mixed) {
  (void)out, (void)length, *mixed = 0;
  return atlas_count(0, genus).value;
}

static uint64_t paper_counted(unsigned genus, uint64_t *out, size_t length, uint64_t *mixed) {
  (void)out, (void)length, *mixed = 0;
  return paper_count(genus);
}

static uint64_t revised_counted(unsigned genus, uint64_t *out, size_t length, uint64_t *mixed) {
  (void)out, (void)length, *mixed = 0;
  return revised_count(genus);
}

static uint64_t plain_counted(unsigned genus, uint64_t *out, size_t length, uint64_t *mixed) {
  (void)out, (void)length, *mixed = 0;
  return plain_count(genus);
}

static uint64_t walked(atlas_walk walk, uint64_t *out, size_t length, uint64_t *mixed) {
  uint64_t total = 0, mix = 0;
  atlas_moved moved;
  do {
    moved = atlas_batch(walk, out, length);
    for (size_t i = 0; i < moved.count; i++) mix = mix * 31 + out[i];
    total += moved.count;
    walk = moved.walk;
  } while (!moved.refused && !moved.finished);
  *mixed = mix;
  return total;
}

static uint64_t our_walk(unsigned genus, uint64_t *out, size_t length, uint64_t *mixed) {
  return walked(atlas_fresh(genus).walk, out, length, mixed);
}

/* The walk of the words of multiplicity 8. */
static uint64_t our_window(unsigned genus, uint64_t *out, size_t length, uint64_t *mixed) {
  return walked(atlas_fresh_in(genus, 8, 8).walk, out, length, mixed);
}

/* The census of a genus; gives the sum of its places, the number of semigroups. */
static uint64_t our_census(unsigned genus, uint64_t *out, size_t length, uint64_t *mixed) {
  uint64_t total = 0;
  *mixed = atlas_census(genus, out, length).value;
  for (int i = 0; i < ATLAS_CENSUS_PLACES; i++) total += out[i];
  return total;
}

/* The walk of a genus cut by its ancestors of genus 12, each by itself: how many descendants there are, which is the first, and a walk from
   that on. */
static uint64_t by_ancestors(unsigned genus, uint64_t *out, size_t length, uint64_t *mixed) {
  uint64_t total = 0, mix = 0;
  for (atlas_walk ancestors = atlas_fresh(12).walk; !ancestors.finished;) {
    uint64_t ancestor;
    ancestors = atlas_batch(ancestors, &ancestor, 1).walk;
    uint64_t left = atlas_count(ancestor, genus).value;
    atlas_walk walk = atlas_start(atlas_first_descendant(ancestor, genus).word).walk;
    while (left > 0) {
      atlas_moved moved = atlas_batch(walk, out, left < length ? left : length);
      for (size_t i = 0; i < moved.count; i++) mix = mix * 31 + out[i];
      total += moved.count;
      left -= moved.count;
      walk = moved.walk;
    }
  }
  *mixed = mix;
  return total;
}

/* The words on which single calls are made. */
enum { MOST_ASKED = 1 << 19 };
static uint64_t asked[MOST_ASKED];
static size_t asked_count;

/* All words of a genus, at most 24. */
static void ask_genus(unsigned genus) { asked_count = atlas_batch(atlas_fresh(genus).walk, asked, MOST_ASKED).count; }

/* As many random words, each made of so many by and: of one about half of the bits stand, of three eight of them; with these gaps besides. */
static void ask_random(int parts, uint64_t gaps) {
  uint64_t random = 20261115;
  for (size_t i = 0; i < asked_count; i++) {
    asked[i] = UINT64_MAX;
    for (int k = 0; k < parts; k++) {
      random ^= random << 13, random ^= random >> 7, random ^= random << 17;
      asked[i] &= random;
    }
    asked[i] |= gaps;
  }
}

/* A call on a word. */
typedef uint64_t call(uint64_t word);

/* All numbers of a look, so that none is left out. */
static uint64_t told(atlas_report r) { return ((r.refused * 31 + r.genus) * 31 + r.multiplicity) * 31 + r.conductor + (uint64_t)r.largest_gap; }

static uint64_t looked(uint64_t word) { return told(atlas_look(word)); }
static uint64_t plainly_looked(uint64_t word) { return told(plain_look(word)); }
static uint64_t opened(uint64_t word) { return atlas_opening(word).length; }

static uint64_t coordinates(uint64_t word) {
  uint8_t list[ATLAS_MOST_COORDINATES];
  return atlas_kunz(word, list, sizeof list).value;
}

/* The coordinates of a word, and the word again. */
static uint64_t coordinates_back(uint64_t word) {
  uint8_t list[ATLAS_MOST_COORDINATES];
  uint64_t count = atlas_kunz(word, list, sizeof list).value;
  if (atlas_word_from_kunz(list, count).value != word) exit(1);
  return count;
}

/* The job of a walk of genus 24 on a word, and the walk again. */
static uint64_t job_back(uint64_t word) {
  const atlas_walk walk = {.genus = 24, .word = word, .lowest = 1, .highest = 33};
  uint8_t job[ATLAS_MOST_JOB_BYTES];
  uint64_t length = atlas_job_write(walk, word, job, sizeof job).value;
  if (atlas_job_read(job, length).walk.word != word) exit(1);
  return length;
}

static uint64_t tabled(uint64_t word) { return atlas_seed_table(word).table; }
static uint64_t grandchildren(uint64_t word) { return atlas_grandchildren(word).value; }

/* The same number for a word of genus 24 by the count, which makes the children. */
static uint64_t counted_on(uint64_t word) { return atlas_count(word, 26).value; }

static uint64_t first_on(uint64_t word) { return atlas_first_descendant(word, 32).found; }

/* The searches with largest gaps and multiplicities from 0 up to these. */
enum { HIGHEST_GAP = 64, HIGHEST_MULTIPLICITY = 34 };

static uint64_t all_searches(unsigned genus, uint64_t *out, size_t length, uint64_t *mixed) {
  (void)out, (void)length;
  uint64_t found = 0, mix = 0;
  for (int gap = 0; gap <= HIGHEST_GAP; gap++) {
    for (int m = 0; m <= HIGHEST_MULTIPLICITY; m++) {
      atlas_found answer = atlas_find(genus, gap, m);
      found += answer.found;
      mix = mix * 31 + answer.word;
    }
  }
  *mixed = mix;
  return found;
}

/* The generators of each word of a genus, as many as a list that changes may hold, one list after the other: a byte with the length, then
   the bytes. */
static uint8_t lists[1 << 17];

static void list_generators(unsigned genus) {
  uint8_t *at = lists, out[ATLAS_MOST_GENERATORS];
  atlas_walk walk = atlas_fresh(genus).walk;
  atlas_moved moved;
  do {
    moved = atlas_batch(walk, words, LENGTH);
    for (size_t i = 0; i < moved.count; i++) {
      uint64_t count = atlas_generators(words[i], out, sizeof out).value;
      *at = count < ATLAS_MOST_HELD ? count : ATLAS_MOST_HELD;
      memcpy(at + 1, out, *at);
      at += 1 + *at;
    }
    walk = moved.walk;
  } while (!moved.refused && !moved.finished);
  *at = 0;
}

static uint64_t mix_answer(uint64_t mix, atlas_number answer) { return mix * 31 + answer.refused + answer.value; }

/* Each of these lists is built up byte by byte and taken down again, by changes. Gives their number. */
static uint64_t by_changes(unsigned genus, uint64_t *out, size_t length, uint64_t *mixed) {
  (void)genus, (void)out, (void)length;
  uint64_t changes = 0, mix = 0;
  for (const uint8_t *at = lists; *at; at += 1 + *at) {
    atlas_editor e = atlas_editor_empty();
    for (unsigned i = 1; i <= *at; i++) mix = mix_answer(mix, (e = atlas_editor_add(e, at[i]).editor).answer);
    for (unsigned i = 1; i <= *at; i++) mix = mix_answer(mix, (e = atlas_editor_remove(e, at[i]).editor).answer);
    changes += 2 * *at;
  }
  *mixed = mix;
  return changes;
}

/* The same answers by a call for each list. */
static uint64_t by_calls(unsigned genus, uint64_t *out, size_t length, uint64_t *mixed) {
  (void)genus, (void)out, (void)length;
  uint64_t calls = 0, mix = 0;
  for (const uint8_t *at = lists; *at; at += 1 + *at) {
    for (unsigned i = 1; i <= *at; i++) mix = mix_answer(mix, atlas_word_from(at + 1, i));
    for (unsigned i = 1; i <= *at; i++) mix = mix_answer(mix, atlas_word_from(at + 1 + i, *at - i));
    calls += 2 * *at;
  }
  *mixed = mix;
  return calls;
}

static double now(void) {
  struct timespec t;
  clock_gettime(CLOCK_MONOTONIC, &t);
  return t.tv_sec + t.tv_nsec * 1e-9;
}

typedef uint64_t work(unsigned, uint64_t *, size_t, uint64_t *);

/* The time of one run. */
static double time_once(work *f, unsigned genus, size_t length, uint64_t *result, uint64_t *mixed) {
  double start = now();
  *result = f(genus, words, length, mixed);
  return now() - start;
}

/* The least time of several runs. */
static double time_of(work *f, unsigned genus, size_t length, uint64_t *result, uint64_t *mixed) {
  double best = 1e9;
  for (int i = 0; i < RUNS; i++) {
    double taken = time_once(f, genus, length, result, mixed);
    if (taken < best) best = taken;
  }
  return best;
}

/* The time of the slowest of the searches, each the least of several runs. */
static double slowest_search(unsigned genus) {
  double slowest = 0;
  for (int gap = 0; gap <= HIGHEST_GAP; gap++) {
    for (int m = 0; m <= HIGHEST_MULTIPLICITY; m++) {
      double best = 1e9;
      for (int i = 0; i < RUNS; i++) {
        double start = now();
        atlas_find(genus, gap, m);
        double taken = now() - start;
        if (taken < best) best = taken;
      }
      if (best > slowest) slowest = best;
    }
  }
  return slowest;
}

/* By what the same work is done: ours, the paper's algorithm and the revised one in C, which has no walk, and plain Rust. */
enum { OURS, PAPER, REVISED, PLAIN, ALL };

/* The number of semigroups and the times of the same work by each. */
struct times {
  uint64_t number;
  double by[ALL];
};

/* One number of a row of the table, a dash where there is no such work. */
static void put_number(work *f, double number) {
  if (f)
    printf(" %10.2f", number);
  else
    printf(" %10s", "-");
}

/* One row of the table: the same work by each that has such a work in turn, with the same results. */
static struct times row(const char *name, unsigned genus, work *const works[ALL]) {
  struct times best = {0, {1e9, 1e9, 1e9, 1e9}};
  uint64_t first_mixed = 0;
  for (int i = 0; i < RUNS; i++) {
    for (int k = 0; k < ALL; k++) {
      if (!works[k]) continue;
      uint64_t number, mixed;
      double taken = time_once(works[k], genus, LENGTH, &number, &mixed);
      if (taken < best.by[k]) best.by[k] = taken;
      if (k == OURS) best.number = number, first_mixed = mixed;
      if (number != best.number || mixed != first_mixed) {
        fprintf(stderr, "results differ: %s of genus %u\n", name, genus);
        exit(1);
      }
    }
  }
  printf("%-7u %-6s %12" PRIu64, genus, name, best.number);
  for (int k = OURS; k < ALL; k++) put_number(works[k], best.by[k] * 1e3);
  for (int k = PAPER; k < ALL; k++) put_number(works[k], best.by[OURS] / best.by[k]);
  printf("\n");
  return best;
}

/* How many times the time a work takes at a larger genus, beside how many times the semigroups there are. */
static void growth_row(const char *name, struct times from, struct times to, work *const works[ALL]) {
  static const char *const names[ALL] = {"ours", "the paper's", "the revised", "plain Rust"};
  printf("%s: %.1f times the semigroups", name, (double)to.number / (double)from.number);
  for (int k = OURS; k < ALL; k++)
    if (works[k]) printf(", %s %.1f%s", names[k], to.by[k] / from.by[k], k == OURS ? " times the time" : "");
  printf("\n");
}

/* The census of a genus as a ratio to the walk, which has so many words. */
static void census_row(unsigned genus, double walk, uint64_t count) {
  uint64_t total, mixed;
  double taken = time_of(our_census, genus, LENGTH, &total, &mixed);
  if (total != count) {
    fprintf(stderr, "results differ: census of genus %u\n", genus);
    exit(1);
  }
  printf("census of genus %u: %.2f of the time of the whole walk\n", genus, taken / walk);
}

/* The least time of several runs of a call on all words that are asked, and the sum of its numbers. */
static double time_of_calls(call *f, uint64_t *sum) {
  double best = 1e9;
  for (int i = 0; i < RUNS; i++) {
    uint64_t mix = 0;
    double start = now();
    for (size_t k = 0; k < asked_count; k++) mix += f(asked[k]);
    double taken = now() - start;
    if (taken < best) best = taken;
    *sum = mix;
  }
  return best;
}

/* A call on every word of a genus, which are asked, as a ratio to the walk of it; gives the sum of its numbers. */
static uint64_t call_row(const char *name, unsigned genus, call *f, double walk) {
  uint64_t sum;
  double taken = time_of_calls(f, &sum);
  printf("%s of every word of genus %u: %.2f times the walk, %.0f ns each\n", name, genus, taken / walk, taken / (double)asked_count * 1e9);
  return sum;
}

/* A look at each of the words that are asked, as a ratio to one in plain Rust that tries every element. */
static void look_row(const char *name) {
  uint64_t ours, plain;
  double a = time_of_calls(looked, &ours), b = time_of_calls(plainly_looked, &plain);
  if (ours != plain) {
    fprintf(stderr, "results differ: looks at %s\n", name);
    exit(1);
  }
  printf("a look at %s: %.2f of the time of plain Rust that tries every element\n", name, a / b);
}

int main(void) {
  static const unsigned genera[] = {24, 28, 32};
  static work *const count_by[ALL] = {our_counted, paper_counted, revised_counted, plain_counted};
  static work *const walk_by[ALL] = {our_walk, paper_walk, NULL, plain_walk};
  printf("%-7s %-6s %12s %10s %10s %10s %10s %10s %10s %10s\n", "genus", "work", "semigroups", "ours ms", "paper ms", "revised ms", "Rust ms",
         "to paper", "to revised", "to Rust");
  struct times counts[3], walks[3];
  for (int i = 0; i < 3; i++) {
    counts[i] = row("count", genera[i], count_by);
    walks[i] = row("walk", genera[i], walk_by);
  }
  growth_row("count from genus 24 to 32", counts[0], counts[2], count_by);
  growth_row("walk from genus 24 to 32", walks[0], walks[2], walk_by);
  uint64_t total, mixed;
  double walk = time_of(our_walk, 24, LENGTH, &total, &mixed);
  census_row(24, walk, total);
  ask_genus(24);
  call_row("a look", 24, looked, walk);
  if (call_row("shortest impossible opening", 24, opened, walk) != 0) {
    fprintf(stderr, "results differ: openings of genus 24\n");
    exit(1);
  }
  call_row("coordinates", 24, coordinates, walk);
  call_row("coordinates and back", 24, coordinates_back, walk);
  call_row("a job and back", 24, job_back, walk);
  call_row("seed table", 24, tabled, walk);
  uint64_t by_rows = call_row("grandchildren", 24, grandchildren, walk);
  uint64_t by_count = call_row("count two genera on", 24, counted_on, walk);
  if (by_rows != by_count || by_rows != atlas_count(0, 26).value) {
    fprintf(stderr, "results differ: grandchildren of genus 24\n");
    exit(1);
  }
  call_row("first descendant of genus 32", 24, first_on, walk);
  look_row("the words of genus 24");
  ask_random(1, 0);
  look_row("random words");
  ask_random(3, 0);
  look_row("random words with few gaps");
  ask_random(3, 1);
  look_row("random words with few gaps, and 1");
  uint64_t cut_total, cut_mixed;
  double whole = time_of(our_walk, 28, LENGTH, &total, &mixed), cut = time_of(by_ancestors, 28, LENGTH, &cut_total, &cut_mixed);
  if (cut_total != total || cut_mixed != mixed) {
    fprintf(stderr, "results differ: genus 28 cut by ancestors\n");
    exit(1);
  }
  printf("genus 28 cut by the words of genus 12: %.2f times the walk\n", cut / whole);
  list_generators(16);
  uint64_t changes, calls, mixed_calls;
  double changing = time_of(by_changes, 16, LENGTH, &changes, &mixed), calling = time_of(by_calls, 16, LENGTH, &calls, &mixed_calls);
  if (changes != calls || mixed != mixed_calls) {
    fprintf(stderr, "results differ: changes of lists of generators\n");
    exit(1);
  }
  printf("%" PRIu64 " changes of lists of generators: %.2f times the calls for their words, %.0f ns each\n", changes, changing / calling,
         changing / (double)changes * 1e9);
  double single = time_of(our_walk, 20, 1, &total, &mixed);
  printf("a batch of length 1 at genus 20: %.0f ns\n", single / (double)total * 1e9);
  uint64_t inside;
  double window = time_of(our_window, 32, LENGTH, &inside, &mixed);
  walk = time_of(our_walk, 32, LENGTH, &total, &mixed);
  census_row(32, walk, total);
  printf("window 8 to 8 of genus 32: %.6f of the time of the whole walk, %.6f of its words\n", window / walk,
         (double)inside / (double)total);
  uint64_t found;
  double searches = time_of(all_searches, 32, LENGTH, &found, &mixed);
  printf("%d searches of genus 32, with largest gaps 0 to %d and multiplicities 0 to %d: %" PRIu64 " find a word\n",
         (HIGHEST_GAP + 1) * (HIGHEST_MULTIPLICITY + 1), HIGHEST_GAP, HIGHEST_MULTIPLICITY, found);
  printf("  all together %.6f of the time of the whole walk, the slowest %.8f\n", searches / walk, slowest_search(32) / walk);
  return 0;
}
