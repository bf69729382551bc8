/* Calls every call of atlas.h, with arguments that are answered and arguments that are refused, and checks the answers, the walk and the
   lent lists afterwards.  Usage: calls */
#include <inttypes.h>
#include <stdio.h>
#include <string.h>
#include "atlas.h"

static unsigned checks, failures;

/* Counts a check, and tells where one fails. */
static void check(bool holds, const char *what, int line) {
  checks++;
  if (!holds) {
    failures++;
    fprintf(stderr, "calls.c:%d: %s\n", line, what);
  }
}
#define CHECK(fact) check((fact), #fact, __LINE__)

static bool number_is(atlas_number a, uint64_t refused, uint64_t value) { return a.refused == refused && a.value == value; }

static bool table_is(atlas_table t, uint64_t refused, uint64_t table, uint64_t generators) {
  return t.refused == refused && t.table == table && t.generators == generators;
}

static bool found_is(atlas_found f, uint64_t refused, bool found, uint64_t word) {
  return f.refused == refused && f.found == found && f.word == word;
}

static bool shortest_is(atlas_shortest s, bool found, uint64_t length) { return s.found == found && s.length == length; }

static bool report_is(atlas_report r, uint64_t refused, uint64_t genus, uint64_t multiplicity, uint64_t conductor, int64_t largest_gap) {
  return r.refused == refused && r.genus == genus && r.multiplicity == multiplicity && r.conductor == conductor &&
         r.largest_gap == largest_gap;
}

static bool walk_is(atlas_walk w, uint64_t genus, uint64_t word, uint8_t lowest, uint8_t highest, uint8_t finished) {
  return w.genus == genus && w.word == word && w.lowest == lowest && w.highest == highest && w.finished == finished;
}

static bool begun_is(atlas_begun b, uint64_t refused, uint64_t genus, uint64_t word, uint8_t lowest, uint8_t highest, uint8_t finished) {
  return b.refused == refused && walk_is(b.walk, genus, word, lowest, highest, finished);
}

/* The gaps 1 to 33; the gaps 1, 3 and 4, which leave out 2 + 2; the word of genus 32 with the generators 2 and 65. */
static const uint64_t too_many = 8589934591, not_closed = 13, of_genus_32 = 6148914691236517205;

static void words(void) {
  CHECK(report_is(atlas_look(91), 0, 5, 3, 8, 7));
  CHECK(report_is(atlas_look(of_genus_32), 0, 32, 2, 64, 63));
  CHECK(report_is(atlas_look(too_many), 1, 0, 0, 0, 0));
  CHECK(report_is(atlas_look(not_closed), 2, 0, 0, 0, 0));
}

/* The word of the n smallest gaps of a word. */
static uint64_t smallest_gaps(uint64_t word, uint64_t n) {
  uint64_t left = word;
  for (; n > 0; n--) left &= left - 1;
  return word - left;
}

/* Has the shortest impossible opening this length, at most 32, and is its word refused with 2, that of the opening one shorter accepted? */
static bool opening_is(uint64_t word, uint64_t length) {
  return shortest_is(atlas_opening(word), true, length) && atlas_look(smallest_gaps(word, length)).refused == 2 &&
         atlas_look(smallest_gaps(word, length - 1)).refused == 0;
}

/* Accepted words have none, nor have closed sets with more gaps than a look takes: 1 to 33, the numbers up to 64 that 3 does not divide, and
   1 to 64. 123 has the gaps of 91 and 6 = 3 + 3, and 1371 those of 91 with 9 = 3 + 6 and 11 = 3 + 8; 17678129737304986965 has the odd
   numbers up to 63 with 62 = 2 + 60 and 64 = 4 + 60; 2147483647 has 1 to 31, and 6442450943 these and 33, to which 64 = 32 + 32 is added. The
   longest of all is that of the gaps 1 to 31 and 33 to 64. */
static void openings(void) {
  const uint64_t no_multiples_of_3 = 13176245766935394011u, gap_63 = UINT64_C(1) << 62, gap_64 = UINT64_C(1) << 63;
  CHECK(shortest_is(atlas_opening(0), false, 0));
  CHECK(shortest_is(atlas_opening(1), false, 0));
  CHECK(shortest_is(atlas_opening(91), false, 0));
  CHECK(shortest_is(atlas_opening(4294967295), false, 0));
  CHECK(shortest_is(atlas_opening(of_genus_32), false, 0));
  CHECK(shortest_is(atlas_opening(too_many), false, 0) && atlas_look(too_many).refused == 1);
  CHECK(shortest_is(atlas_opening(no_multiples_of_3), false, 0) && atlas_look(no_multiples_of_3).refused == 1);
  CHECK(shortest_is(atlas_opening(UINT64_MAX), false, 0) && atlas_look(UINT64_MAX).refused == 1);
  CHECK(opening_is(not_closed, 3));
  CHECK(opening_is(2, 1));
  CHECK(opening_is(123, 5));
  CHECK(opening_is(1371, 6));
  CHECK(opening_is(gap_64, 1));
  CHECK(opening_is(17678129737304986965u, 32));
  CHECK(opening_is(2147483647 + gap_64, 32));
  CHECK(opening_is(UINT64_MAX - 1, 1));
  CHECK(opening_is(UINT64_MAX - 2, 3));
  CHECK(shortest_is(atlas_opening(6442450943 + gap_64), true, 33) && atlas_look(6442450943).refused == 0);
  CHECK(shortest_is(atlas_opening(of_genus_32 + gap_64), true, 33));
  CHECK(shortest_is(atlas_opening(no_multiples_of_3 + gap_63), true, 43));
  CHECK(shortest_is(atlas_opening(UINT64_MAX - 2147483648), true, 63));
}

/* The semigroup without gaps by both conventions (atlas.h): reported are conductor 0 and largest gap -1; by the paper's conductor, 1, its
   seed table has one entry, and its child is at 1 and nowhere else. */
static void both_conventions(void) {
  CHECK(report_is(atlas_look(0), 0, 0, 1, 0, -1));
  CHECK(table_is(atlas_seed_table(0), 0, 1, 1));
  CHECK(number_is(atlas_child(0, 1), 0, 1));
  CHECK(number_is(atlas_child(0, 0), 5, 0));
  CHECK(number_is(atlas_child(0, 2), 5, 0));
}

static void tables(void) {
  CHECK(table_is(atlas_seed_table(111), 0, 251, 4));
  CHECK(table_is(atlas_seed_table(of_genus_32), 0, 16909515400900422314u, 1));
  CHECK(table_is(atlas_seed_table(4294967295), 0, 8589934591, 33));
  CHECK(table_is(atlas_seed_table(too_many), 1, 0, 0));
  CHECK(table_is(atlas_seed_table(not_closed), 2, 0, 0));
  CHECK(number_is(atlas_child(1, 3), 0, 5));
  CHECK(number_is(atlas_child(too_many, 40), 1, 0));
  CHECK(number_is(atlas_child(not_closed, 5), 2, 0));
  CHECK(number_is(atlas_child(of_genus_32, 65), 3, 0));
  CHECK(number_is(atlas_child(1, 4), 5, 0));
  CHECK(number_is(atlas_child(1, UINT64_MAX), 5, 0));
}

/* At how many elements is a child given? A generator is below the conductor plus the multiplicity, at most 97. */
static uint64_t children_given(uint64_t word) {
  uint64_t count = 0;
  for (uint64_t element = 0; element < 97; element++) count += atlas_child(word, element).refused == 0;
  return count;
}

/* The number with the table is that of the children, up to genus 31; at genus 32 it is given, and every child is refused. */
static void children(void) {
  uint64_t out[67];
  CHECK(atlas_batch(atlas_fresh(8).walk, out, 67).finished);
  for (int i = 0; i < 67; i++) CHECK(children_given(out[i]) == atlas_seed_table(out[i]).generators);
  CHECK(children_given(2147483647) == 32 && atlas_seed_table(2147483647).generators == 32);
  CHECK(children_given(4294967295) == 0 && atlas_seed_table(4294967295).generators == 33);
  CHECK(children_given(of_genus_32) == 0 && atlas_seed_table(of_genus_32).generators == 1);
}

/* Up to genus 30 the number is that of the semigroups two genera on; 4294967295 has the gaps 1 to 32. */
static void grandchildren(void) {
  CHECK(number_is(atlas_grandchildren(91), 0, 3));
  CHECK(number_is(atlas_count(91, 7), 0, 3));
  CHECK(number_is(atlas_grandchildren(3), 0, 6));
  CHECK(number_is(atlas_grandchildren(0), 0, 2));
  CHECK(number_is(atlas_grandchildren(of_genus_32), 0, 1));
  CHECK(number_is(atlas_grandchildren(4294967295), 0, 531));
  CHECK(number_is(atlas_grandchildren(too_many), 1, 0));
  CHECK(number_is(atlas_grandchildren(not_closed), 2, 0));
}

static void beginnings(void) {
  CHECK(begun_is(atlas_fresh(4), 0, 4, 15, 1, 33, 0));
  CHECK(begun_is(atlas_fresh(33), 3, 0, 0, 0, 0, 0));
  CHECK(begun_is(atlas_fresh_in(4, 3, 4), 0, 4, 23, 3, 4, 0));
  CHECK(begun_is(atlas_fresh_in(4, 6, 33), 0, 4, 0, 6, 33, 1));
  CHECK(begun_is(atlas_fresh_in(4, 4, 3), 0, 4, 0, 4, 3, 1));
  CHECK(begun_is(atlas_fresh_in(33, 3, 4), 3, 0, 0, 0, 0, 0));
  CHECK(begun_is(atlas_start(71), 0, 4, 71, 1, 33, 0));
  CHECK(begun_is(atlas_start(too_many), 1, 0, 0, 0, 0, 0));
  CHECK(begun_is(atlas_start(not_closed), 2, 0, 0, 0, 0, 0));
  CHECK(begun_is(atlas_start_in(71, 4, 4), 0, 4, 71, 4, 4, 0));
  CHECK(begun_is(atlas_start_in(71, 5, 33), 4, 0, 0, 0, 0, 0));
  CHECK(begun_is(atlas_start_in(too_many, 1, 255), 1, 0, 0, 0, 0, 0));
  CHECK(begun_is(atlas_start_in(not_closed, 1, 255), 2, 0, 0, 0, 0, 0));
  CHECK(begun_is(atlas_start_in(too_many, 4, 3), 1, 0, 0, 0, 0, 0));
  CHECK(begun_is(atlas_start_in(not_closed, 4, 3), 2, 0, 0, 0, 0, 0));
}

/* Genus 4 by lists of 3, 0 and 5. */
static void batches(void) {
  uint64_t out[5] = {0, 0, 0, 7, 7};
  atlas_moved moved = atlas_batch(atlas_fresh(4).walk, out, 3);
  CHECK(moved.refused == 0 && moved.count == 3 && !moved.finished && walk_is(moved.walk, 4, 71, 1, 33, 0));
  CHECK(memcmp(out, (uint64_t[]){15, 23, 39, 7, 7}, sizeof out) == 0);
  moved = atlas_batch(moved.walk, out, 0);
  CHECK(moved.refused == 0 && moved.count == 0 && !moved.finished && walk_is(moved.walk, 4, 71, 1, 33, 0));
  moved = atlas_batch(moved.walk, out, 5);
  CHECK(moved.refused == 0 && moved.count == 4 && moved.finished && walk_is(moved.walk, 4, 0, 1, 33, 1));
  CHECK(memcmp(out, (uint64_t[]){71, 27, 75, 85, 7}, sizeof out) == 0);
  moved = atlas_batch(moved.walk, out, 5);
  CHECK(moved.refused == 0 && moved.count == 0 && moved.finished && walk_is(moved.walk, 4, 0, 1, 33, 1));
  CHECK(memcmp(out, (uint64_t[]){71, 27, 75, 85, 7}, sizeof out) == 0);
}

/* The window 3 to 4 of genus 4 by lists of 2 and 4, and an empty window. */
static void window_batches(void) {
  uint64_t out[5] = {7, 7, 7, 7, 7};
  atlas_moved moved = atlas_batch(atlas_fresh_in(4, 3, 4).walk, out, 2);
  CHECK(moved.refused == 0 && moved.count == 2 && !moved.finished && walk_is(moved.walk, 4, 71, 3, 4, 0));
  CHECK(memcmp(out, (uint64_t[]){23, 39, 7, 7, 7}, sizeof out) == 0);
  moved = atlas_batch(moved.walk, out, 4);
  CHECK(moved.refused == 0 && moved.count == 3 && moved.finished && walk_is(moved.walk, 4, 0, 3, 4, 1));
  CHECK(memcmp(out, (uint64_t[]){71, 27, 75, 7, 7}, sizeof out) == 0);
  moved = atlas_batch(atlas_fresh_in(4, 4, 3).walk, out, 5);
  CHECK(moved.refused == 0 && moved.count == 0 && moved.finished && walk_is(moved.walk, 4, 0, 4, 3, 1));
  CHECK(memcmp(out, (uint64_t[]){71, 27, 75, 7, 7}, sizeof out) == 0);
}

/* Is a batch of the walk refused with this number, and are the walk and the list as they were? */
static bool batch_refused(atlas_walk w, uint64_t refused) {
  uint64_t out[2] = {7, 7};
  atlas_moved m = atlas_batch(w, out, 2);
  return m.refused == refused && m.count == 0 && !m.finished && walk_is(m.walk, w.genus, w.word, w.lowest, w.highest, w.finished) &&
         out[0] == 7 && out[1] == 7;
}

/* Walks above genus 32, of another genus than their word's, outside their window, finished with a word, and with a finished byte 2. */
static void refused_batches(void) {
  CHECK(batch_refused((atlas_walk){.genus = 33, .word = 15, .lowest = 1, .highest = 33}, 3));
  CHECK(batch_refused((atlas_walk){.genus = 5, .word = 15, .lowest = 1, .highest = 33}, 4));
  CHECK(batch_refused((atlas_walk){.genus = 4, .word = 71, .lowest = 5, .highest = 33}, 4));
  CHECK(batch_refused((atlas_walk){.genus = 4, .word = 71, .lowest = 1, .highest = 33, .finished = 1}, 4));
  CHECK(batch_refused((atlas_walk){.genus = 4, .word = 0, .lowest = 1, .highest = 33, .finished = 2}, 4));
  CHECK(batch_refused((atlas_walk){.genus = 33, .word = 0, .lowest = 1, .highest = 33, .finished = 2}, 3));
}

static bool saved_is(atlas_saved s, uint64_t refused, uint64_t genus, uint64_t word, uint8_t lowest, uint8_t highest, uint8_t finished,
                     uint64_t written) {
  return s.refused == refused && walk_is(s.walk, genus, word, lowest, highest, finished) && s.written == written;
}

/* Is a job refused with this number, and are all values 0? */
static bool unsaved_is(atlas_saved s, uint64_t refused) { return saved_is(s, refused, 0, 0, 0, 0, 0, 0); }

/* What the job of these bytes keeps. */
#define READ(...) atlas_job_read((uint8_t[]){__VA_ARGS__}, sizeof((uint8_t[]){__VA_ARGS__}))

/* The bytes of the longest job, and three more. */
enum { JOB_LENT = ATLAS_MOST_JOB_BYTES + 3 };

/* Has a walk this job, are the places after it as they were lent, is a list of its length enough, and does it read back as the walk and the
   number written? */
static bool job_is(atlas_walk w, uint64_t written, const uint8_t *job, size_t length) {
  uint8_t expected[JOB_LENT], out[JOB_LENT], exact[JOB_LENT];
  memset(expected, 9, sizeof expected);
  memset(out, 9, sizeof out);
  memset(exact, 9, sizeof exact);
  memcpy(expected, job, length);
  return number_is(atlas_job_write(w, written, out, sizeof out), 0, length) && memcmp(out, expected, sizeof out) == 0 &&
         number_is(atlas_job_write(w, written, exact, length), 0, length) && memcmp(exact, expected, sizeof exact) == 0 &&
         saved_is(atlas_job_read(job, length), 0, w.genus, w.word, w.lowest, w.highest, w.finished, written);
}

/* The word of genus 32 with the generators 5 and 17, whose eight bytes are all different. */
static const uint64_t of_5_and_17 = 4760486403166879215;

/* A fresh walk, one with all bytes of its word and of the number written different, finished ones, the walk on the word 0, and a longer
   list. */
static void written_jobs(void) {
  uint8_t longer[256];
  const atlas_walk empty = atlas_fresh_in(4, 6, 33).walk, ended = {.genus = 4, .lowest = 3, .highest = 4, .finished = 1};
  CHECK(job_is(atlas_fresh(4).walk, 0, (uint8_t[]){0x9f, 2, 4, 1, 33, 15, 0, 0, 0, 0, 0, 0, 0, 0, 0, 0, 0, 0, 0, 0, 0}, 21));
  CHECK(job_is(atlas_start_in(of_5_and_17, 5, 255).walk, 0x0102030405060708,
               (uint8_t[]){0x9f, 2, 32, 5, 255, 0xef, 0xbd, 0xd6, 0x5a, 0x29, 0xa5, 0x10, 0x42, 8, 7, 6, 5, 4, 3, 2, 1}, 21));
  CHECK(job_is(ended, 5, (uint8_t[]){0xb7, 2, 4, 3, 4, 5, 0, 0, 0, 0, 0, 0, 0}, 13));
  CHECK(job_is(ended, UINT64_MAX, (uint8_t[]){0xb7, 2, 4, 3, 4, 255, 255, 255, 255, 255, 255, 255, 255}, 13));
  CHECK(job_is(empty, 0, (uint8_t[]){0xb7, 2, 4, 6, 33, 0, 0, 0, 0, 0, 0, 0, 0}, 13));
  CHECK(job_is(atlas_fresh(0).walk, 0, (uint8_t[]){0x9f, 2, 0, 1, 33, 0, 0, 0, 0, 0, 0, 0, 0, 0, 0, 0, 0, 0, 0, 0, 0}, 21));
  CHECK(number_is(atlas_job_write(atlas_fresh(4).walk, 0, longer, sizeof longer), 0, 21));
}

/* Is the job of the walk refused with this number, and is the list as it was lent? */
static bool job_refused(atlas_walk w, size_t length, uint64_t refused) {
  uint8_t out[JOB_LENT];
  memset(out, 9, sizeof out);
  bool as_lent = number_is(atlas_job_write(w, 1, out, length), refused, 0);
  for (size_t i = 0; i < sizeof out; i++) as_lent = as_lent && out[i] == 9;
  return as_lent;
}

/* The walks that a batch refuses, with lists that are long enough and with none, and lists one byte too short. */
static void refused_jobs(void) {
  for (size_t length = 0; length <= JOB_LENT; length += JOB_LENT) {
    CHECK(job_refused((atlas_walk){.genus = 33, .word = 15, .lowest = 1, .highest = 33}, length, 3));
    CHECK(job_refused((atlas_walk){.genus = 33, .word = 0, .lowest = 1, .highest = 33, .finished = 1}, length, 3));
    CHECK(job_refused((atlas_walk){.genus = 256 + 4, .word = 15, .lowest = 1, .highest = 33}, length, 3));
    CHECK(job_refused((atlas_walk){.genus = 33, .word = 0, .lowest = 1, .highest = 33, .finished = 2}, length, 3));
    CHECK(job_refused((atlas_walk){.genus = 5, .word = 15, .lowest = 1, .highest = 33}, length, 4));
    CHECK(job_refused((atlas_walk){.genus = 3, .word = not_closed, .lowest = 1, .highest = 33}, length, 4));
    CHECK(job_refused((atlas_walk){.genus = 4, .word = 71, .lowest = 5, .highest = 33}, length, 4));
    CHECK(job_refused((atlas_walk){.genus = 4, .word = 71, .lowest = 1, .highest = 33, .finished = 1}, length, 4));
    CHECK(job_refused((atlas_walk){.genus = 4, .word = 0, .lowest = 1, .highest = 33, .finished = 2}, length, 4));
    CHECK(job_refused((atlas_walk){.genus = 4, .word = 71, .lowest = 1, .highest = 33, .finished = 255}, length, 4));
  }
  CHECK(job_refused(atlas_fresh(4).walk, 20, 6));
  CHECK(job_refused(atlas_fresh(4).walk, 13, 6));
  CHECK(job_refused(atlas_fresh(4).walk, 0, 6));
  CHECK(job_refused(atlas_fresh_in(4, 6, 33).walk, 12, 6));
  CHECK(job_refused(atlas_fresh_in(4, 6, 33).walk, 0, 6));
}

/* Jobs of version 1, without and with a version byte, and of version 2, with few fields: genus 4 stands where the fresh walk of its window
   stands, where the job says, or is finished. */
static void absent_fields(void) {
  CHECK(saved_is(READ(0x01, 4), 0, 4, 15, 1, 33, 0, 0));
  CHECK(saved_is(READ(0x03, 4, 3), 0, 4, 15, 3, 33, 0, 0));
  CHECK(saved_is(READ(0x05, 4, 4), 0, 4, 23, 1, 4, 0, 0));
  CHECK(saved_is(READ(0x07, 4, 0, 255), 0, 4, 15, 0, 255, 0, 0));
  CHECK(saved_is(READ(0x07, 4, 6, 33), 0, 4, 0, 6, 33, 1, 0));
  CHECK(saved_is(READ(0x07, 4, 4, 3), 0, 4, 0, 4, 3, 1, 0));
  CHECK(saved_is(READ(0x09, 4, 71, 0, 0, 0, 0, 0, 0, 0), 0, 4, 71, 1, 33, 0, 0));
  CHECK(saved_is(READ(0x0d, 4, 4, 71, 0, 0, 0, 0, 0, 0, 0), 0, 4, 71, 1, 4, 0, 0));
  CHECK(saved_is(READ(0x21, 4), 0, 4, 0, 1, 33, 1, 0));
  CHECK(saved_is(READ(0x27, 4, 4, 3), 0, 4, 0, 4, 3, 1, 0));
  CHECK(saved_is(READ(0x01, 32), 0, 32, 4294967295, 1, 33, 0, 0));
  CHECK(saved_is(READ(0x09, 0, 0, 0, 0, 0, 0, 0, 0, 0), 0, 0, 0, 1, 33, 0, 0));
  CHECK(saved_is(READ(0x81, 1, 4), 0, 4, 15, 1, 33, 0, 0));
  CHECK(saved_is(READ(0x85, 1, 4, 4), 0, 4, 23, 1, 4, 0, 0));
  CHECK(saved_is(READ(0xa1, 1, 4), 0, 4, 0, 1, 33, 1, 0));
  CHECK(saved_is(READ(0x81, 2, 4), 0, 4, 15, 1, 33, 0, 0));
  CHECK(saved_is(READ(0x89, 2, 32, 0xef, 0xbd, 0xd6, 0x5a, 0x29, 0xa5, 0x10, 0x42), 0, 32, of_5_and_17, 1, 33, 0, 0));
  CHECK(saved_is(READ(0x91, 2, 4, 8, 7, 6, 5, 4, 3, 2, 1), 0, 4, 15, 1, 33, 0, 0x0102030405060708));
  CHECK(saved_is(READ(0xb3, 2, 4, 3, 255, 255, 255, 255, 255, 255, 255, 255), 0, 4, 0, 3, 33, 1, UINT64_MAX));
}

/* A version other than 1 and 2, bit 6, and bit 4 in version 1: before a wrong length, an absent genus, and bits 3 and 5 together. */
static void wrong_versions(void) {
  CHECK(unsaved_is(READ(0x81, 0, 4), 17));
  CHECK(unsaved_is(READ(0x81, 3, 4), 17));
  CHECK(unsaved_is(READ(0x81, 255, 4), 17));
  CHECK(unsaved_is(READ(0x80, 3), 17));
  CHECK(unsaved_is(READ(0xa9, 0, 33), 17));
  CHECK(unsaved_is(READ(0x41, 4), 17));
  CHECK(unsaved_is(READ(0xc1, 1, 4), 17));
  CHECK(unsaved_is(READ(0xc1, 2, 4), 17));
  CHECK(unsaved_is(READ(0x40), 17));
  CHECK(unsaved_is(READ(0x11, 4, 0, 0, 0, 0, 0, 0, 0, 0), 17));
  CHECK(unsaved_is(READ(0x91, 1, 4, 0, 0, 0, 0, 0, 0, 0, 0), 17));
  CHECK(unsaved_is(READ(0x10), 17));
}

/* Empty jobs and those that end before their version byte, before all; then a byte too few and one too many, or 65,536, before an absent
   genus and bits 3 and 5 together. */
static void wrong_lengths(void) {
  uint8_t job[JOB_LENT] = {0};
  CHECK(unsaved_is(atlas_job_read(job, 0), 18));
  CHECK(unsaved_is(atlas_job_read((uint8_t[65536 + 2]){0x01, 4}, 65536 + 2), 18));
  CHECK(unsaved_is(READ(0x80), 18));
  CHECK(unsaved_is(READ(0xc0), 18));
  CHECK(unsaved_is(READ(0xff), 18));
  CHECK(unsaved_is(READ(0x01), 18));
  CHECK(unsaved_is(READ(0x81, 2), 18));
  CHECK(unsaved_is(READ(0x07, 4, 3), 18));
  CHECK(unsaved_is(READ(0x09, 4, 71, 0, 0, 0, 0, 0, 0), 18));
  CHECK(unsaved_is(READ(0x01, 4, 0), 18));
  CHECK(unsaved_is(READ(0x21, 4, 0), 18));
  CHECK(unsaved_is(READ(0x00, 4), 18));
  CHECK(unsaved_is(READ(0x02), 18));
  CHECK(unsaved_is(READ(0x29, 4), 18));
  CHECK(number_is(atlas_job_write(atlas_fresh(4).walk, 7, job, sizeof job), 0, 21));
  for (size_t length = 0; length <= JOB_LENT; length++) CHECK(atlas_job_read(job, length).refused == (length == 21 ? 0 : 18));
}

/* No genus, and bits 3 and 5 together, before a genus above 32 and a wrong word; then these two in this order. */
static void wrong_fields(void) {
  CHECK(unsaved_is(READ(0x00), 19));
  CHECK(unsaved_is(READ(0x20), 19));
  CHECK(unsaved_is(READ(0x06, 1, 33), 19));
  CHECK(unsaved_is(READ(0x80, 1), 19));
  CHECK(unsaved_is(READ(0x90, 2, 0, 0, 0, 0, 0, 0, 0, 0), 19));
  CHECK(unsaved_is(READ(0x08, 15, 0, 0, 0, 0, 0, 0, 0), 19));
  CHECK(unsaved_is(READ(0x29, 4, 0, 0, 0, 0, 0, 0, 0, 0), 19));
  CHECK(unsaved_is(READ(0x29, 33, 13, 0, 0, 0, 0, 0, 0, 0), 19));
  CHECK(unsaved_is(READ(0x01, 33), 3));
  CHECK(unsaved_is(READ(0x07, 33, 4, 3), 3));
  CHECK(unsaved_is(READ(0xa1, 2, 255), 3));
  CHECK(unsaved_is(READ(0x09, 33, 13, 0, 0, 0, 0, 0, 0, 0), 3));
  CHECK(unsaved_is(READ(0x09, 3, 13, 0, 0, 0, 0, 0, 0, 0), 4));
  CHECK(unsaved_is(READ(0x09, 5, 15, 0, 0, 0, 0, 0, 0, 0), 4));
  CHECK(unsaved_is(READ(0x09, 4, 0, 0, 0, 0, 0, 0, 0, 0), 4));
  CHECK(unsaved_is(READ(0x0b, 4, 5, 71, 0, 0, 0, 0, 0, 0, 0), 4));
  CHECK(unsaved_is(READ(0x0d, 4, 3, 71, 0, 0, 0, 0, 0, 0, 0), 4));
}

/* Genus 8 by batches of 5, with nothing but the job kept between them. */
static void walk_by_jobs(void) {
  uint64_t all[67], words[67 + 5];
  uint8_t job[ATLAS_MOST_JOB_BYTES];
  CHECK(atlas_batch(atlas_fresh(8).walk, all, 67).finished);
  size_t length = atlas_job_write(atlas_fresh(8).walk, 0, job, sizeof job).value;
  atlas_saved saved = atlas_job_read(job, length);
  for (uint64_t place = 0; place < 67; place += 5) {
    CHECK(saved.refused == 0 && !saved.walk.finished && saved.written == place);
    atlas_moved moved = atlas_batch(saved.walk, words + place, 5);
    length = atlas_job_write(moved.walk, saved.written + moved.count, job, sizeof job).value;
    saved = atlas_job_read(job, length);
  }
  CHECK(saved_is(saved, 0, 8, 0, 1, 33, 1, 67) && memcmp(words, all, sizeof all) == 0);
}

static void counts(void) {
  CHECK(number_is(atlas_count(0, 32), 0, 15195070));
  CHECK(number_is(atlas_count(91, 5), 0, 1));
  CHECK(number_is(atlas_count(91, 4), 0, 0));
  CHECK(number_is(atlas_count(too_many, 33), 1, 0));
  CHECK(number_is(atlas_count(not_closed, 33), 2, 0));
  CHECK(number_is(atlas_count(0, 33), 3, 0));
  CHECK(number_is(atlas_elementary(7, 5), 0, 3));
  CHECK(number_is(atlas_elementary(10, 5), 0, 0));
  CHECK(number_is(atlas_elementary(7, 33), 3, 0));
}

/* The descendants of 11 of genus 4 are cut out of the genus list: first and number, then a walk from the first on. */
static void descendants(void) {
  CHECK(found_is(atlas_first_descendant(11, 4), 0, true, 27));
  CHECK(number_is(atlas_count(11, 4), 0, 2));
  uint64_t out[2] = {7, 7};
  atlas_moved moved = atlas_batch(atlas_start(27).walk, out, 2);
  CHECK(moved.refused == 0 && moved.count == 2 && !moved.finished && walk_is(moved.walk, 4, 85, 1, 33, 0));
  CHECK(memcmp(out, (uint64_t[]){27, 75}, sizeof out) == 0);
  CHECK(found_is(atlas_first_descendant(19, 4), 0, false, 0));
  CHECK(found_is(atlas_first_descendant(91, 5), 0, true, 91));
  CHECK(found_is(atlas_first_descendant(91, 4), 0, false, 0));
  CHECK(found_is(atlas_first_descendant(0, 0), 0, true, 0));
  CHECK(found_is(atlas_first_descendant(0, 32), 0, true, 4294967295));
  CHECK(found_is(atlas_first_descendant(of_genus_32, 32), 0, true, of_genus_32));
  CHECK(found_is(atlas_first_descendant(too_many, 33), 1, false, 0));
  CHECK(found_is(atlas_first_descendant(not_closed, 33), 2, false, 0));
  CHECK(found_is(atlas_first_descendant(0, 33), 3, false, 0));
}

static void generators(void) {
  uint8_t out[5] = {9, 9, 9, 9, 9};
  CHECK(number_is(atlas_generators(too_many, out, 5), 1, 0));
  CHECK(number_is(atlas_generators(not_closed, out, 5), 2, 0));
  CHECK(number_is(atlas_generators(91, out, 2), 6, 0));
  CHECK(memcmp(out, (uint8_t[]){9, 9, 9, 9, 9}, sizeof out) == 0);
  CHECK(number_is(atlas_generators(91, out, 5), 0, 3));
  CHECK(memcmp(out, (uint8_t[]){3, 8, 10, 9, 9}, sizeof out) == 0);
  uint8_t all[ATLAS_MOST_GENERATORS];
  CHECK(number_is(atlas_generators(4294967295, all, sizeof all), 0, 33));
  CHECK(number_is(atlas_word_from(out, 3), 0, 91));
  CHECK(number_is(atlas_word_from((uint8_t[]){10, 3, 8, 3}, 4), 0, 91));
  CHECK(number_is(atlas_word_from((uint8_t[]){2, 65}, 2), 0, of_genus_32));
  CHECK(number_is(atlas_word_from((uint8_t[]){3, 0}, 2), 7, 0));
  CHECK(number_is(atlas_word_from((uint8_t[]){4, 6}, 2), 8, 0));
  CHECK(number_is(atlas_word_from(out, 0), 8, 0));
  CHECK(number_is(atlas_word_from((uint8_t[]){2, 67}, 2), 9, 0));
}

/* Joins a list to the first `held` bytes of another, which has room for it, and reduces them to the minimal generators of their word where
   they have one: how many bytes are held then. */
static size_t stage(uint8_t *list, size_t held, const uint8_t *more, size_t length) {
  memcpy(list + held, more, length);
  atlas_number word = atlas_word_from(list, held + length);
  return word.refused ? held + length : atlas_generators(word.value, list, ATLAS_MOST_GENERATORS).value;
}

/* Four lists of generators in stages: the first two are refused and held as they are. All of them at once give the same word. */
static void generators_in_stages(void) {
  uint8_t list[64];
  size_t held = stage(list, 0, (uint8_t[]){6, 10}, 2);
  CHECK(held == 2 && !memcmp(list, (uint8_t[]){6, 10}, 2));
  held = stage(list, held, (uint8_t[]){55}, 1);
  CHECK(held == 3 && !memcmp(list, (uint8_t[]){6, 10, 55}, 3));
  held = stage(list, held, (uint8_t[]){15}, 1);
  CHECK(held == 3 && !memcmp(list, (uint8_t[]){6, 10, 15}, 3));
  held = stage(list, held, (uint8_t[]){4, 255}, 2);
  CHECK(held == 3 && !memcmp(list, (uint8_t[]){4, 6, 15}, 3));
  CHECK(number_is(atlas_word_from(list, held), 0, 70999));
  CHECK(number_is(atlas_word_from((uint8_t[]){6, 10, 55, 15, 4, 255}, 6), 0, 70999));
}

static bool editor_is(atlas_editor e, const uint8_t *held, size_t length, uint64_t refused, uint64_t value) {
  uint8_t bytes[ATLAS_MOST_HELD] = {0};
  memcpy(bytes, held, length);
  return memcmp(e.bytes, bytes, sizeof bytes) == 0 && e.length == length && number_is(e.answer, refused, value);
}

/* Adds 6, 10 and 6, removes the first 6, and adds 15; the answer follows. Refused changes leave everything. */
static void short_history(void) {
  atlas_editor e = atlas_editor_empty();
  CHECK(editor_is(e, (uint8_t[]){0}, 0, 8, 0));
  e = atlas_editor_add(atlas_editor_add(atlas_editor_add(e, 6).editor, 10).editor, 6).editor;
  CHECK(editor_is(e, (uint8_t[]){6, 10, 6}, 3, 8, 0));
  atlas_changed c = atlas_editor_remove(e, 6);
  CHECK(c.refused == 0 && editor_is(c.editor, (uint8_t[]){10, 6}, 2, 8, 0));
  c = atlas_editor_add(c.editor, 0);
  CHECK(c.refused == 7 && editor_is(c.editor, (uint8_t[]){10, 6}, 2, 8, 0));
  c = atlas_editor_remove(c.editor, 0);
  CHECK(c.refused == 16 && editor_is(c.editor, (uint8_t[]){10, 6}, 2, 8, 0));
  c = atlas_editor_add(c.editor, 55);
  CHECK(c.refused == 0 && editor_is(c.editor, (uint8_t[]){10, 6, 55}, 3, 9, 0));
  c = atlas_editor_add(c.editor, 15);
  CHECK(c.refused == 0 && editor_is(c.editor, (uint8_t[]){10, 6, 55, 15}, 4, 0, 272971231));
  atlas_number again = atlas_word_from(c.editor.bytes, c.editor.length);
  CHECK(number_is(again, c.editor.answer.refused, c.editor.answer.value));
}

/* Of twenty additions sixteen are held; then an added 0 is still refused 7. */
static void long_history(void) {
  atlas_editor e = atlas_editor_empty();
  uint8_t first[ATLAS_MOST_HELD];
  for (uint8_t i = 0; i < 20; i++) {
    atlas_changed c = atlas_editor_add(e, 40 + i);
    CHECK(c.refused == (i < ATLAS_MOST_HELD ? 0 : 15));
    if (i < ATLAS_MOST_HELD)
      first[i] = 40 + i;
    e = c.editor;
  }
  CHECK(editor_is(e, first, sizeof first, 9, 0));
  CHECK(atlas_editor_add(e, 0).refused == 7);
  CHECK(atlas_editor_remove(e, 56).refused == 16);
}

/* Any bytes may be handed over as a list that changes: what is not in order is refused 14 and comes back as it was. */
static void wrong_states(void) {
  const atlas_editor right = atlas_editor_add(atlas_editor_empty(), 1).editor;
  CHECK(editor_is(right, (uint8_t[]){1}, 1, 0, 0));
  atlas_editor wrong[6] = {right, right, right, right, right, right};
  wrong[0].length = 17;
  wrong[1].bytes[0] = 0;
  wrong[2].bytes[15] = 1;
  wrong[3].answer.value = 1;
  wrong[4].answer.refused = 8;
  wrong[5].answer = (atlas_number){20, 20};
  for (size_t i = 0; i < sizeof wrong / sizeof wrong[0]; i++) {
    atlas_changed added = atlas_editor_add(wrong[i], 0), removed = atlas_editor_remove(wrong[i], 1);
    CHECK(added.refused == 14 && memcmp(&added.editor, &wrong[i], sizeof wrong[i]) == 0);
    CHECK(removed.refused == 14 && memcmp(&removed.editor, &wrong[i], sizeof wrong[i]) == 0);
  }
}

static void coordinates(void) {
  uint8_t out[4] = {9, 9, 9, 9};
  CHECK(number_is(atlas_kunz(too_many, out, 4), 1, 0));
  CHECK(number_is(atlas_kunz(not_closed, out, 4), 2, 0));
  CHECK(number_is(atlas_kunz(91, out, 1), 6, 0));
  CHECK(number_is(atlas_kunz(0, out, 0), 0, 0));
  CHECK(memcmp(out, (uint8_t[]){9, 9, 9, 9}, sizeof out) == 0);
  CHECK(number_is(atlas_kunz(91, out, 4), 0, 2));
  CHECK(memcmp(out, (uint8_t[]){3, 2, 9, 9}, sizeof out) == 0);
  uint8_t all[ATLAS_MOST_COORDINATES];
  CHECK(number_is(atlas_kunz(4294967295, all, sizeof all), 0, 32));
  CHECK(number_is(atlas_word_from_kunz(all, sizeof all), 0, 4294967295));
  CHECK(number_is(atlas_word_from_kunz(out, 0), 0, 0));
  CHECK(number_is(atlas_word_from_kunz(out, 2), 0, 91));
  CHECK(number_is(atlas_word_from_kunz((uint8_t[]){2, 1}, 2), 0, 11));
  CHECK(number_is(atlas_word_from_kunz((uint8_t[]){32}, 1), 0, of_genus_32));
  CHECK(number_is(atlas_word_from_kunz((uint8_t[]){255, 0}, 2), 11, 0));
  CHECK(number_is(atlas_word_from_kunz((uint8_t[]){33}, 1), 12, 0));
  CHECK(number_is(atlas_word_from_kunz((uint8_t[]){1, 3}, 2), 13, 0));
}

static void searches(void) {
  CHECK(found_is(atlas_find(0, -1, 1), 0, true, 0));
  CHECK(found_is(atlas_find(0, -1, 2), 0, false, 0));
  CHECK(found_is(atlas_find(0, 0, 1), 0, false, 0));
  CHECK(found_is(atlas_find(4, 7, 2), 0, true, 85));
  CHECK(found_is(atlas_find(4, 6, 2), 0, false, 0));
  CHECK(found_is(atlas_find(4, 4, 5), 0, true, 15));
  CHECK(found_is(atlas_find(4, 7, 3), 0, true, 75));
  CHECK(found_is(atlas_find(5, 7, 4), 0, true, 87));
  CHECK(found_is(atlas_find(4, -1, 1), 0, false, 0));
  CHECK(found_is(atlas_find(4, -128, 0), 0, false, 0));
  CHECK(found_is(atlas_find(4, 127, 255), 0, false, 0));
  CHECK(found_is(atlas_find(32, 63, 2), 0, true, of_genus_32));
  CHECK(found_is(atlas_find(32, 32, 33), 0, true, 4294967295));
  CHECK(found_is(atlas_find(33, 5, 5), 3, false, 0));
}

/* The places of a census, and three more. */
enum { LENT = ATLAS_CENSUS_PLACES + 3 };

/* The census of a genus into the first `length` places of a list that is lent full of 7s. */
static atlas_number census_into(uint64_t *list, uint64_t genus, size_t length) {
  for (size_t i = 0; i < LENT; i++) list[i] = 7;
  return atlas_census(genus, list, length);
}

/* Is the census refused with this number, and is the list as it was lent? */
static bool census_refused(uint64_t genus, size_t length, uint64_t refused) {
  uint64_t list[LENT];
  bool as_lent = number_is(census_into(list, genus, length), refused, 0);
  for (size_t i = 0; i < LENT; i++) as_lent = as_lent && list[i] == 7;
  return as_lent;
}

/* Genus 3 and 0, every place: where there are no semigroups the number is 0, and the three places after the census are as they were lent. */
static void small_censuses(void) {
  const uint64_t of_3[LENT] = {[65 * 2 + 6] = 1, [65 * 3 + 5] = 1, [65 * 3 + 6] = 1, [65 * 4 + 4] = 1, [2210] = 7, 7, 7};
  const uint64_t of_0[LENT] = {[65 * 1 + 0] = 1, [2210] = 7, 7, 7};
  uint64_t list[LENT];
  CHECK(number_is(census_into(list, 3, LENT), 0, 21) && memcmp(list, of_3, sizeof list) == 0);
  CHECK(number_is(census_into(list, 0, LENT), 0, 0) && memcmp(list, of_0, sizeof list) == 0);
}

/* The genus is asked about before the length. */
static void refused_censuses(void) {
  CHECK(census_refused(33, LENT, 3));
  CHECK(census_refused(33, 2209, 3));
  CHECK(census_refused(33, 0, 3));
  CHECK(census_refused(UINT64_MAX, LENT, 3));
  CHECK(census_refused(32, 2209, 6));
  CHECK(census_refused(0, 0, 6));
}

/* The numbers of one conductor added up, from a lowest multiplicity on. */
static uint64_t with_conductor(const uint64_t *list, uint64_t c, uint64_t lowest) {
  uint64_t sum = 0;
  for (uint64_t m = lowest; m <= 33; m++) sum += list[65 * m + c];
  return sum;
}

/* The numbers of genus 32 add up to the count, with a list of just so many places; those of genus 12 with c at most 2 m add up to the
   elementary counts. */
static void census_sums(void) {
  uint64_t list[LENT], sum = 0;
  CHECK(number_is(census_into(list, 32, ATLAS_CENSUS_PLACES), 0, 751523065));
  for (uint64_t c = 0; c <= 64; c++) sum += with_conductor(list, c, 0);
  CHECK(sum == 15195070 && number_is(atlas_count(0, 32), 0, sum));
  CHECK(list[2210] == 7 && list[2211] == 7 && list[2212] == 7);
  CHECK(census_into(list, 12, LENT).refused == 0);
  for (uint64_t c = 1; c <= 64; c++) CHECK(number_is(atlas_elementary(c - 1, 12), 0, with_conductor(list, c, (c + 1) / 2)));
}

int main(void) {
  words();
  openings();
  both_conventions();
  tables();
  children();
  grandchildren();
  beginnings();
  batches();
  window_batches();
  refused_batches();
  written_jobs();
  refused_jobs();
  absent_fields();
  wrong_versions();
  wrong_lengths();
  wrong_fields();
  walk_by_jobs();
  counts();
  descendants();
  generators();
  generators_in_stages();
  short_history();
  long_history();
  wrong_states();
  coordinates();
  searches();
  small_censuses();
  refused_censuses();
  census_sums();
  printf("calls: %u checks, %u failed\n", checks, failures);
  return failures != 0;
}
