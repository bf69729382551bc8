/* The semigroup atlas: numerical semigroups of genus 0 to 32.

   A gap word has 64 bits: bit i stands when i + 1 is a gap, and every number above 64 belongs to the set. A word is accepted when it
   has at most 32 gaps and its set is closed under addition.

   Two conventions meet at the word 0, the semigroup without gaps; for every other word they agree. What is reported, by atlas_look, in a
   census and in the lines of the listing program, and the largest gap that atlas_find takes are what other algebra packages give: the
   conductor is the least number from which on all belong to the set, 0 for the word 0, and the largest gap is one less, -1 there. Seed
   tables and children are counted by the conductor of the seeds paper: the largest gap plus 1, and 1 for the word 0, whose seed table has
   one entry and whose child is at 1. Below, "the conductor" is the paper's unless it is called reported.

   No call asks anything of its arguments, and every call returns. In each answer but those of atlas_opening and atlas_editor_empty, which
   refuse nothing, `refused` comes first: 0 for an answer, otherwise the number of the refusal, and then all values are 0, no list is
   written, and a walk or a list that changes comes back as it was given. A list is a pointer and a length; a list of length 0 may have any
   pointer that is not null. Lists that are lent for writing must not be touched by others during the call.

   Refusals: 1 more than 32 gaps; 2 not closed under addition; 3 genus (of a child: one more than the word's) above 32; 4 a walk that is
   neither finished with word 0 nor unfinished on an accepted word of its genus in its window, a finished byte other than 0 and 1, or a
   start at a word outside the window; 5 no generator, or below the conductor; 6 the lent list is too short; 7 a given generator is 0; 8
   the greatest common divisor of the given generators is not 1 (an empty list's is 0); 9 the given generators leave more than 32 gaps;
   11 a given coordinate is 0; 12 the given coordinates add up to more than 32; 13 an inequality of the given coordinates fails; 14 a list
   that changes has a length above 16, a held byte 0, a place past its length that is not 0, or another answer than atlas_word_from gives
   for its bytes; 15 it holds sixteen bytes; 16 it does not hold the byte; 17 a job has a version other than 1 and 2, or a bit that its
   version lacks; 18 a job is empty, or has too few or too many bytes; 19 a job has no genus, or both a next word and the finished mark.
   (10 is the listing program's.)

   Link with target/staticlib/libatlas.a, which `rt staticlib atlas` writes. */
#ifndef ATLAS_H
#define ATLAS_H

#include <stdbool.h>
#include <stddef.h>
#include <stdint.h>

#ifdef __cplusplus
extern "C" {
#endif

/* A number, or a refusal. */
typedef struct {
  uint64_t refused;
  uint64_t value;
} atlas_number;

/* A seed table, and the number of 1s in its row 0, which is the number of generators not below the conductor. */
typedef struct {
  uint64_t refused;
  uint64_t table;
  uint64_t generators;
} atlas_table;

/* Whether there is a word that was looked for, and which; 0 where there is none. */
typedef struct {
  uint64_t refused;
  bool found;
  uint64_t word;
} atlas_found;

/* Whether there is an impossible opening, and how many gaps the shortest has; 0 where there is none. */
typedef struct {
  bool found;
  uint64_t length;
} atlas_shortest;

/* What is told of an accepted word: the conductor here is the reported one, and the largest gap is one less. */
typedef struct {
  uint64_t refused;
  uint64_t genus;
  uint64_t multiplicity;
  uint64_t conductor;
  int64_t largest_gap;
} atlas_report;

/* A walk over the semigroups of a genus with a multiplicity from the lowest to the highest, in list order: the next word, or 0 when
   finished. The finished byte is 0 or 1. It holds nothing else, so it may be stored and used again in another process. */
typedef struct {
  uint64_t genus;
  uint64_t word;
  uint8_t lowest;
  uint8_t highest;
  uint8_t finished;
} atlas_walk;

/* A walk that a call began. */
typedef struct {
  uint64_t refused;
  atlas_walk walk;
} atlas_begun;

/* How a batch ended: the walk afterwards, the number of words written to the front of the list, and whether none are left. */
typedef struct {
  uint64_t refused;
  atlas_walk walk;
  size_t count;
  bool finished;
} atlas_moved;

/* What a job keeps: a walk, and the number of words written so far. */
typedef struct {
  uint64_t refused;
  atlas_walk walk;
  uint64_t written;
} atlas_saved;

/* A list of generators that changes holds at most so many. */
#define ATLAS_MOST_HELD 16

/* A list of generators that changes: the first `length` bytes are held, in order of arrival, and the others are 0; `answer` is what
   atlas_word_from gives for those that are held, refused 8 or 9 too. It holds nothing else, so it may be stored and used again in another
   process. */
typedef struct {
  uint8_t bytes[ATLAS_MOST_HELD];
  size_t length;
  atlas_number answer;
} atlas_editor;

/* What a change of such a list gives: the list afterwards. `refused` is about the change, and `editor.answer` about the list. */
typedef struct {
  uint64_t refused;
  atlas_editor editor;
} atlas_changed;

/* Genus, multiplicity, reported conductor and largest gap of a word; 0, 1, 0 and -1 for the word 0. Refusals 1, 2. */
atlas_report atlas_look(uint64_t word);

/* The shortest impossible opening of a word, with any number of gaps: the least n such that its n smallest gaps are not the gaps of a
   semigroup. There is none exactly when the set of the word is closed under addition. No refusal. */
atlas_shortest atlas_opening(uint64_t word);

/* The seed table of a word: bit l is entry l of the joined rows, and the bits from the conductor up are clear. The number beside it is that of
   the word's children, the elements at which atlas_child answers, up to genus 31; at genus 32 it is given too, although every child is
   refused. Refusals 1, 2. */
atlas_table atlas_seed_table(uint64_t word);

/* The word of the semigroup without `element`, a generator not below the conductor. Refusals 1, 2, 3, 5. */
atlas_number atlas_child(uint64_t word, uint64_t element);

/* The number of grandchildren of a word, the semigroups with two gaps more whose smallest gaps are exactly the word's. It is given for words of
   genus 31 and 32 too, whose grandchildren have no accepted words. Refusals 1, 2. */
atlas_number atlas_grandchildren(uint64_t word);

/* A walk on the first semigroup of a genus; it has lowest 1 and highest 33, which hold the whole genus. Refusal 3. */
atlas_begun atlas_fresh(uint64_t genus);

/* A walk on the first semigroup of a genus with a multiplicity from the lowest to the highest. Where there is none, or the lowest is above
   the highest, the walk is already finished. Refusal 3. */
atlas_begun atlas_fresh_in(uint64_t genus, uint8_t lowest, uint8_t highest);

/* A walk of the word's genus on the word; it has lowest 1 and highest 33. Refusals 1, 2. */
atlas_begun atlas_start(uint64_t word);

/* A walk of the word's genus on the word, with a lowest and a highest multiplicity. Refusals 1, 2, and 4 for a word outside. */
atlas_begun atlas_start_in(uint64_t word, uint8_t lowest, uint8_t highest);

/* Writes the next words to the front of `out`, as far as its length or the semigroups last; places after them are untouched. Go on with
   the walk that comes back. Refusals 3, 4. */
atlas_moved atlas_batch(atlas_walk walk, uint64_t *out, size_t length);

/* A job keeps a walk and the number of words written so far between sessions, as bytes. The first byte is a bit map, and just the fields
   whose bit stands follow: the version, a byte, where bit 7 stands, and then by rising bit 0 the genus, 1 the lowest and 2 the highest
   multiplicity, a byte each, 3 the next word and 4 the number written so far, 8 bytes each, lowest byte first. Bit 5 marks a finished walk
   and has no bytes. Without a version byte the version is 1; bit 4 exists from version 2 on, and bit 6 never. The longest job has so many
   bytes. */
#define ATLAS_MOST_JOB_BYTES 21

/* Writes the job of a walk, of version 2 and with every field that it has, to the front of `out` and gives its length, 13 for a finished
   walk and 21 for any other; places after it are untouched. Refusals 3, 4, 6. */
atlas_number atlas_job_write(atlas_walk walk, uint64_t written, uint8_t *out, size_t length);

/* The walk and the number written that a job keeps. Absent fields mean lowest 1, highest 33, written 0 and, where the finished mark is absent
   too, the place of the fresh walk in the window, which is already finished where there is none. Refusals 17, 18, 19, 3, 4, but an empty job
   and one that ends before its version byte are refused 18 before all. */
atlas_saved atlas_job_read(const uint8_t *job, size_t length);

/* The number of semigroups of a genus whose smallest gaps are exactly the word's; of word 0, the number of all. Refusals 1, 2, 3. */
atlas_number atlas_count(uint64_t word, uint64_t genus);

/* The first semigroup of a genus in list order whose smallest gaps are exactly the word's; `found` is false where there is none. In the list
   of a genus they all stand side by side, as many as atlas_count says: a walk that atlas_start begins on this word writes exactly these to a
   list of that length. Refusals 1, 2, 3. */
atlas_found atlas_first_descendant(uint64_t word, uint64_t genus);

/* The minimal generators of an accepted word are at most as many as its multiplicity, which is at most 33: a list of so many places always
   holds them. */
#define ATLAS_MOST_GENERATORS 33

/* Writes the minimal generators of a word to the front of `out`, in rising order, and gives their number. Refusals 1, 2, 6. */
atlas_number atlas_generators(uint64_t word, uint8_t *out, size_t length);

/* The word of all sums of the given generators; repeats and any order are allowed. Long lists may be joined in stages, and what is held
   be reduced to the minimal generators of its word whenever it has one: the answer is that of all joined at once. Refusals 7, 8, 9. */
atlas_number atlas_word_from(const uint8_t *list, size_t length);

/* A list of generators that changes, at the start: it holds none, and its answer is refused 8. */
atlas_editor atlas_editor_empty(void);

/* Adds a byte behind those that are held. Refusals 14, 7, 15. */
atlas_changed atlas_editor_add(atlas_editor editor, uint8_t byte);

/* Removes the first of the held bytes that is equal to `byte`; those behind it move up. Refusals 14, 16. */
atlas_changed atlas_editor_remove(atlas_editor editor, uint8_t byte);

/* The Kunz coordinates of an accepted word are one less than its multiplicity: a list of 32 places always holds them. */
#define ATLAS_MOST_COORDINATES 32

/* Writes the Kunz coordinates of a word to the front of `out` and gives their number m - 1, with m the multiplicity: for i from 1 to m - 1
   the number x with m x + i the least element that leaves i on division by m. Refusals 1, 2, 6. */
atlas_number atlas_kunz(uint64_t word, uint8_t *out, size_t length);

/* The word of a list of m - 1 Kunz coordinates, x1 first; the empty list is that of the word 0. Accepted when every entry is at least 1,
   their sum is at most 32, and for all places i and j, equal ones too: xi + xj is at least x(i+j) where i + j is below m, and xi + xj + 1
   is at least x(i+j-m) where i + j is above m. Refusals 11, 12, 13. */
atlas_number atlas_word_from_kunz(const uint8_t *list, size_t length);

/* The number of semigroups of a genus whose largest gap is `frobenius`, below twice the multiplicity. Refusal 3. */
atlas_number atlas_elementary(uint64_t frobenius, uint64_t genus);

/* A census has a place for each multiplicity from 0 to 33 and each reported conductor from 0 to 64. */
#define ATLAS_CENSUS_PLACES 2210

/* Writes the number of semigroups of a genus with multiplicity m and reported conductor c to place 65 m + c of `out`, for m from 0 to 33 and
   c from 0 to 64, and gives the sum of the reported conductors of all semigroups of the genus. Where there are none the number is 0; places
   after the 2,210 are untouched. All places together make atlas_count(0, genus); from genus 1 on, for each c from 1 to 64, those where c is at
   most 2 m make atlas_elementary(c - 1, genus). Refusals 3, 6. */
atlas_number atlas_census(uint64_t genus, uint64_t *out, size_t length);

/* The word of the first semigroup of a genus in list order with this largest gap, which is -1 for the word 0, and this multiplicity; `found`
   is false where there is none. Refusal 3. */
atlas_found atlas_find(uint64_t genus, int8_t largest_gap, uint8_t multiplicity);

#ifdef __cplusplus
}
#endif

#endif
