/* Lists the semigroups of a genus, or those with a multiplicity from LOWEST to HIGHEST, in the file OUTPUT, and keeps the walk as a job in
   the file JOB: the listing may be killed at any time and taken up by another process.  Usage: list JOB OUTPUT GENUS [LOWEST HIGHEST] begins
   a listing, and list JOB OUTPUT takes up the one that is kept */
#include <inttypes.h>
#include <stdio.h>
#include <stdlib.h>
#include <unistd.h>
#include "atlas.h"

/* The words in a batch; after each a new job is kept. */
enum { BATCH = 16 };

/* Ends the program where something failed with a file. */
static void need(bool done, const char *failure) {
  if (done) return;
  fprintf(stderr, "list: %s\n", failure);
  exit(2);
}

static int refused(FILE *to, uint64_t number) {
  fprintf(to, "refused %" PRIu64 "\n", number);
  return 1;
}

/* A bound from an argument; multiplicities are at most 33. */
static uint8_t bound(const char *text) {
  uint64_t given = strtoull(text, NULL, 10);
  return given < 255 ? given : 255;
}

/* Keeps the job of a walk. It is written to JOB.new, which then replaces JOB: so JOB is always a whole job. */
static void keep(const char *job, atlas_walk walk, uint64_t written) {
  uint8_t bytes[ATLAS_MOST_JOB_BYTES];
  char new[FILENAME_MAX];
  size_t length = atlas_job_write(walk, written, bytes, sizeof bytes).value;
  need(snprintf(new, sizeof new, "%s.new", job) < (int)sizeof new, "the name of the job is too long");
  FILE *file = fopen(new, "wb");
  need(file && fwrite(bytes, 1, length, file) == length && fclose(file) == 0, "the new job was not written");
  need(rename(new, job) == 0, "the new job did not replace the old one");
}

/* What the kept job says. One byte more than the longest job has is read, so that a longer file is refused. */
static atlas_saved kept(const char *job) {
  uint8_t bytes[ATLAS_MOST_JOB_BYTES + 1];
  FILE *file = fopen(job, "rb");
  need(file, "the job was not opened");
  size_t length = fread(bytes, 1, sizeof bytes, file);
  need(!ferror(file) && fclose(file) == 0, "the job was not read");
  return atlas_job_read(bytes, length);
}

/* Cuts the output to its header and as many lines as were written by the job. */
static void cut(const char *output, uint64_t written) {
  FILE *file = fopen(output, "rb");
  need(file, "the output was not opened");
  off_t length = 0;
  for (uint64_t ended = 0; ended <= written; length++) {
    int byte = getc(file);
    need(byte != EOF, "the output has fewer lines than were written by the job");
    ended += byte == '\n';
  }
  need(fclose(file) == 0 && truncate(output, length) == 0, "the output was not cut");
}

/* Goes on with a listing to its end. A batch is in the output before the job counts it: after a kill the output has every line that the job
   counts, and perhaps more. */
static void go_on(const char *job, FILE *file, atlas_walk walk, uint64_t written) {
  while (!walk.finished) {
    uint64_t words[BATCH];
    atlas_moved moved = atlas_batch(walk, words, BATCH);
    for (size_t i = 0; i < moved.count; i++) {
      atlas_report report = atlas_look(words[i]);
      fprintf(file, "%" PRIu64 " %" PRIu64 " %" PRIu64 "\n", words[i], report.conductor, report.multiplicity);
    }
    need(fflush(file) == 0 && !ferror(file), "the lines were not written");
    walk = moved.walk;
    written += moved.count;
    keep(job, walk, written);
  }
}

/* Begins a listing. An older job is removed first, as it does not belong to the new output. */
static int begin(const char *job, const char *output, uint64_t genus, uint8_t lowest, uint8_t highest) {
  remove(job);
  FILE *file = fopen(output, "wb");
  need(file, "the output was not opened");
  atlas_begun begun = atlas_fresh_in(genus, lowest, highest);
  if (begun.refused) return refused(file, begun.refused);
  fprintf(file, "genus %" PRIu64 " count %" PRIu64 "\n", genus, atlas_count(0, genus).value);
  need(fflush(file) == 0, "the header was not written");
  keep(job, begun.walk, 0);
  go_on(job, file, begun.walk, 0);
  return 0;
}

/* Takes up the kept job. Where it is refused, the output stays as it is. */
static int take_up(const char *job, const char *output) {
  atlas_saved saved = kept(job);
  if (saved.refused) return refused(stdout, saved.refused);
  cut(output, saved.written);
  FILE *file = fopen(output, "ab");
  need(file, "the output was not opened");
  go_on(job, file, saved.walk, saved.written);
  return 0;
}

int main(int argc, char **argv) {
  if (argc == 3) return take_up(argv[1], argv[2]);
  if (argc != 4 && argc != 6) return 2;
  return begin(argv[1], argv[2], strtoull(argv[3], NULL, 10), argc == 6 ? bound(argv[4]) : 1, argc == 6 ? bound(argv[5]) : 33);
}
