/* Lists the genus that it reads from standard input, as the listing program does, in plain C: the words of the paper's algorithm, digits in
   pairs from a table, 64 KiB to a write. */
#include <stdint.h>
#include <stdio.h>
#include <string.h>
#include <unistd.h>

uint64_t paper_count(unsigned genus);
void paper_words(unsigned genus, uint64_t *words, size_t length, void (*full)(const uint64_t *, size_t, void *), void *to);

enum { WORDS = 4096, BYTES = 1 << 16, MOST_LINE = 27 };
static char pairs[200], text[BYTES];
static size_t used;

static void write_text(void) {
  for (size_t done = 0; done < used;) {
    ssize_t n = write(STDOUT_FILENO, text + done, used - done);
    if (n <= 0) _exit(1);
    done += n;
  }
  used = 0;
}

/* A number and the byte behind it. */
static void put(uint64_t n, char end) {
  char digits[20];
  unsigned at = sizeof digits;
  for (; n >= 100; n /= 100) memcpy(digits + (at -= 2), pairs + n % 100 * 2, 2);
  if (n >= 10)
    memcpy(digits + (at -= 2), pairs + n * 2, 2);
  else
    digits[--at] = '0' + n;
  memcpy(text + used, digits + at, sizeof digits - at);
  used += sizeof digits - at;
  text[used++] = end;
}

static void put_lines(const uint64_t *words, size_t count, void *to) {
  (void)to;
  for (size_t i = 0; i < count; i++) {
    uint64_t w = words[i];
    if (BYTES - used < MOST_LINE) write_text();
    put(w, ' ');
    put(w ? 65 - __builtin_clzll(w) : 0, ' ');
    put(__builtin_ctzll(~w) + 1, '\n');
  }
}

int main(void) {
  static uint64_t words[WORDS];
  unsigned genus;
  if (scanf("%u", &genus) != 1) return 1;
  for (int i = 0; i < 100; i++) pairs[2 * i] = '0' + i / 10, pairs[2 * i + 1] = '0' + i % 10;
  used = sprintf(text, "genus %u count %llu\n", genus, (unsigned long long)paper_count(genus));
  paper_words(genus, words, WORDS, put_lines, NULL);
  write_text();
  return 0;
}
