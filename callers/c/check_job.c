/* Checks a job with all entries of sizercobalt.h and prints the eight words of the answer: check_job FILE [ASKED [MODE]].
   Without ASKED it asks for the job's last proof, without MODE in mode 0. sizercobalt_check_bytes is called in mode 0 only.

       cc -std=c11 -Iinclude callers/c/check_job.c target/staticlib/libhost.a -o check_job
       ./check_job examples/job_a.bin
       ./check_job examples/east_flank.bin 3 1 */

#include <stdio.h>
#include <stdlib.h>
#include <string.h>

#include "sizercobalt.h"

/* Where the number of proofs stands among a job's words. */
#define PROOFS 10

/* The slots of an index for the host's number of cells: twice as many, which is a power of two. */
#define INDEX (2 * SIZERCOBALT_CELLS)

/* Scratch for the host's number of cells and the largest number of proofs. */
#define SCRATCH (2 * (SIZERCOBALT_CELLS + 4096))

/* One byte more than the host entries take, so that a longer file is seen to be longer. */
static uint8_t bytes[SIZERCOBALT_BYTES + 1];
static uint32_t words[SIZERCOBALT_BYTES / 4];

/* Reads the file into `bytes`; 0 where that fails. */
static int read_job(const char *name, size_t *length) {
  FILE *file = fopen(name, "rb");
  if (file == NULL) {
    return 0;
  }
  *length = fread(bytes, 1, sizeof bytes, file);
  int good = !ferror(file);
  fclose(file);
  return good;
}

/* Makes `words` of the bytes, four each, the lowest first, and returns how many. What is no whole number of words, or more than the host entries take,
   becomes an empty job: all entries answer 1. */
static size_t words_of_bytes(size_t length) {
  if (length % 4 != 0 || length > SIZERCOBALT_BYTES) {
    return 0;
  }
  for (size_t i = 0; i < length / 4; i++) {
    const uint8_t *b = bytes + 4 * i;
    words[i] = (uint32_t)b[0] | (uint32_t)b[1] << 8 | (uint32_t)b[2] << 16 | (uint32_t)b[3] << 24;
  }
  return length / 4;
}

/* The last proof, or 0 without proofs. */
static uint32_t last_proof(size_t word_count) {
  return word_count > PROOFS && words[PROOFS] > 0 ? words[PROOFS] - 1 : 0;
}

/* Sets the number that the text is, or leaves it without one; 0 where the text is no 32-bit number. */
static int read_number(const char *text, uint32_t *number) {
  if (text == NULL) {
    return 1;
  }
  char *end;
  unsigned long long read = strtoull(text, &end, 10);
  *number = (uint32_t)read;
  return text[0] >= '0' && text[0] <= '9' && *end == '\0' && read <= UINT32_MAX;
}

/* A word that the job's author does not know, or 0 where the system has none: by it terms are spread over the index. */
static uint32_t random_word(void) {
  uint32_t word = 0;
  FILE *file = fopen("/dev/urandom", "rb");
  if (file != NULL) {
    if (fread(&word, sizeof word, 1, file) != 1) {
      word = 0;
    }
    fclose(file);
  }
  return word;
}

/* Calls sizercobalt_check with a lent store and index; 0 where there is no memory. What the lent words hold before makes no difference to the answer. */
static int check_lent(size_t word_count, uint32_t asked, uint32_t mode, uint32_t *answer) {
  size_t total = 2 * SIZERCOBALT_CELLS + SIZERCOBALT_POOL + INDEX + SCRATCH;
  uint32_t *kinds = malloc(total * sizeof *kinds);
  if (kinds == NULL) {
    return 0;
  }
  memset(kinds, 0xa5, total * sizeof *kinds);
  uint32_t *ends = kinds + SIZERCOBALT_CELLS;
  uint32_t *pool = ends + SIZERCOBALT_CELLS;
  uint32_t *index = pool + SIZERCOBALT_POOL;
  uint32_t *scratch = index + INDEX;
  index[0] = random_word();
  sizercobalt_check(words, word_count, asked, mode, kinds, SIZERCOBALT_CELLS, ends, SIZERCOBALT_CELLS, pool, SIZERCOBALT_POOL, index, INDEX, scratch, SCRATCH,
                    answer, SIZERCOBALT_ANSWER);
  free(kinds);
  return 1;
}

static int fail(const char *message) {
  fprintf(stderr, "check_job: %s\n", message);
  return 1;
}

/* Checks with all entries and prints the answer. */
static int check_job(size_t length, size_t word_count, uint32_t asked, uint32_t mode) {
  uint32_t answer[SIZERCOBALT_ANSWER] = {random_word()}, other[SIZERCOBALT_ANSWER];
  sizercobalt_check_bytes_mode(bytes, length, asked, mode, answer, SIZERCOBALT_ANSWER);
  if (!check_lent(word_count, asked, mode, other)) {
    return fail("no memory");
  }
  int agree = memcmp(answer, other, sizeof answer) == 0;
  if (mode == SIZERCOBALT_PLAIN) {
    other[0] = random_word();
    sizercobalt_check_bytes(bytes, length, asked, other, SIZERCOBALT_ANSWER);
    agree = agree && memcmp(answer, other, sizeof answer) == 0;
  }
  if (!agree) {
    return fail("the entries disagree");
  }
  for (size_t i = 0; i < SIZERCOBALT_ANSWER; i++) {
    printf("%lu%c", (unsigned long)answer[i], i + 1 < SIZERCOBALT_ANSWER ? ' ' : '\n');
  }
  return 0;
}

int main(int count, char **arguments) {
  size_t length;
  if (count < 2 || count > 4) {
    return fail("check_job FILE [ASKED [MODE]]");
  }
  if (!read_job(arguments[1], &length)) {
    return fail("the file cannot be read");
  }
  size_t word_count = words_of_bytes(length);
  uint32_t asked = last_proof(word_count), mode = SIZERCOBALT_PLAIN;
  if (!read_number(count > 2 ? arguments[2] : NULL, &asked)) {
    return fail("the asked proof is no number");
  }
  if (!read_number(count > 3 ? arguments[3] : NULL, &mode)) {
    return fail("the mode is no number");
  }
  return check_job(length, word_count, asked, mode);
}
