/* All entries with null pointers of length 0: prints the numbers that they return. */

#include <stdio.h>

#include "sizercobalt.h"

/* Job A of document 01. */
static const uint32_t job[] = {1, 0, 0, 0, 0, 0, 0, 0, 0, 0, 2, 8, 0, 0, 4, 3, 5, 8, 2, 7, 0, 0, 0, 0, 0, 0};
static const size_t job_length = sizeof job / sizeof *job;

static uint32_t check(const uint32_t *words, size_t length, uint32_t mode, uint32_t *answer, size_t answer_length) {
  return sizercobalt_check(words, length, 0, mode, NULL, 0, NULL, 0, NULL, 0, NULL, 0, NULL, 0, answer, answer_length);
}

int main(void) {
  uint32_t answer[SIZERCOBALT_ANSWER];
  uint32_t numbers[] = {
      sizercobalt_check_bytes(NULL, 0, 0, NULL, 0),
      sizercobalt_check_bytes(NULL, 0, 0, answer, SIZERCOBALT_ANSWER),
      sizercobalt_check_bytes_mode(NULL, 0, 0, SIZERCOBALT_STRICT, NULL, 0),
      sizercobalt_check_bytes_mode(NULL, 0, 0, SIZERCOBALT_STRICT, answer, SIZERCOBALT_ANSWER),
      sizercobalt_check_bytes_mode(NULL, 0, 0, 2, answer, SIZERCOBALT_ANSWER),
      check(NULL, 0, SIZERCOBALT_PLAIN, NULL, 0),
      check(NULL, 0, SIZERCOBALT_STRICT, answer, SIZERCOBALT_ANSWER),
      check(job, job_length, SIZERCOBALT_STRICT, NULL, 0),
      check(job, job_length, SIZERCOBALT_PLAIN, answer, SIZERCOBALT_ANSWER),
      check(job, job_length, 2, answer, SIZERCOBALT_ANSWER),
  };
  for (size_t i = 0; i < sizeof numbers / sizeof *numbers; i++) {
    printf("%lu ", (unsigned long)numbers[i]);
  }
  return 0;
}
