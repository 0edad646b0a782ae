/* Sizercobalt: egglog's proof checker, proved. Link with libhost.a (README.md, "Calling it").

   A job, its numbers and the eight words of an answer are document 01's (README.md has them as tables). Every pointer is to as many elements as the length behind
   it says, or anything where that is 0. No two arrays of a call overlap, and nothing else writes to them until it returns. There are 8 MiB of
   stack (README.md has what was measured). That is all a caller owes: whatever the arrays hold and however long
   they are, the call returns with a number and writes to nothing but what is said here. */

#ifndef SIZERCOBALT_H
#define SIZERCOBALT_H

#include <stddef.h>
#include <stdint.h>

#ifdef __cplusplus
extern "C" {
#endif

/* The number of words of an answer. */
#define SIZERCOBALT_ANSWER 8

/* The modes. Plain is egglog's check: a rule's fact that is a bare call of a primitive whose output is a container passes unevaluated. Strict evaluates it under the
   bindings of that moment, as a side of an equality: it passes where it has a value, any value, else the number is 45, 46, 51 or 53; it binds nothing. Another mode
   returns 11, which is looked for right after 3: the order is 1, 2, 3, 11, 5, 6, 7, 8, 9, 10, 12. An answer of another length than eight is 10 before them all. */
#define SIZERCOBALT_PLAIN 0
#define SIZERCOBALT_STRICT 1

/* Terms are looked up by an index. Its mix takes a word that the caller may choose, so that nobody who writes a job can aim its terms at one slot of it: a caller
   that takes jobs from strangers puts a random word there for each call. Numbers, answers and stores do not depend on that word, the time does.
   - sizercobalt_check_bytes and sizercobalt_check_bytes_mode take it from answer[0] as it was lent, before they write it;
   - sizercobalt_check takes it from index[0] as it was lent. */

/* The store that sizercobalt_check_bytes and sizercobalt_check_bytes_mode have of their own, and the longest job that they take. */
#define SIZERCOBALT_CELLS 4096
#define SIZERCOBALT_POOL 16384
#define SIZERCOBALT_BYTES 65536

/* Checks proof `asked` of a job given as bytes, in mode SIZERCOBALT_PLAIN, with a store of its own, and returns the number: 0 accepted. `answer` is eight words; another
   length returns 10 and leaves it as it is. */
uint32_t sizercobalt_check_bytes(const uint8_t *job, size_t job_length, uint32_t asked, uint32_t *answer, size_t answer_length);

/* The same in the given mode. */
uint32_t sizercobalt_check_bytes_mode(const uint8_t *job, size_t job_length, uint32_t asked, uint32_t mode, uint32_t *answer, size_t answer_length);

/* The largest store that can be lent: C and W. */
#define SIZERCOBALT_MOST_CELLS 65536
#define SIZERCOBALT_MOST_POOL 1048576

/* Checks proof `asked` of a job given as words in the given mode, with a lent store: `kinds` and `ends` of C words, `pool` of W words, `scratch` of at least
   2 * (C + J) words; other lengths return 10. `index` has at least 2 * C slots, one word each, and their count is a power of two; else it returns 12, which is looked for last.
   Returns the number: 0 accepted. `answer` is as above. On 0 and from 20 up the store holds the job's terms and those that the check added; below
   20 it is as it was. `index` and `scratch` are left with anything, and what they held before makes no difference to number, answer and store. */
uint32_t sizercobalt_check(const uint32_t *job, size_t job_length, uint32_t asked, uint32_t mode, uint32_t *kinds, size_t kinds_length, uint32_t *ends,
                           size_t ends_length, uint32_t *pool, size_t pool_length, uint32_t *index, size_t index_length, uint32_t *scratch,
                           size_t scratch_length, uint32_t *answer, size_t answer_length);

#ifdef __cplusplus
}
#endif

#endif
