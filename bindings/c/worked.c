/* The worked example for a user of the package, in C and in C++ alike: reads a job, fractures its outlines by its rule, and
 * prints what the job program prints.
 *   cc worked.c $(pkg-config --cflags --libs pinarewhemi) -o worked */
#include <pinarewhemi.h>
#include <stdio.h>

static const uint8_t job[] = {0x19, 0x28, 0x01, 0x06, 0x00, 0x00, 0x64, 0x00, 0x64, 0x14, 0x3C, 0x14, 0x3C, 0x50, 0x00, 0x50};

static uint32_t table[PW_TABLE_ENTRIES];
static uint16_t list[PW_LIST_NUMBERS];

int main(void) {
  uint32_t threshold, weight, outlines;
  size_t offset;
  uint32_t refusal = pw_job_check(job, sizeof job, &threshold, &weight, &outlines, &offset);
  if (refusal) {
    printf("job refused %u at %zu\n", (unsigned)refusal, offset);
    return 1;
  }
  printf("job %u\n", (unsigned)outlines);
  for (size_t k = 0; k < outlines; k++) {
    size_t start, length;
    uint16_t corners[PW_CORNER_NUMBERS], rings[PW_RING_LENGTHS];
    uint32_t corner_count, ring_count, shots, cost, sliver, cuts;
    /* a job that was checked has its outlines */
    if (pw_job_outline(job, sizeof job, k, &start, &length, &offset)) return 2;
    if (pw_unpack(job + start, length, corners, PW_CORNER_NUMBERS, rings, PW_RING_LENGTHS, &corner_count, &ring_count, &offset))
      return 2;
    refusal = pw_fracture(corners, 2 * corner_count, rings, ring_count, threshold, weight, table, PW_TABLE_ENTRIES, list,
                          PW_LIST_NUMBERS, &shots, &cost, &sliver, &cuts);
    if (refusal) {
      printf("outline %zu refused %u\n", k, (unsigned)refusal);
      continue;
    }
    printf("outline %zu shots %u cost %u sliver %u\n", k, (unsigned)shots, (unsigned)cost, (unsigned)sliver);
    for (uint32_t i = 0; i < shots; i++)
      printf("%u %u %u %u\n", list[4 * i], list[4 * i + 1], list[4 * i + 2], list[4 * i + 3]);
  }
  return 0;
}
