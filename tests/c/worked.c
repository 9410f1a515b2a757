/* The worked examples through the C interface: drawing L of the scope, and a frame with a window.
 * Each job is read, its outlines are fractured by its rule, and what the job program prints is
 * printed. The status is 0 if every call answered 0 and every outline was written back to its bytes. */
#include "../../include/pinarewhemi.h"
#include "plain.h"

static uint32_t table[PW_TABLE_ENTRIES];
static uint16_t list[PW_LIST_NUMBERS];

static const uint8_t drawing_l[] = {0x19, 0x28, 0x01, 0x06, 0x00, 0x00, 0x64, 0x00,
                                    0x64, 0x14, 0x3C, 0x14, 0x3C, 0x50, 0x00, 0x50};
static const uint8_t framed[] = {0x19, 0x28, 0x01, 0x00, 0x02, 0x04, 0x00, 0x00, 0x64, 0x00, 0x64, 0x64,
                                 0x00, 0x64, 0x04, 0x1E, 0x1E, 0x46, 0x1E, 0x46, 0x46, 0x1E, 0x46};

static void print_shots(size_t k, uint32_t shots, uint32_t cost, uint32_t sliver) {
  say("outline ");
  say_number(k);
  say(" shots ");
  say_number(shots);
  say(" cost ");
  say_number(cost);
  say(" sliver ");
  say_number(sliver);
  say("\n");
  for (uint32_t i = 0; i < 4 * shots; i++) {
    say_number(list[i]);
    say(i % 4 == 3 ? "\n" : " ");
  }
}

static int run(const uint8_t *job, size_t len) {
  uint32_t threshold, weight, outlines;
  size_t offset;
  if (pw_job_check(job, len, &threshold, &weight, &outlines, &offset)) return 1;
  say("job ");
  say_number(outlines);
  say("\n");
  for (size_t k = 0; k < outlines; k++) {
    size_t start, length;
    uint16_t corners[PW_CORNER_NUMBERS], rings[PW_RING_LENGTHS];
    uint32_t count, ring_count, shots, cost, sliver, cuts, ahead;
    if (pw_job_outline(job, len, k, &start, &length, &offset)) return 2;
    if (pw_unpack(job + start, length, corners, PW_CORNER_NUMBERS, rings, PW_RING_LENGTHS, &count, &ring_count, &offset))
      return 3;
    if (pw_fracture(corners, 2 * (size_t)count, rings, ring_count, threshold, weight, table, PW_TABLE_ENTRIES,
                    list, PW_LIST_NUMBERS, &shots, &cost, &sliver, &cuts))
      return 4;
    print_shots(k, shots, cost, sliver);
    /* by preset 1, and with no rule named: the same; the cuts weighed are those of any rule */
    uint32_t threshold_one, weight_one;
    uint32_t shots_one, cost_one, sliver_one, cuts_one, shots_again, cost_again, sliver_again, cuts_again;
    if (pw_preset(1, &threshold_one, &weight_one) || threshold_one != 10 || weight_one != 100) return 5;
    if (pw_fracture(corners, 2 * (size_t)count, rings, ring_count, threshold_one, weight_one, table, PW_TABLE_ENTRIES,
                    list, PW_LIST_NUMBERS, &shots_one, &cost_one, &sliver_one, &cuts_one))
      return 6;
    if (pw_fracture_default(corners, 2 * (size_t)count, rings, ring_count, table, PW_TABLE_ENTRIES,
                            list, PW_LIST_NUMBERS, &shots_again, &cost_again, &sliver_again, &cuts_again))
      return 7;
    if (shots_again != shots_one || cost_again != cost_one || sliver_again != sliver_one || cuts_again != cuts_one) return 8;
    if (cuts_one != cuts) return 12;
    /* what is told ahead */
    if (pw_cuts(corners, 2 * (size_t)count, rings, ring_count, &ahead) || ahead != cuts || cuts > PW_CUTS_MOST) return 13;
    /* written anew, the outline is the part that it was read from */
    uint8_t part[PW_OUTLINE_BYTES];
    size_t written;
    if (pw_write_outline(corners, 2 * (size_t)count, rings, ring_count, part, PW_OUTLINE_BYTES, &written)) return 9;
    if (written != length) return 10;
    for (size_t i = 0; i < length; i++)
      if (part[i] != job[start + i]) return 11;
  }
  return 0;
}

int main(void) {
  int status = run(drawing_l, sizeof drawing_l);
  return status ? status : run(framed, sizeof framed);
}
