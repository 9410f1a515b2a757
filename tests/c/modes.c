/* Pinwheels and the largest shot through the C interface: the worked rows of Items 8 and 9. Of each drawing
 * its answer is printed, by straight cuts, by pinwheels, or by either with a largest side; tests/c/modes.out has what it
 * has to be, taken from the scope's rows. */
#include "../../include/pinarewhemi.h"
#include "plain.h"

static uint32_t table[PW_TABLE_ENTRIES];
static uint16_t list[PW_DIVIDED_NUMBERS];

struct drawing {
  const char *name;
  uint16_t corners[32];
  size_t corners_len;
  uint16_t rings[2];
  size_t rings_len;
};

static const struct drawing b = {"B", {0, 0, 200, 0, 200, 50, 210, 50, 210, 150, 200, 150, 200, 200, 0, 200}, 16, {8}, 1};
static const struct drawing bar = {"bar", {0, 0, 500, 0, 500, 20, 0, 20}, 8, {4}, 1};
static const struct drawing block = {"block", {5, 7, 407, 7, 407, 209, 5, 209}, 8, {4}, 1};
static const struct drawing whole = {"whole", {0, 0, 65535, 0, 65535, 65535, 0, 65535}, 8, {4}, 1};
static const struct drawing w2 = {
    "W2",
    {100, 60, 40, 60, 40, 0, 110, 0, 110, 80, 100, 80, 100, 20, 70, 20, 70, 60, 10, 60, 10, 100, 100, 100}, 24, {12}, 1};
static const struct drawing w1 = {
    "W1",
    {20, 60, 80, 60, 80, 0, 10, 0, 10, 80, 20, 80, 20, 20, 50, 20, 50, 60, 110, 60, 110, 100, 20, 100}, 24, {12}, 1};

static void field(const char *name, uint64_t value) {
  say(name);
  say_number(value);
}

/* largest 0: not divided */
static void fracture(const struct drawing *d, int pinwheels, uint32_t threshold, uint32_t weight, uint32_t largest, size_t numbers) {
  uint32_t shots, cost, sliver, cuts, number;
  if (largest)
    number = (pinwheels ? pw_fracture_pinwheel_divided : pw_fracture_divided)(
        d->corners, d->corners_len, d->rings, d->rings_len, threshold, weight, largest, table, PW_TABLE_ENTRIES, list, numbers,
        &shots, &cost, &sliver, &cuts);
  else
    number = (pinwheels ? pw_fracture_pinwheel : pw_fracture)(
        d->corners, d->corners_len, d->rings, d->rings_len, threshold, weight, table, PW_TABLE_ENTRIES, list, numbers, &shots,
        &cost, &sliver, &cuts);
  say(d->name);
  say(pinwheels ? " by pinwheels" : " by straight cuts");
  field(", rule ", threshold);
  field(" ", weight);
  if (largest) field(", largest ", largest);
  if (number) {
    field(": refused ", number);
    say(" (");
    say(pw_refusal_text(number));
    field("), shots ", shots);
    say("\n");
    return;
  }
  field(": shots ", shots);
  field(" cost ", cost);
  field(" sliver ", sliver);
  field(" cuts ", cuts);
  say("\n");
  for (uint32_t i = 0; i < 4 * shots && shots < 10; i++) {
    say_number(list[i]);
    say(i % 4 == 3 ? "\n" : " ");
  }
}

int main(void) {
  fracture(&w2, 0, 25, 40, 0, PW_LIST_NUMBERS);
  fracture(&w2, 1, 25, 40, 0, PW_LIST_NUMBERS);
  fracture(&w1, 0, 25, 40, 0, PW_LIST_NUMBERS);
  fracture(&w1, 1, 25, 40, 0, PW_LIST_NUMBERS);
  fracture(&w2, 1, 25, 0, 0, PW_LIST_NUMBERS);
  fracture(&w2, 1, 25, 40, 0, 15);
  fracture(&b, 0, 25, 40, 200, PW_DIVIDED_NUMBERS);
  fracture(&b, 0, 25, 40, 210, PW_DIVIDED_NUMBERS);
  fracture(&bar, 0, 25, 40, 200, PW_DIVIDED_NUMBERS);
  fracture(&bar, 0, 25, 40, 200, 11);
  fracture(&block, 1, 25, 40, 200, PW_DIVIDED_NUMBERS);
  fracture(&whole, 0, 25, 40, 200, PW_DIVIDED_NUMBERS);
  fracture(&block, 0, 25, 40, 199, PW_DIVIDED_NUMBERS);
  fracture(&block, 0, 101, 40, 201, PW_DIVIDED_NUMBERS);
  return 0;
}
