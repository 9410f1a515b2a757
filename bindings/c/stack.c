/* The stack that calls take, measured: each runs on a thread whose stack was painted before, and what is no longer painted
 * behind it was used. Held to what the header says of it. The figures: a staircase of 16 by 16 lines, most pieces mixed;
 * one that winds, in which emission by pinwheels goes deeper; and a staircase of few lines, which other code fills. */
#include <pinarewhemi.h>
#include <pthread.h>
#include <stdio.h>
#include <string.h>
#include <sys/mman.h>

enum { ROOM = 1024 * 1024, PAINT = 0xA5, FRACTURE = 80 * 1000, PINWHEEL = 150 * 1000, ELSE = 8 * 1000 };

static uint32_t table[PW_TABLE_ENTRIES];
static uint16_t list[PW_DIVIDED_NUMBERS];
static uint16_t corners[2 * 32];
static size_t corners_len;
static const uint16_t *rings;
static size_t rings_len;
static uint32_t told[4];
static size_t offset;

static const uint16_t all[] = {32}, few[] = {8}, turned[] = {28, 4};
static const uint8_t l_job[] = {25, 40, 1, 6, 0, 0, 100, 0, 100, 20, 60, 20, 60, 80, 0, 80};

static void corner(unsigned x, unsigned y) {
  corners[corners_len++] = (uint16_t)x;
  corners[corners_len++] = (uint16_t)y;
}

/* a staircase of so many steps, which has one line more each way */
static void staircase(unsigned steps, const uint16_t *lengths) {
  corners_len = 0;
  corner(0, 0);
  corner(40 * steps, 0);
  for (unsigned k = 1; k <= steps; k++) {
    corner(40 * (steps + 1 - k), 30 * k);
    corner(40 * (steps - k), 30 * k);
  }
  rings = lengths;
  rings_len = 1;
}

/* a ring of many turns, and a window in it */
static void winding(void) {
  static const uint16_t places[] = {0,   0,   560, 0,   560, 420, 240, 420, 240, 360, 280, 360, 280, 300, 240, 300,
                                    240, 330, 200, 330, 200, 450, 120, 450, 120, 270, 160, 270, 160, 150, 320, 150,
                                    320, 210, 360, 210, 360, 120, 400, 120, 400, 180, 440, 180, 440, 390, 480, 390,
                                    480, 90,  80,  90,  80,  240, 0,   240, 40,  30,  40,  60,  520, 60,  520, 30};
  corners_len = 0;
  for (size_t k = 0; k < sizeof places / sizeof *places; k += 2) corner(places[k], places[k + 1]);
  rings = turned;
  rings_len = 2;
}

static void nothing(void) {}

static void straight(void) {
  pw_fracture(corners, corners_len, rings, rings_len, 25, 40, table, PW_TABLE_ENTRIES, list, PW_LIST_NUMBERS, &told[0],
              &told[1], &told[2], &told[3]);
}

static void by_default(void) {
  pw_fracture_default(corners, corners_len, rings, rings_len, table, PW_TABLE_ENTRIES, list, PW_LIST_NUMBERS, &told[0],
                      &told[1], &told[2], &told[3]);
}

static void divided(void) {
  pw_fracture_divided(corners, corners_len, rings, rings_len, 25, 40, 200, table, PW_TABLE_ENTRIES, list, PW_DIVIDED_NUMBERS,
                      &told[0], &told[1], &told[2], &told[3]);
}

static void pinwheel(void) {
  pw_fracture_pinwheel(corners, corners_len, rings, rings_len, 25, 40, table, PW_TABLE_ENTRIES, list, PW_LIST_NUMBERS, &told[0],
                       &told[1], &told[2], &told[3]);
}

static void pinwheel_divided(void) {
  pw_fracture_pinwheel_divided(corners, corners_len, rings, rings_len, 25, 40, 200, table, PW_TABLE_ENTRIES, list,
                               PW_DIVIDED_NUMBERS, &told[0], &told[1], &told[2], &told[3]);
}

static void cuts(void) { pw_cuts(corners, corners_len, rings, rings_len, &told[0]); }

static void check(void) { pw_job_check(l_job, sizeof l_job, &told[0], &told[1], &told[2], &offset); }

struct run {
  void (*call)(void);
};

static void *started(void *run) {
  ((struct run *)run)->call();
  return NULL;
}

/* how many bytes of the stack a thread used that made the call */
static size_t used(void (*call)(void)) {
  struct run run = {call};
  pthread_attr_t attributes;
  pthread_t thread;
  uint8_t *stack = mmap(NULL, ROOM, PROT_READ | PROT_WRITE, MAP_PRIVATE | MAP_ANONYMOUS, -1, 0);
  size_t free = 0;
  if (stack == MAP_FAILED) return 0;
  memset(stack, PAINT, ROOM);
  if (pthread_attr_init(&attributes) || pthread_attr_setstack(&attributes, stack, ROOM) ||
      pthread_create(&thread, &attributes, started, &run) || pthread_join(thread, NULL))
    return 0;
  while (free < ROOM && stack[free] == PAINT) free++;
  munmap(stack, ROOM);
  return ROOM - free;
}

static int failed;

static void hold(const char *name, void (*call)(void), size_t most) {
  size_t empty = used(nothing), took = used(call);
  size_t own = took > empty ? took - empty : 0;
  printf("bindings: stack: %s %zu bytes of %zu\n", name, own, most);
  if (!empty || !took || own > most) failed = 1;
}

int main(void) {
  staircase(15, all);
  hold("straight", straight, FRACTURE);
  hold("by default", by_default, FRACTURE);
  hold("divided", divided, FRACTURE);
  hold("by pinwheels", pinwheel, PINWHEEL);
  hold("by pinwheels, divided", pinwheel_divided, PINWHEEL);
  hold("cuts", cuts, ELSE);
  winding();
  hold("straight, winding", straight, FRACTURE);
  hold("by pinwheels, winding", pinwheel, PINWHEEL);
  hold("by pinwheels, divided, winding", pinwheel_divided, PINWHEEL);
  staircase(3, few);
  hold("straight, few rows", straight, FRACTURE);
  hold("by pinwheels, few rows", pinwheel, PINWHEEL);
  hold("a job checked", check, ELSE);
  return failed;
}
