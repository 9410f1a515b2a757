/* Replays recorded calls against the archive that is linked: standard input holds calls of the C
 * interface with the outcomes that the scope gives them (compare --record writes it, and says
 * the layout). Each lent buffer is filled with a pattern, 16 elements before and beyond it too, and
 * a hash over all of it is compared. The last line counts what was replayed; the status is 0 if all
 * was the same. */
#include "../../include/pinarewhemi.h"
#include "plain.h"

enum { MARGIN = 16, MOST = 80000 };

static uint8_t bytes[MOST];
static uint16_t corners[MOST];
static uint16_t rings[MOST];

/* ---- standard input, a word of 32 bits at a time */

static uint32_t words[16384];
static size_t have, next_word;

static uint32_t word(void) {
  if (next_word == have) {
    size_t got = 0;
    while (got < sizeof words) {
      long n = read(0, (char *)words + got, sizeof words - got);
      if (n <= 0) break;
      got += (size_t)n;
    }
    have = got / 4;
    next_word = 0;
    if (have == 0) return 0;
  }
  return words[next_word++];
}

static size_t size(void) {
  uint32_t w = word();
  return w == 0xffffffffu ? (size_t)-1 : w;
}

static void read_bytes(size_t n) {
  for (size_t i = 0; i < n; i += 4) {
    uint32_t w = word();
    for (size_t j = 0; j < 4; j++) bytes[i + j] = (uint8_t)(w >> 8 * j);
  }
}

/* A drawing: its coordinates, and its ring lengths. */
static void read_drawing(size_t corners_len, size_t rings_len) {
  for (size_t i = 0; i < corners_len; i++) corners[i] = (uint16_t)word();
  for (size_t i = 0; i < rings_len; i++) rings[i] = (uint16_t)word();
}

/* ---- lent buffers: bytes written, the cost table, the list of shots or corners, ring lengths, the runs of an edge */

static uint32_t pattern(uint32_t mark, size_t at) { return mark + (uint32_t)at * 2654435761u; }

static uint32_t mix(uint32_t hash, uint32_t word) { return (hash ^ word) * 16777619u; }

/* a number of the machine's size, as two words */
static uint32_t mix_wide(uint32_t hash, size_t number) {
  return mix(mix(hash, (uint32_t)number), (uint32_t)((uint64_t)number >> 32));
}

#define FIRST_HASH 2166136261u

#define ROOM(name, type, bits, mix_one)                                        \
  static type room_of_##name[MOST];                                            \
  static type *lend_##name(size_t length, uint32_t mark) {                     \
    for (size_t i = 0; i < length + 2 * MARGIN; i++)                           \
      room_of_##name[i] = (type)(pattern(mark, i) >> (32 - bits));             \
    return room_of_##name + MARGIN;                                            \
  }                                                                            \
  static uint32_t hash_##name(size_t length) {                                 \
    uint32_t h = FIRST_HASH;                                                   \
    for (size_t i = 0; i < length + 2 * MARGIN; i++) h = mix_one(h, room_of_##name[i]); \
    return h;                                                                  \
  }
ROOM(out, uint8_t, 8, mix)
ROOM(table, uint32_t, 32, mix)
ROOM(list, uint16_t, 16, mix)
ROOM(lengths, uint16_t, 16, mix)
ROOM(runs, size_t, 32, mix_wide)

/* a table of pairs, its entries field by field */
static struct pw_joined room_of_pairs[MOST];

static struct pw_joined *lend_pairs(size_t length, uint32_t mark) {
  for (size_t i = 0; i < length + 2 * MARGIN; i++) {
    uint32_t x = pattern(mark, i);
    struct pw_joined entry = {(uint16_t)x, (uint16_t)(x >> 16), (uint16_t)~x, (uint16_t)~(x >> 16), x};
    room_of_pairs[i] = entry;
  }
  return room_of_pairs + MARGIN;
}

static uint32_t hash_pairs(size_t length) {
  uint32_t h = FIRST_HASH;
  for (size_t i = 0; i < length + 2 * MARGIN; i++) {
    const struct pw_joined *e = &room_of_pairs[i];
    h = mix(mix(mix(mix(h, e->x_low), e->y_low), e->x_high), e->y_high);
    h = mix_wide(h, e->partner);
  }
  return h;
}

/* ---- comparison */

static uint64_t replayed, wrong;

static void expect(const char *what, uint64_t told) {
  uint32_t low = word(), high = word();
  uint64_t right = (uint64_t)high << 32 | low;
  if (told == right) return;
  if (wrong++ < 10) {
    say("call ");
    say_number(replayed);
    say(": ");
    say(what);
    say(" ");
    say_number(told);
    say(" and not ");
    say_number(right);
    say("\n");
  }
}

/* What a fracture tells. */
struct fractured {
  uint32_t shots, cost, sliver, cuts;
};

static const struct fractured UNTOLD = {77, 77, 77, 77};

static void expect_fractured(const struct fractured *told) {
  expect("shots", told->shots);
  expect("cost", told->cost);
  expect("sliver", told->sliver);
  expect("cuts", told->cuts);
}

/* What a fracture leaves in the table and the list. */
static void expect_left(size_t table_len, size_t list_len) {
  expect("table", hash_table(table_len));
  expect("list", hash_list(list_len));
}

/* By a rule that is named, by the default rule, or by pinwheels; by a rule and by pinwheels with a largest side. */
enum manner { NAMED, DEFAULT, PINWHEEL, DIVIDED, PINWHEEL_DIVIDED };

static void fracture(enum manner manner) {
  uint32_t threshold = manner == DEFAULT ? 0 : word(), weight = manner == DEFAULT ? 0 : word();
  uint32_t largest = manner == DIVIDED || manner == PINWHEEL_DIVIDED ? word() : 0;
  size_t corners_len = size(), rings_len = size(), table_len = size(), list_len = size();
  uint32_t mark = word(), number = 77;
  read_drawing(corners_len, rings_len);
  struct fractured t = UNTOLD;
  uint32_t *table = lend_table(table_len, mark);
  uint16_t *list = lend_list(list_len, mark);
  switch (manner) {
  case NAMED:
    number = pw_fracture(corners, corners_len, rings, rings_len, threshold, weight,
                         table, table_len, list, list_len, &t.shots, &t.cost, &t.sliver, &t.cuts);
    break;
  case DEFAULT:
    number = pw_fracture_default(corners, corners_len, rings, rings_len,
                                 table, table_len, list, list_len, &t.shots, &t.cost, &t.sliver, &t.cuts);
    break;
  case PINWHEEL:
    number = pw_fracture_pinwheel(corners, corners_len, rings, rings_len, threshold, weight,
                                  table, table_len, list, list_len, &t.shots, &t.cost, &t.sliver, &t.cuts);
    break;
  case DIVIDED:
    number = pw_fracture_divided(corners, corners_len, rings, rings_len, threshold, weight, largest,
                                 table, table_len, list, list_len, &t.shots, &t.cost, &t.sliver, &t.cuts);
    break;
  case PINWHEEL_DIVIDED:
    number = pw_fracture_pinwheel_divided(corners, corners_len, rings, rings_len, threshold, weight, largest,
                                          table, table_len, list, list_len, &t.shots, &t.cost, &t.sliver, &t.cuts);
    break;
  }
  expect("fracture", number);
  expect_fractured(&t);
  expect_left(table_len, list_len);
}

static void cuts_ahead(void) {
  size_t corners_len = size(), rings_len = size();
  uint32_t cuts = 77;
  read_drawing(corners_len, rings_len);
  expect("cuts ahead", pw_cuts(corners, corners_len, rings, rings_len, &cuts));
  expect("cuts", cuts);
}

static void preset(void) {
  uint32_t threshold = 77, weight = 77;
  expect("preset", pw_preset(word(), &threshold, &weight));
  expect("threshold", threshold);
  expect("weight", weight);
}

static void number(void) {
  size_t len = size(), at = size(), next = 77, offset = 77;
  uint32_t value = 77;
  read_bytes(len);
  expect("number", pw_number(bytes, len, at, &value, &next, &offset));
  expect("value", value);
  expect("next", next);
  expect("offset", offset);
}

static void job_check(void) {
  size_t len = size(), offset = 77;
  uint32_t threshold = 77, weight = 77, outlines = 777;
  read_bytes(len);
  expect("job check", pw_job_check(bytes, len, &threshold, &weight, &outlines, &offset));
  expect("threshold", threshold);
  expect("weight", weight);
  expect("outlines", outlines);
  expect("offset", offset);
}

static void job_outline(void) {
  size_t len = size(), k = size(), start = 77, length = 77, offset = 77;
  read_bytes(len);
  expect("job outline", pw_job_outline(bytes, len, k, &start, &length, &offset));
  expect("start", start);
  expect("length", length);
  expect("offset", offset);
}

static void unpack(void) {
  size_t len = size(), list_len = size(), lengths_len = size(), offset = 77;
  uint32_t count = 77, ring_count = 77, mark = word();
  read_bytes(len);
  expect("unpack", pw_unpack(bytes, len, lend_list(list_len, mark), list_len, lend_lengths(lengths_len, mark),
                             lengths_len, &count, &ring_count, &offset));
  expect("corners", count);
  expect("ring count", ring_count);
  expect("offset", offset);
  expect("list", hash_list(list_len));
  expect("ring lengths", hash_lengths(lengths_len));
}

static void write_header(void) {
  uint32_t threshold = word(), weight = word(), outlines = word();
  size_t out_len = size(), written = 77;
  uint32_t mark = word();
  expect("write header", pw_write_header(threshold, weight, outlines, lend_out(out_len, mark), out_len, &written));
  expect("written", written);
  expect("out", hash_out(out_len));
}

static void write_outline(void) {
  size_t corners_len = size(), rings_len = size(), out_len = size(), written = 77;
  uint32_t mark = word();
  read_drawing(corners_len, rings_len);
  expect("write outline", pw_write_outline(corners, corners_len, rings, rings_len, lend_out(out_len, mark), out_len,
                                           &written));
  expect("written", written);
  expect("out", hash_out(out_len));
}

/* A shift has its sign in the record: 32 bits of it are spread over 64. */
static void expect_shift(const char *what, int32_t told) {
  expect(what, (uint64_t)(int64_t)told);
}

static void edge_runs(void) {
  size_t corners_len = size(), rings_len = size(), edge = size(), shots_len = size(), runs_len = size(), count = 77;
  uint32_t mark = word();
  read_drawing(corners_len, rings_len);
  uint16_t *shots = room_of_list;
  for (size_t i = 0; i < shots_len; i++) shots[i] = (uint16_t)word();
  expect("edge", pw_edge(corners, corners_len, rings, rings_len, edge, shots, shots_len, lend_runs(runs_len, mark), runs_len,
                         &count));
  expect("runs", count);
  expect("runs written", hash_runs(runs_len));
}

static void read_boundary(void) {
  size_t len = size(), list_len = size(), offset = 77;
  uint32_t count = 77, mark = word();
  int32_t shift_x = 77, shift_y = 77;
  read_bytes(len);
  expect("read boundary", pw_gdsii_read(bytes, len, lend_list(list_len, mark), list_len, &count, &shift_x, &shift_y, &offset));
  expect("corners", count);
  expect_shift("shift in x", shift_x);
  expect_shift("shift in y", shift_y);
  expect("offset", offset);
  expect("list", hash_list(list_len));
}

static void fracture_boundary(void) {
  size_t len = size(), table_len = size(), list_len = size(), offset = 77;
  uint32_t mark = word();
  struct fractured t = UNTOLD;
  int32_t shift_x = 77, shift_y = 77;
  read_bytes(len);
  expect("fracture boundary", pw_gdsii_fracture(bytes, len, lend_table(table_len, mark), table_len, lend_list(list_len, mark),
                                                list_len, &t.shots, &t.cost, &t.sliver, &t.cuts, &shift_x, &shift_y, &offset));
  expect_fractured(&t);
  expect_shift("shift in x", shift_x);
  expect_shift("shift in y", shift_y);
  expect("offset", offset);
  expect_left(table_len, list_len);
}

static void join(void) {
  size_t list_len = size(), table_len = size(), flashes = 77;
  uint32_t mark = word();
  for (size_t i = 0; i < list_len; i++) corners[i] = (uint16_t)word();
  expect("join", pw_join(corners, list_len, lend_pairs(table_len, mark), table_len, &flashes));
  expect("flashes", flashes);
  expect("pairs", hash_pairs(table_len));
}

static void write_text(void) {
  size_t list_len = size(), out_len = size(), written = 77;
  uint32_t mark = word();
  for (size_t i = 0; i < list_len; i++) corners[i] = (uint16_t)word();
  expect("write CIF", pw_cif_write(corners, list_len, lend_out(out_len, mark), out_len, &written));
  expect("written", written);
  expect("out", hash_out(out_len));
}

static void read_text(void) {
  size_t len = size(), list_len = size(), shots = 77, offset = 77;
  uint32_t mark = word();
  read_bytes(len);
  expect("read CIF", pw_cif_read(bytes, len, lend_list(list_len, mark), list_len, &shots, &offset));
  expect("shots", shots);
  expect("offset", offset);
  expect("list", hash_list(list_len));
}

static void index_open(void) {
  size_t len = size(), index_len = size(), offset = 77;
  uint32_t outlines = 777, mark = word();
  read_bytes(len);
  expect("index open", pw_index_open(bytes, len, lend_lengths(index_len, mark), index_len, &outlines, &offset));
  expect("outlines", outlines);
  expect("offset", offset);
  expect("index", hash_lengths(index_len));
}

static void index_change(int append) {
  size_t len = size(), corners_len = 0, rings_len = 0, k = 0, written = 77, offset = 77;
  uint32_t outlines = 777;
  if (append) {
    corners_len = size();
    rings_len = size();
  } else {
    k = size();
  }
  size_t index_len = size(), out_len = size();
  uint32_t mark = word();
  read_bytes(len);
  if (append) read_drawing(corners_len, rings_len);
  uint16_t *index = lend_lengths(index_len, mark);
  uint8_t *out = lend_out(out_len, mark);
  if (append)
    expect("index append", pw_index_append(bytes, len, corners, corners_len, rings, rings_len, index, index_len, out,
                                           out_len, &written, &outlines, &offset));
  else
    expect("index remove", pw_index_remove(bytes, len, k, index, index_len, out, out_len, &written, &outlines, &offset));
  expect("written", written);
  expect("outlines", outlines);
  expect("offset", offset);
  expect("index", hash_lengths(index_len));
  expect("out", hash_out(out_len));
}

static void index_pick(void) {
  size_t len = size(), index_len = size(), count = size(), k = size(), start = 77, length = 77, offset = 77;
  read_bytes(len);
  for (size_t i = 0; i < index_len; i++) rings[i] = (uint16_t)word();
  expect("index pick", pw_index_pick(bytes, len, rings, index_len, count, k, &start, &length, &offset));
  expect("start", start);
  expect("length", length);
  expect("offset", offset);
}

static void salvage(void) {
  size_t len = size(), out_len = size(), written = 77, dropped = 77, offset = 77;
  uint32_t kept = 777, lost = 777, mark = word();
  read_bytes(len);
  expect("salvage", pw_salvage(bytes, len, lend_out(out_len, mark), out_len, &written, &kept, &lost, &dropped, &offset));
  expect("written", written);
  expect("kept", kept);
  expect("lost", lost);
  expect("dropped", dropped);
  expect("offset", offset);
  expect("out", hash_out(out_len));
}

int main(void) {
  int over = 0;
  while (!over) {
    switch (word()) {
    case 1: preset(); break;
    case 2: fracture(NAMED); break;
    case 3: fracture(DEFAULT); break;
    case 4: number(); break;
    case 5: job_check(); break;
    case 6: job_outline(); break;
    case 7: unpack(); break;
    case 8: write_header(); break;
    case 9: write_outline(); break;
    case 10: read_boundary(); break;
    case 11: fracture_boundary(); break;
    case 12: over = 1; break;
    case 30: join(); break;
    case 31: cuts_ahead(); break;
    case 23: edge_runs(); break;
    case 32: fracture(PINWHEEL); break;
    case 50: fracture(DIVIDED); break;
    case 51: fracture(PINWHEEL_DIVIDED); break;
    case 45: write_text(); break;
    case 46: read_text(); break;
    case 40: index_open(); break;
    case 41: index_change(1); break;
    case 42: index_change(0); break;
    case 43: index_pick(); break;
    case 44: salvage(); break;
    default:
      say("replay: the record is not whole\n");
      return 2;
    }
    if (!over) replayed++;
  }
  say("replayed ");
  say_number(replayed);
  say(" calls, ");
  say_number(wrong);
  say(" different answers\n");
  return wrong == 0 ? 0 : 1;
}
