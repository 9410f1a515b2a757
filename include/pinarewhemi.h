/* Pinarewhemi: right-angled figures into rectangular shots for a variable shaped beam writer,
 * and the job bytes that carry them.
 *
 * A figure is handed over in two slices: the corners of its 1 to 8 rings, one ring after the other,
 * as x, y, x, y, .., and the ring lengths beside them, counted in corners (not in numbers): 4 to 32
 * each and 32 in all. The last corner of a ring joins its first. A cell is inside when the number of
 * vertical edges, of all rings, at or left of its low x whose span covers its y range is odd: a ring
 * within a ring is a window. A figure of one ring is an outline, and so is called, in a job and in the
 * names below, a figure of several.
 *
 * Every call returns 0 on success and otherwise the number of its refusal (enum pw_refusal below).
 * No call keeps anything between calls, allocates, or blocks; calls on separate memory may run at
 * the same time on several threads.
 *
 * Memory.
 *   - A slice is a pointer and a length, counted in elements of what it points to (not in bytes).
 *     The pointer is aligned for its element and not null, also where the length is 0; nothing is
 *     read or written through it beyond that length.
 *   - A pointer to a single number (threshold, shots, offset, ..) is not null. The call writes every
 *     one of these on every path, refusals included; what they held before does not matter.
 *   - What a call may write (a pointer without const) overlaps nothing else that is handed to the
 *     same call: not another such pointer, and not a const one. Two const ones may overlap.
 *   - What is read is not changed by anyone until the call returns.
 *   - A refusal leaves every lent slice as it came in, except that PW_LIST_SHORT leaves the cost
 *     table filled as on success. On success each lent slice is written from its front, and beyond
 *     that it is as it came in. Nothing that a slice held before influences any answer.
 *   - Beside a refusal every single number is 0, except: shots beside PW_LIST_SHORT is the number of
 *     shots that there are; offset beside PW_BYTES_END, PW_NOT_SHORTEST, PW_OUT_OF_RANGE and
 *     PW_BYTES_LEFT from a reading call is, in the bytes lent, the byte at fault: the length of the
 *     bytes lent (PW_BYTES_END), the zero byte (PW_NOT_SHORTEST), the last byte read
 *     (PW_OUT_OF_RANGE), the first byte too many (PW_BYTES_LEFT); offset beside PW_BYTES_END from
 *     pw_gdsii_read and pw_gdsii_fracture is where the record that is cut short starts; offset beside
 *     PW_TEXT is where the first line at fault starts, the length of the text where lines are lacking.
 *   - On success offset is 0.
 *   - A call takes stack and no other memory: up to 80 kB where it fractures, up to 150 kB where it
 *     fractures by pinwheels, a few kB else (measured: bindings/c/stack.c).
 *
 * All places are whole nanometres, 0 to 65535, but for those in a GDSII element, which are signed and of
 * 32 bits.
 */
#ifndef PINAREWHEMI_H
#define PINAREWHEMI_H

#include <stddef.h>
#include <stdint.h>

/* The version of this header: that of the file VERSION, and of the library that was built with it. */
#define PW_VERSION "0.1.0"

#ifdef __cplusplus
extern "C" {
#endif

/* When the answer is no. */
enum pw_refusal {
  PW_OK = 0,
  PW_RULE = 1,          /* threshold or weight above 1000 */
  PW_LENGTH = 2,        /* no ring or over 8, a ring under 4 corners or over 32, over 32 in all, or a list of
                           corners that is not 2 numbers for each */
  PW_SLANTED = 3,       /* an edge changes both coordinates */
  PW_STRAIGHT = 4,      /* an edge changes neither, or two neighbours change the same one */
  PW_EMPTY = 5,         /* no cell is inside */
  PW_TABLE_SHORT = 6,   /* cost table has fewer entries than there are pieces */
  PW_LIST_SHORT = 7,    /* shot list holds fewer than 4 x shots numbers */
  PW_BYTES_END = 8,     /* bytes end before a number does, or within an element */
  PW_NOT_SHORTEST = 9,  /* a number's last byte is 0 and not its only one */
  PW_OUT_OF_RANGE = 10, /* a third byte has its top bit set, or a value is outside its range */
  PW_BYTES_LEFT = 11,   /* bytes follow the last outline */
  PW_JOB_LONG = 12,     /* job over 4096 bytes */
  PW_NO_OUTLINE = 13,   /* outline k asked for, k not below the number of outlines */
  PW_BUFFER_SHORT = 14, /* buffer too short for what would be written */
  PW_NO_PRESET = 15,    /* preset number above 3 */
  PW_RECORD = 16,       /* a record out of order, of another data type or of wrong length, an XY without points, or
                           bytes after ENDEL */
  PW_NOT_CLOSED = 17,   /* last point unlike the first */
  PW_EXTENT = 18,       /* extent above 65535 */
  PW_LARGEST = 19,      /* largest side below 200, below twice the threshold, or above 65535 */
  PW_JOB_FULL = 20,     /* an outline appended to 255 */
  PW_SHOT_LIST = 21,    /* a shot list whose length is no multiple of four, or a shot whose high x or y is not
                           above its low one */
  PW_TEXT = 22,         /* text not of CIF's form as pw_cif_write writes it, or a shot in it that is empty, off the
                           whole nanometres or outside 0 to 65535 */
  PW_NO_EDGE = 23       /* edge asked for, not below the number of corners */
};

/* A short text for the number of a refusal: a static string, never null; for 0 and for a number that no call gives,
 * that it is none. */
static inline const char *pw_refusal_text(uint32_t number) {
  switch (number) {
  case PW_RULE: return "threshold or weight above 1000";
  case PW_LENGTH: return "not 1 to 8 rings of 4 to 32 corners each, 32 in all";
  case PW_SLANTED: return "an edge changes both coordinates";
  case PW_STRAIGHT: return "an edge changes neither coordinate, or two neighbours change the same one";
  case PW_EMPTY: return "nothing is inside";
  case PW_TABLE_SHORT: return "the cost table has fewer entries than there are pieces";
  case PW_LIST_SHORT: return "the shot list holds fewer than 4 numbers a shot";
  case PW_BYTES_END: return "the bytes end within a number or a record, or before one";
  case PW_NOT_SHORTEST: return "a number's last byte is 0 and not its only one";
  case PW_OUT_OF_RANGE: return "a number has over three bytes, or is outside its range";
  case PW_BYTES_LEFT: return "bytes follow the last outline";
  case PW_JOB_LONG: return "the job is over 4096 bytes";
  case PW_NO_OUTLINE: return "there is no outline of that number";
  case PW_BUFFER_SHORT: return "a buffer is too short for what would be written";
  case PW_NO_PRESET: return "there is no preset of that number";
  case PW_RECORD: return "a record out of order, of another data type or of wrong length, or bytes after ENDEL";
  case PW_NOT_CLOSED: return "the last point is unlike the first";
  case PW_EXTENT: return "the extent is above 65535";
  case PW_LARGEST: return "the largest side is below 200, below twice the threshold, or above 65535";
  case PW_JOB_FULL: return "the job has 255 outlines already";
  case PW_SHOT_LIST: return "not four numbers a shot, or a shot without area";
  case PW_TEXT: return "not a CIF text of our form, or a shot in it that is none";
  case PW_NO_EDGE: return "there is no edge of that number";
  default: return number == PW_OK ? "no refusal" : "not the number of a refusal";
  }
}

/* Room that is enough for every figure and every job. */
enum pw_room {
  PW_TABLE_ENTRIES = 14400,  /* 16 lines each way: 120 x 120 pieces */
  PW_LIST_NUMBERS = 900,     /* 225 shots of 4 numbers */
  PW_CORNER_NUMBERS = 64,    /* 32 corners of 2 numbers */
  PW_RING_LENGTHS = 8,       /* 8 rings */
  PW_HEADER_BYTES = 6,       /* threshold, weight and count of outlines */
  PW_OUTLINE_BYTES = 202,    /* 0, R, 8 times V, and 64 coordinates of 3 bytes */
  PW_INDEX_ENTRIES = 255,    /* 255 outlines */
  PW_JOB_BYTES = 4096,
  PW_CUTS_MOST = 134400,     /* 16 lines each way */
  PW_EDGE_NUMBERS = 60,      /* 15 runs of 4 numbers: enough for the list of any fracture without a largest side */
  PW_DIVIDED_NUMBERS = 467856, /* 116964 shots of 4 numbers: enough for every figure and every largest side */
  PW_CIF_BYTES = 6553        /* 28, and 29 for each of 225 shots: enough for the text of any fracture without a largest side */
};

/* The version of the library that is linked: the three numbers of PW_VERSION where it is the one that came with this header.
 * Refuses nothing. */
uint32_t pw_version(uint32_t *first, uint32_t *second, uint32_t *third);

/* The rule of a preset, 0 to 3. Refuses: PW_NO_PRESET. */
uint32_t pw_preset(uint32_t number, uint32_t *threshold, uint32_t *weight);

/* Fractures the figure of corners[0..corners_len) = x, y, x, y, .. and of the ring lengths
 * rings[0..rings_len) by the rule (threshold in nm, weight in thousandths of a shot per nm of sliver
 * length). Afterwards the front of table holds the cost of every piece, the front of list 4 numbers
 * for each shot (x low, y low, x high, y high); shots, cost (thousandths of a shot) and sliver (nm)
 * are their count and sums; cuts is how many cuts were weighed: over every piece with cells of both sorts,
 * the lines strictly between its ends, at most PW_CUTS_MOST.
 * Refuses: PW_RULE to PW_LIST_SHORT, the first that holds, each tried over all rings. */
uint32_t pw_fracture(const uint16_t *corners, size_t corners_len, const uint16_t *rings, size_t rings_len,
                     uint32_t threshold, uint32_t weight,
                     uint32_t *table, size_t table_len, uint16_t *list, size_t list_len,
                     uint32_t *shots, uint32_t *cost, uint32_t *sliver, uint32_t *cuts);

/* The same by the default rule, preset 1 (10 nm, 100). Refuses: PW_LENGTH to PW_LIST_SHORT. */
uint32_t pw_fracture_default(const uint16_t *corners, size_t corners_len, const uint16_t *rings, size_t rings_len,
                     uint32_t *table, size_t table_len, uint16_t *list, size_t list_len,
                     uint32_t *shots, uint32_t *cost, uint32_t *sliver, uint32_t *cuts);

/* How many cuts the fracture of the figure will weigh, by any rule: what pw_fracture then reports. No table is
 * needed. Refuses: PW_LENGTH to PW_EMPTY. */
uint32_t pw_cuts(const uint16_t *corners, size_t corners_len, const uint16_t *rings, size_t rings_len, uint32_t *cuts);

/* The same as pw_fracture, but a piece may also be cut in the manner of a pinwheel: four arms around an
 * inner piece, in either turn. Of cuts that cost the same a straight one is made. The cost, and every
 * entry of the table, is never above that of pw_fracture; cuts is the number that pw_fracture reports.
 * Refuses as pw_fracture; PW_LIST_SHORT by the shots of this mode. */
uint32_t pw_fracture_pinwheel(const uint16_t *corners, size_t corners_len, const uint16_t *rings, size_t rings_len,
                     uint32_t threshold, uint32_t weight,
                     uint32_t *table, size_t table_len, uint16_t *list, size_t list_len,
                     uint32_t *shots, uint32_t *cost, uint32_t *sliver, uint32_t *cuts);

/* The same as pw_fracture, and then each shot is divided for a writer that cannot expose beyond a side of
 * largest nm: a side that is longer into the fewest parts that fit, differing by at most 1 nm, longer ones
 * first; the parts of a shot stand in its place in the list, rows from the bottom, left to right in a row.
 * A dividing line is not exposed: sliver is what it is without largest, and so are cuts and the table,
 * whose entries are costs before division. shots counts the divided shots, and cost is 1000 x shots +
 * weight x sliver. There may be more than 65535 shots; PW_DIVIDED_NUMBERS are enough for every figure.
 * Refuses: PW_RULE, PW_LARGEST, then PW_LENGTH to PW_LIST_SHORT, the last by the divided shots. */
uint32_t pw_fracture_divided(const uint16_t *corners, size_t corners_len, const uint16_t *rings, size_t rings_len,
                     uint32_t threshold, uint32_t weight, uint32_t largest,
                     uint32_t *table, size_t table_len, uint16_t *list, size_t list_len,
                     uint32_t *shots, uint32_t *cost, uint32_t *sliver, uint32_t *cuts);

/* The same by pinwheels too: pw_fracture_pinwheel, and then each shot divided. */
uint32_t pw_fracture_pinwheel_divided(const uint16_t *corners, size_t corners_len, const uint16_t *rings, size_t rings_len,
                     uint32_t threshold, uint32_t weight, uint32_t largest,
                     uint32_t *table, size_t table_len, uint16_t *list, size_t list_len,
                     uint32_t *shots, uint32_t *cost, uint32_t *sliver, uint32_t *cuts);

/* Reads the number that starts at bytes[at]: its value, of any range, and the place behind it.
 * Any at is allowed; past the end is bytes that end, and the offset is the length all the same.
 * Refuses: PW_BYTES_END, PW_NOT_SHORTEST, PW_OUT_OF_RANGE (third byte), each with its offset. */
uint32_t pw_number(const uint8_t *bytes, size_t len, size_t at, uint32_t *value, size_t *next, size_t *offset);

/* Checks a whole job: its rule and the number of its outlines.
 * Refuses: PW_JOB_LONG, then PW_BYTES_END to PW_BYTES_LEFT with the offset. */
uint32_t pw_job_check(const uint8_t *job, size_t len, uint32_t *threshold, uint32_t *weight, uint32_t *outlines, size_t *offset);

/* Where outline k of a job lies: job[start .. start + length), from its V (the 0 that announces its
 * rings, where it has several) to its last coordinate. The whole job is checked first.
 * Refuses as pw_job_check, then PW_NO_OUTLINE. */
uint32_t pw_job_outline(const uint8_t *job, size_t len, size_t k, size_t *start, size_t *length, size_t *offset);

/* Unpacks such a part: its coordinates to the front of list, its ring lengths to the front of rings,
 * and the number of corners in all and of rings.
 * Refuses: PW_BYTES_END to PW_BYTES_LEFT with the offset in the part, then PW_BUFFER_SHORT where
 * either slice is too short; neither is written then. */
uint32_t pw_unpack(const uint8_t *part, size_t len, uint16_t *list, size_t list_len, uint16_t *rings, size_t rings_len,
                   uint32_t *corners, uint32_t *ring_count, size_t *offset);

/* Writes the header of a job. Refuses: PW_RULE, PW_OUT_OF_RANGE (outlines above 255),
 * PW_BUFFER_SHORT. */
uint32_t pw_write_header(uint32_t threshold, uint32_t weight, uint32_t outlines, uint8_t *out, size_t out_len, size_t *written);

/* Writes one outline of a job: V and its coordinates for one ring; for several a 0, their number,
 * and V and coordinates of each. Only the ring lengths and the length of the list of corners are
 * looked at. Refuses: PW_LENGTH, PW_BUFFER_SHORT. */
uint32_t pw_write_outline(const uint16_t *corners, size_t corners_len, const uint16_t *rings, size_t rings_len,
                          uint8_t *out, size_t out_len, size_t *written);

/* Reads one boundary element of a GDSII stream, from its BOUNDARY record to its ENDEL: BOUNDARY, ELFLAGS
 * and PLEX where they stand, LAYER, DATATYPE, XY, ENDEL, and nothing after it. The database unit is taken
 * as 1 nm. The lowest x and y are moved to 0: shift_x and shift_y plus a corner give back its point. The
 * corners x, y, x, y, .. stand at the front of list afterwards; corners is their number, without the
 * repeated first point.
 * Refuses: PW_BYTES_END (with the offset of the record cut short) and PW_RECORD, record by record, then
 * PW_NOT_CLOSED, PW_EXTENT, PW_LENGTH to PW_EMPTY, PW_BUFFER_SHORT. */
uint32_t pw_gdsii_read(const uint8_t *element, size_t len, uint16_t *list, size_t list_len,
                       uint32_t *corners, int32_t *shift_x, int32_t *shift_y, size_t *offset);

/* Reads such an element and fractures its ring by preset 0, whatever the default is. The shots in list are
 * moved as the corners are: shift_x and shift_y give back their places.
 * Refuses as pw_gdsii_read up to PW_EMPTY, then PW_TABLE_SHORT, PW_LIST_SHORT. */
uint32_t pw_gdsii_fracture(const uint8_t *element, size_t len, uint32_t *table, size_t table_len,
                           uint16_t *list, size_t list_len, uint32_t *shots, uint32_t *cost, uint32_t *sliver,
                           uint32_t *cuts, int32_t *shift_x, int32_t *shift_y, size_t *offset);

/* A shot with its partner's number in the list, or its own number where it has none. */
struct pw_joined {
  uint16_t x_low, y_low, x_high, y_high;
  size_t partner;
};

/* Joins the shots of a list (4 numbers each) in pairs, for a writer that exposes an L in one flash. Two shots
 * can be joined when a right side touches a left one, or a top a bottom, along a stretch and at least one end
 * of these sides coincides. In list order, each free shot takes the first later free one that it can join.
 * Afterwards the front of table holds the shots with their partners; flashes is shots less pairs. What lies
 * beyond the shots is not touched.
 * Refuses: PW_SHOT_LIST, then PW_BUFFER_SHORT where the table has fewer entries than there are shots. */
uint32_t pw_join(const uint16_t *list, size_t list_len, struct pw_joined *table, size_t table_len, size_t *flashes);

/* Which shots one edge ends up on. Edge number edge runs from corner number edge, counted over all rings,
 * to the next corner of its ring. shots[0..shots_len) is a shot list, as a fracture left it, or any other.
 * The front of runs holds 4 numbers for each run, from the edge's low end to its high end: from, to
 * (places along the edge), the number of the shot, from 1, or 0, and the side of the figure: 1 left,
 * 2 right, 3 bottom, 4 top, 0 no wall. A stretch of 1 nm is on the side that separates a unit square
 * inside from one that is not; it ends up on the first shot of the list that it lies on the same side of
 * as of the figure. count is the number of runs. For any list 60 + 2 x shots_len numbers are enough.
 * Refuses: PW_LENGTH to PW_EMPTY, PW_SHOT_LIST (an empty list passes), PW_NO_EDGE, PW_BUFFER_SHORT. */
uint32_t pw_edge(const uint16_t *corners, size_t corners_len, const uint16_t *rings, size_t rings_len, size_t edge,
                 const uint16_t *shots, size_t shots_len, size_t *runs, size_t runs_len, size_t *count);

/* Writes a shot list (4 numbers each) as a CIF 2.0 text, for the viewers: one symbol in half nanometres. Each on
 * a line of its own that ends in one line feed: `DS 1 1 20;`, `L NM;`, one `B length width x y;` a shot with
 * doubled sides (length along x) and doubled centre, `DF;`, `C 1;`, `E`. Afterwards the front of out holds the
 * text, with no 0 behind it; written is its length: 28 bytes and at most 29 for each shot. An empty list has a
 * text too. Refuses: PW_SHOT_LIST, then PW_BUFFER_SHORT. */
uint32_t pw_cif_write(const uint16_t *list, size_t list_len, uint8_t *out, size_t out_len, size_t *written);

/* Reads such a text back: 4 numbers for each shot at the front of list, shots is their count. Only the form that
 * pw_cif_write writes is read, so one list has one text; bytes after the last line are a fault too.
 * Refuses: PW_TEXT with the offset of the first line at fault, then PW_BUFFER_SHORT. */
uint32_t pw_cif_read(const uint8_t *text, size_t len, uint16_t *list, size_t list_len, size_t *shots, size_t *offset);

/* An index beside a job: the offset of each outline in the job's bytes, from the front of index on. Opening
 * reads the job, fills the index and gives the number of outlines; entries behind them are not touched.
 * Refuses as pw_job_check, then PW_BUFFER_SHORT where the index has fewer entries than there are outlines. */
uint32_t pw_index_open(const uint8_t *job, size_t len, uint16_t *index, size_t index_len, uint32_t *outlines, size_t *offset);

/* The job with the figure of corners and ring lengths as one outline more at its end: its bytes at the front
 * of out, how many they are, and the number of outlines; the index is written anew. What the index held is not
 * read. The job that is read and out do not overlap.
 * Refuses as pw_job_check; then PW_LENGTH; PW_JOB_FULL; PW_JOB_LONG where the new job would pass 4096 bytes;
 * PW_BUFFER_SHORT where out is shorter than the new job or the index than its outlines are many. */
uint32_t pw_index_append(const uint8_t *job, size_t len, const uint16_t *corners, size_t corners_len,
                         const uint16_t *rings, size_t rings_len, uint16_t *index, size_t index_len,
                         uint8_t *out, size_t out_len, size_t *written, uint32_t *outlines, size_t *offset);

/* The same without outline k. Refuses as pw_job_check, then PW_NO_OUTLINE, PW_BUFFER_SHORT. */
uint32_t pw_index_remove(const uint8_t *job, size_t len, size_t k, uint16_t *index, size_t index_len,
                         uint8_t *out, size_t out_len, size_t *written, uint32_t *outlines, size_t *offset);

/* Where the outline lies that entry k of an index points at, of an index of which count entries count:
 * job[start .. start + length). Nothing before it is read. By an index that pw_index_open, append or remove
 * left beside this job that is outline k. By any other it is what reading an outline at that offset finds.
 * Refuses: PW_JOB_LONG, PW_NO_OUTLINE where k reaches count or index_len, then PW_BYTES_END to PW_OUT_OF_RANGE
 * with the offset. */
uint32_t pw_index_pick(const uint8_t *job, size_t len, const uint16_t *index, size_t index_len, size_t count, size_t k,
                       size_t *start, size_t *length, size_t *offset);

/* Saves what is left of a job: the outlines before the first fault. The front of out holds a sound job of
 * them, with the same rule and the right number of outlines; written is how many bytes it has, kept how many
 * outlines, lost how many of those declared are not among them, dropped how many bytes of the job follow the
 * last one kept, or the header if none is. A sound job comes back byte for byte. out and the job do not
 * overlap; PW_JOB_BYTES are always enough.
 * Refuses: PW_JOB_LONG; PW_BYTES_END to PW_OUT_OF_RANGE of the header's three numbers, with the offset;
 * PW_BUFFER_SHORT. */
uint32_t pw_salvage(const uint8_t *job, size_t len, uint8_t *out, size_t out_len,
                    size_t *written, uint32_t *kept, uint32_t *lost, size_t *dropped, size_t *offset);

#ifdef __cplusplus
}
#endif

#endif
