"""The calls of include/pinarewhemi.h, a line for each: what they take and what they tell.

A parameter is a name and a kind:

    u32, size           a number, by value
    *u8, *u16           a list to read: a pointer and its length
    +u8, +u16, ..       a buffer that the call may write: a pointer and its length
    >u32, >size, ..     a single number that the call writes

tests/test_header.py holds the lines to the header. A library may lack calls that came later than it was built; what
it lacks, the module lacks.
"""

FIGURE = "corners:*u16 rings:*u16"
ROOM = "table:+u32 list:+u16"
TALLY = "shots:>u32 cost:>u32 sliver:>u32 cuts:>u32"
SHIFT = "shift_x:>i32 shift_y:>i32"

CALLS = {
    "pw_version": "first:>u32 second:>u32 third:>u32",
    "pw_preset": "number:u32 threshold:>u32 weight:>u32",
    "pw_fracture": f"{FIGURE} threshold:u32 weight:u32 {ROOM} {TALLY}",
    "pw_fracture_default": f"{FIGURE} {ROOM} {TALLY}",
    "pw_fracture_pinwheel": f"{FIGURE} threshold:u32 weight:u32 {ROOM} {TALLY}",
    "pw_fracture_divided": f"{FIGURE} threshold:u32 weight:u32 largest:u32 {ROOM} {TALLY}",
    "pw_fracture_pinwheel_divided": f"{FIGURE} threshold:u32 weight:u32 largest:u32 {ROOM} {TALLY}",
    "pw_cuts": f"{FIGURE} cuts:>u32",
    "pw_number": "bytes:*u8 at:size value:>u32 next:>size offset:>size",
    "pw_job_check": "job:*u8 threshold:>u32 weight:>u32 outlines:>u32 offset:>size",
    "pw_job_outline": "job:*u8 k:size start:>size length:>size offset:>size",
    "pw_unpack": "part:*u8 list:+u16 rings:+u16 corners:>u32 ring_count:>u32 offset:>size",
    "pw_write_header": "threshold:u32 weight:u32 outlines:u32 out:+u8 written:>size",
    "pw_write_outline": f"{FIGURE} out:+u8 written:>size",
    "pw_gdsii_read": f"element:*u8 list:+u16 corners:>u32 {SHIFT} offset:>size",
    "pw_gdsii_fracture": f"element:*u8 {ROOM} {TALLY} {SHIFT} offset:>size",
    "pw_join": "list:*u16 table:+joined flashes:>size",
    "pw_edge": f"{FIGURE} edge:size shots:*u16 runs:+size count:>size",
    "pw_index_open": "job:*u8 index:+u16 outlines:>u32 offset:>size",
    "pw_index_append": f"job:*u8 {FIGURE} index:+u16 out:+u8 written:>size outlines:>u32 offset:>size",
    "pw_index_remove": "job:*u8 k:size index:+u16 out:+u8 written:>size outlines:>u32 offset:>size",
    "pw_index_pick": "job:*u8 index:*u16 count:size k:size start:>size length:>size offset:>size",
    "pw_salvage": "job:*u8 out:+u8 written:>size kept:>u32 lost:>u32 dropped:>size offset:>size",
    "pw_cif_write": "list:*u16 out:+u8 written:>size",
    "pw_cif_read": "text:*u8 list:+u16 shots:>size offset:>size",
}

# Room that is enough for every figure and every job (enum pw_room).
ROOMS = {
    "PW_TABLE_ENTRIES": 14400,
    "PW_LIST_NUMBERS": 900,
    "PW_DIVIDED_NUMBERS": 467856,
    "PW_CORNER_NUMBERS": 64,
    "PW_RING_LENGTHS": 8,
    "PW_HEADER_BYTES": 6,
    "PW_OUTLINE_BYTES": 202,
    "PW_JOB_BYTES": 4096,
    "PW_CUTS_MOST": 134400,
    "PW_EDGE_NUMBERS": 60,
    "PW_INDEX_ENTRIES": 255,
    "PW_CIF_BYTES": 6553,
}
