"""When the answer is no: the numbers of enum pw_refusal, a text for each, and the exception."""

import enum


class Refusal(enum.IntEnum):
    """The number of a refusal, by the header's name."""

    RULE = 1
    LENGTH = 2
    SLANTED = 3
    STRAIGHT = 4
    EMPTY = 5
    TABLE_SHORT = 6
    LIST_SHORT = 7
    BYTES_END = 8
    NOT_SHORTEST = 9
    OUT_OF_RANGE = 10
    BYTES_LEFT = 11
    JOB_LONG = 12
    NO_OUTLINE = 13
    BUFFER_SHORT = 14
    NO_PRESET = 15
    RECORD = 16
    NOT_CLOSED = 17
    EXTENT = 18
    LARGEST = 19
    JOB_FULL = 20
    SHOT_LIST = 21
    TEXT = 22
    NO_EDGE = 23


TEXTS = {
    Refusal.RULE: "threshold or weight above 1000",
    Refusal.LENGTH: "not 1 to 8 rings of 4 to 32 corners each, 32 in all",
    Refusal.SLANTED: "an edge changes both coordinates",
    Refusal.STRAIGHT: "an edge changes neither coordinate, or two neighbours change the same one",
    Refusal.EMPTY: "nothing is inside",
    Refusal.TABLE_SHORT: "the cost table has fewer entries than there are pieces",
    Refusal.LIST_SHORT: "the shot list holds fewer than 4 numbers a shot",
    Refusal.BYTES_END: "the bytes end within a number or a record, or before one",
    Refusal.NOT_SHORTEST: "a number's last byte is 0 and not its only one",
    Refusal.OUT_OF_RANGE: "a number has over three bytes, or is outside its range",
    Refusal.BYTES_LEFT: "bytes follow the last outline",
    Refusal.JOB_LONG: "the job is over 4096 bytes",
    Refusal.NO_OUTLINE: "there is no outline of that number",
    Refusal.BUFFER_SHORT: "a buffer is too short for what would be written",
    Refusal.NO_PRESET: "there is no preset of that number",
    Refusal.RECORD: "a record out of order, of another data type or of wrong length, or bytes after ENDEL",
    Refusal.NOT_CLOSED: "the last point is unlike the first",
    Refusal.EXTENT: "the extent is above 65535",
    Refusal.LARGEST: "the largest side is below 200, below twice the threshold, or above 65535",
    Refusal.JOB_FULL: "the job has 255 outlines already",
    Refusal.SHOT_LIST: "not four numbers a shot, or a shot without area",
    Refusal.TEXT: "not a CIF text of our form, or a shot in it that is none",
    Refusal.NO_EDGE: "there is no edge of that number",
}

# Beside these the offset says where: the byte, the record or the line at fault.
_PLACED = (
    Refusal.BYTES_END,
    Refusal.NOT_SHORTEST,
    Refusal.OUT_OF_RANGE,
    Refusal.BYTES_LEFT,
    Refusal.TEXT,
)


class Refused(Exception):
    """A call answered no.

    number  the refusal's number, 1 to 23; compare it with Refusal
    text    what it means, in a line
    offset  where in the bytes handed over: the byte at fault, or where the record or line at fault begins; None
            where the call or the refusal tells no place
    shots   beside Refusal.LIST_SHORT the shots that there are, else 0
    call    the name of the call in C
    """

    def __init__(self, number, call="", offset=None, shots=0):
        self.number = number
        self.text = TEXTS.get(number, "a refusal that this module does not know")
        self.offset = offset if number in _PLACED else None
        self.shots = shots
        self.call = call
        place = "" if self.offset is None else f" at {self.offset}"
        super().__init__(f"refused {int(number)}{place}: {self.text}")

    def __reduce__(self):
        return (Refused, (self.number, self.call, self.offset, self.shots))
