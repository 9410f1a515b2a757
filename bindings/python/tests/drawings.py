"""The worked drawings of docs/SCOPE.md and docs/JOB.md, and more."""

L = [[(0, 0), (100, 0), (100, 20), (60, 20), (60, 80), (0, 80)]]
B = [[(0, 0), (200, 0), (200, 50), (210, 50), (210, 150), (200, 150), (200, 200), (0, 200)]]
FRAME = [[(0, 0), (100, 0), (100, 100), (0, 100)], [(30, 30), (70, 30), (70, 70), (30, 70)]]
SLANTED = [(0, 0), (10, 0), (10, 10), (5, 5)]
UNTURNED = [(0, 0), (10, 0), (20, 0), (20, 10), (0, 10)]
UNIT = [(0, 0), (1, 0), (1, 1), (0, 1)]
# two squares that touch in a corner, drawn as one ring
CORNERED = [[(0, 0), (10, 0), (10, 20), (20, 20), (20, 10), (0, 10)]]
W2 = [[(100, 60), (40, 60), (40, 0), (110, 0), (110, 80), (100, 80), (100, 20), (70, 20), (70, 60), (10, 60), (10, 100), (100, 100)]]
W1 = [[(120 - x, y) for x, y in W2[0]]]
JOGS = [
    [(0, 20), (620, 20), (620, 0), (920, 0), (920, 620), (940, 620), (940, 920), (320, 920), (320, 940), (20, 940), (20, 320), (0, 320)],
    [(320, 320), (620, 320), (620, 620), (320, 620)],
]

L_SHOTS = [(0, 0, 60, 80), (60, 0, 100, 20)]
B_SHOTS = [(0, 0, 200, 50), (0, 50, 210, 150), (0, 150, 200, 200)]
FRAME_SHOTS = [(0, 0, 30, 100), (30, 0, 70, 30), (30, 70, 70, 100), (70, 0, 100, 100)]

# what the job of L, the frame and the unit square is made of
L_PART = bytes.fromhex("06000064006414 3C143C500050")
FRAME_PART = bytes.fromhex("000204000064006464006404 1E1E461E46461E46")
UNIT_PART = bytes.fromhex("040000010001010001")
THREE = bytes.fromhex("192803") + L_PART + FRAME_PART + UNIT_PART


def box(x_low, y_low, x_high, y_high):
    """A rectangle as a ring."""
    return [(x_low, y_low), (x_high, y_low), (x_high, y_high), (x_low, y_high)]


def stairs():
    """Stairs of 16 by 16 lines."""
    ring = [(0, 0), (150, 0)]
    for step in range(15):
        ring += [(150 - 10 * step, 10 + 10 * step), (140 - 10 * step, 10 + 10 * step)]
    return [ring[:-1] + [(0, 150)]] if ring[-1] != (0, 150) else [ring]
