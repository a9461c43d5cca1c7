"""The limits of scripts, areas and media (docs/SPECIFICATION.md). Numbers are of bytes unless their
names say something else."""

MOST_SCRIPT_BYTES = 1_048_576
MOST_TASKS = MOST_UNITS = 64
MOST_DCBS = 65_535
MOST_EXTENTS = 16

MOST_AREA_BYTES = 8192
HIGHEST_ADDRESS = 0xFFFFFF

MOST_MEDIUM_BYTES = 16_777_216
MOST_TRACKS = 65_535
LEAST_TRACK_BYTES = 16
MOST_TRACK_BYTES = 65_535
MOST_KEY_BYTES = 255
MOST_DATA_BYTES = 65_535
LEAST_TAPE_BYTES = 4
MOST_IMAGE_TAPE_BYTES = 4_294_967_296
MOST_LINES = 100_000
MOST_PAGES = 10_000

# What R0 takes of a track, what the count area of a record takes, and what an item of a tape
# takes beside its bytes.
R0_BYTES = 16
COUNT_BYTES = 8
ITEM_BYTES = 4
