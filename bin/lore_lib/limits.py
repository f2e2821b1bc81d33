"""The limits of the language, each in one place: tools name them in messages and help."""

OBJECTS = 262144
NODES = 16384
START_NODES = 4096
CELLS = 16777216
LABELS = 4096
NAMES = 1024
EDGES = 1048576
ROWS = 100000
TEXT_BYTES = 4096
LABEL_BYTES = 255
LEVELS = 64
STATEMENT_BYTES = 67108864
WHOLE_LEAST = -2 ** 63
WHOLE_MOST = 2 ** 63 - 1
NEXT_MOST = 2 ** 32
DUMP_VERSION = 2
PLANS = ("auto", "top", "bottom", "guide")
RANGES = 8
ITEMS = 8
LEAVES = 64
WORD_LABELS = 16777216
OIDS = 4294967295
LOCALS = 4294967295
SAMPLE = 100000
SEEDS = 2147483647
PERSONS_LEAST = 20
PERSONS_MOST = 10000
SCRIPT_BYTES = 1073741824
MOMENTS = 65536
VIEWS = 64
FLAGS = ("false", "true")
RESERVED = frozenset("select from where and or not exists for all in like true false".split())

# Bounds of the tools themselves: what they read in all, of data and of replies, and what they write.
OUTPUT_VALUES = 1000000
INPUT_BYTES = 67108864
REPLY_BYTES = 268435456
OUTPUT_BYTES = 268435456
WHY_BYTES = 268435456
WIDTH = 96
