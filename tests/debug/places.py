"""What tide.dbg says of each address and each number, worked out by hand from its source.

The lines are counted in tide.inf and ebb&flow.h; where each statement begins is seen in what `inform6 -v3 -a tide.inf` prints, behind 0x4ea,
where the code begins.
"""

# From one address to before the next: the place of each, or the routine alone, where no line is known. The address stands for {}.
PLACES = [
    (0x000, None),
    (0x4EA, "in {}: Main__"),
    (0x4F2, "in {}: Rock.describe"),  # its first bytes count its locals
    (0x4F5, "{}: tide.inf:20, Rock.describe"),
    (0x4FE, "{}: tide.inf:21, Rock.describe"),
    (0x50B, "{}: tide.inf:22, Rock.describe"),
    (0x50C, "in {}: Fall"),
    (0x511, "{}: ebb&flow.h:3, Fall"),
    (0x518, "{}: ebb&flow.h:4, Fall"),
    (0x51A, "{}: ebb&flow.h:3, Fall"),
    (0x51F, "{}: ebb&flow.h:5, Fall"),
    (0x522, "in {}: Rise"),
    (0x523, "{}: ebb&flow.h:9, Rise"),
    (0x525, "{}: ebb&flow.h:10, Rise"),
    (0x526, "in {}: Main"),
    (0x527, "{}: tide.inf:30, Main"),
    (0x533, "{}: tide.inf:31, Main"),
    (0x541, "{}: tide.inf:32, Main"),
    (0x546, "{}: tide.inf:33, Main"),
    (0x551, "{}: tide.inf:34, Main"),
    (0x552, "in {}: Symb__Tab"),
    (0x558, None),
    (0x20000, None),  # the bytes of the longest story of version 3
]

# The names of the source, behind which Inform has some of its own: of the global variables, by the number of the variable, and of the rest.
VARIABLES = {16: "place", 17: "score", 18: "moves", 19: "height"}
NAMES = {
    "object": {5: "Pool", 6: "Shore", 7: "Rock", 8: "Basin"},
    "attribute": {0: "wet"},
    "property": {4: "depth", 5: "describe"},
}
