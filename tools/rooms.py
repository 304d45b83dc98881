"""How long the slices that `replay` takes may be."""

# Any slice; those of u16 that lie in shorter arrays; a list of block records.
ROOM = 70000
HELD_ROOM = 16384
RECORDS_ROOM = 4096
