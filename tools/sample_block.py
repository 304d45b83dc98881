"""The sample's part for the operations on one block: the limits, and bounds that are broken."""
from lines import Case
from refusals import constructor

BOUNDS_OF_BLOCKS = (
    (0, 1), (3, 7), (0, 4096), (4095, 4096), (0, 0), (5, 5), (5, 4), (0, 4097), (4096, 4096), (4096, 4097),
    (65535, 0), (0, 65535), (65535, 65535),
)
BLOCKS = (
    (0, 0, 1), (0, 1, 1), (2, 2, 7), (2, 4, 7), (2, 7, 7), (0, 0, 4096), (0, 4096, 4096), (4095, 4095, 4096),
    (0, 0, 0), (3, 3, 3), (3, 2, 5), (3, 6, 5), (5, 4, 3), (5, 5, 3), (0, 0, 4097), (4096, 4096, 4097),
    (0, 65535, 65535), (65535, 65535, 65535), (1, 65535, 2), (65535, 0, 0),
)


def of(operation):
    for chosen in BOUNDS_OF_BLOCKS if constructor in operation.tests else BLOCKS:
        yield Case(operation, dict(zip(operation.parameters, chosen)))
