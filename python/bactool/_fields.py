# SPDX-License-Identifier: Apache-2.0 OR MIT
"""The names of fields, as include/bactool.h has them, put together by what becomes of them in a dict. The library says
the word of each; docs/FORMATS.md, section 8.4, has them all. A name that is in no set here has a number only."""

NETWORK_PRIORITY, REPLY_EXPECTED, DESTINATION, HOP_COUNT, SOURCE = range(1, 6)
SEGMENTED_ACCEPTED, MAX_SEGMENTS, MAX_RESPONSE = 21, 22, 23
NETWORKS, LISTED_NETWORK = 42, 43
OBJECT, DEVICE = 80, 85
LIST_END, ITEM, ITEM_END, VALUE, VALUE_END, PROPERTY_ERROR, PROPERTY_ERROR_END, GROUP, GROUP_END = range(114, 123)
NULL, BOOLEAN, UNSIGNED, SIGNED, REAL, DOUBLE, OCTET_STRING, CHARACTER_STRING, BIT_STRING = range(130, 139)
ENUMERATED, DATE, TIME_OF_DAY, OBJECT_IDENTIFIER, CONTEXT_PRIMITIVE = range(139, 144)

# A word without a value, a network with an address as contents, contents without a number, and an object identifier.
WORDS = frozenset((*range(10, 20), *range(60, 70)))
ADDRESSES = frozenset((DESTINATION, SOURCE))
CONTENTS = frozenset((31, 47, 51))
OBJECTS = frozenset((OBJECT, DEVICE))

# What begins a list of items (or of networks), what ends something, and the elements of open values.
LISTS = frozenset((NETWORKS, 45, *range(110, 114)))
ENDS = frozenset((LIST_END, ITEM_END, VALUE_END, PROPERTY_ERROR_END, GROUP_END))
ELEMENTS = (GROUP, *range(NULL, CONTEXT_PRIMITIVE + 1))

# No name has a larger number.
MOST = 255

# The names that a dict may have, in the order of the text: those of a frame, and those of a dict inside it. What ends
# has no key of its own.
OF_FRAMES = (
    *range(1, 6), *range(10, 20), 40, *range(20, 24), 27, 28, 24, 25, 26, *range(60, 70), 30, 29, 41, 42, 44, 45, 48, 49,
    93, 94, 84, 85, 80, 81, 82, *range(86, 93), 50, *range(110, 114), 117, 83, 31, 51,
)
OF_ITEMS = (41, 46, 47, 80, 81, 82, 93, 94, 111, 112, 113, 117, 119, 83)

# The service choices, which are the numbers of the words of services.
CHOICES = {60: 12, 61: 14, 62: 15, 63: 16, 64: 8, 65: 0, 66: 5, 67: 1, 68: 2, 69: 0}
