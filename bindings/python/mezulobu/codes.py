"""The numbers of the C interface: written by bindings/generate from mezulobu.h."""
import enum


class Status(enum.IntEnum):
    """What a call answers."""

    DONE = 0
    """Done; of a check: yes."""
    MISUSED = 2
    """A null pointer where none may be, a handle that is spent or of
another kind, a struct_size that this library doesn't know, or a
number that says no record's kind."""
    REFUSED = 3
    """The script, the certificate, a struct, a record or a name is refused;
of a text of a collection: its script would be too long."""
    NO_MEMORY = 4
    """Memory was refused, to all of it or to a decision."""
    TOO_SMALL = 5
    """A buffer is too small; each size says what is needed."""
    NO = 6
    """A check: no; a strict explanation: not all went well; a negotiation:
no settings meet everybody; a record: it has no fault; a name: it is
another node's; a refusal: there is none to tell; a wait: nothing was
decided in that time."""
    WRONG_STATE = 18
    """E2: the handle isn't in a state that allows the call."""
    TOO_MANY_NODES = 19
    """E3: more than 128 in one collection, those that are gone
included; or more than its host allows."""
    NO_CHILDREN = 20
    """E4: of all_children_present, of a group without a child."""
    NOT_SELECTED = 21
    """E5: another alternative was chosen."""
    DOMAIN_FAILED = 22
    """E6: the domain failed (somebody closed too early, or what
it was attached to has no settings), or no settings were
chosen; explain says which."""
    INTERSECTION_EMPTY = 23
    """E7: no settings meet everybody:
mezulobu_collection_explain says who is in the way."""
    TOO_MANY_SELECTIONS = 24
    """E8: more than 4,096 selections of alternatives."""
    PENDING = 25
    """E9: nothing is decided yet."""
    STRANGE = 26
    """E10: no correct run gives it."""


class Usage(enum.IntFlag):
    """What a participant does with the buffers: a set, not empty."""

    NONE = 1
    """Stands alone."""
    CPU = 2
    VULKAN = 4
    DISPLAY = 8
    VIDEO = 16


class Color(enum.IntFlag):
    """Colour spaces: a set, and of a platform's list one each."""

    SRGB = 1
    REC601_NTSC = 2
    REC601_NTSC_FULL_RANGE = 4
    REC601_PAL = 8
    REC601_PAL_FULL_RANGE = 16
    REC709 = 32
    REC2020 = 64
    REC2100 = 128
    DO_NOT_CARE = 256
    """In an entry's set alone."""


class Coherency(enum.IntEnum):
    """A coherency domain of a heap."""

    CPU = 1
    RAM = 2
    INACCESSIBLE = 4


class Kind(enum.IntEnum):
    """The kind of a refusal."""

    PLATFORM = 1
    """The platform's struct states none."""
    PARTICIPANT = 2
    """That of the participant who states none."""
    TOO_MANY = 3
    """More than 1,024 participants."""
    COUNT = 4
    """No number of buffers suits those up to who."""
    PLACES = 5
    """Each place is refused by one of those up to who."""
    OFFERS = 6
    """No offer suits those up to who."""


class Field(enum.IntEnum):
    """The field of a record that a refusal names."""

    NONE = 0
    USAGE = 1
    MIN_BUFFER_COUNT_FOR_CAMPING = 2
    MIN_BUFFER_COUNT_FOR_DEDICATED_SLACK = 3
    MIN_BUFFER_COUNT_FOR_SHARED_SLACK = 4
    MIN_BUFFER_COUNT = 5
    MAX_BUFFER_COUNT = 6
    BUFFER_MEMORY_CONSTRAINTS = 7
    IMAGE_FORMAT_CONSTRAINTS = 8
    MIN_SIZE_BYTES = 9
    MAX_SIZE_BYTES = 10
    PHYSICALLY_CONTIGUOUS_REQUIRED = 11
    SECURE_REQUIRED = 12
    CPU_DOMAIN_SUPPORTED = 13
    RAM_DOMAIN_SUPPORTED = 14
    INACCESSIBLE_DOMAIN_SUPPORTED = 15
    PERMITTED_HEAPS = 16
    PIXEL_FORMAT = 17
    PIXEL_FORMAT_MODIFIER = 18
    PIXEL_FORMAT_AND_MODIFIERS = 19
    COLOR_SPACES = 20
    MIN_SIZE = 21
    MAX_SIZE = 22
    SIZE_ALIGNMENT = 23
    MIN_BYTES_PER_ROW = 24
    MAX_BYTES_PER_ROW = 25
    BYTES_PER_ROW_DIVISOR = 26
    START_OFFSET_DIVISOR = 27
    DISPLAY_RECT_ALIGNMENT = 28
    REQUIRED_MIN_SIZE = 29
    REQUIRED_MAX_SIZE = 30
    MAX_WIDTH_TIMES_HEIGHT = 31
    REQUIRE_BYTES_PER_ROW_AT_PIXEL_BOUNDARY = 32
    BUFFER_COUNT_LIMIT = 33
    UNNAMED_PIXEL_FORMAT = 34
    UNNAMED_PIXEL_FORMAT_MODIFIER = 35
    UNNAMED_COLOR_SPACE = 36
    HEAPS = 37
    PAIRS = 38
    HEAP_TYPE = 39
    ID = 40
    CONTIGUOUS = 41
    SECURE = 42
    DOMAINS = 43
