//! The numbers of the C interface, each kind a type: written by `bindings/generate`.
use crate::code::{codes, sets};
use mezulobu_sys as sys;

codes! {
    /// What a call answers.
    Status(i32) {
        /// done; of a check: yes
        DONE = sys::MEZULOBU_DONE,
        /// a null pointer where none may be, a handle that is spent or of
        /// another kind, a struct_size that this library doesn't know, or a
        /// number that says no record's kind
        MISUSED = sys::MEZULOBU_MISUSED,
        /// the script, the certificate, a struct, a record or a name is refused;
        /// of a text of a collection: its script would be too long
        REFUSED = sys::MEZULOBU_REFUSED,
        /// memory was refused, to all of it or to a decision
        NO_MEMORY = sys::MEZULOBU_NO_MEMORY,
        /// a buffer is too small; each size says what is needed
        TOO_SMALL = sys::MEZULOBU_TOO_SMALL,
        /// a check: no; a strict explanation: not all went well; a negotiation:
        /// no settings meet everybody; a record: it has no fault; a name: it is
        /// another node's; a refusal: there is none to tell; a wait: nothing was
        /// decided in that time
        NO = sys::MEZULOBU_NO,
        /// E2: the handle isn't in a state that allows the call
        WRONG_STATE = sys::MEZULOBU_WRONG_STATE,
        /// E3: more than 128 in one collection, those that are gone
        /// included; or more than its host allows
        TOO_MANY_NODES = sys::MEZULOBU_TOO_MANY_NODES,
        /// E4: of all_children_present, of a group without a child
        NO_CHILDREN = sys::MEZULOBU_NO_CHILDREN,
        /// E5: another alternative was chosen
        NOT_SELECTED = sys::MEZULOBU_NOT_SELECTED,
        /// E6: the domain failed (somebody closed too early, or what
        /// it was attached to has no settings), or no settings were
        /// chosen; explain says which
        DOMAIN_FAILED = sys::MEZULOBU_DOMAIN_FAILED,
        /// E7: no settings meet everybody:
        /// mezulobu_collection_explain says who is in the way
        INTERSECTION_EMPTY = sys::MEZULOBU_INTERSECTION_EMPTY,
        /// E8: more than 4,096 selections of alternatives
        TOO_MANY_SELECTIONS = sys::MEZULOBU_TOO_MANY_SELECTIONS,
        /// E9: nothing is decided yet
        PENDING = sys::MEZULOBU_PENDING,
        /// E10: no correct run gives it
        STRANGE = sys::MEZULOBU_STRANGE,
    }
}

sets! {
    /// What a participant does with the buffers: a set, not empty.
    Usage(u32) {
        /// stands alone
        NONE = sys::MEZULOBU_USE_NONE,
        CPU = sys::MEZULOBU_USE_CPU,
        VULKAN = sys::MEZULOBU_USE_VULKAN,
        DISPLAY = sys::MEZULOBU_USE_DISPLAY,
        VIDEO = sys::MEZULOBU_USE_VIDEO,
    }
}

sets! {
    /// Colour spaces: a set, and of a platform's list one each.
    Color(u32) {
        SRGB = sys::MEZULOBU_SRGB,
        REC601_NTSC = sys::MEZULOBU_REC601_NTSC,
        REC601_NTSC_FULL_RANGE = sys::MEZULOBU_REC601_NTSC_FULL_RANGE,
        REC601_PAL = sys::MEZULOBU_REC601_PAL,
        REC601_PAL_FULL_RANGE = sys::MEZULOBU_REC601_PAL_FULL_RANGE,
        REC709 = sys::MEZULOBU_REC709,
        REC2020 = sys::MEZULOBU_REC2020,
        REC2100 = sys::MEZULOBU_REC2100,
        /// in an entry's set alone
        DO_NOT_CARE = sys::MEZULOBU_COLOR_DO_NOT_CARE,
    }
}

codes! {
    /// A coherency domain of a heap.
    Coherency(u32) {
        CPU = sys::MEZULOBU_COHERENT_CPU,
        RAM = sys::MEZULOBU_COHERENT_RAM,
        INACCESSIBLE = sys::MEZULOBU_COHERENT_INACCESSIBLE,
    }
}

codes! {
    /// The kind of a refusal.
    Kind(u32) {
        /// the platform's struct states none
        PLATFORM = sys::MEZULOBU_KIND_PLATFORM,
        /// that of the participant who states none
        PARTICIPANT = sys::MEZULOBU_KIND_PARTICIPANT,
        /// more than 1,024 participants
        TOO_MANY = sys::MEZULOBU_KIND_TOO_MANY,
        /// no number of buffers suits those up to who
        COUNT = sys::MEZULOBU_KIND_COUNT,
        /// each place is refused by one of those up to who
        PLACES = sys::MEZULOBU_KIND_PLACES,
        /// no offer suits those up to who
        OFFERS = sys::MEZULOBU_KIND_OFFERS,
    }
}

codes! {
    /// The field of a record that a refusal names.
    Field(u32) {
        NONE = sys::MEZULOBU_FIELD_NONE,
        USAGE = sys::MEZULOBU_FIELD_USAGE,
        MIN_BUFFER_COUNT_FOR_CAMPING = sys::MEZULOBU_FIELD_MIN_BUFFER_COUNT_FOR_CAMPING,
        MIN_BUFFER_COUNT_FOR_DEDICATED_SLACK = sys::MEZULOBU_FIELD_MIN_BUFFER_COUNT_FOR_DEDICATED_SLACK,
        MIN_BUFFER_COUNT_FOR_SHARED_SLACK = sys::MEZULOBU_FIELD_MIN_BUFFER_COUNT_FOR_SHARED_SLACK,
        MIN_BUFFER_COUNT = sys::MEZULOBU_FIELD_MIN_BUFFER_COUNT,
        MAX_BUFFER_COUNT = sys::MEZULOBU_FIELD_MAX_BUFFER_COUNT,
        BUFFER_MEMORY_CONSTRAINTS = sys::MEZULOBU_FIELD_BUFFER_MEMORY_CONSTRAINTS,
        IMAGE_FORMAT_CONSTRAINTS = sys::MEZULOBU_FIELD_IMAGE_FORMAT_CONSTRAINTS,
        MIN_SIZE_BYTES = sys::MEZULOBU_FIELD_MIN_SIZE_BYTES,
        MAX_SIZE_BYTES = sys::MEZULOBU_FIELD_MAX_SIZE_BYTES,
        PHYSICALLY_CONTIGUOUS_REQUIRED = sys::MEZULOBU_FIELD_PHYSICALLY_CONTIGUOUS_REQUIRED,
        SECURE_REQUIRED = sys::MEZULOBU_FIELD_SECURE_REQUIRED,
        CPU_DOMAIN_SUPPORTED = sys::MEZULOBU_FIELD_CPU_DOMAIN_SUPPORTED,
        RAM_DOMAIN_SUPPORTED = sys::MEZULOBU_FIELD_RAM_DOMAIN_SUPPORTED,
        INACCESSIBLE_DOMAIN_SUPPORTED = sys::MEZULOBU_FIELD_INACCESSIBLE_DOMAIN_SUPPORTED,
        PERMITTED_HEAPS = sys::MEZULOBU_FIELD_PERMITTED_HEAPS,
        PIXEL_FORMAT = sys::MEZULOBU_FIELD_PIXEL_FORMAT,
        PIXEL_FORMAT_MODIFIER = sys::MEZULOBU_FIELD_PIXEL_FORMAT_MODIFIER,
        PIXEL_FORMAT_AND_MODIFIERS = sys::MEZULOBU_FIELD_PIXEL_FORMAT_AND_MODIFIERS,
        COLOR_SPACES = sys::MEZULOBU_FIELD_COLOR_SPACES,
        MIN_SIZE = sys::MEZULOBU_FIELD_MIN_SIZE,
        MAX_SIZE = sys::MEZULOBU_FIELD_MAX_SIZE,
        SIZE_ALIGNMENT = sys::MEZULOBU_FIELD_SIZE_ALIGNMENT,
        MIN_BYTES_PER_ROW = sys::MEZULOBU_FIELD_MIN_BYTES_PER_ROW,
        MAX_BYTES_PER_ROW = sys::MEZULOBU_FIELD_MAX_BYTES_PER_ROW,
        BYTES_PER_ROW_DIVISOR = sys::MEZULOBU_FIELD_BYTES_PER_ROW_DIVISOR,
        START_OFFSET_DIVISOR = sys::MEZULOBU_FIELD_START_OFFSET_DIVISOR,
        DISPLAY_RECT_ALIGNMENT = sys::MEZULOBU_FIELD_DISPLAY_RECT_ALIGNMENT,
        REQUIRED_MIN_SIZE = sys::MEZULOBU_FIELD_REQUIRED_MIN_SIZE,
        REQUIRED_MAX_SIZE = sys::MEZULOBU_FIELD_REQUIRED_MAX_SIZE,
        MAX_WIDTH_TIMES_HEIGHT = sys::MEZULOBU_FIELD_MAX_WIDTH_TIMES_HEIGHT,
        REQUIRE_BYTES_PER_ROW_AT_PIXEL_BOUNDARY = sys::MEZULOBU_FIELD_REQUIRE_BYTES_PER_ROW_AT_PIXEL_BOUNDARY,
        BUFFER_COUNT_LIMIT = sys::MEZULOBU_FIELD_BUFFER_COUNT_LIMIT,
        UNNAMED_PIXEL_FORMAT = sys::MEZULOBU_FIELD_UNNAMED_PIXEL_FORMAT,
        UNNAMED_PIXEL_FORMAT_MODIFIER = sys::MEZULOBU_FIELD_UNNAMED_PIXEL_FORMAT_MODIFIER,
        UNNAMED_COLOR_SPACE = sys::MEZULOBU_FIELD_UNNAMED_COLOR_SPACE,
        HEAPS = sys::MEZULOBU_FIELD_HEAPS,
        PAIRS = sys::MEZULOBU_FIELD_PAIRS,
        HEAP_TYPE = sys::MEZULOBU_FIELD_HEAP_TYPE,
        ID = sys::MEZULOBU_FIELD_ID,
        CONTIGUOUS = sys::MEZULOBU_FIELD_CONTIGUOUS,
        SECURE = sys::MEZULOBU_FIELD_SECURE,
        DOMAINS = sys::MEZULOBU_FIELD_DOMAINS,
    }
}
