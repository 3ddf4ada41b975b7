//! The C interface of libmezulobu, as `mezulobu.h` declares it: written by `bindings/generate`.
//! The crate `mezulobu` has safe types for it.
#![allow(non_camel_case_types)]
use std::os::raw::{c_char, c_int, c_void};

/// major 16 bits, minor 16 bits
pub const MEZULOBU_VERSION: u32 = 0x00010006;

/// done; of a check: yes
pub const MEZULOBU_DONE: c_int = 0;
/// a null pointer where none may be, a handle that is spent or of
/// another kind, a struct_size that this library doesn't know, or a
/// number that says no record's kind
pub const MEZULOBU_MISUSED: c_int = 2;
/// the script, the certificate, a struct, a record or a name is refused;
/// of a text of a collection: its script would be too long
pub const MEZULOBU_REFUSED: c_int = 3;
/// memory was refused, to all of it or to a decision
pub const MEZULOBU_NO_MEMORY: c_int = 4;
/// a buffer is too small; each size says what is needed
pub const MEZULOBU_TOO_SMALL: c_int = 5;
/// a check: no; a strict explanation: not all went well; a negotiation:
/// no settings meet everybody; a record: it has no fault; a name: it is
/// another node's; a refusal: there is none to tell; a wait: nothing was
/// decided in that time
pub const MEZULOBU_NO: c_int = 6;
/// E2: the handle isn't in a state that allows the call
pub const MEZULOBU_WRONG_STATE: c_int = 18;
/// E3: more than 128 in one collection, those that are gone
/// included; or more than its host allows
pub const MEZULOBU_TOO_MANY_NODES: c_int = 19;
/// E4: of all_children_present, of a group without a child
pub const MEZULOBU_NO_CHILDREN: c_int = 20;
/// E5: another alternative was chosen
pub const MEZULOBU_NOT_SELECTED: c_int = 21;
/// E6: the domain failed (somebody closed too early, or what
/// it was attached to has no settings), or no settings were
/// chosen; explain says which
pub const MEZULOBU_DOMAIN_FAILED: c_int = 22;
/// E7: no settings meet everybody:
/// mezulobu_collection_explain says who is in the way
pub const MEZULOBU_INTERSECTION_EMPTY: c_int = 23;
/// E8: more than 4,096 selections of alternatives
pub const MEZULOBU_TOO_MANY_SELECTIONS: c_int = 24;
/// E9: nothing is decided yet
pub const MEZULOBU_PENDING: c_int = 25;
/// E10: no correct run gives it
pub const MEZULOBU_STRANGE: c_int = 26;

/// stands alone
pub const MEZULOBU_USE_NONE: u32 = 1;
pub const MEZULOBU_USE_CPU: u32 = 2;
pub const MEZULOBU_USE_VULKAN: u32 = 4;
pub const MEZULOBU_USE_DISPLAY: u32 = 8;
pub const MEZULOBU_USE_VIDEO: u32 = 16;

pub const MEZULOBU_SRGB: u32 = 1;
pub const MEZULOBU_REC601_NTSC: u32 = 2;
pub const MEZULOBU_REC601_NTSC_FULL_RANGE: u32 = 4;
pub const MEZULOBU_REC601_PAL: u32 = 8;
pub const MEZULOBU_REC601_PAL_FULL_RANGE: u32 = 16;
pub const MEZULOBU_REC709: u32 = 32;
pub const MEZULOBU_REC2020: u32 = 64;
pub const MEZULOBU_REC2100: u32 = 128;
/// in an entry's set alone
pub const MEZULOBU_COLOR_DO_NOT_CARE: u32 = 256;

pub const MEZULOBU_COHERENT_CPU: u32 = 1;
pub const MEZULOBU_COHERENT_RAM: u32 = 2;
pub const MEZULOBU_COHERENT_INACCESSIBLE: u32 = 4;

#[repr(C)]
#[derive(Clone, Copy, Debug)]
pub struct mezulobu_size {
    pub width: u32,
    pub height: u32,
}

/// A heap, which is named by its index in the platform's list: in a script's records its type is
/// `heap` and its id the index, so that `{"heap_type": "heap", "id": 1}` is the second one. At least
/// one of the three coherency domains is true.
#[repr(C)]
#[derive(Clone, Copy, Debug)]
pub struct mezulobu_heap {
    pub contiguous: bool,
    pub secure: bool,
    pub cpu: bool,
    pub ram: bool,
    pub inaccessible: bool,
}

#[repr(C)]
#[derive(Clone, Copy, Debug)]
pub struct mezulobu_pair {
    pub modifier: u64,
    pub format: u32,
    pub reserved: u32,
}

/// What the allocator offers, which the caller knows: its heaps, and the images that it is ready to
/// use. Each list is in the order of preference, isn't empty, and has no item twice.
#[repr(C)]
#[derive(Clone, Copy, Debug)]
pub struct mezulobu_platform {
    pub struct_size: usize,
    /// at most 64
    pub heaps: *const mezulobu_heap,
    pub n_heaps: usize,
    pub pairs: *const mezulobu_pair,
    pub n_pairs: usize,
    /// MEZULOBU_SRGB ..
    pub colors: *const u32,
    pub n_colors: usize,
}

/// One image format that a participant takes, and its bounds on such images. No two entries of a
/// participant have the same format and modifier, of which "any" counts as one: else it is REFUSED,
/// by the field image_format_constraints. Somebody states the size that is wanted, as a mode, as its
/// min_size: where nobody does, an image of 1 by 1 is enough.
/// Alignments round up, so the image may be larger, and max_size bounds it with all that they add,
/// those of others too: who has one mode alone states it as min_size, and no max_size.
#[repr(C)]
#[derive(Clone, Copy, Debug)]
pub struct mezulobu_entry {
    pub struct_size: usize,
    /// not read where any_modifier is true; DRM_FORMAT_MOD_INVALID isn't
    /// "any", and is refused
    pub modifier: u64,
    /// not read where any_format is true
    pub format: u32,
    /// a set, not empty
    pub colors: u32,
    pub any_format: bool,
    pub any_modifier: bool,
    /// \[require_bytes_per_row_at_pixel_boundary\]
    pub rows_end_at_pixels: bool,
    /// in pixels
    pub min_size: mezulobu_size,
    /// in pixels
    pub max_size: mezulobu_size,
    /// in pixels
    pub size_alignment: mezulobu_size,
    /// of a row, in bytes \[min_bytes_per_row, max_bytes_per_row\]
    pub min_pitch: u32,
    /// of a row, in bytes \[min_bytes_per_row, max_bytes_per_row\]
    pub max_pitch: u32,
    /// \[bytes_per_row_divisor, start_offset_divisor\]
    pub pitch_divisor: u32,
    /// \[bytes_per_row_divisor, start_offset_divisor\]
    pub offset_divisor: u32,
    pub display_rect_alignment: mezulobu_size,
    /// of what it will put into them: all
    /// have to take such images
    pub required_min_size: mezulobu_size,
    /// of what it will put into them: all
    /// have to take such images
    pub required_max_size: mezulobu_size,
    /// \[max_width_times_height\]
    pub max_pixels: u64,
}

/// What a participant asks for. Without entries it takes every offer.
#[repr(C)]
#[derive(Clone, Copy, Debug)]
pub struct mezulobu_participant {
    pub struct_size: usize,
    pub usage: u8,
    /// what the heap must be \[physically_contiguous_required,
    /// secure_required\]
    pub contiguous: bool,
    /// what the heap must be \[physically_contiguous_required,
    /// secure_required\]
    pub secure: bool,
    /// the coherency domains that it takes, and no other; where none is
    /// true, cpu. A record takes cpu too, unless it says no
    /// \[cpu_domain_supported, ram_domain_supported,
    /// inaccessible_domain_supported\]
    pub cpu: bool,
    /// the coherency domains that it takes, and no other; where none is
    /// true, cpu. A record takes cpu too, unless it says no
    /// \[cpu_domain_supported, ram_domain_supported,
    /// inaccessible_domain_supported\]
    pub ram: bool,
    /// the coherency domains that it takes, and no other; where none is
    /// true, cpu. A record takes cpu too, unless it says no
    /// \[cpu_domain_supported, ram_domain_supported,
    /// inaccessible_domain_supported\]
    pub inaccessible: bool,
    /// how many buffers it holds at one time; all are added
    /// \[min_buffer_count_for_camping\]
    pub camping: u32,
    /// more for itself alone; added too
    /// \[min_buffer_count_for_dedicated_slack\]
    pub dedicated_slack: u32,
    /// spare ones for all; the greatest is added
    /// \[min_buffer_count_for_shared_slack\]
    pub shared_slack: u32,
    /// how many there are in all \[min_buffer_count,
    /// max_buffer_count\]
    pub min_count: u32,
    /// how many there are in all \[min_buffer_count,
    /// max_buffer_count\]
    pub max_count: u32,
    /// of a buffer \[min_size_bytes, max_size_bytes\]
    pub min_bytes: u64,
    /// of a buffer \[min_size_bytes, max_size_bytes\]
    pub max_bytes: u64,
    /// bit i: heap i is permitted; 0 permits each \[permitted_heaps\]
    pub heaps: u64,
    pub entries: *const mezulobu_entry,
    pub n_entries: usize,
}

#[repr(C)]
#[derive(Clone, Copy, Debug)]
pub struct mezulobu_plane {
    /// from the buffer's start to the first row, in bytes
    pub offset: u64,
    /// how many, with what a tile adds
    pub rows: u64,
    /// the bytes of a row
    pub pitch: u32,
    pub reserved: u32,
}

/// Where an image lies in a buffer, as a dma-buf is imported.
#[repr(C)]
#[derive(Clone, Copy, Debug)]
pub struct mezulobu_layout {
    /// of the whole image: no plane ends after them
    pub bytes: u64,
    pub n_planes: u32,
    pub reserved: u32,
    /// in the order of DRM; all 0 where there is none
    pub planes: [mezulobu_plane; 4],
}

/// The smallest image that everybody allows; all of it is 0 where the buffers hold no image.
#[repr(C)]
#[derive(Clone, Copy, Debug)]
pub struct mezulobu_image {
    pub modifier: u64,
    pub format: u32,
    /// MEZULOBU_SRGB ..
    pub color: u32,
    pub width: u32,
    pub height: u32,
    pub layout: mezulobu_layout,
}

#[repr(C)]
#[derive(Clone, Copy, Debug)]
pub struct mezulobu_settings {
    pub struct_size: usize,
    /// the size of each buffer, at least 1
    pub bytes: u64,
    /// the index on the platform
    pub heap: usize,
    /// how many buffers: 1 to 128
    pub count: u32,
    /// MEZULOBU_COHERENT_CPU ..
    pub coherency: u32,
    pub image: mezulobu_image,
}

/// the platform's struct states none
pub const MEZULOBU_KIND_PLATFORM: u32 = 1;
/// that of the participant who states none
pub const MEZULOBU_KIND_PARTICIPANT: u32 = 2;
/// more than 1,024 participants
pub const MEZULOBU_KIND_TOO_MANY: u32 = 3;
/// no number of buffers suits those up to who
pub const MEZULOBU_KIND_COUNT: u32 = 4;
/// each place is refused by one of those up to who
pub const MEZULOBU_KIND_PLACES: u32 = 5;
/// no offer suits those up to who
pub const MEZULOBU_KIND_OFFERS: u32 = 6;

pub const MEZULOBU_NOBODY: usize = usize::MAX;

pub const MEZULOBU_FIELD_NONE: u32 = 0;
pub const MEZULOBU_FIELD_USAGE: u32 = 1;
pub const MEZULOBU_FIELD_MIN_BUFFER_COUNT_FOR_CAMPING: u32 = 2;
pub const MEZULOBU_FIELD_MIN_BUFFER_COUNT_FOR_DEDICATED_SLACK: u32 = 3;
pub const MEZULOBU_FIELD_MIN_BUFFER_COUNT_FOR_SHARED_SLACK: u32 = 4;
pub const MEZULOBU_FIELD_MIN_BUFFER_COUNT: u32 = 5;
pub const MEZULOBU_FIELD_MAX_BUFFER_COUNT: u32 = 6;
pub const MEZULOBU_FIELD_BUFFER_MEMORY_CONSTRAINTS: u32 = 7;
pub const MEZULOBU_FIELD_IMAGE_FORMAT_CONSTRAINTS: u32 = 8;
pub const MEZULOBU_FIELD_MIN_SIZE_BYTES: u32 = 9;
pub const MEZULOBU_FIELD_MAX_SIZE_BYTES: u32 = 10;
pub const MEZULOBU_FIELD_PHYSICALLY_CONTIGUOUS_REQUIRED: u32 = 11;
pub const MEZULOBU_FIELD_SECURE_REQUIRED: u32 = 12;
pub const MEZULOBU_FIELD_CPU_DOMAIN_SUPPORTED: u32 = 13;
pub const MEZULOBU_FIELD_RAM_DOMAIN_SUPPORTED: u32 = 14;
pub const MEZULOBU_FIELD_INACCESSIBLE_DOMAIN_SUPPORTED: u32 = 15;
pub const MEZULOBU_FIELD_PERMITTED_HEAPS: u32 = 16;
pub const MEZULOBU_FIELD_PIXEL_FORMAT: u32 = 17;
pub const MEZULOBU_FIELD_PIXEL_FORMAT_MODIFIER: u32 = 18;
pub const MEZULOBU_FIELD_PIXEL_FORMAT_AND_MODIFIERS: u32 = 19;
pub const MEZULOBU_FIELD_COLOR_SPACES: u32 = 20;
pub const MEZULOBU_FIELD_MIN_SIZE: u32 = 21;
pub const MEZULOBU_FIELD_MAX_SIZE: u32 = 22;
pub const MEZULOBU_FIELD_SIZE_ALIGNMENT: u32 = 23;
pub const MEZULOBU_FIELD_MIN_BYTES_PER_ROW: u32 = 24;
pub const MEZULOBU_FIELD_MAX_BYTES_PER_ROW: u32 = 25;
pub const MEZULOBU_FIELD_BYTES_PER_ROW_DIVISOR: u32 = 26;
pub const MEZULOBU_FIELD_START_OFFSET_DIVISOR: u32 = 27;
pub const MEZULOBU_FIELD_DISPLAY_RECT_ALIGNMENT: u32 = 28;
pub const MEZULOBU_FIELD_REQUIRED_MIN_SIZE: u32 = 29;
pub const MEZULOBU_FIELD_REQUIRED_MAX_SIZE: u32 = 30;
pub const MEZULOBU_FIELD_MAX_WIDTH_TIMES_HEIGHT: u32 = 31;
pub const MEZULOBU_FIELD_REQUIRE_BYTES_PER_ROW_AT_PIXEL_BOUNDARY: u32 = 32;
pub const MEZULOBU_FIELD_BUFFER_COUNT_LIMIT: u32 = 33;
pub const MEZULOBU_FIELD_UNNAMED_PIXEL_FORMAT: u32 = 34;
pub const MEZULOBU_FIELD_UNNAMED_PIXEL_FORMAT_MODIFIER: u32 = 35;
pub const MEZULOBU_FIELD_UNNAMED_COLOR_SPACE: u32 = 36;
pub const MEZULOBU_FIELD_HEAPS: u32 = 37;
pub const MEZULOBU_FIELD_PAIRS: u32 = 38;
pub const MEZULOBU_FIELD_HEAP_TYPE: u32 = 39;
pub const MEZULOBU_FIELD_ID: u32 = 40;
pub const MEZULOBU_FIELD_CONTIGUOUS: u32 = 41;
pub const MEZULOBU_FIELD_SECURE: u32 = 42;
pub const MEZULOBU_FIELD_DOMAINS: u32 = 43;

/// Why there are no settings. At REFUSED (the first three kinds) field is what is amiss in a struct.
/// index is the item of its list where that has a format, a modifier or a color that isn't known, or
/// a pitch_divisor above 65536; whatever else is amiss, index is 0, of whichever item it is. At
/// MISUSED (kind PLATFORM or PARTICIPANT, or 0 of settings) it is whose struct is misused, and of an
/// entry index is its own; of the participant's struct itself index is NOBODY; field is 0.
///
/// At NO the participants before who can share settings, and those up to who can't: who is the first
/// with whom there are none. So the order of the participants is a ranking: those that can be done
/// without stand last.
///
/// **alone is 1 where who gets nothing even by itself**: the platform doesn't offer what it takes,
/// or it contradicts itself, as by a min_size above its own max_size. Kind and field are of it alone
/// then. Where alone is 0 the others are in the way: what who takes is offered, and those before it
/// don't take it, or the other way round.
///
/// heap and coherency, and format, modifier and color are what those before would share first (0
/// without an image). At PLACES field is what who refuses that place for. At OFFERS field is of the
/// offer of format, modifier and color, which is the image of the platform that who comes nearest
/// to, where it is alone: the first line of the conflict table that is true of it, for those up to
/// who or for it alone. PIXEL_FORMAT: somebody has no entry for that format, or, without an image,
/// takes images only; PIXEL_FORMAT_MODIFIER: all take the format, and somebody not in that modifier.
/// who is NOBODY where all can share settings but for a name of the image that nobody gives.
#[repr(C)]
#[derive(Clone, Copy, Debug)]
pub struct mezulobu_refusal {
    pub struct_size: usize,
    pub who: usize,
    pub index: usize,
    pub heap: usize,
    pub modifier: u64,
    pub format: u32,
    pub color: u32,
    pub coherency: u32,
    /// enum mezulobu_kind
    pub kind: u32,
    /// enum mezulobu_field; mezulobu_field_name tells its name
    pub field: u32,
    pub alone: u32,
}

#[repr(C)]
pub struct mezulobu_allocator {
    _private: [u8; 0],
}

#[repr(C)]
pub struct mezulobu_token {
    _private: [u8; 0],
}

#[repr(C)]
pub struct mezulobu_group {
    _private: [u8; 0],
}

#[repr(C)]
pub struct mezulobu_collection {
    _private: [u8; 0],
}

extern "C" {
    /// Replays a script. At DONE text is its report and, where certificate_size isn't null, certificate
    /// proves its decisions. At REFUSED text is the words of the script's first fault, as
    /// `script refused: Q4 at call 7`, and the certificate is of length 0. Without a certificate,
    /// certificate and certificate_size are null.
    pub fn mezulobu_run(
        script: *const c_void,
        script_size: usize,
        text: *mut c_char,
        text_size: *mut usize,
        certificate: *mut c_void,
        certificate_size: *mut usize,
    ) -> c_int;
    /// Tests a certificate against a script. At DONE and at NO text is the answer, "yes N\n" or
    /// "no Nk domain PATH\n". At REFUSED it is the words of what is refused: as of a script, or
    /// `proof refused`. For the status alone, which is never TOO_SMALL then, text and text_size are
    /// null.
    pub fn mezulobu_check(
        script: *const c_void,
        script_size: usize,
        certificate: *const c_void,
        certificate_size: usize,
        text: *mut c_char,
        text_size: *mut usize,
    ) -> c_int;
    /// Explains a script: where it has a fault, why calls were refused, who is awaited, what decided
    /// each value of a choice, and who is in the way. At DONE text says what it means, and at REFUSED
    /// what its first fault is and where. Where is_strict is true the status is NO, with the same text,
    /// where a call was refused or a domain isn't chosen. file is a name that ends with a 0, which
    /// stands before lines and columns; where it is null that is "script", and what of it is no UTF-8 is
    /// replaced.
    pub fn mezulobu_explain(
        script: *const c_void,
        script_size: usize,
        file: *const c_char,
        is_strict: bool,
        text: *mut c_char,
        text_size: *mut usize,
    ) -> c_int;
    /// The same as objects of JSON, one a line: one for each item of the explanation, and one that ends
    /// them. EXPLAIN says what each has.
    pub fn mezulobu_explain_json(
        script: *const c_void,
        script_size: usize,
        file: *const c_char,
        is_strict: bool,
        text: *mut c_char,
        text_size: *mut usize,
    ) -> c_int;
    /// The best settings for n participants on a platform. DONE: settings. NO: none meet them all, and
    /// refusal says who is in the way. REFUSED: a struct states nothing that could be meant, and refusal
    /// says whose and which field. NO_MEMORY: refusal has kind 0. MISUSED: refusal says whose struct it
    /// is, unless it is the refusal's. settings is written at DONE alone, refusal at each other status.
    /// refusal may be null, settings may not. A list of nobody is DONE, with one buffer of one byte.
    pub fn mezulobu_negotiate(
        platform: *const mezulobu_platform,
        participants: *const mezulobu_participant,
        n: usize,
        settings: *mut mezulobu_settings,
        refusal: *mut mezulobu_refusal,
    ) -> c_int;
    /// The name of a refusal's field, as "max_size"; "?" of a number that is none.
    pub fn mezulobu_field_name(
        field: u32,
    ) -> *const c_char;
    /// The name of a record's fault by its number: its code, as reports have it, and its kind, as
    /// "S4 UnknownName"; of 0 "no JSON", and "?" of a number that is none. REPORT says what each code
    /// means.
    pub fn mezulobu_fault_name(
        fault: u32,
    ) -> *const c_char;
    /// The layout of an image with rows of pitch bytes in the first plane, its height in pixels. DONE;
    /// REFUSED where there is no such format or modifier here, where tiles don't go with the format, or
    /// where the bytes don't fit 64 bits: layout is as it was then. MISUSED.
    ///
    /// It demands a pitch and a height as settings have them, and tests neither: a pitch of at least a
    /// row's pixels, which is a multiple of 512 of X tiles and of 128 of Y tiles, and of NV12, P010,
    /// I420 and YV12 is even, as is their height. With others the call is DONE all the same: halves are
    /// rounded down then, and no plane ends after bytes, but DRM wouldn't take it. The height of tiles
    /// may be any: rows has what the last tile adds.
    pub fn mezulobu_planes(
        format: u32,
        modifier: u64,
        pitch: u32,
        height: u32,
        layout: *mut mezulobu_layout,
    ) -> c_int;
    /// The name of a status, as "TOO_SMALL"; "?" of a number that is none.
    pub fn mezulobu_status_name(
        status: c_int,
    ) -> *const c_char;
    /// What a status means, in one line for people, as "E9 Pending: nothing is decided yet; explain says
    /// who is awaited"; of the call of this name, as "mezulobu_token_set_name" or "set_name", what would
    /// be right there. call may be null. "?" of a number that is none.
    pub fn mezulobu_status_text(
        status: c_int,
        call: *const c_char,
    ) -> *const c_char;
    /// The version of the library, as MEZULOBU_VERSION is that of the header.
    pub fn mezulobu_version(
    ) -> u32;
    /// What makes collections, which are decided for one platform. DONE, MISUSED, NO_MEMORY; REFUSED:
    /// the platform states nothing that could be meant, and why, which may be null, has kind PLATFORM
    /// and says which field. Or from the JSON of a platform as scripts have it: at REFUSED code, which
    /// may be null, is the number of its fault, 1 of S1 and so on, and 0 where it is no JSON;
    /// mezulobu_fault_name tells its name, and mezulobu_record_fault where it is.
    pub fn mezulobu_allocator_new(
        platform: *const mezulobu_platform,
        allocator: *mut *mut mezulobu_allocator,
        why: *mut mezulobu_refusal,
    ) -> c_int;
    pub fn mezulobu_allocator_new_record(
        record: *const c_void,
        size: usize,
        allocator: *mut *mut mezulobu_allocator,
        code: *mut u32,
    ) -> c_int;
    /// Frees it, once no call uses it; null is nothing to free. The collections that it made live on.
    pub fn mezulobu_allocator_free(
        allocator: *mut mezulobu_allocator,
    );
    /// A new collection, by the token of its root. DONE, MISUSED, NO_MEMORY.
    pub fn mezulobu_allocate_shared(
        allocator: *mut mezulobu_allocator,
        token: *mut *mut mezulobu_token,
    ) -> c_int;
    /// The same for a host that lets strangers in: each child of the root has at most so many nodes
    /// below it, whoever makes them, those that are gone included. A call that would make one more is
    /// refused by TOO_MANY_NODES, if by nothing else. The root has no limit: a host keeps it, and gives
    /// each client a child of it. 128 limits nothing.
    pub fn mezulobu_allocate_shared_limited(
        allocator: *mut mezulobu_allocator,
        most: u32,
        token: *mut *mut mezulobu_token,
    ) -> c_int;
    /// Of a token: the right to take part. Each call is DONE or changes nothing, and takes no memory.
    /// duplicate, create_group and bind are refused by DOMAIN_FAILED, and the two that make a node by
    /// TOO_MANY_NODES; release and close of nothing. MISUSED.
    pub fn mezulobu_token_duplicate(
        token: *mut mezulobu_token,
        made: *mut *mut mezulobu_token,
    ) -> c_int;
    pub fn mezulobu_token_create_group(
        token: *mut mezulobu_token,
        made: *mut *mut mezulobu_group,
    ) -> c_int;
    pub fn mezulobu_token_bind(
        token: *mut *mut mezulobu_token,
        bound: *mut *mut mezulobu_collection,
    ) -> c_int;
    pub fn mezulobu_token_release(
        token: *mut *mut mezulobu_token,
    ) -> c_int;
    pub fn mezulobu_token_close(
        token: *mut *mut mezulobu_token,
    ) -> c_int;
    /// Of a group: alternatives, of which one is selected. It is made on a token. It has a child for
    /// each alternative, made by create_child, the one that is liked best first; then comes
    /// all_children_present, and the group is released. Each child is a token, which is bound and says
    /// what it asks for. The token on which the group was made is awaited too: release it, or bind it
    /// and ask for nothing. check of the child that was chosen is DONE, of the others NOT_SELECTED.
    ///
    /// Each call is DONE or changes nothing, and takes no memory. WRONG_STATE: create_child or
    /// all_children_present after all_children_present, release before it. NO_CHILDREN:
    /// all_children_present of a group without a child. TOO_MANY_NODES: create_child. DOMAIN_FAILED
    /// and NOT_SELECTED refuse these two. close is refused of nothing. MISUSED.
    pub fn mezulobu_group_create_child(
        group: *mut mezulobu_group,
        made: *mut *mut mezulobu_token,
    ) -> c_int;
    pub fn mezulobu_group_all_children_present(
        group: *mut mezulobu_group,
    ) -> c_int;
    pub fn mezulobu_group_release(
        group: *mut *mut mezulobu_group,
    ) -> c_int;
    pub fn mezulobu_group_close(
        group: *mut *mut mezulobu_group,
    ) -> c_int;
    /// Of a collection: a participant. What it asks for it says once; where asked is null, for nothing.
    /// At REFUSED the participant states nothing that could be meant, why has kind PARTICIPANT, who 0,
    /// and says which field, and nothing was set. A record is the JSON of constraints as scripts have
    /// it; at REFUSED code, which may be null, is the number of its fault, as of
    /// mezulobu_allocator_new_record. NO_MEMORY: nothing was set; it can be tried again. WRONG_STATE: it
    /// has said already what it asks for. attach_token makes a token for somebody who comes later; it
    /// may be refused by TOO_MANY_NODES. DOMAIN_FAILED and NOT_SELECTED refuse these three. Each call is
    /// DONE or changes nothing; attach_token, release and close take no memory, and release and close
    /// are refused of nothing. MISUSED.
    pub fn mezulobu_collection_set_constraints(
        collection: *mut mezulobu_collection,
        asked: *const mezulobu_participant,
        why: *mut mezulobu_refusal,
    ) -> c_int;
    pub fn mezulobu_collection_set_constraints_record(
        collection: *mut mezulobu_collection,
        record: *const c_void,
        size: usize,
        code: *mut u32,
    ) -> c_int;
    pub fn mezulobu_collection_attach_token(
        collection: *mut mezulobu_collection,
        made: *mut *mut mezulobu_token,
    ) -> c_int;
    pub fn mezulobu_collection_release(
        collection: *mut *mut mezulobu_collection,
    ) -> c_int;
    pub fn mezulobu_collection_close(
        collection: *mut *mut mezulobu_collection,
    ) -> c_int;
    /// What is wrong with a record, in words: the name of its first fault, as reports have it, or
    /// "no JSON"; where it is, and what would be right. A text, with its size, TOO_SMALL and NO_MEMORY
    /// as of mezulobu_run's:
    ///
    /// ```text
    /// S4 pixel_format
    ///  --> record:1:62: image_format_constraints[0].pixel_format
    ///   |
    /// 1 | ...aints":[{"pixel_format":"nv12","color_spaces":["SRGB"]}]}
    ///   |                            ^^^^^^ unknown name
    ///   = did you mean NV12?
    /// ```
    ///
    /// kind says whose record it is, MEZULOBU_KIND_PLATFORM or MEZULOBU_KIND_PARTICIPANT; another number
    /// is MISUSED, and nothing is written. DONE: text. NO: nothing is wrong with the record, and the
    /// size is 0. mezulobu_allocator_new_record and mezulobu_collection_set_constraints_record refuse
    /// exactly the records of which this has a text.
    pub fn mezulobu_record_fault(
        kind: u32,
        record: *const c_void,
        size: usize,
        text: *mut c_char,
        text_size: *mut usize,
    ) -> c_int;
    /// What was decided for a collection. DONE: settings, which may be null. Else why there are none, or
    /// PENDING; NO_MEMORY: the decision had no memory. The answer stays once it isn't PENDING. Of
    /// settings with a format that has no code, which is L8 alone, the image is all 0.
    pub fn mezulobu_collection_check(
        collection: *mut mezulobu_collection,
        settings: *mut mezulobu_settings,
    ) -> c_int;
    /// The same, once it isn't PENDING; NO where it still is after so many milliseconds. Below 0 it
    /// waits as long as it takes; 0 doesn't wait. It may be cancelled, and a thread that is holds no
    /// lock then. MISUSED: the handle was spent meanwhile.
    pub fn mezulobu_collection_wait(
        collection: *mut mezulobu_collection,
        milliseconds: c_int,
        settings: *mut mezulobu_settings,
    ) -> c_int;
    /// A file descriptor that polls as readable as soon as check isn't PENDING, and stays so; -1 where
    /// the system gives none, or the handle is misused. Don't read, write or close it: it is the
    /// collection's, which closes it when it is spent. So take it out of a set of epoll before that.
    pub fn mezulobu_collection_fd(
        collection: *mut mezulobu_collection,
    ) -> c_int;
    /// Names a node, in scripts and explanations, which else call it `n` and its number: 1 to 32
    /// letters, digits, '_' or '-', and a 0. A further name takes the place of the one before. REFUSED:
    /// it is no such name, or it is `root` or `n` with digits. NO: another node of the collection has
    /// it. MISUSED: of the first node, which is always `root`. NO_MEMORY.
    pub fn mezulobu_token_set_name(
        token: *mut mezulobu_token,
        name: *const c_char,
    ) -> c_int;
    pub fn mezulobu_group_set_name(
        group: *mut mezulobu_group,
        name: *const c_char,
    ) -> c_int;
    pub fn mezulobu_collection_set_name(
        collection: *mut mezulobu_collection,
        name: *const c_char,
    ) -> c_int;
    /// The name of a handle's own node. A text, with its size, TOO_SMALL and NO_MEMORY as of
    /// mezulobu_run's; DONE, MISUSED.
    pub fn mezulobu_token_name(
        token: *mut mezulobu_token,
        name: *mut c_char,
        name_size: *mut usize,
    ) -> c_int;
    pub fn mezulobu_group_name(
        group: *mut mezulobu_group,
        name: *mut c_char,
        name_size: *mut usize,
    ) -> c_int;
    pub fn mezulobu_collection_name(
        collection: *mut mezulobu_collection,
        name: *mut c_char,
        name_size: *mut usize,
    ) -> c_int;
    /// The number of the collection's node: 0 is the first token of all, and each call that makes one
    /// takes the next. DONE, MISUSED.
    pub fn mezulobu_collection_node(
        collection: *mut mezulobu_collection,
        node: *mut u32,
    ) -> c_int;
    /// The name of the node of a number. A text, with its size, TOO_SMALL and NO_MEMORY as of
    /// mezulobu_run's; DONE; MISUSED, also where there is no such node.
    pub fn mezulobu_collection_name_of(
        collection: *mut mezulobu_collection,
        node: u32,
        name: *mut c_char,
        name_size: *mut usize,
    ) -> c_int;
    /// Which alternatives were chosen: of each group that is selected itself, in the order of the tree,
    /// each node before its children, the number of its child, counted from 0. n goes in as the room of
    /// choices and comes out as their number: 0 without groups. DONE; TOO_SMALL; else as check of a
    /// collection that is selected.
    pub fn mezulobu_collection_selection(
        collection: *mut mezulobu_collection,
        choices: *mut u8,
        n: *mut usize,
    ) -> c_int;
    /// Who is in the way, where check says INTERSECTION_EMPTY of a domain without groups that isn't
    /// attached. DONE: why, as a negotiation of its participants has it, in the order in which their
    /// nodes were made, but that **who is the number of a node**. NO: it isn't so, and
    /// mezulobu_collection_explain tells more. NO_MEMORY.
    pub fn mezulobu_collection_refusal(
        collection: *mut mezulobu_collection,
        why: *mut mezulobu_refusal,
    ) -> c_int;
    /// All calls of the whole collection that were done so far, as a script, and what proves its
    /// decisions. Texts, with their sizes, TOO_SMALL and NO_MEMORY as of mezulobu_run's; certificate and
    /// certificate_size may be null. Between two calls a text may grow, and TOO_SMALL come again: so
    /// make room and call until it doesn't. Both are of one moment. mezulobu_run accepts each of its
    /// calls and decides the same, and mezulobu_check says yes to the certificate; but a decision that
    /// had no memory is made by mezulobu_run, calls behind it may be refused, and mezulobu_check says
    /// no. The actor of a call is the node on which it is made, where that has a name and there are 15
    /// names at most. REFUSED: the script would be longer than a script may be; each size is 0. What
    /// isn't in it: calls that were refused, check and wait. Of two scripts the later one begins with
    /// the calls of the earlier one, under the names of its own moment.
    pub fn mezulobu_collection_script(
        collection: *mut mezulobu_collection,
        text: *mut c_char,
        text_size: *mut usize,
        certificate: *mut c_void,
        certificate_size: *mut usize,
    ) -> c_int;
    /// mezulobu_explain of the script, and mezulobu_explain_json, with "collection" for its file: who is
    /// awaited, what decided each value, who is in the way and which changes help. Of a decision that
    /// had no memory it says what it would be. A text, with its size, TOO_SMALL, again and again as of
    /// mezulobu_collection_script, and NO_MEMORY. REFUSED: there is no such script, which would be too
    /// long, and the size is 0.
    pub fn mezulobu_collection_explain(
        collection: *mut mezulobu_collection,
        text: *mut c_char,
        text_size: *mut usize,
    ) -> c_int;
    pub fn mezulobu_collection_explain_json(
        collection: *mut mezulobu_collection,
        text: *mut c_char,
        text_size: *mut usize,
    ) -> c_int;
}
