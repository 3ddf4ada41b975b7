//! Every struct's size and alignment, every member's offset and size, and every number are those that
//! a C compiler finds in the installed header. Written by `bindings/generate`.
mod common;

use common::{align_of, same_as_in_c, size_of_member, structs};
use mezulobu_sys::*;
use std::fmt::Write;
use std::mem::{size_of, MaybeUninit};
use std::ptr::addr_of;

#[test]
fn layouts_are_those_of_c() {
    let mut told = String::new();
    structs! { told;
        mezulobu_size {
            width,
            height,
        }
        mezulobu_heap {
            contiguous,
            secure,
            cpu,
            ram,
            inaccessible,
        }
        mezulobu_pair {
            modifier,
            format,
            reserved,
        }
        mezulobu_platform {
            struct_size,
            heaps,
            n_heaps,
            pairs,
            n_pairs,
            colors,
            n_colors,
        }
        mezulobu_entry {
            struct_size,
            modifier,
            format,
            colors,
            any_format,
            any_modifier,
            rows_end_at_pixels,
            min_size,
            max_size,
            size_alignment,
            min_pitch,
            max_pitch,
            pitch_divisor,
            offset_divisor,
            display_rect_alignment,
            required_min_size,
            required_max_size,
            max_pixels,
        }
        mezulobu_participant {
            struct_size,
            usage,
            contiguous,
            secure,
            cpu,
            ram,
            inaccessible,
            camping,
            dedicated_slack,
            shared_slack,
            min_count,
            max_count,
            min_bytes,
            max_bytes,
            heaps,
            entries,
            n_entries,
        }
        mezulobu_plane {
            offset,
            rows,
            pitch,
            reserved,
        }
        mezulobu_layout {
            bytes,
            n_planes,
            reserved,
            planes,
        }
        mezulobu_image {
            modifier,
            format,
            color,
            width,
            height,
            layout,
        }
        mezulobu_settings {
            struct_size,
            bytes,
            heap,
            count,
            coherency,
            image,
        }
        mezulobu_refusal {
            struct_size,
            who,
            index,
            heap,
            modifier,
            format,
            color,
            coherency,
            kind,
            field,
            alone,
        }
    }
    writeln!(told, "MEZULOBU_DONE {}", MEZULOBU_DONE).unwrap();
    writeln!(told, "MEZULOBU_MISUSED {}", MEZULOBU_MISUSED).unwrap();
    writeln!(told, "MEZULOBU_REFUSED {}", MEZULOBU_REFUSED).unwrap();
    writeln!(told, "MEZULOBU_NO_MEMORY {}", MEZULOBU_NO_MEMORY).unwrap();
    writeln!(told, "MEZULOBU_TOO_SMALL {}", MEZULOBU_TOO_SMALL).unwrap();
    writeln!(told, "MEZULOBU_NO {}", MEZULOBU_NO).unwrap();
    writeln!(told, "MEZULOBU_WRONG_STATE {}", MEZULOBU_WRONG_STATE).unwrap();
    writeln!(told, "MEZULOBU_TOO_MANY_NODES {}", MEZULOBU_TOO_MANY_NODES).unwrap();
    writeln!(told, "MEZULOBU_NO_CHILDREN {}", MEZULOBU_NO_CHILDREN).unwrap();
    writeln!(told, "MEZULOBU_NOT_SELECTED {}", MEZULOBU_NOT_SELECTED).unwrap();
    writeln!(told, "MEZULOBU_DOMAIN_FAILED {}", MEZULOBU_DOMAIN_FAILED).unwrap();
    writeln!(told, "MEZULOBU_INTERSECTION_EMPTY {}", MEZULOBU_INTERSECTION_EMPTY).unwrap();
    writeln!(told, "MEZULOBU_TOO_MANY_SELECTIONS {}", MEZULOBU_TOO_MANY_SELECTIONS).unwrap();
    writeln!(told, "MEZULOBU_PENDING {}", MEZULOBU_PENDING).unwrap();
    writeln!(told, "MEZULOBU_STRANGE {}", MEZULOBU_STRANGE).unwrap();
    writeln!(told, "MEZULOBU_USE_NONE {}", MEZULOBU_USE_NONE).unwrap();
    writeln!(told, "MEZULOBU_USE_CPU {}", MEZULOBU_USE_CPU).unwrap();
    writeln!(told, "MEZULOBU_USE_VULKAN {}", MEZULOBU_USE_VULKAN).unwrap();
    writeln!(told, "MEZULOBU_USE_DISPLAY {}", MEZULOBU_USE_DISPLAY).unwrap();
    writeln!(told, "MEZULOBU_USE_VIDEO {}", MEZULOBU_USE_VIDEO).unwrap();
    writeln!(told, "MEZULOBU_SRGB {}", MEZULOBU_SRGB).unwrap();
    writeln!(told, "MEZULOBU_REC601_NTSC {}", MEZULOBU_REC601_NTSC).unwrap();
    writeln!(told, "MEZULOBU_REC601_NTSC_FULL_RANGE {}", MEZULOBU_REC601_NTSC_FULL_RANGE).unwrap();
    writeln!(told, "MEZULOBU_REC601_PAL {}", MEZULOBU_REC601_PAL).unwrap();
    writeln!(told, "MEZULOBU_REC601_PAL_FULL_RANGE {}", MEZULOBU_REC601_PAL_FULL_RANGE).unwrap();
    writeln!(told, "MEZULOBU_REC709 {}", MEZULOBU_REC709).unwrap();
    writeln!(told, "MEZULOBU_REC2020 {}", MEZULOBU_REC2020).unwrap();
    writeln!(told, "MEZULOBU_REC2100 {}", MEZULOBU_REC2100).unwrap();
    writeln!(told, "MEZULOBU_COLOR_DO_NOT_CARE {}", MEZULOBU_COLOR_DO_NOT_CARE).unwrap();
    writeln!(told, "MEZULOBU_COHERENT_CPU {}", MEZULOBU_COHERENT_CPU).unwrap();
    writeln!(told, "MEZULOBU_COHERENT_RAM {}", MEZULOBU_COHERENT_RAM).unwrap();
    writeln!(told, "MEZULOBU_COHERENT_INACCESSIBLE {}", MEZULOBU_COHERENT_INACCESSIBLE).unwrap();
    writeln!(told, "MEZULOBU_KIND_PLATFORM {}", MEZULOBU_KIND_PLATFORM).unwrap();
    writeln!(told, "MEZULOBU_KIND_PARTICIPANT {}", MEZULOBU_KIND_PARTICIPANT).unwrap();
    writeln!(told, "MEZULOBU_KIND_TOO_MANY {}", MEZULOBU_KIND_TOO_MANY).unwrap();
    writeln!(told, "MEZULOBU_KIND_COUNT {}", MEZULOBU_KIND_COUNT).unwrap();
    writeln!(told, "MEZULOBU_KIND_PLACES {}", MEZULOBU_KIND_PLACES).unwrap();
    writeln!(told, "MEZULOBU_KIND_OFFERS {}", MEZULOBU_KIND_OFFERS).unwrap();
    writeln!(told, "MEZULOBU_FIELD_NONE {}", MEZULOBU_FIELD_NONE).unwrap();
    writeln!(told, "MEZULOBU_FIELD_USAGE {}", MEZULOBU_FIELD_USAGE).unwrap();
    writeln!(told, "MEZULOBU_FIELD_MIN_BUFFER_COUNT_FOR_CAMPING {}", MEZULOBU_FIELD_MIN_BUFFER_COUNT_FOR_CAMPING).unwrap();
    writeln!(told, "MEZULOBU_FIELD_MIN_BUFFER_COUNT_FOR_DEDICATED_SLACK {}", MEZULOBU_FIELD_MIN_BUFFER_COUNT_FOR_DEDICATED_SLACK).unwrap();
    writeln!(told, "MEZULOBU_FIELD_MIN_BUFFER_COUNT_FOR_SHARED_SLACK {}", MEZULOBU_FIELD_MIN_BUFFER_COUNT_FOR_SHARED_SLACK).unwrap();
    writeln!(told, "MEZULOBU_FIELD_MIN_BUFFER_COUNT {}", MEZULOBU_FIELD_MIN_BUFFER_COUNT).unwrap();
    writeln!(told, "MEZULOBU_FIELD_MAX_BUFFER_COUNT {}", MEZULOBU_FIELD_MAX_BUFFER_COUNT).unwrap();
    writeln!(told, "MEZULOBU_FIELD_BUFFER_MEMORY_CONSTRAINTS {}", MEZULOBU_FIELD_BUFFER_MEMORY_CONSTRAINTS).unwrap();
    writeln!(told, "MEZULOBU_FIELD_IMAGE_FORMAT_CONSTRAINTS {}", MEZULOBU_FIELD_IMAGE_FORMAT_CONSTRAINTS).unwrap();
    writeln!(told, "MEZULOBU_FIELD_MIN_SIZE_BYTES {}", MEZULOBU_FIELD_MIN_SIZE_BYTES).unwrap();
    writeln!(told, "MEZULOBU_FIELD_MAX_SIZE_BYTES {}", MEZULOBU_FIELD_MAX_SIZE_BYTES).unwrap();
    writeln!(told, "MEZULOBU_FIELD_PHYSICALLY_CONTIGUOUS_REQUIRED {}", MEZULOBU_FIELD_PHYSICALLY_CONTIGUOUS_REQUIRED).unwrap();
    writeln!(told, "MEZULOBU_FIELD_SECURE_REQUIRED {}", MEZULOBU_FIELD_SECURE_REQUIRED).unwrap();
    writeln!(told, "MEZULOBU_FIELD_CPU_DOMAIN_SUPPORTED {}", MEZULOBU_FIELD_CPU_DOMAIN_SUPPORTED).unwrap();
    writeln!(told, "MEZULOBU_FIELD_RAM_DOMAIN_SUPPORTED {}", MEZULOBU_FIELD_RAM_DOMAIN_SUPPORTED).unwrap();
    writeln!(told, "MEZULOBU_FIELD_INACCESSIBLE_DOMAIN_SUPPORTED {}", MEZULOBU_FIELD_INACCESSIBLE_DOMAIN_SUPPORTED).unwrap();
    writeln!(told, "MEZULOBU_FIELD_PERMITTED_HEAPS {}", MEZULOBU_FIELD_PERMITTED_HEAPS).unwrap();
    writeln!(told, "MEZULOBU_FIELD_PIXEL_FORMAT {}", MEZULOBU_FIELD_PIXEL_FORMAT).unwrap();
    writeln!(told, "MEZULOBU_FIELD_PIXEL_FORMAT_MODIFIER {}", MEZULOBU_FIELD_PIXEL_FORMAT_MODIFIER).unwrap();
    writeln!(told, "MEZULOBU_FIELD_PIXEL_FORMAT_AND_MODIFIERS {}", MEZULOBU_FIELD_PIXEL_FORMAT_AND_MODIFIERS).unwrap();
    writeln!(told, "MEZULOBU_FIELD_COLOR_SPACES {}", MEZULOBU_FIELD_COLOR_SPACES).unwrap();
    writeln!(told, "MEZULOBU_FIELD_MIN_SIZE {}", MEZULOBU_FIELD_MIN_SIZE).unwrap();
    writeln!(told, "MEZULOBU_FIELD_MAX_SIZE {}", MEZULOBU_FIELD_MAX_SIZE).unwrap();
    writeln!(told, "MEZULOBU_FIELD_SIZE_ALIGNMENT {}", MEZULOBU_FIELD_SIZE_ALIGNMENT).unwrap();
    writeln!(told, "MEZULOBU_FIELD_MIN_BYTES_PER_ROW {}", MEZULOBU_FIELD_MIN_BYTES_PER_ROW).unwrap();
    writeln!(told, "MEZULOBU_FIELD_MAX_BYTES_PER_ROW {}", MEZULOBU_FIELD_MAX_BYTES_PER_ROW).unwrap();
    writeln!(told, "MEZULOBU_FIELD_BYTES_PER_ROW_DIVISOR {}", MEZULOBU_FIELD_BYTES_PER_ROW_DIVISOR).unwrap();
    writeln!(told, "MEZULOBU_FIELD_START_OFFSET_DIVISOR {}", MEZULOBU_FIELD_START_OFFSET_DIVISOR).unwrap();
    writeln!(told, "MEZULOBU_FIELD_DISPLAY_RECT_ALIGNMENT {}", MEZULOBU_FIELD_DISPLAY_RECT_ALIGNMENT).unwrap();
    writeln!(told, "MEZULOBU_FIELD_REQUIRED_MIN_SIZE {}", MEZULOBU_FIELD_REQUIRED_MIN_SIZE).unwrap();
    writeln!(told, "MEZULOBU_FIELD_REQUIRED_MAX_SIZE {}", MEZULOBU_FIELD_REQUIRED_MAX_SIZE).unwrap();
    writeln!(told, "MEZULOBU_FIELD_MAX_WIDTH_TIMES_HEIGHT {}", MEZULOBU_FIELD_MAX_WIDTH_TIMES_HEIGHT).unwrap();
    writeln!(told, "MEZULOBU_FIELD_REQUIRE_BYTES_PER_ROW_AT_PIXEL_BOUNDARY {}", MEZULOBU_FIELD_REQUIRE_BYTES_PER_ROW_AT_PIXEL_BOUNDARY).unwrap();
    writeln!(told, "MEZULOBU_FIELD_BUFFER_COUNT_LIMIT {}", MEZULOBU_FIELD_BUFFER_COUNT_LIMIT).unwrap();
    writeln!(told, "MEZULOBU_FIELD_UNNAMED_PIXEL_FORMAT {}", MEZULOBU_FIELD_UNNAMED_PIXEL_FORMAT).unwrap();
    writeln!(told, "MEZULOBU_FIELD_UNNAMED_PIXEL_FORMAT_MODIFIER {}", MEZULOBU_FIELD_UNNAMED_PIXEL_FORMAT_MODIFIER).unwrap();
    writeln!(told, "MEZULOBU_FIELD_UNNAMED_COLOR_SPACE {}", MEZULOBU_FIELD_UNNAMED_COLOR_SPACE).unwrap();
    writeln!(told, "MEZULOBU_FIELD_HEAPS {}", MEZULOBU_FIELD_HEAPS).unwrap();
    writeln!(told, "MEZULOBU_FIELD_PAIRS {}", MEZULOBU_FIELD_PAIRS).unwrap();
    writeln!(told, "MEZULOBU_FIELD_HEAP_TYPE {}", MEZULOBU_FIELD_HEAP_TYPE).unwrap();
    writeln!(told, "MEZULOBU_FIELD_ID {}", MEZULOBU_FIELD_ID).unwrap();
    writeln!(told, "MEZULOBU_FIELD_CONTIGUOUS {}", MEZULOBU_FIELD_CONTIGUOUS).unwrap();
    writeln!(told, "MEZULOBU_FIELD_SECURE {}", MEZULOBU_FIELD_SECURE).unwrap();
    writeln!(told, "MEZULOBU_FIELD_DOMAINS {}", MEZULOBU_FIELD_DOMAINS).unwrap();
    writeln!(told, "MEZULOBU_VERSION {}", MEZULOBU_VERSION).unwrap();
    writeln!(told, "MEZULOBU_NOBODY {}", MEZULOBU_NOBODY).unwrap();
    same_as_in_c(&told);
}
