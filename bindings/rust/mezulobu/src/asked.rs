//! What the caller states: the platform, and what each participant asks for. A number that is 0 says
//! nothing, as in `mezulobu.h`.
use crate::{Color, Usage};
use mezulobu_sys as sys;
use std::fmt::{self, Write};
use std::mem::size_of;

/// A DRM format.
#[derive(Clone, Copy, PartialEq, Eq, Hash)]
pub struct Format(pub u32);

impl Format {
    /// The format of four letters, as `*b"NV12"`.
    pub const fn new(letters: [u8; 4]) -> Self {
        Self(u32::from_le_bytes(letters))
    }
}

/// Its four letters; of others than letters, digits and the like the number.
impl fmt::Display for Format {
    fn fmt(&self, f: &mut fmt::Formatter<'_>) -> fmt::Result {
        let letters = self.0.to_le_bytes();
        if letters.iter().all(|it| (b' '..=b'~').contains(it)) {
            letters
                .iter()
                .try_for_each(|it| f.write_char(char::from(*it)))
        } else {
            write!(f, "{:#x}", self.0)
        }
    }
}

impl fmt::Debug for Format {
    fn fmt(&self, f: &mut fmt::Formatter<'_>) -> fmt::Result {
        write!(f, "Format({self})")
    }
}

/// A width and a height in pixels.
#[derive(Clone, Copy, Debug, Default, PartialEq, Eq)]
pub struct Size {
    pub width: u32,
    pub height: u32,
}

impl Size {
    pub const fn new(width: u32, height: u32) -> Self {
        Self { width, height }
    }

    fn flat(self) -> sys::mezulobu_size {
        sys::mezulobu_size {
            width: self.width,
            height: self.height,
        }
    }
}

/// A heap, which is named by its index on the platform. At least one of the three coherency domains
/// is true.
#[derive(Clone, Copy, Debug, Default, PartialEq, Eq)]
pub struct Heap {
    pub contiguous: bool,
    pub secure: bool,
    pub cpu: bool,
    pub ram: bool,
    pub inaccessible: bool,
}

impl Heap {
    fn flat(&self) -> sys::mezulobu_heap {
        sys::mezulobu_heap {
            contiguous: self.contiguous,
            secure: self.secure,
            cpu: self.cpu,
            ram: self.ram,
            inaccessible: self.inaccessible,
        }
    }
}

/// A format in a modifier, `DRM_FORMAT_MOD_*`, of which 0 is linear.
#[derive(Clone, Copy, Debug, PartialEq, Eq)]
pub struct Pair {
    pub format: Format,
    pub modifier: u64,
}

impl Pair {
    /// A format in rows.
    pub const fn linear(format: Format) -> Self {
        Self {
            format,
            modifier: 0,
        }
    }
}

/// What the allocator offers. Each list is in the order of preference, isn't empty, and has no item
/// twice; there are at most 64 heaps.
#[derive(Clone, Debug, PartialEq, Eq)]
pub struct Platform {
    pub heaps: Vec<Heap>,
    pub pairs: Vec<Pair>,
    /// One colour space each.
    pub colors: Vec<Color>,
}

/// One image format that a participant takes, and its bounds on such images. Behind a field stands the
/// name that scripts, refusals and explanations have for it, where it is another.
#[derive(Clone, Debug, PartialEq, Eq)]
pub struct Entry {
    /// `None` is any.
    pub format: Option<Format>,
    /// `None` is any.
    pub modifier: Option<u64>,
    /// A set, not empty.
    pub colors: Color,
    /// `require_bytes_per_row_at_pixel_boundary`.
    pub rows_end_at_pixels: bool,
    pub min_size: Size,
    /// With all that alignments add, those of others too: who has one mode alone states it as `min_size`.
    pub max_size: Size,
    pub size_alignment: Size,
    /// Of a row, in bytes: `min_bytes_per_row`.
    pub min_pitch: u32,
    /// `max_bytes_per_row`.
    pub max_pitch: u32,
    /// `bytes_per_row_divisor`.
    pub pitch_divisor: u32,
    /// `start_offset_divisor`.
    pub offset_divisor: u32,
    pub display_rect_alignment: Size,
    /// Of what the participant will put into the images: all have to take such images.
    pub required_min_size: Size,
    pub required_max_size: Size,
    /// `max_width_times_height`.
    pub max_pixels: u64,
}

impl Entry {
    /// An entry for images in rows, without bounds.
    pub fn new(format: Format, colors: Color) -> Self {
        Self {
            format: Some(format),
            modifier: Some(0),
            colors,
            rows_end_at_pixels: false,
            min_size: Size::default(),
            max_size: Size::default(),
            size_alignment: Size::default(),
            min_pitch: 0,
            max_pitch: 0,
            pitch_divisor: 0,
            offset_divisor: 0,
            display_rect_alignment: Size::default(),
            required_min_size: Size::default(),
            required_max_size: Size::default(),
            max_pixels: 0,
        }
    }

    fn flat(&self) -> sys::mezulobu_entry {
        sys::mezulobu_entry {
            struct_size: size_of::<sys::mezulobu_entry>(),
            modifier: self.modifier.unwrap_or(0),
            format: self.format.map_or(0, |it| it.0),
            colors: self.colors.0,
            any_format: self.format.is_none(),
            any_modifier: self.modifier.is_none(),
            rows_end_at_pixels: self.rows_end_at_pixels,
            min_size: self.min_size.flat(),
            max_size: self.max_size.flat(),
            size_alignment: self.size_alignment.flat(),
            min_pitch: self.min_pitch,
            max_pitch: self.max_pitch,
            pitch_divisor: self.pitch_divisor,
            offset_divisor: self.offset_divisor,
            display_rect_alignment: self.display_rect_alignment.flat(),
            required_min_size: self.required_min_size.flat(),
            required_max_size: self.required_max_size.flat(),
            max_pixels: self.max_pixels,
        }
    }
}

/// What a participant asks for. Without entries it takes every offer. Behind a field stands the name
/// that scripts, refusals and explanations have for it.
#[derive(Clone, Debug, Default, PartialEq, Eq)]
pub struct Participant {
    pub usage: Usage,
    /// What the heap must be: `physically_contiguous_required`.
    pub contiguous: bool,
    /// `secure_required`.
    pub secure: bool,
    /// The coherency domains that it takes, and no other; where none is true, cpu. A script's record
    /// takes cpu too, unless it says no. `cpu_domain_supported`.
    pub cpu: bool,
    /// `ram_domain_supported`.
    pub ram: bool,
    /// `inaccessible_domain_supported`.
    pub inaccessible: bool,
    /// How many buffers it holds at one time; all are added: `min_buffer_count_for_camping`.
    pub camping: u32,
    /// More for itself alone; added too: `min_buffer_count_for_dedicated_slack`.
    pub dedicated_slack: u32,
    /// Spare ones for all; the greatest is added: `min_buffer_count_for_shared_slack`.
    pub shared_slack: u32,
    /// How many there are in all: `min_buffer_count`.
    pub min_count: u32,
    /// `max_buffer_count`.
    pub max_count: u32,
    /// Of a buffer: `min_size_bytes`.
    pub min_bytes: u64,
    /// `max_size_bytes`.
    pub max_bytes: u64,
    /// Bit i: heap i is permitted; 0 permits each. `permitted_heaps`.
    pub heaps: u64,
    pub entries: Vec<Entry>,
}

impl Participant {
    /// One who uses the buffers so, and asks for nothing more.
    pub fn new(usage: Usage) -> Self {
        Self {
            usage,
            ..Self::default()
        }
    }

    fn flat(&self, entries: &[sys::mezulobu_entry]) -> sys::mezulobu_participant {
        sys::mezulobu_participant {
            struct_size: size_of::<sys::mezulobu_participant>(),
            // A bit above would state another usage: all bits are set in its place, which is refused.
            usage: u8::try_from(self.usage.0).unwrap_or(u8::MAX),
            contiguous: self.contiguous,
            secure: self.secure,
            cpu: self.cpu,
            ram: self.ram,
            inaccessible: self.inaccessible,
            camping: self.camping,
            dedicated_slack: self.dedicated_slack,
            shared_slack: self.shared_slack,
            min_count: self.min_count,
            max_count: self.max_count,
            min_bytes: self.min_bytes,
            max_bytes: self.max_bytes,
            heaps: self.heaps,
            entries: entries.as_ptr(),
            n_entries: entries.len(),
        }
    }
}

/// A platform as the library reads it, while the lists that it points to are kept.
pub(crate) struct FlatPlatform {
    _heaps: Vec<sys::mezulobu_heap>,
    _pairs: Vec<sys::mezulobu_pair>,
    _colors: Vec<u32>,
    pub(crate) flat: sys::mezulobu_platform,
}

impl FlatPlatform {
    pub(crate) fn of(platform: &Platform) -> Self {
        let heaps: Vec<_> = platform.heaps.iter().map(Heap::flat).collect();
        let pair = |it: &Pair| sys::mezulobu_pair {
            modifier: it.modifier,
            format: it.format.0,
            reserved: 0,
        };
        let pairs: Vec<_> = platform.pairs.iter().map(pair).collect();
        let colors: Vec<_> = platform.colors.iter().map(|it| it.0).collect();
        let flat = sys::mezulobu_platform {
            struct_size: size_of::<sys::mezulobu_platform>(),
            heaps: heaps.as_ptr(),
            n_heaps: heaps.len(),
            pairs: pairs.as_ptr(),
            n_pairs: pairs.len(),
            colors: colors.as_ptr(),
            n_colors: colors.len(),
        };
        Self {
            _heaps: heaps,
            _pairs: pairs,
            _colors: colors,
            flat,
        }
    }
}

/// Participants as the library reads them, while the entries that they point to are kept.
pub(crate) struct FlatParticipants {
    _entries: Vec<Vec<sys::mezulobu_entry>>,
    pub(crate) flat: Vec<sys::mezulobu_participant>,
}

impl FlatParticipants {
    pub(crate) fn of(participants: &[Participant]) -> Self {
        let entries = |it: &Participant| it.entries.iter().map(Entry::flat).collect();
        let entries: Vec<Vec<_>> = participants.iter().map(entries).collect();
        let both = participants.iter().zip(&entries);
        let flat = both.map(|(it, entries)| it.flat(entries)).collect();
        Self {
            _entries: entries,
            flat,
        }
    }
}
