//! Settings and refusals that were worked out by hand.
use mezulobu::{
    negotiate, planes, version, Amiss, Coherency, Color, Conflict, Entry, Error, Field, Format,
    Heap, Kind, Layout, Pair, Participant, Plane, Platform, Size, Status, Usage, Whose,
};

const NV12: Format = Format::new(*b"NV12");
const ABGR8888: Format = Format::new(*b"AB24");

fn heap(contiguous: bool) -> Heap {
    Heap {
        contiguous,
        cpu: true,
        ram: true,
        ..Heap::default()
    }
}

fn platform() -> Platform {
    Platform {
        heaps: vec![heap(false), heap(true)],
        pairs: vec![Pair::linear(ABGR8888), Pair::linear(NV12)],
        colors: vec![Color::SRGB, Color::REC709],
    }
}

fn nv12() -> Entry {
    Entry::new(NV12, Color::REC709)
}

fn camera() -> Participant {
    let captured = Entry {
        min_size: Size::new(1440, 1080),
        pitch_divisor: 64,
        ..nv12()
    };
    Participant {
        contiguous: true,
        cpu: true,
        ram: true,
        camping: 4,
        entries: vec![captured],
        ..Participant::new(Usage::VIDEO)
    }
}

fn encoder(encoded: Entry) -> Participant {
    Participant {
        ram: true,
        camping: 3,
        dedicated_slack: 1,
        entries: vec![encoded],
        ..Participant::new(Usage::VIDEO)
    }
}

fn display() -> Participant {
    let shown = [
        Entry::new(ABGR8888, Color::SRGB),
        Entry::new(NV12, Color::REC709 | Color::REC2020),
    ];
    Participant {
        cpu: true,
        ram: true,
        camping: 2,
        entries: shown.to_vec(),
        ..Participant::new(Usage::DISPLAY)
    }
}

/// 4 + 3 + 1 + 2 buffers in the contiguous heap; 1440 is a multiple of 16, 1080 rises to 1088, and a row
/// of 1440 bytes to 1472.
#[test]
fn camera_encoder_and_display() {
    let encoded = Entry {
        max_size: Size::new(4096, 2304),
        size_alignment: Size::new(16, 16),
        ..nv12()
    };
    let all = [camera(), encoder(encoded), display()];
    let settings = negotiate(&platform(), &all).unwrap();
    assert_eq!((settings.count, settings.bytes), (10, 2_402_304));
    assert_eq!((settings.heap, settings.coherency), (1, Coherency::RAM));
    let image = settings.image.unwrap();
    assert_eq!(
        (image.format, image.modifier, image.color),
        (NV12, 0, Color::REC709)
    );
    assert_eq!((image.width, image.height), (1440, 1088));
    let wanted = planes_of_nv12(1472, 1088);
    assert_eq!(image.layout, wanted);
    assert_eq!(planes(NV12, 0, 1472, 1088), Some(wanted));
}

/// Rows of all pixels, and half as many of the pairs of colours.
fn planes_of_nv12(pitch: u32, height: u32) -> Layout {
    let (bytes, rows) = (u64::from(pitch) * u64::from(height), u64::from(height));
    let plane = |offset, rows| Plane {
        offset,
        rows,
        pitch,
    };
    Layout {
        bytes: bytes + bytes / 2,
        planes: vec![plane(0, rows), plane(bytes, rows / 2)],
    }
}

#[test]
fn nobody_gets_one_buffer_of_one_byte() {
    let settings = negotiate(&platform(), &[]).unwrap();
    assert_eq!(
        (settings.count, settings.bytes, settings.image),
        (1, 1, None)
    );
}

#[test]
fn an_encoder_of_small_images_is_in_the_way() {
    let small = Entry {
        max_size: Size::new(640, 480),
        ..nv12()
    };
    let wanted = Conflict {
        kind: Kind::OFFERS,
        who: Some(1),
        is_node: false,
        field: Field::MAX_SIZE,
        alone: false,
        place: Some((1, Coherency::CPU)),
        offer: Some((NV12, 0, Color::REC709)),
    };
    let error = negotiate(&platform(), &[camera(), encoder(small)]).unwrap_err();
    assert_eq!(error, Error::NoSettings(wanted));
    assert_eq!(
        error.to_string(),
        "no settings: participant 1 is in the way by max_size"
    );
}

#[test]
fn a_camera_of_another_format_gets_nothing_even_alone() {
    let yv12 = Entry::new(Format::new(*b"YV12"), Color::REC709);
    let error = negotiate(&platform(), &[encoder(yv12)]).unwrap_err();
    match &error {
        Error::NoSettings(it) => {
            let found = (it.who, it.field, it.alone, it.kind);
            assert_eq!(found, (Some(0), Field::PIXEL_FORMAT, true, Kind::OFFERS));
        }
        other => panic!("{other:?}"),
    }
    assert!(error.to_string().ends_with("by pixel_format, even alone"));
}

#[test]
fn what_cannot_be_meant_is_refused() {
    let refused = |platform: &Platform, list: &[Participant]| match negotiate(platform, list) {
        Err(Error::Refused(Amiss { whose, field, .. })) => (whose, field),
        other => panic!("{other:?}"),
    };
    let unused = refused(&platform(), &[camera(), Participant::default()]);
    assert_eq!(unused, (Whose::Participant(1), Field::USAGE));
    let no_heaps = Platform {
        heaps: vec![],
        ..platform()
    };
    assert_eq!(refused(&no_heaps, &[]), (Whose::Platform, Field::HEAPS));
    let many = vec![Participant::new(Usage::CPU); 1025];
    assert_eq!(refused(&platform(), &many).0, Whose::List);
}

/// Any format and any modifier are states of an entry, and no numbers.
#[test]
fn any_format_is_left_to_the_others() {
    let any = Entry {
        format: None,
        modifier: None,
        ..nv12()
    };
    let settings = negotiate(&platform(), &[encoder(any), camera()]).unwrap();
    assert_eq!(settings.image.unwrap().format, NV12);
}

#[test]
fn names_are_those_of_the_library() {
    assert_eq!(Field::MAX_SIZE.name(), "max_size");
    assert_eq!(Status::TOO_SMALL.to_string(), "TOO_SMALL");
    assert_eq!(
        format!("{:?}", Color::SRGB | Color::REC709),
        "Color(SRGB | REC709)"
    );
    assert_eq!(format!("{:?}", Kind::COUNT), "COUNT");
    assert_eq!(version().0, 1);
    assert_eq!(planes(Format(0), 0, 64, 64), None);
}

#[test]
fn a_format_prints_as_its_letters() {
    let told = |it: Format| (it.to_string(), format!("{it:?}"));
    let wanted = |it: &str| (it.to_owned(), format!("Format({it})"));
    assert_eq!(told(Format::new(*b"NV12")), wanted("NV12"));
    assert_eq!(told(Format::new(*b"R8  ")), wanted("R8  "));
    assert_eq!(told(Format(1)), wanted("0x1"));
}
