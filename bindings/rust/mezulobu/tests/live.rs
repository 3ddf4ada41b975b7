//! Collections that live, beside what a run of the script that they write decides.
use mezulobu::live::{Allocator, CallRefused, Collection, Fault, Set, Why};
use mezulobu::{
    check, run, Amiss, Color, Conflict, Entry, Field, Format, Heap, Kind, Pair, Participant,
    Platform, Size, Status, Usage, Whose,
};
use std::sync::mpsc;
use std::thread;
use std::time::Duration;

const NV12: Format = Format::new(*b"NV12");
const NO_USAGE: &str = "S5 usage
 --> record:1:10: usage
  |
1 | {\"usage\":[]}
  |          ^^ the list is empty
  = allowed: a list of none alone, or of one or more of cpu, vulkan, display and video";

fn platform() -> Platform {
    let heap = Heap {
        cpu: true,
        ram: true,
        ..Heap::default()
    };
    Platform {
        heaps: vec![heap],
        pairs: vec![Pair::linear(NV12)],
        colors: vec![Color::REC709],
    }
}

fn asked(camping: u32, max_size: Size) -> Participant {
    let entry = Entry {
        min_size: Size::new(64, 64),
        max_size,
        ..Entry::new(NV12, Color::REC709)
    };
    Participant {
        camping,
        entries: vec![entry],
        ..Participant::new(Usage::VIDEO)
    }
}

/// Two collections of one that is made, and whose root is released.
fn both() -> [Collection; 2] {
    let root = Allocator::new(&platform())
        .unwrap()
        .allocate_shared()
        .unwrap();
    let [one, other] = [(); 2].map(|()| root.duplicate().unwrap());
    root.release().unwrap();
    [one.bind().unwrap(), other.bind().unwrap()]
}

/// What is written is run to the same decision, and the certificate is right for it.
fn is_written(of: &Collection<Set>, decision: &str) {
    let (script, certificate) = of.script_with_certificate().unwrap();
    assert_eq!(of.script().unwrap(), script);
    let report = run(script.as_bytes()).unwrap();
    assert!(report.contains(decision), "{report}");
    assert!(check(script.as_bytes(), &certificate).unwrap().is_right);
}

#[test]
fn a_thread_waits_for_the_other() {
    let [camera, encoder] = both();
    camera.set_name("camera").unwrap();
    let camera = camera
        .set_constraints(Some(&asked(2, Size::default())))
        .unwrap();
    assert_eq!(camera.check(), Ok(None));
    assert_eq!(camera.wait(Some(Duration::from_millis(1))), Ok(None));
    let (said, heard) = mpsc::channel();
    let waiting = thread::spawn(move || {
        said.send(()).unwrap();
        let settings = camera.wait(None).unwrap().unwrap();
        assert_eq!(camera.check(), Ok(Some(settings.clone())));
        is_written(&camera, "domain / chosen - count 5 ");
        assert_eq!(
            (camera.node(), camera.name_of(1)),
            (1, Ok("camera".to_owned()))
        );
        assert_eq!(camera.name().unwrap(), "camera");
        assert_eq!(
            camera.name_of(9).unwrap_err().to_string(),
            "name_of of camera: misused: there is no node of that number"
        );
        assert!(camera.explain().unwrap().contains("camera"));
        assert!(camera.explain_json().unwrap().starts_with('{'));
        assert_eq!(camera.selection(), Ok(vec![]));
        camera.release().unwrap();
        settings
    });
    heard.recv().unwrap();
    let encoder = encoder
        .set_constraints(Some(&asked(3, Size::default())))
        .unwrap();
    let settings = waiting.join().unwrap();
    assert_eq!((settings.count, settings.bytes), (5, 64 * 64 * 3 / 2));
    assert_eq!(encoder.check(), Ok(Some(settings)));
}

#[test]
fn who_is_dropped_too_early_fails_the_domain() {
    let [camera, encoder] = both();
    drop(encoder);
    assert_eq!(camera.check().unwrap_err().status(), Status::DOMAIN_FAILED);
    let refused = camera.set_constraints(None).unwrap_err();
    let wanted = CallRefused {
        call: "set_constraints",
        node: Some("n1".to_owned()),
        why: Why::Status(Status::DOMAIN_FAILED),
    };
    assert_eq!(refused.error, wanted);
    let told = "set_constraints of n1: E6 DomainFailed: the domain failed (somebody closed too early, or what it was attached to has no settings), or no settings were chosen; explain says which";
    assert_eq!(refused.to_string(), told);
    refused.handle.close();
}

#[test]
fn who_is_in_the_way_is_told_by_its_node() {
    let [camera, encoder] = both();
    let camera = camera
        .set_constraints(Some(&asked(1, Size::default())))
        .unwrap();
    let encoder = encoder
        .set_constraints(Some(&asked(1, Size::new(32, 32))))
        .unwrap();
    let told = "check of n1: E7 ConstraintsIntersectionEmpty: no settings meet everybody; explain says who is in the way";
    assert_eq!(camera.check().unwrap_err().to_string(), told);
    assert_eq!(
        camera.wait(None).unwrap_err().status(),
        Status::INTERSECTION_EMPTY
    );
    let conflict = encoder.refusal().unwrap().unwrap();
    let wanted = (
        Some(encoder.node() as usize),
        Field::MAX_SIZE,
        Kind::OFFERS,
        true,
    );
    let told = format!(
        "node {} is in the way by max_size, even alone",
        encoder.node()
    );
    assert_eq!(conflict.to_string(), told);
    let Conflict {
        who,
        field,
        kind,
        alone,
        ..
    } = conflict;
    assert_eq!((who, field, kind, alone), wanted);
    is_written(&camera, "domain / empty");
}

#[test]
fn what_cannot_be_meant_leaves_the_handle_as_it_was() {
    let [camera, encoder] = both();
    let refused = camera
        .set_constraints(Some(&Participant::default()))
        .unwrap_err();
    let wanted = Amiss {
        whose: Whose::Participant(0),
        field: Field::USAGE,
        index: 0,
    };
    assert_eq!(refused.error.why, Why::Stated(wanted));
    assert_eq!(
        refused.to_string(),
        "set_constraints of n1: the participant: usage"
    );
    let refused = refused
        .handle
        .set_constraints_record(b"{\"usage\":[]}")
        .unwrap_err();
    assert_eq!(
        refused.to_string(),
        format!("set_constraints_record of n1: {NO_USAGE}")
    );
    let fault = Fault {
        number: 5,
        text: NO_USAGE.to_owned(),
    };
    assert_eq!(
        (refused.error.status(), refused.error.why),
        (Status::REFUSED, Why::Record(fault.clone()))
    );
    assert_eq!(fault.name(), "S5 BadUsage");
    let refused = refused.handle.set_constraints_record(b"{").unwrap_err();
    assert!(
        matches!(&refused.error.why, Why::Record(fault) if fault.number == 0 && fault.text.starts_with("no JSON\n --> record:1:2\n")),
        "{refused}"
    );
    let camera = refused
        .handle
        .set_constraints_record(b"{\"usage\":[\"cpu\"]}")
        .unwrap();
    encoder.set_constraints(None).unwrap().release().unwrap();
    assert_eq!(camera.check().unwrap().unwrap().count, 1);
    assert_eq!(camera.refusal(), Ok(None));
}

#[test]
fn the_first_alternative_that_can_be_had_is_selected() {
    let root = Allocator::new(&platform())
        .unwrap()
        .allocate_shared()
        .unwrap();
    let group = root.create_group().unwrap();
    group.set_name("either").unwrap();
    let refused = group.all_children_present().unwrap_err();
    assert_eq!(refused.error.status(), Status::NO_CHILDREN);
    let told = "all_children_present of either: E4 NoChildren: a group has a child before all_children_present";
    assert_eq!(refused.to_string(), told);
    let group = refused.handle;
    let [first, second] = [(); 2].map(|()| group.create_child().unwrap().bind().unwrap());
    group.all_children_present().unwrap().release().unwrap();
    root.release().unwrap();
    let too_small = Size::new(32, 32);
    let first = first.set_constraints(Some(&asked(1, too_small))).unwrap();
    let second = second
        .set_constraints(Some(&asked(1, Size::default())))
        .unwrap();
    assert_eq!(second.wait(None).unwrap().unwrap().count, 1);
    assert_eq!(first.check().unwrap_err().status(), Status::NOT_SELECTED);
    assert_eq!(second.selection(), Ok(vec![1]));
}

#[test]
fn a_client_makes_no_more_than_its_host_allows() {
    let root = Allocator::new(&platform())
        .unwrap()
        .allocate_shared_limited(1)
        .unwrap();
    let [client, other] = [(); 2].map(|()| root.duplicate().unwrap());
    let friend = client.duplicate().unwrap();
    for maker in [&client, &friend] {
        let refused = maker.duplicate().unwrap_err();
        assert_eq!(refused.status(), Status::TOO_MANY_NODES);
    }
    other.create_group().unwrap();
}

#[test]
fn a_late_participant_accepts_the_settings() {
    let record = "{\"heaps\":[{\"heap_type\":\"ram\",\"domains\":[\"cpu\"]}],\"pairs\":[{\"pixel_format\":\"NV12\"}],\"color_spaces\":[\"REC709\"]}";
    let allocator = Allocator::from_record(record.as_bytes()).unwrap();
    assert_eq!(
        Allocator::from_record(b"").unwrap_err().to_string(),
        "from_record: no JSON\nthe record is empty, where an object is due"
    );
    let camera = allocator.allocate_shared().unwrap().bind().unwrap();
    drop(allocator);
    let room = Participant {
        min_count: 3,
        ..asked(1, Size::default())
    };
    let camera = camera.set_constraints(Some(&room)).unwrap();
    let late = camera.attach_token().unwrap().bind().unwrap();
    let late = late
        .set_constraints(Some(&asked(1, Size::default())))
        .unwrap();
    assert_eq!(late.wait(None), camera.check());
    assert!(late.descriptor().is_some());
    let told = "set_name of root: misused: the first node is always root";
    assert_eq!(camera.set_name("camera").unwrap_err().to_string(), told);
    for name in ["root", "a\0b"] {
        let refused = late.set_name(name).unwrap_err();
        assert_eq!(refused.status(), Status::REFUSED);
        let told = "set_name of n1: refused: a name is 1 to 32 letters, digits, _ or -, and not root, nor n with digits";
        assert_eq!(refused.to_string(), told);
    }
}

#[test]
fn handles_go_to_other_threads() {
    fn goes<T: Send + Sync + 'static>() {}
    goes::<Allocator>();
    goes::<mezulobu::live::Token>();
    goes::<mezulobu::live::Group>();
    goes::<Collection<Set>>();
}
