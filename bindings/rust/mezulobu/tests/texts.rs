//! Scripts of the repository, in the folder EXAMPLES where that is set, whose reports and
//! certificates stand beside them.
use mezulobu::{check, explain, explain_json, run, run_with_certificate, Outcome, ScriptError};
use std::env;
use std::fs;
use std::path::PathBuf;

fn example(name: &str) -> Vec<u8> {
    let examples = env::var("EXAMPLES").map_or_else(
        |_| PathBuf::from(env!("CARGO_MANIFEST_DIR")).join("../../../examples"),
        PathBuf::from,
    );
    fs::read(examples.join(name)).unwrap()
}

#[test]
fn a_script_has_its_report_and_its_certificate() {
    for name in [
        "camera_nv12_stride_64",
        "late_screen_recorder",
        "secure_video",
    ] {
        let script = example(&format!("{name}.json"));
        let report = String::from_utf8(example(&format!("{name}.out"))).unwrap();
        let proof = example(&format!("{name}.proof"));
        assert_eq!(run(&script), Ok(report.clone()));
        assert_eq!(run_with_certificate(&script), Ok((report, proof.clone())));
        let answer = check(&script, &proof).unwrap();
        assert!(
            answer.is_right && answer.text.starts_with("yes "),
            "{answer:?}"
        );
    }
}

#[test]
fn a_certificate_of_another_script_is_not_right() {
    let (script, other) = (
        example("secure_video.json"),
        example("one_participant.proof"),
    );
    let answer = check(&script, &other).unwrap();
    assert!(
        !answer.is_right && answer.text.starts_with("no "),
        "{answer:?}"
    );
    let refused = Err(ScriptError::Refused("proof refused".to_owned()));
    assert_eq!(check(&script, b"{"), refused);
}

/// No JSON is the reader's first fault.
#[test]
fn a_script_that_is_none_is_refused() {
    let error = run(b"{").unwrap_err();
    assert!(
        error.to_string().starts_with("script refused: Q2"),
        "{error}"
    );
    assert_eq!(run_with_certificate(b"{"), Err(error));
}

#[test]
fn explanations_say_how_a_script_went() {
    let chosen = explain(&example("one_participant.json"), "one.json").unwrap();
    assert_eq!(chosen.outcome, Outcome::AllWell);
    let failed = explain(&example("camera_too_wide_for_encoder.json"), "wide.json").unwrap();
    assert_eq!(failed.outcome, Outcome::NotAllWell);
    let faulty = explain(b"{", "broken.json").unwrap();
    assert_eq!(faulty.outcome, Outcome::Faulty);
    assert!(faulty.text.contains("broken.json:1"), "{}", faulty.text);
    let objects = explain_json(&example("one_participant.json"), "one.json").unwrap();
    assert!(
        objects.text.lines().all(|line| line.starts_with('{')),
        "{}",
        objects.text
    );
}

/// A text above the first room is asked for again: a check tells its settings, a line each.
#[test]
fn a_long_report_is_whole() {
    let script = String::from_utf8(example("one_participant.json")).unwrap();
    let checks = ",{\"call\":\"check\",\"on\":\"root\"}".repeat(4094);
    let long = script.trim_end().replace("}]}", &format!("}}{checks}]}}"));
    let report = run(long.as_bytes()).unwrap();
    assert!(report.len() > 1 << 16, "{} bytes", report.len());
    assert_eq!(report.lines().count(), 4096 + 1);
}
