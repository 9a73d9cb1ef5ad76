//! The proved programs, run as programs: compared, and a law over both.

use crate::given::{Given, Verdict};
use std::io::Write;
use std::process::{exit, Command, Stdio};

/// What a program of the repository prints for an input.
fn run(name: &str, input: &[u8]) -> Vec<u8> {
    let path = format!("{}/../../crates/{name}/out/{name}", env!("CARGO_MANIFEST_DIR"));
    let started = Command::new(path)
        .stdin(Stdio::piped())
        .stdout(Stdio::piped())
        .spawn();
    let Ok(mut child) = started else {
        println!("{name} is not built: run 'rt run' in crates/{name} first");
        exit(1);
    };
    if let Some(mut stdin) = child.stdin.take() {
        // A program that has read enough may close its input first.
        let _ = stdin.write_all(input);
    }
    match child.wait_with_output() {
        Ok(output) => output.stdout,
        Err(_) => {
            println!("{name} did not end");
            exit(1);
        }
    }
}

/// Whether both sides print the same.
fn printed(ours: Vec<u8>, second: Vec<u8>) -> Verdict {
    if ours == second {
        return Verdict::Holds(second::printed_refusal(&ours).unwrap_or(0));
    }
    let [ours, second] = [ours, second].map(|text| String::from_utf8_lossy(&text).into_owned());
    Verdict::Differs(format!(
        "the program prints {ours:?}, the second program {second:?}"
    ))
}

/// The checking program on texts[0] and then texts[1].
pub fn rowcheck(given: &Given) -> Verdict {
    let input = given.texts.concat();
    printed(run("rowcheck", &input), second::rowcheck(&input))
}

/// The mapping program on texts[0], the job line, and then texts[1].
pub fn rowmap(given: &Given) -> Verdict {
    let input = given.texts.concat();
    printed(run("rowmap", &input), second::rowmap(&input))
}

/// Every sequence that the mapping program prints is passed by the checking program.
pub fn printed_passes(given: &Given) -> Verdict {
    let sequence = run("rowmap", &given.texts.concat());
    if !sequence.starts_with(b"11") {
        return Verdict::Silent;
    }
    let verdict = run("rowcheck", &[&given.texts[1][..], &sequence].concat());
    let said = String::from_utf8_lossy(&verdict);
    match said.starts_with("1E") {
        true => Verdict::Holds(0),
        false => Verdict::Differs(format!("rowcheck says {said:?} of what rowmap printed")),
    }
}
