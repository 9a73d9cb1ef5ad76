//! Prints whole cases that this program computed, as a file for the proof assistant.

#[path = "cases/lists.rs"]
mod lists;

const HEADER: &str = "\
-- Whole cases that tests/second computed, each proved by computing the definitions. Written by its program `cases`; not edited by hand.
use Prim.Native.Nat.{ℕ, ◌-◌}
use mathlib.Core.Path.{◌≡◌, refl}
use mathlib.Core.List.{List, [], ◌∷◌, ◌++◌}
use lib.ListN.{length, replicate}
use Rattle.rules.specs.Form.{form01}
use Rattle.rules.specs.Refusals.{Res, good, refused}
use Rattle.rules.specs.Netlist.{netlist_of}
use Rattle.rules.specs.Calls.{Outcome, map_outcome, evaluate_outcome, check_outcome, simulate_outcome}
use Rattle.rules.specs.Calls.{rowmap_output, rowcheck_output, tail_outcome, frame_outcome, place_outcome}
use Rattle.rules.specs.Texts.{chars}

-- an answer with the bytes of the buffer or the row after it, or a refusal that leaves them
abbrev pub gives : ℕ → List ℕ → Outcome
gives n lent = record { answer = good n; lent = lent }

abbrev pub keeps : ℕ → List ℕ → Outcome
keeps n lent = record { answer = refused n; lent = lent }

-- a text in a buffer of zeros
abbrev pub in_buffer : List ℕ → ℕ → Outcome
in_buffer text size = gives (length text) (text ++ replicate (size - length text) 0)

-- a refusal's number, 0 where there is none
unfoldable pub number : {A : Type 0} → Res A → ℕ
number (good a) = 0
number (refused r) = r
";

/// A kind of case: its name, what the proof unfolds, and the equations.
struct Kind {
    name: &'static str,
    unfolding: &'static str,
    equations: Vec<String>,
}

const fn kind(name: &'static str, unfolding: &'static str) -> Kind {
    Kind {
        name,
        unfolding,
        equations: Vec::new(),
    }
}

const MAP: Kind = kind("map", "map_outcome");
const READ: Kind = kind("read", "netlist_of form01 number");
const EVALUATE: Kind = kind("evaluate", "evaluate_outcome");
const CHECK: Kind = kind("check", "check_outcome");
const SIMULATE: Kind = kind("simulate", "simulate_outcome");
const ROWMAP: Kind = kind("rowmap", "rowmap_output");
const ROWCHECK: Kind = kind("rowcheck", "rowcheck_output");
const TAIL: Kind = kind("tail", "tail_outcome");
const FRAME: Kind = kind("frame", "frame_outcome place_outcome");

impl Kind {
    fn add(&mut self, left: String, right: String) {
        self.equations.push(format!("({left} ≡ {right})"));
    }

    /// One claim, with a part for each case.
    fn print(&self) {
        let name = self.name;
        println!("\npub {name}_cases :");
        println!("    {}", self.equations.join("\n    × "));
        println!("unfolding chars {}", self.unfolding);
        let proofs = vec!["refl"; self.equations.len()];
        println!("{name}_cases = ({})", proofs.join(", "));
    }
}

fn main() {
    print!("{HEADER}");
    lists::print_all();
}

// How each part of a case is written.

fn chars(text: &[u8]) -> String {
    format!(
        "(chars \"{}\")",
        String::from_utf8_lossy(text).replace('\n', "\\n")
    )
}

fn list(bytes: &[u8]) -> String {
    let parts: String = bytes.iter().map(|byte| format!("{byte} ∷ ")).collect();
    format!("({parts}[])")
}

fn refuse(number: u8) -> String {
    format!("refused {number}")
}

// One function a kind of case: it computes the right side from the left.

fn map_case(kind: &mut Kind, row: u64, text: &[u8], buffer: usize) {
    let mut out = vec![0; buffer];
    let answer = second::map(row, text, &mut out);
    kind.add(
        format!("map_outcome {row} {} (replicate {buffer} 0)", chars(text)),
        delivered(answer, buffer, |length| chars(&out[..length])),
    );
}

/// What a lent buffer of zeros has afterwards, with the answer.
fn delivered(answer: Result<usize, u8>, buffer: usize, text: impl Fn(usize) -> String) -> String {
    answer.map_or_else(
        |number| format!("keeps {number} (replicate {buffer} 0)"),
        |length| format!("in_buffer {} {buffer}", text(length)),
    )
}

fn read_case(kind: &mut Kind, text: &[u8]) {
    let number = second::read(text).err().unwrap_or(0);
    kind.add(
        format!("number (netlist_of form01 {})", chars(text)),
        number.to_string(),
    );
}

fn evaluate_case(kind: &mut Kind, text: &[u8], inputs: &[u8], buffer: usize) {
    let mut out = vec![0; buffer];
    let answer = second::evaluate(text, inputs, &mut out);
    kind.add(
        format!(
            "evaluate_outcome {} {} (replicate {buffer} 0)",
            chars(text),
            list(inputs)
        ),
        delivered(answer, buffer, |count| list(&out[..count])),
    );
}

fn check_case(kind: &mut Kind, netlist: &[u8], sequence: &[u8]) {
    let answer = second::check(netlist, sequence);
    kind.add(
        format!("check_outcome {} {}", chars(netlist), chars(sequence)),
        answer.map_or_else(refuse, |count| format!("good {count}")),
    );
}

fn simulate_case(kind: &mut Kind, sequence: &[u8], row: &[u8], budget: u64) {
    let mut after = row.to_vec();
    let answer = second::simulate(sequence, &mut after, budget);
    let (word, number) = answer.map_or_else(|n| ("keeps", n as usize), |n| ("gives", n));
    kind.add(
        format!("simulate_outcome {} {} {budget}", chars(sequence), list(row)),
        format!("{word} {number} {}", list(&after)),
    );
}

fn program_case(kind: &mut Kind, name: &str, program: fn(&[u8]) -> Vec<u8>, input: &[u8]) {
    kind.add(format!("{name} {}", chars(input)), chars(&program(input)));
}

fn tail_case(kind: &mut Kind, text: &[u8]) {
    let tail = &text[second::tail(text)..];
    kind.add(format!("tail_outcome {}", chars(text)), chars(tail));
}

fn frame_case(kind: &mut Kind, text: &[u8], at: usize) {
    let (start, end, next) = second::frame(text, at);
    kind.add(
        format!("frame_outcome {} {at}", chars(text)),
        chars(&text[start..end]),
    );
    kind.add(
        format!("place_outcome {} {at}", chars(text)),
        next.to_string(),
    );
}
