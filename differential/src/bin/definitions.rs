//! Writes the recorded reads, and the samples of the rules, as rows over the rules' definitions: a crate of specs whose claims the checker computes.
//! Argument: the folder of that crate.
use differential::{recorded, samples};
use std::{env, fmt::Write, fs, path::Path};

const ROWS: usize = 40; // in a module
const LONG: usize = 1000; // no sample of so many bytes is computed

fn list<T: std::fmt::Display>(items: impl IntoIterator<Item = T>) -> String {
    let mut text = String::from("(");
    for item in items {
        write!(text, "{item} ∷ ").unwrap();
    }
    text + "[])"
}

fn record(text: &str) -> String {
    let mut fields = text.split(' ');
    let mark = fields.next().unwrap();
    let fields: Vec<&str> = fields.collect();
    match mark {
        "LT" => "LT".to_string(),
        "LD" => format!("LD {} {} {}", fields[0], fields[1], list(&fields[3..])),
        _ => format!("{mark} {}", fields.join(" ")),
    }
}

fn answer(text: &str) -> String {
    if let Some(numbers) = text.strip_prefix("REF ") {
        let n: Vec<&str> = numbers.split(' ').collect();
        return match n[0] {
            "25" => format!("refuses (encoding {} {} {} {})", n[1], n[2], n[3], n[4]),
            "1" | "22" => format!("refuses (nowhere {})", n[0]),
            _ => format!("refuses (at {} {} {})", n[0], n[1], n[2]),
        };
    }
    let records = text.split("; ").filter(|r| !r.starts_with("END")).map(record);
    format!("gives {}", list(records))
}

fn main() {
    let folder = env::args().nth(1).expect("the folder of the crate");
    let folder = Path::new(&folder);
    let row = |source: Vec<u8>, said: &str| format!("{} reads {}", list(source), answer(said));
    let reads = recorded::entries(recorded::READS).chain(recorded::entries(recorded::RESPELLED_READS));
    let mut rows: Vec<String> = reads.map(|(source, said)| row(source, said)).collect();
    let samples = samples::samples();
    rows.extend(samples.into_iter().filter(|(source, _)| source.len() < LONG).map(|(source, said)| row(source, &said)));
    fs::create_dir_all(folder.join("specs")).unwrap();
    fs::create_dir_all(folder.join("src")).unwrap();
    fs::write(folder.join("src/lib.rt"), "#![tactic(auto)]\n\n// The recorded reads, computed by the definitions.\n").unwrap();
    let mut root = String::new();
    for (k, rows) in rows.chunks(ROWS).enumerate() {
        writeln!(root, "pub mod Rows{k}").unwrap();
        let claims = rows.iter().fold("tt".to_string(), |rest, _| format!("(refl, {rest})"));
        let text = format!(
            "use Rattle.std.specs.Prelude.{{◌≡◌, refl, List, [], ◌∷◌, ℕ}}
use Rattle.names.specs.Table.{{operations, spellings, row, rows_of}}
use Rattle.rules.specs.Statements.{{present}}
use Rattle.rules.specs.Records.{{Record, ST, VC, VL, VI, VS, PF, IN, OR, OS, OI, OF, OD, OX, LL, LI, LD, LC, LT}}
use Rattle.rules.specs.Reader.{{at, nowhere, encoding}}
use Rattle.rules.specs.Calls.{{Result, gives, refuses, full_read, open_calls}}

pub record Sample : Type 0 where
  pub source : List ℕ
  pub answer : Result (List Record)

infix 80 ◌reads◌
abbrev pub ◌reads◌ : List ℕ → Result (List Record) → Sample
s reads a = record {{ source = s; answer = a }}

unfoldable pub samples : List Sample
samples =
    {}
    ∷ []

unfoldable pub Agree : List Sample → Type 0
Agree [] = Unit {{0}}
Agree (k ∷ ks) = (full_read present k.source 1000000 ≡ k.answer) × Agree ks

pub known : Agree samples
unfolding open_calls spellings row rows_of operations samples Agree
known = {claims}
",
            rows.join("\n    ∷ ")
        );
        fs::write(folder.join(format!("specs/Rows{k}.antt")), text).unwrap();
    }
    fs::write(folder.join("specs/Lib.antt"), root).unwrap();
    println!("{} recorded reads and samples", rows.len());
}
