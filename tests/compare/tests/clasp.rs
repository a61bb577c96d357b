//! The cost of plan 1 on catalogues with too many tables for the second program to try: it is the
//! optimum that gringo and clasp find, and where they find that there is no plan, first gives 11.
//! Every mode, cycles and list of objectives is gone through. The second program reads the
//! constraints for them, checks the plan that they find, and counts what it costs.
//!
//! This runs without the test harness, so that it is always printed how many were compared, or that
//! gringo or clasp is not installed and nothing was.

use std::io::Write;
use std::process::{Command, Stdio};

use cases::{Lent, Random, SETTINGS, WEAVES, Width, numbered_settings, wide, woven};
use compare::{fitting, on_threads, proved};
use second::{Cost, LIMIT, combinations};

/// The programs that this needs.
const PROGRAMS: [&str; 2] = ["gringo", "clasp"];
/// The seconds that clasp may take for a catalogue.
const SECONDS: u64 = 20;
/// Of a hundred catalogues clasp must end so many in time.
const ENDED: u64 = 95;
/// How many threads share the catalogues.
const THREADS: u64 = 2;
/// How often all settings are gone through for each width and each weave.
const ROUNDS: u64 = 4;

/// Few choices among many slots; what is woven has choices everywhere.
const WIDTHS: [Width; 2] = [
    Width {
        entries: 40,
        slots: 100,
        free: 6,
    },
    Width {
        entries: 64,
        slots: 256,
        free: 12,
    },
];

/// The rules of a plan. That a member is reached needs none: whatever stands in a stable model has
/// a reason, and the reasons go back to the root.
const RULES: &str = "in(E) :- root(E).
1 { choice(S,E) : fit(S,E) } 1 :- slot(S,O), in(O).
in(E) :- choice(S,E).
double(E) :- in(E), package(E,P), in(F), package(F,P), F < E.
#show choice/2.
";
/// What each mode forbids: npm nothing.
const CLASHES: [&str; 3] = [
    "",
    ":- in(A), in(B), package(A,P), package(B,P), major(A,X), major(B,X), A < B.\n",
    ":- in(A), in(B), package(A,P), package(B,P), A < B.\n",
];
/// The rule where cycles are forbidden.
const ACYCLIC: &str = "#edge (O,E) : choice(S,E), slot(S,O).\n";
/// What each objective counts, with its priority to follow.
const COUNTED: [(&str, &str); 3] = [
    ("W@", ",E : in(E), weight(E,W)"),
    ("1@", ",E : in(E), not root(E)"),
    ("1@", ",E : double(E)"),
];

/// What clasp finds.
enum Found {
    /// No plan.
    Nothing,
    /// A plan of the least cost.
    Optimum(Cost),
    /// Nothing in the time that it has.
    Stopped,
}

/// How many catalogues were compared and what of.
#[derive(Default)]
struct Counts {
    plans: u64,
    none: u64,
    stopped: u64,
}

fn main() {
    if let Some(program) = PROGRAMS.iter().find(|program| !installed(program)) {
        println!("clasp: SKIPPED, since {program} is not installed; no cost was compared");
        return;
    }
    let mut counts = Counts::default();
    for counted in on_threads(THREADS, run) {
        counts.add(counted);
    }
    let Counts {
        plans,
        none,
        stopped,
    } = counts;
    println!("clasp: the cost of plan 1 compared on {plans} catalogues too large to enumerate,");
    println!("  and on {none} more that there is no plan; on {stopped} clasp took too long");
    assert!(100 * (plans + none) >= ENDED * (plans + none + stopped));
}

impl Counts {
    fn add(&mut self, other: Counts) {
        self.plans += other.plans;
        self.none += other.none;
        self.stopped += other.stopped;
    }
}

/// Whether the program can be run.
fn installed(program: &str) -> bool {
    let mut command = Command::new(program);
    command.arg("--version").stdout(Stdio::null());
    command.status().is_ok_and(|status| status.success())
}

/// Compares the catalogues of one thread.
fn run(thread: u64) -> Counts {
    let mut counts = Counts::default();
    for seed in (0..ROUNDS * SETTINGS as u64).filter(|seed| seed % THREADS == thread) {
        for width in WIDTHS {
            let lent = wide(&mut Random::new(seed), width);
            compare(lent, seed, &format!("{width:?}, seed {seed}"), &mut counts);
        }
        for weave in WEAVES {
            let lent = woven(&mut Random::new(seed), weave);
            compare(lent, seed, &format!("{weave:?}, seed {seed}"), &mut counts);
        }
    }
    counts
}

/// Compares one catalogue in the settings that its seed numbers.
fn compare(mut lent: Lent, seed: u64, about: &str, counts: &mut Counts) {
    numbered_settings(&mut lent, seed as usize);
    assert!(combinations(&lent.catalogue()) > LIMIT, "{about}");
    let mut buffer = lent.buffer.clone();
    let answer = proved::first(&lent.catalogue(), &lent.settings(), &mut buffer);
    match ask_clasp(&lent) {
        Found::Stopped => counts.stopped += 1,
        Found::Nothing => {
            assert_eq!(answer.refusal, 11, "{about}");
            counts.none += 1;
        }
        Found::Optimum(cost) => {
            assert_eq!((answer.refusal, answer.cost), (0, cost), "{about}");
            counts.plans += 1;
        }
    }
}

/// The catalogue and its settings as a program for gringo.
fn program(lent: &Lent) -> String {
    let mut text = format!("root({}).\n", lent.root);
    for entry in 0..lent.entry_count() {
        let (package, weight) = (lent.package(entry), lent.entries[5 * entry + 4]);
        let [major, _, _] = lent.version(entry);
        text += &format!("package({entry},{package}). weight({entry},{weight}).\n");
        text += &format!("major({entry},{major}).\n");
    }
    for (slot, entries) in fitting(lent).iter().enumerate() {
        text += &format!("slot({slot},{}).\n", lent.owner(slot));
        for entry in entries {
            text += &format!("fit({slot},{entry}).\n");
        }
    }
    text += CLASHES[usize::from(lent.mode)];
    for (place, code) in lent.objectives.iter().enumerate() {
        let (before, after) = COUNTED[usize::from(*code)];
        text += &format!("#minimize {{ {before}{}{after} }}.\n", 3 - place);
    }
    text += RULES;
    if lent.cycles == 0 {
        text += ACYCLIC;
    }
    text
}

/// Pipes the program through gringo and clasp.
fn ask_clasp(lent: &Lent) -> Found {
    let mut gringo = Command::new("gringo")
        .arg("--warn=none")
        .stdin(Stdio::piped())
        .stdout(Stdio::piped())
        .spawn()
        .expect("gringo starts");
    let clasp = Command::new("clasp")
        .args(["--quiet=1", &format!("--time-limit={SECONDS}")])
        .stdin(gringo.stdout.take().expect("an output"))
        .stdout(Stdio::piped())
        .stderr(Stdio::null())
        .spawn()
        .expect("clasp starts");
    let mut input = gringo.stdin.take().expect("an input");
    let handed = input.write_all(program(lent).as_bytes());
    handed.expect("gringo reads its input");
    drop(input);
    assert!(gringo.wait().expect("gringo ends").success());
    let ended = clasp.wait_with_output().expect("clasp ends");
    let output = String::from_utf8_lossy(&ended.stdout);
    match ended.status.code() {
        Some(10 | 30) => Found::Optimum(cost_of(lent, &output)),
        Some(20) => Found::Nothing,
        Some(1 | 11) => Found::Stopped,
        code => panic!("clasp ends with {code:?}:\n{output}"),
    }
}

/// What the plan that clasp prints costs, once the second program finds it sound.
fn cost_of(lent: &Lent, output: &str) -> Cost {
    let mut table = vec![255; lent.slot_count()];
    let mut set = 1 << lent.root;
    let words = output.split_whitespace();
    for choice in words.filter_map(|word| word.strip_prefix("choice(")) {
        let numbers = choice.trim_end_matches(')').split_once(',');
        let (slot, entry) = numbers.expect("a slot and an entry");
        let entry: u8 = entry.parse().expect("an entry");
        table[slot.parse::<usize>().expect("a slot")] = entry;
        set |= 1 << entry;
    }
    let checked = second::check(&lent.catalogue(), &lent.settings(), set, &table);
    assert_eq!((checked.refusal, checked.condition), (0, 0), "{output}");
    checked.cost
}
