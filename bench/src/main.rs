//! Times boxplan's C functions on one text and prints each measure as a line `SETTING MEASURE VALUE`, tabs between, as soon as it is had:
//!
//!     bench first FILE SETTING...    survey, first, cost and check in each setting, written as mode, cycles and objectives: 1, 0 and 0 1 2 are `10012`
//!     bench eight FILE SETTING...    plans and eight
//!     bench read FILE                read, with `-` for the setting
//!
//! A time is the median of up to nine of the same call in this one process, fewer where nine take long. Every buffer that a call writes is cleared before it,
//! outside the clock.
use std::time::{Duration, Instant};

unsafe extern "C" {
    fn boxplan_read(text: *const u8, text_len: usize, entries: *mut u16, entries_len: usize, slots: *mut u16, slots_len: usize, counts: *mut u16, counts_len: usize) -> u8;
    fn boxplan_check(
        entries: *const u16, entries_len: usize, slots: *const u16, slots_len: usize, text: *const u8, text_len: usize, root: u16, mode: u8, cycles: u8,
        objectives: *const u8, objectives_len: usize, set: u64, table: *const u8, table_len: usize, condition: *mut u8, condition_len: usize, cost: *mut u32, cost_len: usize,
    ) -> u8;
    fn boxplan_first(
        entries: *const u16, entries_len: usize, slots: *const u16, slots_len: usize, text: *const u8, text_len: usize, root: u16, mode: u8, cycles: u8,
        objectives: *const u8, objectives_len: usize, plan: *mut u8, plan_len: usize, set: *mut u64, set_len: usize, cost: *mut u32, cost_len: usize,
    ) -> u8;
    fn boxplan_next(
        entries: *const u16, entries_len: usize, slots: *const u16, slots_len: usize, text: *const u8, text_len: usize, root: u16, mode: u8, cycles: u8,
        objectives: *const u8, objectives_len: usize, given: u64, plan: *mut u8, plan_len: usize, set: *mut u64, set_len: usize, cost: *mut u32, cost_len: usize,
    ) -> u8;
}

/// How often a call is timed, and after how long it is not timed again.
const REPEATS: usize = 9;
const ENOUGH: Duration = Duration::from_millis(250);
/// How many plans a listing is asked for.
const PLANS: u32 = 8;

/// A catalogue as `boxplan_read` fills it.
struct Catalogue {
    text: Vec<u8>,
    entries: Vec<u16>,
    slots: Vec<u16>,
}

/// Mode, cycles and objectives; the root is entry 0.
struct Setting {
    mode: u8,
    cycles: u8,
    objectives: Vec<u8>,
}

/// A plan as it came back, but for its table, which is in the buffer.
#[derive(Clone, Copy)]
struct Plan {
    set: u64,
    cost: [u32; 3],
}

impl Setting {
    fn new(digits: &str) -> Setting {
        let digits: Vec<u8> = digits.bytes().map(|digit| digit - b'0').collect();
        let [mode, cycles, ref objectives @ ..] = digits[..] else { panic!("a setting is mode, cycles and objectives") };
        Setting { mode, cycles, objectives: objectives.to_vec() }
    }
}

impl Catalogue {
    /// The catalogue that a text holds, and how long the reading took.
    fn read(text: &[u8]) -> (Catalogue, Duration) {
        let (mut entries, mut slots, mut counts) = (vec![0u16; 320], vec![0u16; 1024], [0u16; 2]);
        let start = Instant::now();
        let number = unsafe { boxplan_read(text.as_ptr(), text.len(), entries.as_mut_ptr(), 320, slots.as_mut_ptr(), 1024, counts.as_mut_ptr(), 2) };
        let time = start.elapsed();
        assert_eq!(number, 0, "the catalogue is read");
        entries.truncate(counts[0] as usize * 5);
        slots.truncate(counts[1] as usize * 4);
        (Catalogue { text: text.to_vec(), entries, slots }, time)
    }

    fn slot_count(&self) -> usize {
        self.slots.len() / 4
    }

    /// The first condition that fails, or 0.
    fn check(&self, setting: &Setting, set: u64, table: &[u8]) -> u8 {
        let (mut condition, mut cost) = ([0u8], [0u32; 3]);
        let number = unsafe {
            boxplan_check(
                self.entries.as_ptr(), self.entries.len(), self.slots.as_ptr(), self.slots.len(), self.text.as_ptr(), self.text.len(), 0, setting.mode, setting.cycles,
                setting.objectives.as_ptr(), setting.objectives.len(), set, table.as_ptr(), table.len(), condition.as_mut_ptr(), 1, cost.as_mut_ptr(), 3,
            )
        };
        assert_eq!(number, 0, "a sane catalogue is checked");
        condition[0]
    }

    /// The first plan where none is given, else the next after it, whose table the buffer holds.
    fn ask(&self, setting: &Setting, given: Option<Plan>, buffer: &mut [u8]) -> Option<Plan> {
        let (mut set, mut cost) = ([0u64], [0u32; 3]);
        let number = unsafe {
            match given {
                None => boxplan_first(
                    self.entries.as_ptr(), self.entries.len(), self.slots.as_ptr(), self.slots.len(), self.text.as_ptr(), self.text.len(), 0, setting.mode, setting.cycles,
                    setting.objectives.as_ptr(), setting.objectives.len(), buffer.as_mut_ptr(), buffer.len(), set.as_mut_ptr(), 1, cost.as_mut_ptr(), 3,
                ),
                Some(last) => boxplan_next(
                    self.entries.as_ptr(), self.entries.len(), self.slots.as_ptr(), self.slots.len(), self.text.as_ptr(), self.text.len(), 0, setting.mode, setting.cycles,
                    setting.objectives.as_ptr(), setting.objectives.len(), last.set, buffer.as_mut_ptr(), buffer.len(), set.as_mut_ptr(), 1, cost.as_mut_ptr(), 3,
                ),
            }
        };
        assert!(number == 0 || number == 11, "a sane catalogue gives a plan or 11, not {number}");
        (number == 0).then_some(Plan { set: set[0], cost })
    }

    /// How many plans come, up to eight. Fewer means that the listing was asked to its end.
    fn list(&self, setting: &Setting, buffer: &mut [u8]) -> u32 {
        let (mut plans, mut last) = (0, None);
        while plans < PLANS {
            last = self.ask(setting, last, buffer);
            if last.is_none() {
                break;
            }
            plans += 1;
        }
        plans
    }
}

/// The median of several times, in seconds.
fn median(mut once: impl FnMut() -> Duration) -> f64 {
    let start = Instant::now();
    let mut times = vec![once()];
    while times.len() < REPEATS && start.elapsed() < ENOUGH {
        times.push(once());
    }
    times.sort();
    times[times.len() / 2].as_secs_f64()
}

/// The median time of a call and what it gave at last. The call is lent a cleared buffer.
fn timed<T>(slots: usize, mut call: impl FnMut(&mut [u8]) -> T) -> (f64, T, Vec<u8>) {
    let (mut given, mut buffer) = (None, Vec::new());
    let time = median(|| {
        buffer = vec![255; slots];
        let start = Instant::now();
        given = Some(call(&mut buffer));
        start.elapsed()
    });
    (time, given.expect("called once at least"), buffer)
}

/// The survey, the first plan, its cost and its check.
fn first(catalogue: &Catalogue, name: &str) {
    let setting = Setting::new(name);
    let slots = catalogue.slot_count();
    let (survey, condition, _) = timed(slots, |buffer| catalogue.check(&setting, 0, buffer));
    assert_eq!(condition, 1, "the empty set holds no root");
    println!("{name}\tsurvey\t{survey}");
    let (first, plan, table) = timed(slots, |buffer| catalogue.ask(&setting, None, buffer));
    println!("{name}\tfirst\t{first}");
    if let Some(Plan { set, cost: [a, b, c] }) = plan {
        println!("{name}\tcost\t{a} {b} {c}");
        let (check, condition, _) = timed(0, |_| catalogue.check(&setting, set, &table));
        assert_eq!(condition, 0, "the first plan is sound");
        println!("{name}\tcheck\t{check}");
    }
}

/// Eight plans, or all where there are fewer.
fn eight(catalogue: &Catalogue, name: &str) {
    let setting = Setting::new(name);
    let (eight, plans, _) = timed(catalogue.slot_count(), |buffer| catalogue.list(&setting, buffer));
    println!("{name}\tplans\t{plans}");
    println!("{name}\teight\t{eight}");
}

fn main() {
    let arguments: Vec<String> = std::env::args().skip(1).collect();
    let [what, file, settings @ ..] = &arguments[..] else { panic!("bench first|eight|read FILE SETTING...") };
    let text = std::fs::read(file).expect("a text");
    let (catalogue, _) = Catalogue::read(&text);
    match what.as_str() {
        "first" => settings.iter().for_each(|name| first(&catalogue, name)),
        "eight" => settings.iter().for_each(|name| eight(&catalogue, name)),
        "read" => println!("-\tread\t{}", median(|| Catalogue::read(&text).1)),
        _ => panic!("there is no measure {what}"),
    }
}
