//! The wrapper on the worked sheets of docs/TASK.md, on sheets that go on from a plan, on cut and overlong sheets, on
//! buffers of many lengths, on noise.
mod common;

use batchplan::{
    listing, plan, write_listing, Answer, Cause, Limit, Plan, Refusal, RECORD_BYTES, SHEET_BYTES,
};
use common::{filled, sheet, Generator, C1};

/// C1, with a step count.
fn c1(steps: u16) -> Vec<u8> {
    sheet([2, 1, 1, 8, steps], &C1)
}

/// C3, with a step count.
fn c3(steps: u16) -> Vec<u8> {
    sheet([1, 1, 1, 1, steps], &[(0, 1), (128, 1), (192, -1), (193, -5)])
}

/// The record of C1 (docs/TASK.md, T11.1): n 2, m 1, k 4; low 104, gap -16; sums 10, 20; multiplier 12; overshoot 8.
const C1_RECORD: [u8; 42] = [
    2, 0, 1, 0, 4, 0, 104, 0, 0, 0, 0, 0, 0, 0, 0xf0, 0xff, 0xff, 0xff, 0xff, 0xff, 0xff, 0xff, 10,
    0, 0, 0, 20, 0, 0, 0, 12, 0, 0, 0, 8, 0, 0, 0, 0, 0, 0, 0,
];

/// A plan: k; low, gap; the sums; the multipliers and overshoots.
fn planned(
    steps: u16,
    [low, gap]: [i64; 2],
    sums: &[i32],
    limits: &[(i32, i64)],
) -> Result<Plan, Refusal> {
    let limits =
        limits.iter().map(|&(multiplier, overshoot)| Limit { multiplier, overshoot }).collect();
    Ok(Plan { steps, low, gap, sums: sums.to_vec(), limits })
}

fn refused(cause: Cause, place: usize) -> Result<Plan, Refusal> {
    Err(Refusal { cause, place })
}

/// The sheets of docs/TASK.md, T11.2, with what it says of each.
fn marked() -> Vec<(&'static str, Vec<u8>, Result<Plan, Refusal>)> {
    vec![
        ("C1", c1(4), planned(4, [104, -16], &[10, 20], &[(12, 8)])),
        ("C2", c1(1), planned(1, [104, -104], &[0, 0], &[(12, 12)])),
        ("C3", c3(2), refused(Cause::Infeasible, 1)),
        ("C4", c3(1), refused(Cause::Infeasible, 1)),
        ("C5", sheet([1, 1, 1024, 1, 1], &[(193, -1_048_577)]), refused(Cause::Diverged, 0)),
        ("C6", sheet([1, 1, 1024, 1, 1], &[(193, -1_048_576)]), refused(Cause::Infeasible, 1)),
        ("C7", sheet([1, 0, 1, 1, 1], &[]), planned(1, [0, 0], &[0], &[])),
        ("C8", sheet([1, 0, 1, 1, 2], &[(0, -2), (128, 3)]), planned(2, [-6, 0], &[6], &[])),
        (
            "C9",
            sheet([1, 0, 1, 1, 1], &[(0, 5), (64, 4), (128, 4)]),
            planned(1, [20, 0], &[4], &[]),
        ),
        ("C10", sheet([1, 0, 1, 1, 1], &[(64, 4), (128, 3)]), refused(Cause::Bounds, 0)),
    ]
}

/// Sheets with a start: C4 with the multiplier at which C3 is refused; one whose dual values, -10 and at the closing
/// multiplier -9, are below the least cost of the bounds, 0, where low begins; and the ends of the range.
fn started() -> Vec<(&'static str, Vec<u8>, Result<Plan, Refusal>)> {
    let one = |entries: &[(u16, i32)]| sheet([1, 1, 1, 1, 1], entries);
    vec![
        (
            "a start at a refusal",
            one(&[(0, 1), (128, 1), (192, -1), (193, -5), (194, 5)]),
            refused(Cause::Infeasible, 0),
        ),
        (
            "a low dual value",
            one(&[(0, 1), (128, 1), (192, 1), (193, 1), (194, 10)]),
            planned(1, [0, 0], &[0], &[(9, -1)]),
        ),
        (
            "the greatest start",
            one(&[(194, 1_073_741_824)]),
            planned(1, [0, 0], &[0], &[(1_073_741_824, 0)]),
        ),
        ("a start above that", one(&[(194, 1_073_741_825)]), refused(Cause::Value, 0)),
        ("a start below 0", one(&[(194, -1)]), refused(Cause::Value, 0)),
    ]
}

/// The sheets of docs/TASK.md, T11.5, on which the closing value bears.
fn closing() -> Vec<(&'static str, Vec<u8>, Result<Plan, Refusal>)> {
    let l2 = |steps| sheet([1, 1, 1, 1, steps], &[(0, 8), (128, 1), (192, -1), (193, -2)]);
    vec![
        ("L1", c1(3), planned(3, [104, 88], &[10, 20], &[(0, -4)])),
        ("L2", l2(2), planned(2, [8, -16], &[0], &[(4, 4)])),
        ("L3", l2(3), refused(Cause::Infeasible, 3)),
        ("L4", sheet([2, 1, 2, 8, 1], &C1), planned(1, [0, 0], &[0, 0], &[(24, 12)])),
        (
            "L5",
            sheet([1, 1, 4, 6, 2], &[(0, 3), (128, 2), (192, -3), (193, -3)]),
            planned(2, [0, 36], &[2], &[(0, 0)]),
        ),
        (
            "L6",
            sheet([1, 1, 2, 6, 1], &[(0, 1), (128, 2), (192, -2), (193, -3), (194, 4)]),
            planned(1, [8, 4], &[2], &[(2, -1)]),
        ),
        (
            "L7",
            sheet(
                [1, 1, 1, 1024, 1],
                &[(0, 10_000), (128, 1_000), (193, -1), (194, 1_073_741_823)],
            ),
            planned(1, [1_073_741_824, -1_073_741_824], &[0], &[(1_073_741_824, 1)]),
        ),
    ]
}

/// The listing of what a sheet gives, as docs/TASK.md, T8, lays it out.
fn text_of(result: &Result<Plan, Refusal>) -> String {
    let plan = match result {
        Ok(plan) => plan,
        Err(refusal) => return format!("refused {} {}\n", refusal.cause.number(), refusal.place),
    };
    let mut text = format!("steps {}\n", plan.steps);
    for (j, sum) in plan.sums.iter().enumerate() {
        text += &format!("mat {j} {sum}\n");
    }
    for (i, limit) in plan.limits.iter().enumerate() {
        text += &format!("lim {i} {} {}\n", limit.multiplier, limit.overshoot);
    }
    text + &format!("low {}\ngap {}\n", plan.low, plan.gap)
}

/// Entries with the closing multipliers of a plan as the starts of the limits, which stand in column n + 1.
fn going_on(entries: &[(u16, i32)], plan: &Plan) -> Vec<(u16, i32)> {
    let column = plan.sums.len() as u16 + 1;
    let others = entries.iter().copied().filter(|&(key, _)| key < 192 || key % 64 != column);
    let starts = (3..).zip(&plan.limits).map(|(row, limit)| (64 * row + column, limit.multiplier));
    let mut all: Vec<_> = others.chain(starts.filter(|start| start.1 != 0)).collect();
    all.sort_unstable();
    all
}

/// The plan of two together, of which the second goes on from the first. The closing value of the first is the dual
/// value of the second's step 0, so that the larger low counts every dual value of the whole run.
fn joined(first: &Plan, second: &Plan) -> Plan {
    let low = first.low.max(second.low);
    // D times the cost of the sums
    let cost = |plan: &Plan| plan.gap + i64::from(plan.steps) * plan.low;
    let steps = first.steps + second.steps;
    let limits = first.limits.iter().zip(&second.limits);
    Plan {
        steps,
        low,
        gap: cost(first) + cost(second) - i64::from(steps) * low,
        sums: first.sums.iter().zip(&second.sums).map(|(one, other)| one + other).collect(),
        limits: limits
            .map(|(one, other)| Limit { overshoot: one.overshoot + other.overshoot, ..*other })
            .collect(),
    }
}

/// Plans a sheet into a buffer and holds the answer, the buffer and the listing together; gives the answer.
fn tried(sheet: &[u8], length: usize) -> Answer {
    let mut record = filled(length);
    let answer = plan(sheet, &mut record);
    let whole = Plan::of_sheet(sheet);
    assert_eq!(listing(sheet), text_of(&whole));
    match answer {
        Answer::Plan { low, gap } => {
            let recorded = Plan::of_record(&record).unwrap();
            let end = 22 + 4 * recorded.sums.len() + 12 * recorded.limits.len();
            assert_eq!((recorded.low, recorded.gap), (low, gap));
            assert_eq!(Ok(recorded), whole);
            assert_eq!(record[end..], filled(length)[end..]);
        }
        Answer::Refused(refusal) => {
            assert_eq!(record, filled(length));
            if refusal.cause != Cause::Buffer {
                assert_eq!(Err(refusal), whole);
            }
        }
    }
    answer
}

#[test]
fn worked_sheets() {
    for (name, sheet, expected) in marked().into_iter().chain(started()).chain(closing()) {
        assert_eq!(Plan::of_sheet(&sheet), expected, "{name}");
        assert_eq!(listing(&sheet), text_of(&expected), "{name}");
        tried(&sheet, RECORD_BYTES);
    }
}

/// A text buffer that just takes the listing, is longer, is a byte too short, or is empty.
#[test]
fn listings_in_lent_buffers() {
    for sheet in [c1(4), c3(2), vec![]] {
        let whole = listing(&sheet).into_bytes();
        for room in [whole.len(), whole.len() + 9, whole.len() - 1, 0] {
            let mut text = vec![0xa5; room];
            let length = write_listing(&sheet, &mut text);
            let mut expected = vec![0xa5; room];
            if whole.len() <= room {
                expected[..whole.len()].copy_from_slice(&whole);
            }
            assert_eq!(text, expected);
            assert_eq!(length, if whole.len() <= room { whole.len() } else { 0 });
        }
    }
}

#[test]
fn listings_of_c1_and_c3() {
    assert_eq!(listing(&c1(4)), "steps 4\nmat 0 10\nmat 1 20\nlim 0 12 8\nlow 104\ngap -16\n");
    assert_eq!(listing(&c3(2)), "refused 9 1\n");
}

#[test]
fn c1_goes_on() {
    let next = going_on(&C1, &Plan::of_sheet(&c1(4)).unwrap());
    assert_eq!(next[7..], [(195, 12)]);
    assert_eq!(
        listing(&sheet([2, 1, 1, 8, 4], &next)),
        "steps 4\nmat 0 10\nmat 1 30\nlim 0 14 -2\nlow 104\ngap 64\n"
    );
}

#[test]
fn the_version_is_that_of_the_archive_and_of_this_crate() {
    assert_eq!(batchplan::version(), batchplan::VERSION);
    assert_eq!(env!("CARGO_PKG_VERSION_MAJOR"), batchplan::VERSION.to_string());
}

#[test]
fn averaged_amounts() {
    assert_eq!(Plan::of_sheet(&c1(4)).unwrap().amounts().collect::<Vec<_>>(), [2.5, 5.0]);
}

#[test]
fn nothing_and_a_megabyte_of_zeros() {
    for length in [0, 60] {
        assert_eq!(tried(&[], length), Answer::Refused(Refusal { cause: Cause::Short, place: 0 }));
        assert_eq!(
            tried(&vec![0; 1 << 20], length),
            Answer::Refused(Refusal { cause: Cause::Dimensions, place: 0 })
        );
    }
}

#[test]
fn c1_cut_and_overlong() {
    let whole = c1(4);
    let mut long = whole.clone();
    long.resize(SHEET_BYTES + 1, 0);
    for length in (0..=long.len()).filter(|&length| length != whole.len()) {
        let cause = if length < 12 { Cause::Short } else { Cause::Length };
        assert_eq!(
            tried(&long[..length], 60),
            Answer::Refused(Refusal { cause, place: 0 }),
            "{length} bytes"
        );
    }
}

#[test]
fn c1_in_buffers_of_each_length() {
    for length in 0..=60 {
        let mut record = filled(length);
        let answer = plan(&c1(4), &mut record);
        if length < 42 {
            assert_eq!(
                answer,
                Answer::Refused(Refusal { cause: Cause::Buffer, place: 42 }),
                "{length} bytes"
            );
            assert_eq!(record, filled(length), "{length} bytes");
        } else {
            assert_eq!(answer, Answer::Plan { low: 104, gap: -16 }, "{length} bytes");
            assert_eq!(record[..42], C1_RECORD, "{length} bytes");
            assert_eq!(record[42..], filled(length)[42..], "{length} bytes");
        }
    }
}

impl Generator {
    fn bytes(&mut self, length: usize) -> Vec<u8> {
        (0..length).map(|_| self.below(256) as u8).collect()
    }

    /// A small sheet, in every fourth case with one byte changed, and in every eighth cut.
    fn damaged(&mut self) -> Vec<u8> {
        let (sizes, entries) = self.parts();
        let mut sheet = sheet(sizes, &entries);
        let place = self.below(sheet.len() as u32) as usize;
        match self.below(8) {
            0 | 1 => sheet[place] = self.below(256) as u8,
            2 => sheet.truncate(place),
            _ => {}
        }
        sheet
    }
}

#[test]
fn noise() {
    let mut generator = Generator(1);
    for _ in 0..2_000 {
        let (length, room) = (generator.below(200), generator.below(80));
        let bytes = generator.bytes(length as usize);
        assert!(matches!(tried(&bytes, room as usize), Answer::Refused(_)));
    }
}

#[test]
fn small_sheets_whole_and_damaged() {
    let mut generator = Generator(2);
    let mut met = [0; 11];
    for _ in 0..3_000 {
        let sheet = generator.damaged();
        let room = if generator.below(4) == 0 { 40 } else { RECORD_BYTES };
        match tried(&sheet, room) {
            Answer::Plan { .. } => met[0] += 1,
            Answer::Refused(refusal) => met[usize::from(refusal.cause.number())] += 1,
        }
    }
    assert!(met.iter().all(|&count| count > 4), "plans and refusals 1 to 10 all occur: {met:?}");
}

/// A plan and one that goes on from it are, together, the plan of all their steps. A refusal of the first is that of
/// all of them. What goes on from a plan is never refused with 9 at its step 0: the plan's closing value was tested.
#[test]
fn plans_that_go_on_are_one_plan() {
    let mut generator = Generator(3);
    let mut met = [0; 3];
    for _ in 0..3_000 {
        let ([n, m, p, d, k], entries) = generator.parts();
        let later = 1 + generator.below(60) as u16;
        let (expected, kind) = match Plan::of_sheet(&sheet([n, m, p, d, k], &entries)) {
            Err(refusal) => (Err(refusal), 0),
            Ok(first) => {
                match Plan::of_sheet(&sheet([n, m, p, d, later], &going_on(&entries, &first))) {
                    Ok(second) => (Ok(joined(&first, &second)), 1),
                    Err(Refusal { cause, place }) => {
                        assert_ne!((cause, place), (Cause::Infeasible, 0));
                        (refused(cause, place + usize::from(k)), 2)
                    }
                }
            }
        };
        met[kind] += 1;
        assert_eq!(Plan::of_sheet(&sheet([n, m, p, d, k + later], &entries)), expected);
    }
    assert!(met.iter().all(|&count| count > 9), "plans and refusals of both occur: {met:?}");
}

/// Where step t is refused with 9, a sheet of t steps has the same refusal, at its closing multipliers; and one of a
/// step less has a plan.
#[test]
fn what_a_step_shows_the_closing_multipliers_show() {
    let mut generator = Generator(5);
    let mut met = [0; 2];
    for _ in 0..2_000 {
        let ([n, m, p, d, k], entries) = generator.parts();
        let of_steps = |steps: usize| Plan::of_sheet(&sheet([n, m, p, d, steps as u16], &entries));
        let refusal = of_steps(usize::from(k));
        if let Err(Refusal { cause: Cause::Infeasible, place: place @ 1.. }) = refusal {
            assert_eq!(of_steps(place), refusal);
            assert!(place == 1 || of_steps(place - 1).is_ok());
            met[usize::from(place > 1)] += 1;
        }
    }
    assert!(met.iter().all(|&count| count > 9), "refusals at step 1 and later occur: {met:?}");
}

#[test]
fn threads_at_the_same_time() {
    let all: Vec<_> = marked();
    std::thread::scope(|scope| {
        for _ in 0..4 {
            scope.spawn(|| {
                for (name, sheet, expected) in all.iter().cycle().take(2_000) {
                    assert_eq!(&Plan::of_sheet(sheet), expected, "{name}");
                }
            });
        }
    });
}
