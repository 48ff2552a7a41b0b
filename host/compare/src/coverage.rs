//! Which answers the inputs have led to.

use std::collections::BTreeMap;
use std::fmt::{self, Debug};
use std::iter;

use model::{Cause, Layout};
use o32::Device;

use crate::comparison::DEVICES;

/// Success and the refusals 1 to 21.
const ANSWERS: usize = 22;

/// The refusal that only a device without a floating-point unit gives.
const PAIRS_WITHOUT_UNIT: usize = 14;

/// Fewer inputs than this for a case of joined groups are too few.
const LEAST_JOINS: u64 = 1_000;

/// And fewer than this for a verdict on code.
const LEAST_VERDICTS: u64 = 1_000;

/// The answers to a list whose signature is asked for.
const SIGNATURE_ANSWERS: [usize; 7] = [0, 1, 2, 3, 4, 5, 7];

/// What is compared for each device.
#[derive(Clone, Copy, Debug, PartialEq, Eq)]
pub enum Operation {
    MakePlan,
    Fill,
    Write,
    Read,
    Walk,
    Frame,
    /// Of a frame: the prologue or the epilogue.
    Code,
    /// Of a frame: whether code is its prologue.
    Check,
}

impl Operation {
    pub const ALL: [Operation; 8] = [
        Operation::MakePlan,
        Operation::Fill,
        Operation::Write,
        Operation::Read,
        Operation::Walk,
        Operation::Frame,
        Operation::Code,
        Operation::Check,
    ];

    /// What is said of an input that isn't refused. Of code it doesn't say yet
    /// whether it is a prologue.
    fn success(self) -> &'static str {
        match self {
            Operation::Check => "not refused",
            _ => "accepted",
        }
    }

    /// The answers that it has on a device, success being 0.
    fn answers(self, device: Device) -> impl Iterator<Item = usize> {
        let answers: &[usize] = match self {
            Operation::MakePlan => &[0, 1, 2, 3, 5, 7],
            Operation::Fill => &[0, 1, 2, 3, 4, 5, 20, 7],
            Operation::Write => &[0, 1, 2, 3, 4, 5, 7],
            Operation::Read => &[0, 1, 2, 3, 5, 6, 7, 8],
            Operation::Walk => &[0, 1, 2, 3, 5, 15, 6, 7, 8],
            Operation::Frame => &[0, 9, 14, 10, 11, 12],
            Operation::Code => &[0, 9, 14, 10, 11, 12, 13],
            Operation::Check => &[0, 9, 14, 10, 11, 12, 21],
        };
        answers
            .iter()
            .copied()
            .filter(move |&answer| answer != PAIRS_WITHOUT_UNIT || device == Device::NoFpu)
    }
}

/// What is asked of groups that are joined.
#[derive(Clone, Copy, Debug, PartialEq, Eq)]
pub enum Join {
    /// The place of the first argument that ends beyond the limit.
    Beyond,
    /// The offsets of a group behind one that ends at a multiple of 8.
    Moved,
    /// What stands behind two groups that leave the same end in either order.
    SameEnd,
    /// Nothing, as two groups leave another end in the other order.
    OtherEnd,
}

impl Join {
    const ALL: [Join; 4] = [Join::Beyond, Join::Moved, Join::SameEnd, Join::OtherEnd];
}

/// What a frame that is accepted answers of `$28`, the global pointer.
#[derive(Clone, Copy, Debug, PartialEq, Eq)]
pub enum GlobalPointer {
    NotSaved,
    /// At offset 0, which is also the number of one that isn't saved.
    SavedAtZero,
    SavedAbove,
}

impl GlobalPointer {
    const ALL: [GlobalPointer; 3] = [
        GlobalPointer::NotSaved,
        GlobalPointer::SavedAtZero,
        GlobalPointer::SavedAbove,
    ];

    pub fn of(layout: &Layout) -> Self {
        match (layout.gp_saved, layout.gp) {
            (0, _) => GlobalPointer::NotSaved,
            (_, 0) => GlobalPointer::SavedAtZero,
            _ => GlobalPointer::SavedAbove,
        }
    }
}

/// What is said of code that is to be a prologue.
#[derive(Clone, Copy, PartialEq, Eq, PartialOrd, Ord)]
pub struct Verdict(u32);

impl Verdict {
    /// All that there are on a device.
    fn all(device: Device) -> impl Iterator<Item = Verdict> {
        let floating = match device {
            Device::Fpu => 52..64,
            Device::NoFpu => 0..0,
        };
        let general = (16..24).chain([28, 30, 31]);
        iter::once(0)
            .chain(general)
            .chain(floating)
            .chain([255])
            .map(Verdict)
    }
}

impl Debug for Verdict {
    fn fmt(&self, f: &mut fmt::Formatter<'_>) -> fmt::Result {
        match self.0 {
            0 => write!(f, "accepted"),
            255 => write!(f, "other words"),
            register if register < 32 => write!(f, "${register}"),
            register => write!(f, "$f{}", register - 32),
        }
    }
}

/// How often each answer was expected of one operation.
#[derive(Clone, Copy, Default)]
struct Counts([u64; ANSWERS]);

impl Counts {
    fn count(&mut self, refusal: u32) {
        self.0[refusal as usize] += 1;
    }

    /// Those of the answers that no input has led to.
    fn missing(&self, answers: impl Iterator<Item = usize>) -> Vec<usize> {
        answers.filter(|&answer| self.0[answer] == 0).collect()
    }

    fn text(&self, success: &str, answers: impl Iterator<Item = usize>) -> String {
        answers
            .map(|answer| match (answer, self.0[answer]) {
                (0, count) => format!("{count} {success}"),
                (_, count) => format!("{count} refused {answer}"),
            })
            .collect::<Vec<_>>()
            .join(", ")
    }
}

/// How often the model gave each answer.
#[derive(Default)]
pub struct Coverage {
    seen: [[Counts; DEVICES.len()]; Operation::ALL.len()],
    joins: [[u64; DEVICES.len()]; Join::ALL.len()],
    global_pointers: [[u64; DEVICES.len()]; GlobalPointer::ALL.len()],
    verdicts: [BTreeMap<Verdict, u64>; DEVICES.len()],
    signatures: Counts,
    /// Of descriptions: success, then each cause of a refusal.
    descriptions: [u64; 1 + Cause::ALL.len()],
}

impl Coverage {
    pub fn count(&mut self, operation: Operation, device: Device, refusal: u32) {
        self.seen[operation as usize][device as usize].count(refusal);
    }

    /// The answers of an operation that no input has led to.
    pub fn missing(&self, operation: Operation, device: Device) -> Vec<usize> {
        self.seen[operation as usize][device as usize].missing(operation.answers(device))
    }

    /// How often each answer of an operation was expected.
    pub fn text(&self, operation: Operation, device: Device) -> String {
        self.seen[operation as usize][device as usize]
            .text(operation.success(), operation.answers(device))
    }

    /// Counts a case of joined groups.
    pub fn count_join(&mut self, join: Join, device: Device) {
        self.joins[join as usize][device as usize] += 1;
    }

    /// The cases of joined groups with how often each was asked.
    fn joins(&self, device: Device) -> Vec<(Join, u64)> {
        on_device(device, Join::ALL, &self.joins)
    }

    /// The cases of joined groups that too few inputs have led to.
    pub fn missing_joins(&self, device: Device) -> Vec<Join> {
        fewer_than(LEAST_JOINS, self.joins(device))
    }

    /// How often each case of joined groups was asked.
    pub fn joins_text(&self, device: Device) -> String {
        cases_text(self.joins(device))
    }

    /// Counts an accepted frame by what is answered of `$28`.
    pub fn count_global_pointer(&mut self, answer: GlobalPointer, device: Device) {
        self.global_pointers[answer as usize][device as usize] += 1;
    }

    /// The answers of `$28` with how often each was expected.
    fn global_pointers(&self, device: Device) -> Vec<(GlobalPointer, u64)> {
        on_device(device, GlobalPointer::ALL, &self.global_pointers)
    }

    /// The answers of `$28` that no input has led to.
    pub fn missing_global_pointers(&self, device: Device) -> Vec<GlobalPointer> {
        fewer_than(1, self.global_pointers(device))
    }

    /// How often each answer of `$28` was expected.
    pub fn global_pointers_text(&self, device: Device) -> String {
        cases_text(self.global_pointers(device))
    }

    /// Counts a verdict on code for a request that isn't refused.
    pub fn count_verdict(&mut self, verdict: u32, device: Device) {
        let verdicts = &mut self.verdicts[device as usize];
        *verdicts.entry(Verdict(verdict)).or_default() += 1;
    }

    /// The verdicts on code with how often each was expected.
    fn verdicts(&self, device: Device) -> Vec<(Verdict, u64)> {
        let counts = &self.verdicts[device as usize];
        Verdict::all(device)
            .map(|verdict| (verdict, counts.get(&verdict).copied().unwrap_or(0)))
            .collect()
    }

    /// The verdicts on code that too few inputs have led to.
    pub fn missing_verdicts(&self, device: Device) -> Vec<Verdict> {
        fewer_than(LEAST_VERDICTS, self.verdicts(device))
    }

    /// How often each verdict on code was expected.
    pub fn verdicts_text(&self, device: Device) -> String {
        cases_text(self.verdicts(device))
    }

    /// Counts a list whose signature is asked for.
    pub fn count_signature(&mut self, refusal: u32) {
        self.signatures.count(refusal);
    }

    /// The answers to such a list that no input has led to.
    pub fn missing_signatures(&self) -> Vec<usize> {
        self.signatures.missing(SIGNATURE_ANSWERS.into_iter())
    }

    /// How often each answer to such a list was expected.
    pub fn signatures_text(&self) -> String {
        self.signatures
            .text("accepted", SIGNATURE_ANSWERS.into_iter())
    }

    /// Counts a description that is refused for a cause, or accepted.
    pub fn count_description(&mut self, cause: Option<Cause>) {
        let index = cause.map_or(0, |cause| 1 + cause as usize);
        self.descriptions[index] += 1;
    }

    /// The answers to a description with how often each was expected.
    fn descriptions(&self) -> impl Iterator<Item = (String, u64)> + '_ {
        let refused = Cause::ALL.map(|cause| format!("refused {} ({cause:?})", cause.number()));
        iter::once(String::from("accepted"))
            .chain(refused)
            .zip(self.descriptions)
    }

    /// The answers to a description that no input has led to.
    pub fn missing_descriptions(&self) -> Vec<String> {
        self.descriptions()
            .filter(|&(_, count)| count == 0)
            .map(|(answer, _)| answer)
            .collect()
    }

    /// How often each answer to a description was expected.
    pub fn descriptions_text(&self) -> String {
        self.descriptions()
            .map(|(answer, count)| format!("{count} {answer}"))
            .collect::<Vec<_>>()
            .join(", ")
    }
}

/// The cases with how often each was met on a device.
fn on_device<T, const N: usize>(
    device: Device,
    cases: [T; N],
    counts: &[[u64; DEVICES.len()]; N],
) -> Vec<(T, u64)> {
    let counts = counts.map(|counts| counts[device as usize]);
    cases.into_iter().zip(counts).collect()
}

/// The cases that were met fewer times.
fn fewer_than<T>(least: u64, cases: Vec<(T, u64)>) -> Vec<T> {
    cases
        .into_iter()
        .filter(|&(_, count)| count < least)
        .map(|(case, _)| case)
        .collect()
}

fn cases_text<T: Debug>(cases: Vec<(T, u64)>) -> String {
    cases
        .iter()
        .map(|(case, count)| format!("{count} {case:?}"))
        .collect::<Vec<_>>()
        .join(", ")
}
