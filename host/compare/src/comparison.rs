//! One comparison of the library with the model, and the count of all.

mod joins;
mod plans;
mod prologues;

use std::ops::RangeInclusive;

use compare::rng::Rng;
use model::{Answer, Layout, Structure};
use o32::{raw, Device, LIST_MAX};

use crate::coverage::{Coverage, GlobalPointer, Operation};
use crate::guarded::{Guarded, Input, Noise};
use crate::readers::{bodies_behind_marker, Inputs, Reader};
use crate::report::{answer_text, answers, change, difference, hex, hex_beginning};

/// Failing inputs that are shown of each group; the rest is only counted.
const REPORTS_OF_A_GROUP: usize = 2;

/// Failing inputs that are shown in all.
const REPORTS: usize = 10;

/// The refusals that a signature's records lead to.
const SIGNATURE_REFUSALS: RangeInclusive<u32> = 1..=5;

/// The refusal of a walk under a signature without a marker.
const NO_MARKER: u32 = 15;

/// With a floating-point unit and without one.
pub const DEVICES: [Device; 2] = [Device::Fpu, Device::NoFpu];

/// Which code of a frame is written.
#[derive(Clone, Copy, Debug, PartialEq, Eq)]
pub enum Code {
    Prologue,
    Epilogue,
}

impl Code {
    pub const BOTH: [Code; 2] = [Code::Prologue, Code::Epilogue];
}

/// Counts comparisons and keeps the first failures.
pub struct Comparison {
    noise: Noise,
    /// The group's name, and its device if it has one.
    group: String,
    /// What the group's comparisons are for.
    device: Device,
    failed_in_group: usize,
    passed: u64,
    failed: u64,
    coverage: Coverage,
    reports: Vec<String>,
}

impl Comparison {
    pub fn new(seed: u64) -> Self {
        Comparison {
            noise: Noise::new(Rng::for_part(seed, "noise")),
            group: String::new(),
            device: Device::Fpu,
            failed_in_group: 0,
            passed: 0,
            failed: 0,
            coverage: Coverage::default(),
            reports: Vec::new(),
        }
    }

    /// Starts a group of comparisons for one device.
    pub fn start_group(&mut self, name: &str, device: Device) {
        self.start_group_without_device(&format!("{name}, {device:?}"));
        self.device = device;
    }

    /// Starts a group of comparisons that no device matters to.
    pub fn start_group_without_device(&mut self, name: &str) {
        self.group = String::from(name);
        self.failed_in_group = 0;
    }

    /// The device of the group.
    pub fn device(&self) -> Device {
        self.device
    }

    pub fn passed(&self) -> u64 {
        self.passed
    }

    pub fn failed(&self) -> u64 {
        self.failed
    }

    pub fn total(&self) -> u64 {
        self.passed + self.failed
    }

    pub fn reports(&self) -> &[String] {
        &self.reports
    }

    pub fn coverage(&self) -> &Coverage {
        &self.coverage
    }

    /// Fails for every answer that no input has led to.
    pub fn check_coverage(&mut self) {
        for device in DEVICES {
            self.start_group("coverage", device);
            for operation in Operation::ALL {
                for answer in self.coverage.missing(operation, device) {
                    self.fail(|| format!("{operation:?}: no input is answered with {answer}"));
                }
            }
            for join in self.coverage.missing_joins(device) {
                self.fail(|| format!("joined groups: too few inputs are {join:?}"));
            }
            for answer in self.coverage.missing_global_pointers(device) {
                self.fail(|| format!("Frame: no input is answered with $28 {answer:?}"));
            }
            for verdict in self.coverage.missing_verdicts(device) {
                self.fail(|| format!("Check: too few inputs have the verdict {verdict:?}"));
            }
        }
        self.start_group_without_device("coverage");
        for answer in self.coverage.missing_signatures() {
            self.fail(|| format!("signature: no input is answered with {answer}"));
        }
        for answer in self.coverage.missing_descriptions() {
            self.fail(|| format!("describe: no input is {answer}"));
        }
    }

    /// Compares the writers on a list and an image buffer of `room` bytes, and
    /// gives the buffer as the library has left it.
    pub fn write(&mut self, list: &[u8], room: usize) -> Guarded {
        let mut input = Input::new(self.noise.around(list));
        let mut output = self.noise.buffer(room);
        let mut expected_output = output.clone();

        let answer = answer_of(raw::write(
            self.device,
            input.now.bytes(),
            output.bytes_mut(),
        ));
        let expected = model::write(model_device(self.device), list, expected_output.bytes_mut());

        let agrees = answer == expected && output == expected_output && input.unchanged();
        self.count(Operation::Write, expected.refusal, agrees, || {
            [
                format!("list {}", hex(list)),
                format!("image buffer of {room} bytes"),
                answers(&expected, &answer),
                difference("image buffer", &expected_output, &output),
                change("list", &input),
            ]
            .join("\n  ")
        });
        output
    }

    /// Compares a reader with the model's on a signature, an image and an
    /// output buffer of `room` bytes.
    pub fn read(&mut self, reader: Reader, signature: &[u8], image: &[u8], room: usize) {
        let mut inputs = Inputs::new(&mut self.noise, signature, image);
        let mut output = self.noise.buffer(room);
        let mut expected_output = output.clone();
        let answer = inputs.read(reader, self.device, &mut output);
        let expected = reader.model(self.device, signature, image, expected_output.bytes_mut());

        let agrees = answer == expected && output == expected_output && inputs.unchanged();
        self.count(reader.operation(), expected.refusal, agrees, || {
            [
                inputs.text(),
                format!("output buffer of {room} bytes"),
                answers(&expected, &answer),
                difference("output buffer", &expected_output, &output),
            ]
            .join("\n  ")
        });
    }

    /// Asks that the library walks an image as it reads it: the bodies behind
    /// the marker are those of its own reading, and the refusals are the same
    /// unless the marker is missing.
    pub fn walk_as_read(&mut self, signature: &[u8], image: &[u8]) {
        let mut inputs = Inputs::new(&mut self.noise, signature, image);
        let mut reading = self.noise.buffer(LIST_MAX);
        let read = inputs.read(Reader::Read, self.device, &mut reading);
        let mut output = self.noise.buffer(LIST_MAX);
        let mut expected_output = output.clone();
        let expected = walk_after(&read, signature, &reading, &mut expected_output);
        let answer = inputs.read(Reader::Walk, self.device, &mut output);

        let agrees = answer == expected && output == expected_output && inputs.unchanged();
        self.judge(agrees, || {
            [
                inputs.text(),
                format!("read: {}", answer_text(&read)),
                answers(&expected, &answer),
                difference("output buffer", &expected_output, &output),
            ]
            .join("\n  ")
        });
    }

    /// Asks that the library walks alike on both devices.
    pub fn walk_on_both_devices(&mut self, signature: &[u8], image: &[u8], room: usize) {
        let mut inputs = Inputs::new(&mut self.noise, signature, image);
        let before = self.noise.buffer(room);
        let [with_unit, without_unit] = DEVICES.map(|device| {
            let mut output = before.clone();
            let answer = inputs.read(Reader::Walk, device, &mut output);
            (answer, output)
        });

        self.judge(with_unit == without_unit && inputs.unchanged(), || {
            [
                inputs.text(),
                format!("output buffer of {room} bytes"),
                answers(&with_unit.0, &without_unit.0),
                difference("output buffer", &with_unit.1, &without_unit.1),
            ]
            .join("\n  ")
        });
    }

    /// Writes a list, puts noise where `carried` is 0, and asks that the
    /// library reads the very list back from its own image.
    pub fn round_trip(&mut self, signature: &[u8], list: &[u8], carried: &[u8]) {
        let input = self.noise.around(list);
        let kinds = self.noise.around(signature);
        let mut image = self.noise.buffer(carried.len());
        let written = answer_of(raw::write(self.device, input.bytes(), image.bytes_mut()));
        let noise = self.noise.buffer(carried.len());
        overwrite_holes(image.bytes_mut(), noise.bytes(), carried);
        let mut reading = self.noise.buffer(list.len());
        let read = answer_of(raw::read(
            self.device,
            kinds.bytes(),
            image.bytes(),
            reading.bytes_mut(),
        ));

        let agrees = written == success(carried.len())
            && read == success(list.len())
            && reading.bytes() == list;
        self.judge(agrees, || {
            [
                format!("list {}", hex(list)),
                format!("written: {}", answer_text(&written)),
                format!("image with noise {}", hex(image.bytes())),
                format!("read: {}", answer_text(&read)),
                format!("reading {}", hex(reading.bytes())),
            ]
            .join("\n  ")
        });
    }

    /// Compares the layouts of a frame.
    pub fn frame(&mut self, request: raw::Request) {
        let layout = layout_of(raw::frame(self.device, request));
        let expected = model::frame(model_device(self.device), model_request(request));
        if expected.refusal == 0 {
            self.coverage
                .count_global_pointer(GlobalPointer::of(&expected), self.device);
        }
        self.count(
            Operation::Frame,
            expected.refusal,
            layout == expected,
            || format!("{request:X?}\n  expected {expected:?}\n  answered {layout:?}"),
        );
    }

    /// Compares a frame's code for a code buffer of `room` bytes.
    pub fn code(&mut self, code: Code, request: raw::Request, room: usize) {
        let mut output = self.noise.buffer(room);
        let mut expected_output = output.clone();
        let answer = answer_of(match code {
            Code::Prologue => raw::prologue(self.device, request, output.bytes_mut()),
            Code::Epilogue => raw::epilogue(self.device, request, output.bytes_mut()),
        });
        let expected = model_code(code, self.device, request, expected_output.bytes_mut());

        let agrees = answer == expected && output == expected_output;
        self.count(Operation::Code, expected.refusal, agrees, || {
            [
                format!("{code:?}, {request:X?}"),
                format!("code buffer of {room} bytes"),
                answers(&expected, &answer),
                difference("code buffer", &expected_output, &output),
            ]
            .join("\n  ")
        });
    }

    /// Compares what is answered to a description.
    pub fn describe(&mut self, description: &[u8]) {
        let mut input = Input::new(self.noise.around(description));
        let structure = structure_of(raw::describe(input.now.bytes()));
        let expected = model::describe(description);

        self.coverage
            .count_description(model::cause_of_refusal(description));
        let agrees = structure == expected && input.unchanged();
        self.judge(agrees, || {
            [
                format!("description {}", hex_beginning(description)),
                format!("expected {expected:?}"),
                format!("answered {structure:?}"),
                change("description", &input),
            ]
            .join("\n  ")
        });
    }

    /// Counts a comparison, and the answer of the model.
    fn count(
        &mut self,
        operation: Operation,
        expected: u32,
        agrees: bool,
        report: impl FnOnce() -> String,
    ) {
        self.coverage.count(operation, self.device, expected);
        self.judge(agrees, report);
    }

    fn judge(&mut self, agrees: bool, report: impl FnOnce() -> String) {
        if agrees {
            self.passed += 1;
        } else {
            self.fail(report);
        }
    }

    fn fail(&mut self, report: impl FnOnce() -> String) {
        self.failed += 1;
        self.failed_in_group += 1;
        if self.failed_in_group <= REPORTS_OF_A_GROUP && self.reports.len() < REPORTS {
            self.reports.push(format!("{}\n  {}", self.group, report()));
        }
    }
}

/// The model's code for a request to the library.
pub fn model_code(code: Code, device: Device, request: raw::Request, buffer: &mut [u8]) -> Answer {
    let device = model_device(device);
    let request = model_request(request);
    match code {
        Code::Prologue => model::prologue(device, request, buffer),
        Code::Epilogue => model::epilogue(device, request, buffer),
    }
}

/// The model's name for a device of the library.
pub fn model_device(device: Device) -> model::Device {
    match device {
        Device::Fpu => model::Device::Fpu,
        Device::NoFpu => model::Device::NoFpu,
    }
}

fn model_request(request: raw::Request) -> model::Request {
    model::Request {
        leaf: request.leaf != 0,
        locals: request.locals,
        outgoing: request.outgoing,
        general: request.general,
        pairs: request.pairs,
    }
}

pub fn answer_of(answer: raw::Answer) -> Answer {
    let raw::Answer {
        refusal,
        place,
        argument,
        length,
    } = answer;
    Answer {
        refusal,
        place,
        argument,
        length,
    }
}

fn layout_of(layout: raw::Layout) -> Layout {
    let raw::Layout {
        refusal,
        place,
        frame,
        build,
        floating,
        general,
        locals,
        gp_saved,
        gp,
    } = layout;
    Layout {
        refusal,
        place,
        frame,
        build,
        floating,
        general,
        locals,
        gp_saved,
        gp,
    }
}

fn structure_of(structure: raw::Structure) -> Structure {
    let raw::Structure {
        refusal,
        place,
        size,
        alignment,
        kind,
    } = structure;
    Structure {
        refusal,
        place,
        size,
        alignment,
        kind,
    }
}

fn overwrite_holes(image: &mut [u8], noise: &[u8], carried: &[u8]) {
    for ((byte, &noise), &carried) in image.iter_mut().zip(noise).zip(carried) {
        if carried == 0 {
            *byte = noise;
        }
    }
}

/// What a walk must answer and leave in its buffer where the reader answered
/// `read`, with room enough for both.
fn walk_after(read: &Answer, signature: &[u8], reading: &Guarded, output: &mut Guarded) -> Answer {
    if SIGNATURE_REFUSALS.contains(&read.refusal) {
        return *read;
    }
    let Some(bodies) = bodies_behind_marker(signature, reading.bytes()) else {
        return Answer {
            refusal: NO_MARKER,
            ..Answer::default()
        };
    };
    if read.refusal != 0 {
        return *read;
    }
    output.bytes_mut()[..bodies.len()].copy_from_slice(&bodies);
    success(bodies.len())
}

fn success(length: usize) -> Answer {
    Answer {
        length: length as u32,
        ..Answer::default()
    }
}
