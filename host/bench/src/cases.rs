//! What is timed: all calls are for the device with a floating-point unit.

use std::hint::black_box;

use o32::{raw, Device};

use crate::memory;
use crate::timing::Runner;

/// Enough for every image, list and code.
pub const ROOM: usize = 1100;

/// One call, with its inputs.
pub enum Call {
    Write {
        list: &'static [u8],
    },
    Read {
        signature: &'static [u8],
        image: &'static [u8],
    },
    Prologue(raw::Request),
    Epilogue(raw::Request),
}

/// A call and its result.
pub struct Case {
    pub name: String,
    call: Call,
    result: &'static [u8],
}

impl Case {
    fn new(name: String, call: Call) -> Self {
        let mut case = Case {
            name,
            call,
            result: &[],
        };
        let buffer = memory::buffer(ROOM);
        let length = case.run_model(buffer);
        case.result = memory::input(&buffer[..length as usize]);
        case
    }

    /// Bytes of the result.
    pub fn length(&self) -> usize {
        self.result.len()
    }

    /// A time says nothing unless the results agree.
    pub fn check(&self) {
        assert!(!self.result.is_empty(), "{}: refused", self.name);
        let buffer = memory::buffer(ROOM);
        let length = self.run_o32(buffer);
        assert_eq!(&buffer[..length as usize], self.result, "{}", self.name);
    }

    /// The library, the model and the copy, each with a buffer of its own.
    pub fn runners(&self) -> [Runner<'_>; 3] {
        let [o32, model, copy] = [(); 3].map(|()| memory::buffer(ROOM));
        [
            Box::new(move || self.run_o32(o32)),
            Box::new(move || self.run_model(model)),
            Box::new(move || self.run_copy(copy)),
        ]
    }

    #[inline]
    fn run_o32(&self, buffer: &mut [u8]) -> u32 {
        let buffer = black_box(buffer);
        match &self.call {
            Call::Write { list } => raw::write(Device::Fpu, black_box(list), buffer),
            Call::Read { signature, image } => {
                raw::read(Device::Fpu, black_box(signature), black_box(image), buffer)
            }
            Call::Prologue(request) => raw::prologue(Device::Fpu, black_box(*request), buffer),
            Call::Epilogue(request) => raw::epilogue(Device::Fpu, black_box(*request), buffer),
        }
        .length
    }

    #[inline]
    fn run_model(&self, buffer: &mut [u8]) -> u32 {
        let buffer = black_box(buffer);
        match &self.call {
            Call::Write { list } => model::write(model::Device::Fpu, black_box(list), buffer),
            Call::Read { signature, image } => model::read(
                model::Device::Fpu,
                black_box(signature),
                black_box(image),
                buffer,
            ),
            Call::Prologue(request) => model::prologue(
                model::Device::Fpu,
                model_request(black_box(request)),
                buffer,
            ),
            Call::Epilogue(request) => model::epilogue(
                model::Device::Fpu,
                model_request(black_box(request)),
                buffer,
            ),
        }
        .length
    }

    /// Copies the finished result.
    #[inline]
    fn run_copy(&self, buffer: &mut [u8]) -> u32 {
        let buffer = black_box(buffer);
        let result = black_box(self.result);
        buffer[..result.len()].copy_from_slice(result);
        result.len() as u32
    }
}

fn model_request(request: &raw::Request) -> model::Request {
    model::Request {
        leaf: request.leaf != 0,
        locals: request.locals,
        outgoing: request.outgoing,
        general: request.general,
        pairs: request.pairs,
    }
}

/// The record of a structure.
fn structure(kind: u8, size: usize) -> Vec<u8> {
    std::iter::once(kind)
        .chain((0..size).map(|i| i as u8))
        .collect()
}

/// Lists by name, each with its signature.
pub fn lists() -> Vec<(&'static str, Vec<u8>, Vec<u8>)> {
    // Doubles and singles first, so that the floating registers are in use.
    let mixed: [&[u8]; 9] = [
        &[0x08, 0x3F, 0xF0, 0, 0, 0, 0, 0, 0],
        &[0x07, 0x3F, 0x80, 0, 0],
        &[0x01, 0x80],
        &[0x02, 0x80],
        &[0x03, 0x80, 0x01],
        &[0x04, 0x80, 0x01],
        &[0x0A],
        &[0x45, 1, 2, 3, 4, 5, 6],
        &[0x06, 1, 2, 3, 4, 5, 6, 7, 8],
    ];
    let word: &[u8] = &[0x05, 1, 2, 3, 4];
    let largest = structure(0xFF, 512);
    let (short, split) = (structure(0x45, 6), structure(0x53, 20));
    [
        ("3 words", vec![word; 3]),
        ("32 words", vec![word; 32]),
        ("two FF structures", vec![&largest[..]; 2]),
        ("word, structure of 6", vec![word, &short]),
        ("word, structure of 20, split", vec![word, &split]),
        ("mixed list", mixed.to_vec()),
    ]
    .into_iter()
    .map(|(name, records)| {
        let signature = records.iter().map(|record| record[0]).collect();
        (name, records.concat(), signature)
    })
    .collect()
}

/// A function that saves everything it may.
const FULL_FRAME: raw::Request = raw::Request {
    leaf: 0,
    locals: 100,
    outgoing: 32,
    general: 0xD0FF_0000,
    pairs: 63,
};

/// The image of a list that is accepted.
pub fn image_of(list: &[u8]) -> Vec<u8> {
    let mut image = vec![0; ROOM];
    let length = model::write(model::Device::Fpu, list, &mut image).length;
    image.truncate(length as usize);
    image
}

pub fn all() -> Vec<Case> {
    let lists = lists();
    let writes = lists.iter().map(|(name, list, _)| {
        let call = Call::Write {
            list: memory::input(list),
        };
        Case::new(format!("write, {name}"), call)
    });
    let reads = lists.iter().map(|(name, list, signature)| {
        let call = Call::Read {
            signature: memory::input(signature),
            image: memory::input(&image_of(list)),
        };
        Case::new(format!("read, {name}"), call)
    });
    let codes = [
        ("prologue, all registers", Call::Prologue(FULL_FRAME)),
        ("epilogue, all registers", Call::Epilogue(FULL_FRAME)),
    ]
    .into_iter()
    .map(|(name, call)| Case::new(String::from(name), call));
    writes.chain(reads).chain(codes).collect()
}
