//! The two functions that read an image.

use compare::rng::Rng;
use model::Answer;
use o32::{raw, Device};

use crate::comparison::{answer_of, model_device};
use crate::coverage::Operation;
use crate::generate::{accepted_signature, body_length, variadic_signature, Shape, MARKER};
use crate::guarded::{Guarded, Input, Noise};
use crate::report::{change, hex};

/// Which of the two is called.
#[derive(Clone, Copy, Debug, PartialEq, Eq)]
pub enum Reader {
    /// Gives the whole list.
    Read,
    /// Gives the bodies behind the marker.
    Walk,
}

impl Reader {
    pub const BOTH: [Reader; 2] = [Reader::Read, Reader::Walk];

    pub fn operation(self) -> Operation {
        match self {
            Reader::Read => Operation::Read,
            Reader::Walk => Operation::Walk,
        }
    }

    pub fn name(self) -> &'static str {
        match self {
            Reader::Read => "read",
            Reader::Walk => "walk",
        }
    }

    /// A signature that nothing refuses but, now and then, the walk for want of
    /// a marker.
    pub fn signature(self, rng: &mut Rng, shape: Shape) -> Vec<u8> {
        match self {
            Reader::Read => accepted_signature(rng, shape),
            Reader::Walk => variadic_signature(rng, shape),
        }
    }

    /// Bytes of what it gives under an accepted signature.
    pub fn length(self, signature: &[u8]) -> usize {
        match self {
            Reader::Read => signature.len() + bodies_length(signature),
            Reader::Walk => behind_marker(signature).map_or(0, bodies_length),
        }
    }

    /// Calls the library.
    pub fn library(
        self,
        device: Device,
        signature: &[u8],
        image: &[u8],
        output: &mut [u8],
    ) -> Answer {
        answer_of(match self {
            Reader::Read => raw::read(device, signature, image, output),
            Reader::Walk => raw::walk(device, signature, image, output),
        })
    }

    /// Calls the model.
    pub fn model(
        self,
        device: Device,
        signature: &[u8],
        image: &[u8],
        output: &mut [u8],
    ) -> Answer {
        let device = model_device(device);
        match self {
            Reader::Read => model::read(device, signature, image, output),
            Reader::Walk => model::walk(device, signature, image, output),
        }
    }
}

/// Bytes of the bodies of these kinds.
fn bodies_length(kinds: &[u8]) -> usize {
    kinds.iter().map(|&kind| body_length(kind)).sum()
}

/// The kinds behind a signature's marker.
fn behind_marker(signature: &[u8]) -> Option<&[u8]> {
    let marker = signature.iter().position(|&kind| kind == MARKER)?;
    Some(&signature[marker + 1..])
}

/// The bodies behind the marker in a buffer that begins with a list of these
/// kinds, if there is a marker.
pub fn bodies_behind_marker(signature: &[u8], list: &[u8]) -> Option<Vec<u8>> {
    let kinds = behind_marker(signature)?;
    let before = &signature[..signature.len() - kinds.len()];
    let mut rest = list.get(Reader::Read.length(before)..)?;
    let mut bodies = Vec::new();
    for &kind in kinds {
        let (record, next) = rest.split_at_checked(1 + body_length(kind))?;
        bodies.extend(&record[1..]);
        rest = next;
    }
    Some(bodies)
}

/// A signature and an image for the library, and how they were before.
pub struct Inputs {
    signature: Input,
    image: Input,
}

impl Inputs {
    pub fn new(noise: &mut Noise, signature: &[u8], image: &[u8]) -> Self {
        Inputs {
            signature: Input::new(noise.around(signature)),
            image: Input::new(noise.around(image)),
        }
    }

    /// Lets the library read the image.
    pub fn read(&self, reader: Reader, device: Device, output: &mut Guarded) -> Answer {
        reader.library(
            device,
            self.signature.now.bytes(),
            self.image.now.bytes(),
            output.bytes_mut(),
        )
    }

    pub fn unchanged(&mut self) -> bool {
        self.signature.unchanged() && self.image.unchanged()
    }

    pub fn text(&self) -> String {
        [
            format!("signature {}", hex(self.signature.before.bytes())),
            format!("image {}", hex(self.image.before.bytes())),
            change("signature", &self.signature),
            change("image", &self.image),
        ]
        .join("\n  ")
    }
}
