//! One signature sent many times, as in a sweep of 400 calls: what it takes to
//! make its plan, which is done once, and to fill or to write the image of a
//! list, which is done for each.

use std::hint::black_box;

use o32::{raw, Device, PLAN_WORDS};

use crate::cases::{self, image_of, ROOM};
use crate::memory;
use crate::timing::Runner;

/// The lists of the cases that are sent so.
const LISTS: [&str; 4] = ["3 words", "32 words", "mixed list", "two FF structures"];

/// A list with its signature, its plan and its image.
pub struct Sweep {
    pub name: &'static str,
    signature: &'static [u8],
    list: &'static [u8],
    plan: &'static [u32],
    image: &'static [u8],
}

impl Sweep {
    fn new(name: &'static str, list: &[u8], signature: &[u8]) -> Self {
        let mut plan = [0; PLAN_WORDS];
        model::make_plan(model::Device::Fpu, signature, &mut plan);
        Sweep {
            name,
            signature: memory::input(signature),
            list: memory::input(list),
            plan: memory::input_words(&plan),
            image: memory::input(&image_of(list)),
        }
    }

    /// Bytes of the image.
    pub fn length(&self) -> usize {
        self.image.len()
    }

    /// A time says nothing unless the results agree.
    pub fn check(&self) {
        let plan = memory::word_buffer(PLAN_WORDS);
        assert_eq!(self.make_plan(plan) as usize, PLAN_WORDS, "{}", self.name);
        assert_eq!(plan, self.plan, "{}", self.name);
        for run in [Sweep::fill, Sweep::write] {
            let image = memory::buffer(ROOM);
            let length = run(self, image);
            assert_eq!(&image[..length as usize], self.image, "{}", self.name);
        }
    }

    /// The maker of plans, the filler and the writer, each with a buffer of its
    /// own.
    pub fn runners(&self) -> [Runner<'_>; 3] {
        let plan = memory::word_buffer(PLAN_WORDS);
        let [filled, written] = [(); 2].map(|()| memory::buffer(ROOM));
        [
            Box::new(move || self.make_plan(plan)),
            Box::new(move || self.fill(filled)),
            Box::new(move || self.write(written)),
        ]
    }

    #[inline]
    fn make_plan(&self, plan: &mut [u32]) -> u32 {
        raw::make_plan(Device::Fpu, black_box(self.signature), black_box(plan)).length
    }

    #[inline]
    fn fill(&self, image: &mut [u8]) -> u32 {
        let (plan, list) = black_box((self.plan, self.list));
        raw::fill(Device::Fpu, plan, list, black_box(image)).length
    }

    #[inline]
    fn write(&self, image: &mut [u8]) -> u32 {
        raw::write(Device::Fpu, black_box(self.list), black_box(image)).length
    }
}

pub fn all() -> Vec<Sweep> {
    let lists = cases::lists();
    LISTS
        .iter()
        .map(|&wanted| {
            let (name, list, signature) = lists
                .iter()
                .find(|(name, ..)| *name == wanted)
                .expect("a list of the cases");
            Sweep::new(name, list, signature)
        })
        .collect()
}
