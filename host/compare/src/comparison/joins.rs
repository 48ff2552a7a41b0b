//! Comparisons of the plans and images of groups that are laid end to end.

use std::ops::RangeInclusive;

use model::{lay, Answer, Laid};
use o32::PLAN_WORDS;

use super::{model_device, success, Comparison};
use crate::coverage::Join;
use crate::generate::{end_of, leave_same_end, MARKER};
use crate::guarded::Guarded;
use crate::report::{groups_text, hex, words_text};

/// Words of a placement: kind, offset and register.
const PLACEMENT_WORDS: usize = 3;

/// Where a plan's count stands; the last word, behind it, is the area's size.
const COUNT: usize = PLAN_WORDS - 2;

/// The refusals that come before that of an end.
const BEFORE_END: RangeInclusive<u32> = 1..=3;

/// The refusal of an argument that ends beyond the limit.
const BEYOND_LIMIT: u32 = 5;

/// Where the last argument may end.
const END_LIMIT: usize = 1024;

/// Bytes of the homes, which every argument area has.
const HOMES: usize = 16;

impl Comparison {
    /// Counts a case of joined groups.
    pub fn count_join(&mut self, join: Join) {
        self.coverage.count_join(join, self.device);
    }

    /// Compares the plan of joined groups with the offsets that they have when
    /// each is laid from where the one before it ended. Gives the plan's buffer as
    /// the library has left it.
    pub fn plan_of_groups(&mut self, groups: &[&[u8]]) -> Guarded<u32> {
        let device = model_device(self.device);
        let mut expected = Answer::default();
        let plan = self.make_plan_as(groups, PLAN_WORDS, |words| {
            expected = put_laid_plan(device, groups, words);
            expected
        });
        if expected.refusal == BEYOND_LIMIT {
            self.count_join(Join::Beyond);
        }
        plan
    }

    /// Asks that the library's plan of two groups, of which the first ends at a
    /// multiple of 8, has the offsets of its own plans of both, those of the second
    /// moved by that end.
    pub fn plan_of_moved(&mut self, first: &[u8], second: &[u8]) {
        let start = end_of(first);
        let [before, own] = [first, second].map(|group| self.plan_of_groups(&[group]));
        let moved = offsets_of(&own).map(|offset| start + offset);
        let laid = Laid {
            offsets: offsets_of(&before).chain(moved).collect(),
            end: start + end_of(second),
        };
        let device = model_device(self.device);
        let groups = [first, second];
        self.make_plan_as(&groups, PLAN_WORDS, |words| {
            model::make_plan(device, &groups.concat(), words);
            put_offsets(words, &laid);
            success(PLAN_WORDS)
        });
        self.count_join(Join::Moved);
    }

    /// Compares the plans of three groups and of the same with the first two
    /// exchanged. Where these leave the same end in both orders, all that the
    /// library's plans say of the third must be the same, and the area too.
    pub fn plan_of_exchanged(&mut self, [first, second, third]: [&[u8]; 3]) {
        let orders = [[first, second, third], [second, first, third]];
        let [one, other] = orders.map(|groups| self.plan_of_groups(&groups));
        if !leave_same_end(first, second) {
            self.count_join(Join::OtherEnd);
            return;
        }
        self.count_join(Join::SameEnd);
        let behind = PLACEMENT_WORDS * (arguments(first) + arguments(second));
        let [one, other] = [&one, &other].map(|plan| &plan.words()[behind..]);
        self.judge(one == other, || {
            [
                format!("signature {}", groups_text(&orders[0])),
                format!("plan from the third group on {}", words_text(one)),
                format!("with the first two exchanged {}", words_text(other)),
            ]
            .join("\n  ")
        });
    }

    /// Compares the images of a list and of the same with its first two groups
    /// exchanged, and asks that the library's carry the third alike. `carried` says
    /// of each image which bytes carry it.
    pub fn write_exchanged(&mut self, lists: &[Vec<u8>; 2], carried: &[Vec<u8>; 2]) {
        let [one, other] = [0, 1].map(|order| {
            let image = self.write(&lists[order], carried[order].len());
            bytes_at(&image, &carried[order])
        });
        self.judge(carried[0] == carried[1] && one == other, || {
            [
                format!("list {}", hex(&lists[0])),
                format!("with two groups exchanged {}", hex(&lists[1])),
                format!("the third is carried at {}", hex(&carried[0])),
                format!("with two groups exchanged at {}", hex(&carried[1])),
                format!("by {}", hex(&one)),
                format!("with two groups exchanged by {}", hex(&other)),
            ]
            .join("\n  ")
        });
    }
}

/// Puts the plan of joined groups at the start of `words`, with the offsets that
/// they have when each is laid from where the one before it ended. Kinds,
/// registers and the first refusals are no matter of offsets and are the model's.
fn put_laid_plan(device: model::Device, groups: &[&[u8]], words: &mut [u32]) -> Answer {
    let signature = groups.concat();
    let answer = model::make_plan(device, &signature, words);
    if BEFORE_END.contains(&answer.refusal) {
        return answer;
    }
    if let Some(place) = first_beyond(&signature) {
        return Answer {
            refusal: BEYOND_LIMIT,
            place: place as u32,
            argument: arguments(&signature[..=place]) as u32,
            length: 0,
        };
    }
    let parts = laid_in_turn(groups.iter().copied());
    let laid = Laid {
        end: parts.last().map_or(0, |part| part.end),
        offsets: parts.into_iter().flat_map(|part| part.offsets).collect(),
    };
    put_offsets(words, &laid);
    success(PLAN_WORDS)
}

/// Lays groups from offset 0 on, each from where the one before it ended, as far
/// as their kinds are known.
fn laid_in_turn<'a>(groups: impl Iterator<Item = &'a [u8]>) -> Vec<Laid> {
    groups
        .scan(0, |end, group| {
            let laid = lay(*end, group)?;
            *end = laid.end;
            Some(laid)
        })
        .collect()
}

/// The place of the first argument that ends beyond the limit, each being laid
/// from where the one before it ended.
fn first_beyond(signature: &[u8]) -> Option<usize> {
    laid_in_turn(signature.chunks(1))
        .iter()
        .position(|laid| laid.end > END_LIMIT)
}

/// Puts offsets into a plan, with their count and the area that goes with the end.
fn put_offsets(words: &mut [u32], laid: &Laid) {
    let placements = words.chunks_exact_mut(PLACEMENT_WORDS);
    for (placement, &offset) in placements.zip(&laid.offsets) {
        placement[1] = offset as u32;
    }
    words[COUNT] = laid.offsets.len() as u32;
    words[COUNT + 1] = laid.end.next_multiple_of(8).max(HOMES) as u32;
}

/// The offsets in a plan.
fn offsets_of(plan: &Guarded<u32>) -> impl Iterator<Item = usize> + '_ {
    let words = plan.words();
    words
        .chunks_exact(PLACEMENT_WORDS)
        .take(words[COUNT] as usize)
        .map(|placement| placement[1] as usize)
}

/// How many arguments kinds are.
fn arguments(kinds: &[u8]) -> usize {
    kinds.iter().filter(|&&kind| kind != MARKER).count()
}

/// The bytes of an image where `carried` isn't 0.
fn bytes_at(image: &Guarded, carried: &[u8]) -> Vec<u8> {
    let bytes = image.bytes().iter().zip(carried);
    bytes
        .filter(|&(_, &carried)| carried != 0)
        .map(|(&byte, _)| byte)
        .collect()
}
