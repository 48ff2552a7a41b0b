//! Comparisons of signatures, of plans, and of images that are filled by plans.

use model::Answer;
use o32::{raw, PLAN_WORDS, SIGNATURE_MAX};

use super::{answer_of, model_device, success, Comparison};
use crate::coverage::Operation;
use crate::guarded::{Guarded, Input};
use crate::report::{answer_text, answers, change, difference, groups_text, hex, words_text};

impl Comparison {
    /// Compares the signatures of a list, for a buffer of `room` bytes.
    pub fn signature(&mut self, list: &[u8], room: usize) {
        let mut input = Input::new(self.noise.around(list));
        let mut output = self.noise.buffer(room);
        let mut expected_output = output.clone();
        let answer = answer_of(raw::signature(input.now.bytes(), output.bytes_mut()));
        let expected = model::signature(list, expected_output.bytes_mut());

        self.coverage.count_signature(expected.refusal);
        let agrees = answer == expected && output == expected_output && input.unchanged();
        self.judge(agrees, || {
            [
                format!("list {}", hex(list)),
                format!("signature buffer of {room} bytes"),
                answers(&expected, &answer),
                difference("signature buffer", &expected_output, &output),
                change("list", &input),
            ]
            .join("\n  ")
        });
    }

    /// Compares the plans of a signature, for a buffer of `room` words.
    pub fn make_plan(&mut self, signature: &[u8], room: usize) {
        let device = model_device(self.device);
        self.make_plan_as(&[signature], room, |words| {
            model::make_plan(device, signature, words)
        });
    }

    /// Compares the plan of joined groups, for a buffer of `room` words, with what
    /// `expect` answers and puts there. Gives the buffer as the library has left it.
    pub(super) fn make_plan_as(
        &mut self,
        groups: &[&[u8]],
        room: usize,
        expect: impl FnOnce(&mut [u32]) -> Answer,
    ) -> Guarded<u32> {
        let mut input = Input::new(self.noise.around(&groups.concat()));
        let mut output = self.noise.words(room);
        let mut expected_output = output.clone();
        let answer = answer_of(raw::make_plan(
            self.device,
            input.now.bytes(),
            output.words_mut(),
        ));
        let expected = expect(expected_output.words_mut());

        let agrees = answer == expected && output == expected_output && input.unchanged();
        self.count(Operation::MakePlan, expected.refusal, agrees, || {
            [
                format!("signature {}", groups_text(groups)),
                format!("plan buffer of {room} words"),
                answers(&expected, &answer),
                difference("plan buffer", &expected_output, &output),
                change("signature", &input),
            ]
            .join("\n  ")
        });
        output
    }

    /// Compares the images of a list that are filled by a plan, which may be any
    /// words, for an image buffer of `room` bytes.
    pub fn fill(&mut self, plan: &[u32], list: &[u8], room: usize) {
        let mut words = Input::new(self.noise.around_words(plan));
        let mut input = Input::new(self.noise.around(list));
        let mut output = self.noise.buffer(room);
        let mut expected_output = output.clone();
        let answer = self.filled(&words.now, &input.now, &mut output);
        let device = model_device(self.device);
        let expected = model::fill(device, plan, list, expected_output.bytes_mut());

        let inputs_stay = words.unchanged() && input.unchanged();
        let agrees = answer == expected && output == expected_output && inputs_stay;
        self.count(Operation::Fill, expected.refusal, agrees, || {
            [
                format!("plan {}", words_text(plan)),
                format!("list {}", hex(list)),
                format!("image buffer of {room} bytes"),
                answers(&expected, &answer),
                difference("image buffer", &expected_output, &output),
                change("plan", &words),
                change("list", &input),
            ]
            .join("\n  ")
        });
    }

    /// Asks that the library fills a list's image, by the plan that it makes of
    /// the signature that it gives, as it writes the list. Where it gives no such
    /// plan, it must refuse the list alike every time, also by the words `spare`.
    pub fn fill_as_written(&mut self, list: &[u8], spare: &[u32], room: usize) {
        let mut input = Input::new(self.noise.around(list));
        let mut output = self.noise.buffer(room);
        let mut expected_output = output.clone();
        let expected = answer_of(raw::write(
            self.device,
            input.now.bytes(),
            expected_output.bytes_mut(),
        ));
        let planned = self.plan_of_list(&input.now);
        let refused = planned.as_ref().err().copied();
        let plan = planned.unwrap_or_else(|_| self.noise.around_words(spare));
        let answer = self.filled(&plan, &input.now, &mut output);

        let refused_alike = refused.is_none_or(|refused| refused == expected);
        let filled_alike = answer == expected && output == expected_output;
        let agrees = refused_alike && filled_alike && input.unchanged();
        self.judge(agrees, || {
            [
                format!("list {}", hex(list)),
                format!("image buffer of {room} bytes"),
                refused.map_or(String::from("a plan is made"), |answer| {
                    format!("no plan is made: {}", answer_text(&answer))
                }),
                format!("plan {}", words_text(plan.words())),
                answers(&expected, &answer),
                difference("image buffer", &expected_output, &output),
                change("list", &input),
            ]
            .join("\n  ")
        });
    }

    /// The plan that the library makes of the signature that it gives for a
    /// list, or what it answers instead.
    fn plan_of_list(&mut self, list: &Guarded) -> Result<Guarded<u32>, Answer> {
        let mut kinds = self.noise.buffer(SIGNATURE_MAX);
        let given = answer_of(raw::signature(list.bytes(), kinds.bytes_mut()));
        if given.refusal != 0 {
            return Err(given);
        }
        // With a length beyond the buffer no kinds are taken, and the list is then
        // refused by their plan.
        let signature = kinds.bytes().get(..given.length as usize);
        let signature = self.noise.around(signature.unwrap_or_default());
        let mut plan = self.noise.words(PLAN_WORDS);
        let made = answer_of(raw::make_plan(
            self.device,
            signature.bytes(),
            plan.words_mut(),
        ));
        if made == success(PLAN_WORDS) {
            Ok(plan)
        } else {
            Err(made)
        }
    }

    /// Lets the library fill an image.
    fn filled(&self, plan: &Guarded<u32>, list: &Guarded, image: &mut Guarded) -> Answer {
        answer_of(raw::fill(
            self.device,
            plan.words(),
            list.bytes(),
            image.bytes_mut(),
        ))
    }
}
