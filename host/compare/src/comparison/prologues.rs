//! Comparisons of what is said of code as a prologue.

use model::Verdict;
use o32::{raw, PROLOGUE_MAX};

use super::{model_device, model_request, Comparison};
use crate::coverage::Operation;
use crate::guarded::Input;
use crate::report::{change, hex_beginning};

impl Comparison {
    /// Compares the verdicts on code as the prologue of a frame.
    pub fn check_prologue(&mut self, request: raw::Request, code: &[u8]) {
        self.check_known_prologue(request, code, None);
    }

    /// Likewise, where the code was made so that it has this verdict. Then the
    /// model must find it too.
    pub fn check_prologue_is(&mut self, request: raw::Request, code: &[u8], verdict: u32) {
        self.check_known_prologue(request, code, Some(verdict));
    }

    fn check_known_prologue(&mut self, request: raw::Request, code: &[u8], known: Option<u32>) {
        let mut input = Input::new(self.noise.around(code));
        let answer = verdict_of(raw::check_prologue(self.device, request, input.now.bytes()));
        let expected =
            model::check_prologue(model_device(self.device), model_request(request), code);
        if expected.refusal == 0 {
            self.coverage.count_verdict(expected.verdict, self.device);
        }

        let is_known = known.is_none_or(|verdict| expected == not_refused(verdict));
        let agrees = answer == expected && is_known && input.unchanged();
        self.count(Operation::Check, expected.refusal, agrees, || {
            [
                format!("{request:X?}"),
                format!("code {}", hex_beginning(code)),
                format!("made for verdict {known:?}"),
                format!("expected {expected:?}"),
                format!("answered {answer:?}"),
                change("code", &input),
            ]
            .join("\n  ")
        });
    }

    /// Asks that the library accepts the prologue that it writes itself, unless
    /// the request is refused. Then the refusals must be the same.
    pub fn check_own_prologue(&mut self, request: raw::Request) {
        let mut code = self.noise.buffer(PROLOGUE_MAX);
        let written = raw::prologue(self.device, request, code.bytes_mut());
        let words = &code.bytes()[..written.length as usize];
        let answer = verdict_of(raw::check_prologue(self.device, request, words));

        let expected = Verdict {
            refusal: written.refusal,
            ..not_refused(0)
        };
        self.judge(answer == expected, || {
            [
                format!("{request:X?}"),
                format!("written {written:?}"),
                format!("code {}", hex_beginning(words)),
                format!("expected {expected:?}"),
                format!("answered {answer:?}"),
            ]
            .join("\n  ")
        });
    }
}

fn not_refused(verdict: u32) -> Verdict {
    Verdict {
        verdict,
        ..Verdict::default()
    }
}

fn verdict_of(answer: raw::Verdict) -> Verdict {
    let raw::Verdict {
        refusal,
        place,
        verdict,
    } = answer;
    Verdict {
        refusal,
        place,
        verdict,
    }
}
