//! A14's claims by running them: the form named beside nine writes, an opening in the smallest form beside the openings in each, and the form that a list of
//! calls keeps.
use crate::case::{Call, Case};
use crate::compare::{Make, Outcome};
use crate::frame::FORMS;

/// What another call gives on the same, in this form.
fn made(case: &Case, call: Call, form: (u32, u32), make: Make) -> Outcome {
    let mut other = Case {
        form,
        ..case.clone()
    };
    other.step.call = call;
    let mut out = Outcome::new(&other);
    make(&other.step, &mut out);
    out
}

/// Room for any frame of these pixels.
pub fn ample(case: &Case) -> usize {
    case.frame.len() + 7 * case.pixels.len() + 64
}

type Claims = Vec<(&'static str, bool)>;

/// The answer of a question for the smallest form, held against nine writes.
fn of_writes(case: &Case, answer: &[u64], make: Make) -> Claims {
    let roomy = Case {
        buffer: vec![0; ample(case)],
        ..case.clone()
    };
    let written = |form| made(&roomy, Call::Write, form, make).answer().to_vec();
    let answers = FORMS.map(|form| (form, written(form)));
    let accepted: Vec<((u64, u64), u64)> = answers
        .iter()
        .filter(|(_, answer)| answer[0] == 0)
        .map(|((width, underflow), answer)| (((*width).into(), (*underflow).into()), answer[3]))
        .collect();
    let (chosen, length) = ((answer[3], answer[4]), answer[5]);
    let mut equal = accepted.iter().filter(|(_, other)| *other == length);
    let as_first = [&answers[0].1[..3], &[0; 3]].concat();
    let is_refused = answer[0] != 0;
    vec![
        (
            "no accepted form is shorter",
            accepted.iter().all(|(_, other)| *other >= length),
        ),
        (
            "the length foretold is written",
            is_refused || accepted.contains(&(chosen, length)),
        ),
        ("equals come later", equal.all(|(form, _)| *form >= chosen)),
        (
            "refused where all nine are",
            is_refused == accepted.is_empty() && (!is_refused || answer == as_first),
        ),
    ]
}

/// An opening in the smallest form, held against openings and against the question.
fn of_opening(case: &Case, out: &Outcome, make: Make) -> Claims {
    let answer = out.answer();
    let is_refused = answer[0] != 0;
    let form = match is_refused {
        true => FORMS[0],
        false => (answer[5] as u32, answer[6] as u32),
    };
    let opened = made(case, Call::Open, form, make);
    let without_form = [&answer[..5], &answer[7..]].concat();
    let same_bytes =
        opened.after.pixels == out.after.pixels && opened.after.buffer == out.after.buffer;
    let is_opened = |form| made(case, Call::Open, form, make).answer()[0] == 0;
    let none_opened = || answer[5..7] == [0, 0] && !FORMS.into_iter().any(is_opened);
    let asked = || made(&out.after, Call::Smallest, form, make);
    let named = [answer[5], answer[6], answer[8]];
    vec![
        (
            "as an opening in that form",
            opened.answer() == without_form && same_bytes,
        ),
        (
            "refused where all nine openings are",
            !is_refused || none_opened(),
        ),
        (
            "the form that is named without opening",
            is_refused || asked().answer()[3..] == named,
        ),
    ]
}

/// Notes which of the claims do not hold of the case's call, which was just made.
pub fn check(case: &Case, out: &mut Outcome, make: Make) {
    let claims = match case.step.call {
        Call::Smallest => of_writes(case, out.answer(), make),
        Call::OpenSmallest | Call::SmallestList => of_opening(case, out, make),
        _ => Vec::new(),
    };
    let broken = claims.into_iter().filter(|(_, holds)| !holds);
    out.broken.extend(broken.map(|(claim, _)| claim));
}

/// Notes where, in a list of calls, the held frame's header names another form than was opened in.
pub fn check_form(out: &mut Outcome, make: Make) {
    let held = Case {
        frame: out.after.buffer.clone().into(),
        ..Case::of(Call::Header)
    };
    let header = made(&held, Call::Header, (0, 0), make);
    let header = header.answer();
    let named = [header[7], header[9] * header[10]];
    let holds = header[0] == 0 && named == out.answer()[5..7];
    out.broken
        .extend((!holds).then_some("the form chosen stays"));
}
