//! A11's claims by running them: a question names what the listing has last of its sort, withdrawals leave an earlier line named, compaction leaves the
//! same line named, and a pixel has the count of the line named.
use crate::case::{Call, Case, Step};
use crate::compare::{Make, Outcome};
use crate::ledger::{Entry, BYTES};
use crate::listing::MOST_LINES;

/// So many withdrawals are made at most to see the line that was named go.
const MOST_WITHDRAWALS: usize = 300;

struct Question<'a> {
    step: &'a Step,
    make: Make<'a>,
    /// What the claims are made of.
    case: Case,
    answer: Vec<u64>,
}

impl Question<'_> {
    fn call(&self, call: Call, out: &mut Outcome) -> Vec<u64> {
        (self.make)(&Step { call, ..*self.step }, out);
        out.last_answer().to_vec()
    }

    /// Asked again.
    fn ask(&self, out: &mut Outcome) -> Vec<u64> {
        self.call(self.step.call, out)
    }

    /// The listing's standing lines, each by its number and what it says. None where it is refused.
    fn standing(&self, case: &Case) -> Option<Vec<(u64, String)>> {
        let bytes = usize::try_from(case.lines).ok()?.checked_mul(BYTES)?;
        let mut out = Outcome::new(&Case::listing(case.ledger.get(..bytes)?));
        self.call(Call::Listing, &mut out);
        let text = out.listing_text();
        let numbered = |line: &str| {
            let (number, words) = line.strip_prefix("line ")?.split_once(' ')?;
            Some((number.parse().ok()?, words.to_string()))
        };
        let stands = |(_, words): &(u64, String)| {
            !words.starts_with("withdraw") && !words.ends_with(" withdrawn")
        };
        let standing = text.lines().filter_map(numbered).filter(stands);
        (text != "refused 20\n").then(|| standing.collect())
    }

    /// Whether the answer is the last of the listing's standing lines that the question is about, where there are not too many lines to list.
    fn is_listed(&self, case: &Case, answer: &[u64]) -> bool {
        let Some(standing) = self.standing(case) else {
            return is_too_long(case) || answer == [20, 0];
        };
        let sort = match self.step.call {
            Call::WhyDay => "keep ".to_string(),
            _ => format!("correct {} ", self.step.pixel),
        };
        let mut last = standing
            .iter()
            .rev()
            .filter(|(_, words)| words.starts_with(&sort));
        let last = last.next().map_or(0, |(number, _)| *number);
        match (self.step.call, answer) {
            (Call::WhyDay, [25, line]) => *line == 0,
            (Call::WhyDay, [26, line]) => *line == 0 && last == 0,
            (Call::WhyDay, [0 | 27, line]) => *line == last && last > 0,
            (_, [0, line]) => *line == last,
            _ => false,
        }
    }

    fn is_purge_answer(&self) -> bool {
        let mut out = Outcome::new(&self.case);
        self.step.call != Call::WhyDay || self.call(Call::Purge, &mut out)[0] == self.answer[0]
    }

    /// Whether withdrawals, as long as each is accepted and the line is still named, leave it or an earlier one named, as each time listed.
    fn goes_back(&self) -> bool {
        let mut case = self.case.clone();
        let used = case.lines as usize * BYTES;
        case.ledger.resize(used + MOST_WITHDRAWALS * BYTES, 0);
        let mut out = Outcome::new(&case);
        let line = self.answer[1];
        for _ in 0..MOST_WITHDRAWALS {
            if self.call(Call::Withdraw, &mut out)[0] != 0 {
                break;
            }
            let answer = self.ask(&mut out);
            if answer[1] != line || !self.is_listed(&out.after, &answer) {
                return answer[1] < line && self.is_listed(&out.after, &answer);
            }
        }
        true
    }

    /// Whether the same line is named behind a compaction, by its place among those that stood.
    fn is_kept(&self) -> bool {
        let standing = self.standing(&self.case).unwrap_or_default();
        let place = standing
            .iter()
            .position(|(number, _)| *number == self.answer[1]);
        let number = place.map_or(0, |place| place as u64 + 1);
        let mut out = Outcome::new(&self.case);
        self.ask(&mut out);
        let refusal = self.call(Call::Compact, &mut out)[0];
        let again = self.ask(&mut out);
        let same = out.named.first() == out.named.last();
        refusal == 0 && again == [self.answer[0], number] && same
    }
}

/// Whether there are more lines than are listed.
fn is_too_long(case: &Case) -> bool {
    case.lines > MOST_LINES as u64
}

/// Notes which of the claims do not hold of the question just asked.
pub fn check(step: &Step, out: &mut Outcome, make: Make) {
    let question = Question {
        step,
        make,
        case: out.after.clone(),
        answer: out.last_answer().to_vec(),
    };
    let listed = question.is_listed(&question.case, &question.answer);
    let accepted = question.answer[0] != 20 && !is_too_long(&question.case);
    let named = accepted && question.answer[1] != 0;
    let claims = [
        ("the purge question's refusal", question.is_purge_answer()),
        ("the last one listed", listed),
        (
            "an earlier one after withdrawals",
            !named || question.goes_back(),
        ),
        ("the same after compaction", !accepted || question.is_kept()),
    ];
    let broken = claims.into_iter().filter(|(_, holds)| !holds);
    out.broken.extend(broken.map(|(claim, _)| claim));
}

/// Notes where, in a list of calls, the frame's count is not that of the line named for the pixel, or where none is the count opened.
pub fn check_count(pixel: u64, out: &mut Outcome, make: Make) {
    let opened = &out.after.pixels;
    let read = Case {
        frame: out.after.buffer.clone().into(),
        pixels: vec![0; opened.len()],
        ..Case::of(Call::Read)
    };
    let mut held = Outcome::new(&read);
    make(&read.step, &mut held);
    let pixels = held.last_answer()[3] * held.last_answer()[4];
    let named = out
        .named
        .last()
        .and_then(|line| Entry::parse(line.as_ref()?));
    let place = pixel as usize;
    let holds = match named {
        _ if pixel >= pixels => named.is_none(),
        None => held.after.pixels[place] == opened[place],
        Some(Entry::Correction { new, .. }) => held.after.pixels[place] == new,
        Some(_) => false,
    };
    out.broken
        .extend((!holds).then_some("the count of the line named"));
}
