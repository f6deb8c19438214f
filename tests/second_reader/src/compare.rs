//! Both answers to a case, and the shrinking of a case on which they differ.
use crate::case::{Call, Case, Mutation, Step};
use crate::fault::Fault;
use crate::frame::{Extent, Refusal};
use crate::further;
use crate::ledger::{self, Date, Entry, Reason, BYTES};
use crate::library;
use crate::listing;
use crate::mar::Order;
use crate::model::Model;
use crate::smallest::{self, Choice};
use crate::{dtrek, frame, held, mar, order_claims, smallest_claims, why_claims};

/// The calls that answer with a number of lines.
const CHANGE_LINES: [Call; 5] = [
    Call::Correct,
    Call::Keep,
    Call::Withdraw,
    Call::Amend,
    Call::Compact,
];

/// Makes a call on what the last one left.
pub type Make<'a> = &'a dyn Fn(&Step, &mut Outcome) -> u64;

/// What a case gave: the answers and every lent byte after each call.
#[derive(Debug, PartialEq, Eq)]
pub struct Outcome {
    pub met: Vec<(Call, u64)>,
    answers: Vec<Vec<u64>>,
    /// Digests of the held buffer and of the ledger after each call of a list.
    pub digests: Vec<(u64, u64)>,
    /// For each call the bytes of the line that its answer names, if it names one.
    pub named: Vec<Option<Vec<u8>>>,
    pub after: Case,
    respected: bool,
    /// Runs of corrections and withdrawals from one held frame and ledger, the first of no calls.
    pub runs: Vec<Run>,
    /// What A7, A8, A11 and A14 say and was found otherwise. The second reader has nothing there, so that a library that has something differs.
    pub broken: Vec<&'static str>,
}

/// Calls, and what they gave.
#[derive(Debug, PartialEq, Eq)]
pub struct Run {
    pub steps: Vec<Step>,
    pub outcome: Outcome,
}

pub fn digest(bytes: &[u8]) -> u64 {
    let step = |sum: u64, byte: &u8| (sum ^ u64::from(*byte)).wrapping_mul(0x100_0000_01B3);
    bytes.iter().fold(0xCBF2_9CE4_8422_2325, step)
}

impl Outcome {
    pub fn new(case: &Case) -> Self {
        Outcome {
            met: Vec::new(),
            answers: Vec::new(),
            digests: Vec::new(),
            named: Vec::new(),
            after: case.clone(),
            respected: true,
            runs: Vec::new(),
            broken: Vec::new(),
        }
    }

    /// Makes calls one after another.
    pub fn make(&mut self, steps: &[Step], call: impl Fn(&Step, &mut Outcome) -> u64) {
        for step in steps {
            call(step, self);
            self.digest();
        }
    }

    /// Takes in what another run met and answered.
    fn join(&mut self, other: Outcome) {
        self.met.extend(other.met);
        self.answers.extend(other.answers);
        self.digests.extend(other.digests);
        self.named.extend(other.named);
        self.respected &= other.respected;
        self.broken.extend(other.broken);
    }

    /// The first call's answer.
    pub fn answer(&self) -> &[u64] {
        &self.answers[0]
    }

    pub fn words(&self) -> String {
        let words: Vec<String> = self.answer().iter().map(u64::to_string).collect();
        words.join(" ")
    }

    /// The last call's answer.
    pub fn last_answer(&self) -> &[u64] {
        &self.answers[self.answers.len() - 1]
    }

    /// Puts a number into the first call's answer.
    #[cfg(test)]
    pub fn falsify(&mut self, place: usize, number: u64) {
        self.answers[0][place] = number;
    }

    /// The text that a listing left at the end of its buffer.
    pub fn listing_text(&self) -> String {
        let buffer = &self.after.buffer;
        let start = buffer.len() - self.last_answer()[1] as usize;
        String::from_utf8_lossy(&buffer[start..]).into_owned()
    }

    /// Each call, its refusal, and the number of lines or the line that it gave.
    pub fn calls(&self) -> Vec<String> {
        let told = |((call, refusal), answer): (&(Call, u64), &Vec<u64>)| {
            let name = call.name();
            match CHANGE_LINES.contains(call) || call.is_why() {
                true => format!("{name} {refusal}/{}", answer[1]),
                false => format!("{name} {refusal}"),
            }
        };
        self.met.iter().zip(&self.answers).map(told).collect()
    }

    fn note(&mut self, call: Call, answer: Vec<u64>) -> u64 {
        self.met.push((call, answer[0]));
        let number = if call.is_why() { answer[1] } else { 0 };
        self.named.push(line_bytes(&self.after.ledger, number));
        self.answers.push(answer);
        self.met[self.met.len() - 1].1
    }

    fn digest(&mut self) {
        let after = &self.after;
        self.digests
            .push((digest(&after.buffer), digest(&after.ledger)));
    }
}

/// The bytes of the line with this number.
fn line_bytes(ledger: &[u8], number: u64) -> Option<Vec<u8>> {
    let place = usize::try_from(number.checked_sub(1)?).ok()?;
    let line = ledger.chunks_exact(BYTES).nth(place)?;
    Some(line.to_vec())
}

/// The call that a step is counted as: a list starts with an opening, and further calls with a compaction.
fn counted(call: Call) -> Call {
    match call {
        Call::List => Call::Open,
        Call::SmallestList => Call::OpenSmallest,
        Call::Further => Call::Compact,
        other => other,
    }
}

/// Whether compacting a compacted ledger is accepted and leaves all as it is.
fn stays(fault: Fault, ledger: &[u8], lines: u64) -> bool {
    let mut again = ledger.to_vec();
    fault.compact(&mut again, lines) == (vec![0, lines], true) && again == ledger
}

fn library_answer(fault: Fault, step: &Step, case: &mut Case) -> library::Answer {
    let (held, ledger) = (&mut case.buffer, &mut case.ledger);
    match step.call {
        Call::Read => library::read(&case.frame, &mut case.pixels),
        Call::Write => fault.write(&case.frame, &case.pixels, case.form, held),
        Call::Open | Call::List => library::open(&case.frame, &mut case.pixels, case.form, held),
        Call::Smallest => fault.smallest(&case.frame, &case.pixels),
        Call::OpenSmallest | Call::SmallestList => {
            library::open_smallest(&case.frame, &mut case.pixels, held)
        }
        Call::Correct => fault.correct(held, ledger, case.lines, step.pixel, step.count),
        Call::Keep => library::keep(ledger, case.lines, step.date),
        Call::Withdraw => library::withdraw(held, ledger, case.lines),
        Call::Amend => fault.amend(held, ledger, case.lines, step.count),
        Call::Compact | Call::Further => fault.compact(ledger, case.lines),
        Call::Purge => library::may_purge(ledger, case.lines, step.date),
        Call::WhyDay => fault.why_day(ledger, case.lines, step.date),
        Call::WhyPixel => library::why_pixel(ledger, case.lines, step.pixel),
        Call::Header => library::header(&case.frame),
        Call::Listing => library::list(ledger, held),
        Call::MarRead => fault.mar_read(&case.frame, &mut case.pixels),
        Call::MarEntry => library::mar_entry(&case.frame, step.count),
        Call::DtrekRead => fault.dtrek_read(&case.frame, &mut case.pixels),
        Call::DtrekHeader => library::dtrek_header(&case.frame),
        Call::DtrekItem => library::dtrek_item(&case.frame, step.pixel),
        Call::Orders => (vec![0], true),
    }
}

fn library_step(fault: Fault, step: &Step, out: &mut Outcome) -> u64 {
    let case = &mut out.after;
    let (answer, respected) = library_answer(fault, step, case);
    let call = counted(step.call);
    if CHANGE_LINES.contains(&call) {
        case.lines = answer[1];
    }
    let compacted = call == Call::Compact && answer[0] == 0;
    if compacted && !stays(fault, &case.ledger, case.lines) {
        out.broken.push("compacting again changes nothing");
    }
    out.respected &= respected;
    out.note(call, answer)
}

/// Makes a call and holds it to what is claimed of it by itself.
fn checked(step: &Step, out: &mut Outcome, alone: Make) -> u64 {
    let refusal = alone(step, out);
    if step.call.is_why() {
        why_claims::check(step, out, alone);
    }
    refusal
}

/// Makes a call of a list.
fn listed(list: Call, step: &Step, out: &mut Outcome, alone: Make) -> u64 {
    let refusal = checked(step, out, alone);
    if step.call == Call::WhyPixel {
        why_claims::check_count(step.pixel, out, alone);
    }
    if list == Call::SmallestList {
        smallest_claims::check_form(out, alone);
    }
    refusal
}

pub fn by_library(fault: Fault, case: &Case) -> Outcome {
    let alone = |step: &Step, out: &mut Outcome| library_step(fault, step, out);
    let call = |step: &Step, out: &mut Outcome| checked(step, out, &alone);
    let listed = |step: &Step, out: &mut Outcome| listed(case.step.call, step, out, &alone);
    let mut out = Outcome::new(case);
    let refusal = call(&case.step, &mut out);
    smallest_claims::check(case, &mut out, &alone);
    match case.step.call {
        Call::List | Call::SmallestList if refusal == 0 => {
            let opened = order_claims::start(&out.after);
            out.make(&case.steps, listed);
            out.runs = order_claims::of_list(case, opened, &out.after, alone);
        }
        Call::Orders => out.runs = order_claims::play(case, order_claims::runs(case), alone),
        Call::Further if refusal == 0 => {
            let without = further::make(case, &mut out, call);
            let agree = further::agree(&without, &out);
            out.broken.extend((!agree).then_some("further calls agree"));
            out.join(without);
        }
        _ => {}
    }
    out.broken.extend(order_claims::broken(&out.runs));
    out
}

fn date(step: &Step) -> Date {
    let (year, month, day) = step.date;
    Date { year, month, day }
}

fn refusal_words(refusal: Refusal) -> Vec<u64> {
    vec![refusal.number.into(), refusal.place.into(), 0]
}

fn open_answer(case: &mut Case) -> Vec<u64> {
    let held = &mut case.buffer;
    let (extent, length) = held::open(&case.frame, &mut case.pixels, case.form, held);
    let mut answer = length.map_or_else(refusal_words, |_| vec![0; 3]);
    answer.extend([extent.rows.into(), extent.columns.into(), extent.end]);
    answer.push(length.unwrap_or(0));
    answer
}

/// The form and the length, all 0 where there is none.
fn form_words(found: Result<Choice, Refusal>) -> [u64; 3] {
    let ((width, underflow), length) = found.unwrap_or_default();
    [width.into(), underflow.into(), length]
}

fn smallest_answer(found: Result<Choice, Refusal>) -> Vec<u64> {
    let answer = found.map_or_else(refusal_words, |_| vec![0; 3]);
    [&answer[..], &form_words(found)].concat()
}

fn open_smallest_answer(case: &mut Case) -> Vec<u64> {
    let (extent, found) = smallest::open(&case.frame, &mut case.pixels, &mut case.buffer);
    let answer = found.map_or_else(refusal_words, |_| vec![0; 3]);
    let [width, underflow, length] = form_words(found);
    let sizes = [extent.rows.into(), extent.columns.into()];
    let rest = [width, underflow, extent.end, length];
    [&answer[..], &sizes, &rest].concat()
}

fn read_answer(found: Result<Extent, Refusal>) -> Vec<u64> {
    let mut answer = found.map_or_else(refusal_words, |_| vec![0; 3]);
    let extent = found.unwrap_or_default();
    answer.extend([extent.rows.into(), extent.columns.into(), extent.end]);
    answer
}

fn write_answer(case: &mut Case) -> Vec<u64> {
    let (width, underflow) = case.form;
    let out = &mut case.buffer;
    let length = frame::write(&case.frame, &case.pixels, width, underflow, out);
    let mut answer = length.map_or_else(refusal_words, |_| vec![0; 3]);
    answer.push(length.unwrap_or(0));
    answer
}

fn header_answer(frame: &[u8]) -> Vec<u64> {
    let found = frame::read_header(frame);
    let mut answer = found
        .as_ref()
        .map_or_else(|refusal| refusal_words(*refusal), |_| vec![0; 3]);
    let header = found.unwrap_or_default();
    let used = header.underflows.is_some();
    let if_used = |number: u64| if used { number } else { 0 };
    answer.extend([
        header.format,
        header.length as u64,
        header.rows,
        header.columns,
    ]);
    answer.extend([header.width, header.overflows, u64::from(used)]);
    answer.extend([if_used(header.underflow_width), if_used(header.baseline)]);
    answer.extend([
        header.underflows.unwrap_or(0),
        header.two_byte,
        header.four_byte,
    ]);
    answer
}

fn entry_answer(found: Result<(bool, u32), Refusal>) -> Vec<u64> {
    match found {
        Ok((is_float, bits)) => vec![0, is_float.into(), bits.into()],
        Err(refusal) => vec![refusal.number.into(), 0, 0],
    }
}

fn dtrek_header_answer(file: &[u8]) -> Vec<u64> {
    let header = match dtrek::read_header(file) {
        Ok(header) => header,
        Err(refusal) => return vec![refusal.number.into(), 0, 0, 0, 0, 0, 0],
    };
    let big_endian = header.order == Order::BigEndian;
    let sizes = [
        header.length as u64,
        header.rows.into(),
        header.columns.into(),
    ];
    let pixels = [header.width as u64, big_endian.into(), header.end() as u64];
    [[0].as_slice(), &sizes, &pixels].concat()
}

fn dtrek_item_answer(file: &[u8], at: u64) -> Vec<u64> {
    let places = |item: dtrek::Item| {
        let (key, value) = (item.key, item.value);
        [0, 1, key.start, key.end, value.start, value.end, item.next].map(|place| place as u64)
    };
    match dtrek::item(file, at) {
        Ok(item) => item.map_or([0; 7], places).to_vec(),
        Err(refusal) => vec![refusal.number.into(), 0, 0, 0, 0, 0, 0],
    }
}

fn listing_answer(ledger: &[u8], out: &mut [u8]) -> Vec<u64> {
    let (text, room) = listing::listing(ledger);
    if out.len() < room {
        return vec![1, 0];
    }
    let start = out.len() - text.len();
    out[start..].copy_from_slice(text.as_bytes());
    vec![0, text.len() as u64]
}

fn reason_words((refusal, line): Reason) -> Vec<u64> {
    vec![refusal.into(), line]
}

/// A question for the line that decides.
fn reason_answer(step: &Step, ledger: &[u8], lines: u64) -> Vec<u64> {
    reason_words(match step.call {
        Call::WhyDay => ledger::why_day(ledger, lines, date(step)),
        _ => ledger::why_pixel(ledger, lines, step.pixel),
    })
}

/// A call that answers with a number of lines.
fn ledger_answer(step: &Step, case: &mut Case) -> Vec<u64> {
    let (held, ledger, lines) = (&mut case.buffer, &mut case.ledger, case.lines);
    let more = |further: u64| move |()| lines + further;
    let result = match step.call {
        Call::Correct => held::correct(held, ledger, lines, step.pixel, step.count).map(more(1)),
        Call::Keep => ledger::keep(ledger, lines, date(step)).map(more(1)),
        Call::Withdraw => held::withdraw(held, ledger, lines).map(more(1)),
        Call::Amend => held::amend(held, ledger, lines, step.count).map(more(2)),
        _ => ledger::compact(ledger, lines),
    };
    case.lines = result.unwrap_or(lines);
    vec![result.err().unwrap_or(0).into(), case.lines]
}

pub fn second_step(step: &Step, out: &mut Outcome) -> u64 {
    let case = &mut out.after;
    let answer = match step.call {
        Call::Read => read_answer(frame::read(&case.frame, &mut case.pixels)),
        Call::Write => write_answer(case),
        Call::Open | Call::List => open_answer(case),
        Call::Smallest => smallest_answer(smallest::smallest(&case.frame, &case.pixels)),
        Call::OpenSmallest | Call::SmallestList => open_smallest_answer(case),
        Call::Correct | Call::Keep | Call::Withdraw => ledger_answer(step, case),
        Call::Amend | Call::Compact | Call::Further => ledger_answer(step, case),
        Call::Purge => {
            let result = ledger::may_purge(&case.ledger, case.lines, date(step));
            vec![result.err().unwrap_or(0).into()]
        }
        Call::WhyDay | Call::WhyPixel => reason_answer(step, &case.ledger, case.lines),
        Call::Header => header_answer(&case.frame),
        Call::Listing => listing_answer(&case.ledger, &mut case.buffer),
        Call::MarRead => read_answer(mar::read(&case.frame, &mut case.pixels)),
        Call::MarEntry => entry_answer(mar::entry(&case.frame, step.count)),
        Call::DtrekRead => read_answer(dtrek::read(&case.frame, &mut case.pixels)),
        Call::DtrekHeader => dtrek_header_answer(&case.frame),
        Call::DtrekItem => dtrek_item_answer(&case.frame, step.pixel),
        Call::Orders => vec![0],
    };
    out.note(counted(step.call), answer)
}

/// Enters one call into the reference model and brings the held buffer and the ledger to what it says.
fn model_step(step: &Step, model: &mut Model, out: &mut Outcome) {
    match step.call {
        Call::Compact => return model_compacts(model, out),
        Call::WhyDay | Call::WhyPixel => return model_reasons(step, model, out),
        _ => {}
    }
    let one = |entry: Entry| vec![entry];
    let result = match step.call {
        Call::Correct => model.correct(step.pixel, step.count).map(one),
        Call::Keep => model.keep(date(step)).map(one),
        Call::Withdraw => model.withdraw().map(one),
        Call::Amend => model.amend(step.count).map(Vec::from),
        _ => model.may_purge(date(step)).map(|()| Vec::new()),
    };
    let mut answer = vec![result.as_ref().err().copied().unwrap_or(0).into()];
    for entry in result.unwrap_or_default() {
        ledger::append(&mut out.after.ledger, out.after.lines, entry);
        out.after.buffer = model.held(&model.pixels()).unwrap_or_default();
        out.after.lines += 1;
    }
    if step.call != Call::Purge {
        answer.push(model.lines);
    }
    out.note(step.call, answer);
    out.digest();
}

fn model_compacts(model: &mut Model, out: &mut Outcome) {
    model.compact();
    let case = &mut out.after;
    ledger::replace(&mut case.ledger, case.lines, &model.entries());
    case.lines = model.lines;
    out.note(Call::Compact, vec![0, model.lines]);
    out.digest();
}

/// What the model says of a question, which has to be what the ledger's lines say.
fn model_reasons(step: &Step, model: &Model, out: &mut Outcome) {
    let answer = reason_words(match step.call {
        Call::WhyDay => model.why_day(date(step)),
        _ => model.why_pixel(step.pixel),
    });
    let by_lines = reason_answer(step, &out.after.ledger, out.after.lines);
    assert_eq!(by_lines, answer, "the line that decides");
    out.note(step.call, answer);
    out.digest();
}

fn without_old(entries: &[Entry]) -> Vec<Entry> {
    let cleared = |entry: &Entry| match *entry {
        Entry::Correction { pixel, new, .. } => Entry::Correction { pixel, old: 0, new },
        other => other,
    };
    entries.iter().map(cleared).collect()
}

pub fn by_second_reader(case: &Case) -> Outcome {
    let mut out = Outcome::new(case);
    let refusal = second_step(&case.step, &mut out);
    match case.step.call {
        Call::List | Call::SmallestList if refusal == 0 => {
            let opened = order_claims::start(&out.after);
            by_model(case, &mut out);
            out.runs = order_claims::of_list(case, opened, &out.after, second_step);
        }
        Call::Orders => out.runs = order_claims::play(case, order_claims::runs(case), second_step),
        Call::Further if refusal == 0 => {
            let without = further::make(case, &mut out, second_step);
            out.join(without);
        }
        _ => {}
    }
    out
}

/// The case's held buffer and ledger after these calls, by the second reader.
pub fn after(case: &Case, steps: &[Step]) -> Case {
    let mut out = Outcome::new(case);
    out.make(steps, second_step);
    out.after
}

/// The calls of a list, after its opening.
fn by_model(case: &Case, out: &mut Outcome) {
    let opened = out.answer();
    let pixels = opened[3] * opened[4];
    let form = match case.step.call {
        Call::SmallestList => (opened[5] as u32, opened[6] as u32),
        _ => case.form,
    };
    let mut model = Model {
        header: case.frame.to_vec(),
        opened: out.after.pixels[..pixels as usize].to_vec(),
        form,
        held_length: case.buffer.len(),
        ledger_length: case.ledger.len(),
        stack: Vec::new(),
        lines: 0,
    };
    for step in &case.steps {
        model_step(step, &mut model, out);
    }
    let lines = ledger::entries(&out.after.ledger, model.lines).unwrap_or_default();
    let standing = ledger::standing(&lines);
    assert_eq!(
        without_old(&standing),
        without_old(&model.entries()),
        "the stack"
    );
}

pub fn differ(fault: Fault, case: &Case) -> bool {
    by_library(fault, case) != by_second_reader(case)
}

/// Leaves out runs of a list, halving the runs, while the rest still shows the difference.
pub fn shrink_list<T: Clone>(mut list: Vec<T>, still: impl Fn(&[T]) -> bool) -> Vec<T> {
    let mut run = list.len().div_ceil(2);
    while run > 0 {
        let mut from = 0;
        while from < list.len() {
            let mut rest = list.clone();
            rest.drain(from..(from + run).min(list.len()));
            if still(&rest) {
                list = rest;
            } else {
                from += run;
            }
        }
        run /= 2;
    }
    list
}

pub fn shrink(fault: Fault, case: &Case, mutations: Vec<Mutation>) -> Case {
    let kept = shrink_list(mutations, |some| differ(fault, &case.mutated(some)));
    let mut small = case.mutated(&kept);
    let with = |steps: &[Step]| Case {
        steps: steps.to_vec(),
        ..small.clone()
    };
    small.steps = shrink_list(small.steps.clone(), |some| differ(fault, &with(some)));
    small
}

/// Says where the two outcomes part.
pub fn describe(fault: Fault, case: &Case) -> String {
    let (left, right) = (by_library(fault, case), by_second_reader(case));
    let first = |a: &[u8], b: &[u8]| a.iter().zip(b).position(|(a, b)| a != b);
    let pixel = |a: &[u32], b: &[u32]| a.iter().zip(b).position(|(a, b)| a != b);
    let runs = |out: &Outcome| -> Vec<Vec<(Call, u64)>> {
        let met = |run: &Run| run.outcome.met.clone();
        out.runs.iter().map(met).collect()
    };
    format!(
        "library {:?}\nsecond  {:?}\nruns by library {:?}\nruns by second  {:?}\nguards and read-only bytes respected: {}\n\
         claims broken: {:?}\n\
         first different byte of buffer {:?}, of ledger {:?}, first different pixel {:?}\n",
        left.answers,
        right.answers,
        runs(&left),
        runs(&right),
        left.respected,
        left.broken,
        first(&left.after.buffer, &right.after.buffer),
        first(&left.after.ledger, &right.after.ledger),
        pixel(&left.after.pixels, &right.after.pixels),
    )
}
