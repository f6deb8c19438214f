//! Cases of mar images: whole ones kept from case to case, headers with little behind them, and the damage done to both.
use crate::case::{Call, Case, Mutation, Target};
use crate::generate::{any_bytes, Made};
use crate::mar::{MARK, PAIR};
use crate::plate::{kinds, Plate};
use crate::random::Random;
use std::rc::Rc;

/// Numbers of pairs about whole records of 300 and 500, and about the page's 600 and 1000.
const PAIRS: [u32; 14] = [
    0, 1, 2, 299, 300, 301, 499, 500, 501, 600, 601, 1000, 1001, 4000,
];
/// About so many pixels of an image are marked and may have a pair.
const MARKED: usize = 5000;
/// Places lent behind the last pixel.
const SPARE: usize = 5;

/// A whole image, of which the header and the pairs are made anew for each case.
struct Whole {
    plate: Plate,
    /// Addresses of pixels of 65535, in no order.
    marked: Vec<u32>,
    pairs: Vec<(u32, u32)>,
    case: Case,
}

/// One image for each size and byte order.
pub struct Plates(Vec<Whole>);

fn stored(random: &mut Random) -> u16 {
    let any = random.next() as u16;
    random.pick(&[any, any, any & 0xFF, 0, 1, 255, 256, MARK - 1])
}

fn count(random: &mut Random) -> u32 {
    let any = random.next() as u32 | 0x1_0000;
    random.pick(&[any, 65536, 65537, 1 << 31, u32::MAX])
}

/// The bits of a header entry: those of odd floats among them.
fn bits(random: &mut Random) -> u32 {
    let odd = [f32::INFINITY, f32::NEG_INFINITY, -0.0, 1.5418, f32::MIN].map(f32::to_bits);
    let nan = random.pick(&[0x7FC0_0000, 0x7F80_0001, 0xFFC1_2345, u32::MAX, 0x7FBF_FFFF]);
    let any = random.next() as u32;
    let float = random.pick(&odd);
    random.pick(&[any, any, float, nan, 0, 1])
}

fn header(random: &mut Random, plate: Plate, pairs: u32) -> Vec<u8> {
    let mut entries = plate.lead(pairs).to_vec();
    entries[3] = bits(random);
    entries.extend((6..25).map(|_| bits(random)));
    let fill = random.byte();
    plate.header(&entries, random.pick(&[fill, 0xFF]))
}

impl Whole {
    fn new(random: &mut Random, plate: Plate) -> Whole {
        let pixels = plate.pixels();
        let mut marked: Vec<u32> = vec![1, plate.side as u32, pixels as u32];
        marked.extend((0..MARKED).map(|_| 1 + random.index(pixels) as u32));
        marked.sort_unstable();
        marked.dedup();
        random.shuffle(&mut marked);
        let mut image: Vec<u16> = (0..pixels).map(|_| stored(random)).collect();
        for address in &marked {
            image[*address as usize - 1] = MARK;
        }
        let mut case = Case::of(Call::MarRead);
        let mut file = vec![0; plate.record()];
        file.extend(image.iter().flat_map(|value| plate.pixel(*value)));
        case.frame = file.into();
        case.pixels = plate.array(pixels + SPARE);
        Whole {
            plate,
            marked,
            pairs: Vec::new(),
            case,
        }
    }

    fn renew(&mut self, random: &mut Random) {
        let any = random.index(self.marked.len()) as u32;
        let listed = random.pick(&PAIRS);
        let length = random.pick(&[listed, listed, listed, any]) as usize;
        let from = random.index(self.marked.len());
        let addresses = self.marked.iter().cycle().skip(from).take(length);
        self.pairs = addresses.map(|address| (*address, count(random))).collect();
        let header = header(random, self.plate, length as u32);
        let table = self.plate.table(&self.pairs, random.byte());
        let file = Rc::make_mut(&mut self.case.frame);
        file[..header.len()].copy_from_slice(&header);
        file.truncate(self.plate.image_end());
        file.extend(table);
        let trailing = random.pick(&[0, 0, 1, 8, self.plate.record()]);
        file.extend(any_bytes(random, trailing));
    }

    fn damage(&self, random: &mut Random) -> Mutation {
        let plate = self.plate;
        let some = plate.pixels();
        match random.below(12) {
            0 => lead_entry(random, plate, self.pairs.len() as u32),
            1 => pairs_claimed(random, plate, self.pairs.len() as u32),
            2..=6 if !self.pairs.is_empty() => self.pair_damage(random),
            7 | 8 => self.stored_value(random),
            9 => Mutation::Pixels(random.pick(&[0, plate.side, some - 1, some, some + 1])),
            _ => {
                let record = plate.record();
                let end = plate.image_end();
                let last = end + plate.records(self.pairs.len() as u32) as usize * record;
                let edge = [4, record, end, end + record, last, last, last];
                length_near(random, &edge)
            }
        }
    }

    /// A pair's address or count set to another.
    fn pair_damage(&self, random: &mut Random) -> Mutation {
        let (plate, last) = (self.plate, self.pairs.len() - 1);
        let any = random.index(self.pairs.len());
        let place = random.pick(&[0, last, plate.pairs_per_record().min(last), any]);
        let at = plate.image_end() + PAIR * place;
        let pixels = plate.pixels() as u32;
        let near = [0, 1, pixels, pixels + 1, u32::MAX];
        let pixel = 1 + random.index(plate.pixels()) as u32;
        let other = self.pairs[random.index(self.pairs.len())].0;
        let edge = random.pick(&near);
        let address = random.pick(&[edge, edge, pixel, other, other]);
        let low = random.below(1 << 17) as u32;
        let count = random.pick(&[65535, 65535, 65536, 65536, low, 0]);
        let (at, value) = random.pick(&[(at, address), (at + 4, count)]);
        Mutation::Patch(Target::Frame, at, plate.number(value).to_vec())
    }

    /// A stored pixel, most often one that has a pair, set to the mark or to another value.
    fn stored_value(&self, random: &mut Random) -> Mutation {
        let any = 1 + random.index(self.plate.pixels()) as u32;
        let paired = match self.pairs.len() {
            0 => any,
            length => self.pairs[random.index(length)].0,
        };
        let pixel = random.pick(&[any, paired, paired]) as usize - 1;
        let value = random.pick(&[0, 255, MARK - 1, MARK]);
        let at = self.plate.record() + 2 * pixel;
        Mutation::Patch(Target::Frame, at, self.plate.pixel(value).to_vec())
    }
}

/// One of the first six entries set to another number.
fn lead_entry(random: &mut Random, plate: Plate, pairs: u32) -> Mutation {
    let place = random.index(6);
    let right = plate.lead(pairs)[place];
    let paged = pairs.div_ceil(2 * plate.pairs_per_record() as u32);
    let beside = [right.wrapping_add(1), right.wrapping_sub(1)];
    let other = random.pick(&[1200, 2000, 2400, 4000, 0, paged, right << 16, u32::MAX]);
    let value = random.pick(&[beside[0], beside[1], right.swap_bytes(), other, other]);
    Mutation::Patch(Target::Frame, 4 * place, plate.number(value).to_vec())
}

/// Another number of pairs with the records that hold them.
fn pairs_claimed(random: &mut Random, plate: Plate, pairs: u32) -> Mutation {
    let most = u32::MAX - random.pick(&[0, 1, 195, 295]);
    let pixels = plate.pixels() as u32;
    let more = pairs + plate.pairs_per_record() as u32;
    let claimed = random.pick(&[most, most, 1 << 31, pixels, pixels + 1, pairs + 1, more]);
    let numbers = [claimed, plate.records(claimed)].map(|value| plate.number(value));
    Mutation::Patch(Target::Frame, 16, numbers.concat())
}

/// A file that ends at one of these places, or one byte before or behind it.
fn length_near(random: &mut Random, edges: &[usize]) -> Mutation {
    let edge = random.pick(edges) + random.index(3);
    Mutation::Resize(Target::Frame, edge.saturating_sub(1))
}

impl Plates {
    pub fn new(random: &mut Random) -> Plates {
        let plates = kinds().into_iter();
        Plates(plates.map(|plate| Whole::new(random, plate)).collect())
    }

    /// The side of an image, the image, and what is to be done to it.
    pub fn case(&mut self, random: &mut Random) -> (usize, &Case, Vec<Mutation>) {
        // The smaller ones take a third of the time.
        let kind = random.pick(&[0, 0, 1, 1, 2, 3]);
        let whole = &mut self.0[kind];
        whole.renew(random);
        let damage = (0..random.pick(&[0, 1, 1, 2])).map(|_| whole.damage(random));
        let damage = damage.collect();
        (whole.plate.side, &whole.case, damage)
    }
}

fn entry_number(random: &mut Random) -> u32 {
    let odd = random.pick(&[0, 26, 37, 256, 257, u32::MAX]);
    let listed = 1 + random.below(25) as u32;
    random.pick(&[listed, listed, listed, odd])
}

/// A header with little or nothing behind it, lent few pixels.
pub fn headed_case(random: &mut Random, call: Call) -> Made {
    let plate = random.pick(&kinds());
    let pairs = random.pick(&PAIRS);
    let mut base = Case::of(call);
    base.step.count = entry_number(random);
    let mut file = header(random, plate, pairs);
    let (behind, places) = (random.index(40), random.index(40));
    file.extend(any_bytes(random, behind));
    base.frame = file.into();
    base.pixels = vec![random.next() as u32; places];
    let one = |random: &mut Random| match random.below(4) {
        0 | 1 => lead_entry(random, plate, pairs),
        2 => pairs_claimed(random, plate, pairs),
        _ => length_near(random, &[1, 4, 24, 100, plate.record()]),
    };
    let damage = (0..random.pick(&[0, 1, 1, 2])).map(|_| one(random));
    Made {
        size: None,
        rare: None,
        damage: damage.collect(),
        base,
    }
}
