//! mar images: a header record, the image, and records of pairs for the counts above 65535.
use crate::frame::{refuse, refuse_at, Extent, Refusal};

/// Rows, and as many columns.
pub const SIDES: [u32; 2] = [1200, 2000];
/// The stored pixel of a count above 65535.
pub const MARK: u16 = 65535;
/// An address and a count.
pub const PAIR: usize = 8;
/// Header entries: whole numbers, and floats after them.
const WHOLE: u32 = 10;
const ENTRIES: u32 = 25;

#[derive(Clone, Copy, Debug, PartialEq, Eq)]
pub enum Order {
    LittleEndian,
    BigEndian,
}

pub const ORDERS: [Order; 2] = [Order::LittleEndian, Order::BigEndian];

impl Order {
    pub fn number(self, bytes: &[u8]) -> u32 {
        let join = |sum: u32, byte: &u8| sum << 8 | u32::from(*byte);
        match self {
            Order::LittleEndian => bytes.iter().rev().fold(0, join),
            Order::BigEndian => bytes.iter().fold(0, join),
        }
    }
}

struct Header {
    order: Order,
    side: u64,
    pairs: u64,
    /// Records of pairs.
    records: u64,
}

impl Header {
    /// Bytes of a record: a row of the image.
    fn record(&self) -> u64 {
        2 * self.side
    }

    fn pixels(&self) -> usize {
        (self.side * self.side) as usize
    }

    fn end(&self) -> u64 {
        self.record() * (1 + self.side + self.records)
    }
}

fn order(file: &[u8]) -> Option<Order> {
    let first = file.get(..4)?;
    let fits = |order: &Order| SIDES.contains(&order.number(first));
    ORDERS.into_iter().find(fits)
}

/// The refusals of the header: 28, 1, 29.
fn read_header(file: &[u8]) -> Result<Header, Refusal> {
    let Some(order) = order(file) else {
        return refuse(28);
    };
    let side = u64::from(order.number(&file[..4]));
    let record = 2 * side;
    if (file.len() as u64) < record {
        return refuse(1);
    }
    let numbers = file.chunks_exact(4).take(6);
    let numbers: Vec<u64> = numbers.map(|bytes| order.number(bytes).into()).collect();
    let (pairs, records) = (numbers[4], numbers[5]);
    let fewest = (PAIR as u64 * pairs).div_ceil(record);
    if numbers[1] != side || numbers[2] != record || records != fewest {
        return refuse(29);
    }
    Ok(Header {
        order,
        side,
        pairs,
        records,
    })
}

/// Whether an entry of the header is a float, and its bits.
pub fn entry(file: &[u8], number: u32) -> Result<(bool, u32), Refusal> {
    let header = read_header(file)?;
    if !(1..=ENTRIES).contains(&number) {
        return refuse(37);
    }
    let from = 4 * (number as usize - 1);
    Ok((number > WHOLE, header.order.number(&file[from..from + 4])))
}

fn stored_pixels(order: Order, image: &[u8]) -> Vec<u32> {
    let pixel = |bytes: &[u8]| match order {
        Order::LittleEndian => u16::from_le_bytes([bytes[0], bytes[1]]),
        Order::BigEndian => u16::from_be_bytes([bytes[0], bytes[1]]),
    };
    let pixels = image.chunks_exact(2);
    pixels.map(|bytes| pixel(bytes).into()).collect()
}

/// Puts each count at its pixel, or gives the place of the first pair that is bad.
fn replace(values: &mut [u32], pairs: impl Iterator<Item = (u32, u32)>) -> Result<(), Refusal> {
    let mark = u32::from(MARK);
    let mut vacant: Vec<bool> = values.iter().map(|value| *value == mark).collect();
    for (place, (address, count)) in pairs.enumerate() {
        let pixel = (address as usize).wrapping_sub(1);
        if count <= mark || vacant.get(pixel) != Some(&true) {
            return refuse_at(13, place);
        }
        vacant[pixel] = false;
        values[pixel] = count;
    }
    Ok(())
}

/// Reading: the header's refusals, then 10, 11, 13.
pub fn read(file: &[u8], lent: &mut [u32]) -> Result<Extent, Refusal> {
    let header = read_header(file)?;
    if lent.len() < header.pixels() {
        return refuse(10);
    }
    if (file.len() as u64) < header.end() {
        return refuse(11);
    }
    let lent = &mut lent[..header.pixels()];
    lent.fill(0);
    let image = &file[header.record() as usize..];
    let (image, table) = image.split_at(2 * lent.len());
    let mut values = stored_pixels(header.order, image);
    let number = |bytes: &[u8]| header.order.number(bytes);
    let pairs = table.chunks_exact(PAIR).take(header.pairs as usize);
    replace(
        &mut values,
        pairs.map(|pair| (number(&pair[..4]), number(&pair[4..]))),
    )?;
    lent.copy_from_slice(&values);
    let side = header.side as u32;
    Ok(Extent {
        rows: side,
        columns: side,
        end: header.end(),
    })
}
