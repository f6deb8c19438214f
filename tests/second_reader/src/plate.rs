//! mar images made to order, part by part.
use crate::mar::{Order, MARK, ORDERS, PAIR, SIDES};

#[derive(Clone, Copy, Debug)]
pub struct Plate {
    pub order: Order,
    pub side: usize,
}

/// Each size in each byte order.
pub fn kinds() -> Vec<Plate> {
    let sides = SIDES.map(|side| side as usize);
    let of_side = |side| ORDERS.map(|order| Plate { order, side });
    sides.into_iter().flat_map(of_side).collect()
}

impl Plate {
    pub fn pixels(self) -> usize {
        self.side * self.side
    }

    /// Bytes of a record.
    pub fn record(self) -> usize {
        2 * self.side
    }

    /// Where the image ends and the pairs start.
    pub fn image_end(self) -> usize {
        (1 + self.side) * self.record()
    }

    /// An array to lend: other numbers than the image's, and behind it places that look like pixels that may have a pair.
    pub fn array(self, places: usize) -> Vec<u32> {
        let pixels = self.pixels() as u32;
        let place = |at: u32| if at < pixels { !at } else { MARK.into() };
        (0..places as u32).map(place).collect()
    }

    pub fn pairs_per_record(self) -> usize {
        self.record() / PAIR
    }

    pub fn records(self, pairs: u32) -> u32 {
        pairs.div_ceil(self.pairs_per_record() as u32)
    }

    pub fn number(self, value: u32) -> [u8; 4] {
        match self.order {
            Order::LittleEndian => value.to_le_bytes(),
            Order::BigEndian => value.to_be_bytes(),
        }
    }

    pub fn pixel(self, value: u16) -> [u8; 2] {
        match self.order {
            Order::LittleEndian => value.to_le_bytes(),
            Order::BigEndian => value.to_be_bytes(),
        }
    }

    pub fn pair(self, (address, count): (u32, u32)) -> Vec<u8> {
        [self.number(address), self.number(count)].concat()
    }

    /// The first six entries for so many pairs.
    pub fn lead(self, pairs: u32) -> [u32; 6] {
        let side = self.side as u32;
        [side, side, 2 * side, side, pairs, self.records(pairs)]
    }

    /// A header record of these entries.
    pub fn header(self, entries: &[u32], fill: u8) -> Vec<u8> {
        let mut record: Vec<u8> = entries.iter().flat_map(|e| self.number(*e)).collect();
        record.resize(self.record(), fill);
        record
    }

    /// The fewest records of these pairs.
    pub fn table(self, pairs: &[(u32, u32)], fill: u8) -> Vec<u8> {
        let mut table: Vec<u8> = pairs.iter().flat_map(|pair| self.pair(*pair)).collect();
        table.resize(
            self.records(pairs.len() as u32) as usize * self.record(),
            fill,
        );
        table
    }
}
