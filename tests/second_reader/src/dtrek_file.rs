//! d*TREK files made to order, item by item.
use crate::dtrek::{CLOSING, DIGITS, START, TYPES};
use crate::frame::BLOCK;
use crate::mar::Order;

/// An item with the white space before its keyword and around its value.
#[derive(Clone, Debug)]
pub struct Item {
    pub before: Vec<u8>,
    pub key: Vec<u8>,
    pub value: Vec<u8>,
}

impl Item {
    pub fn new(key: &str, value: impl ToString) -> Item {
        Item {
            before: Vec::new(),
            key: key.into(),
            value: value.to_string().into(),
        }
    }

    fn bytes(&self) -> Vec<u8> {
        [
            &self.before,
            &self.key,
            b"=".as_slice(),
            &self.value,
            b";\n",
        ]
        .concat()
    }
}

/// What the pixels of an image are.
#[derive(Clone, Copy, Debug)]
pub struct Shape {
    pub columns: usize,
    pub rows: usize,
    pub width: usize,
    pub order: Order,
}

impl Shape {
    pub fn pixels(&self) -> usize {
        self.columns * self.rows
    }

    pub fn image_bytes(&self) -> usize {
        self.width * self.pixels()
    }

    /// A pixel of this value, cut to its width.
    pub fn pixel(&self, value: u32) -> Vec<u8> {
        match self.order {
            Order::LittleEndian => value.to_le_bytes()[..self.width].to_vec(),
            Order::BigEndian => value.to_be_bytes()[4 - self.width..].to_vec(),
        }
    }

    fn type_name(&self) -> String {
        let named = TYPES.iter().find(|(_, width)| *width == self.width);
        String::from_utf8_lossy(named.map_or(b"", |(name, _)| name)).into_owned()
    }

    fn order_name(&self) -> &'static str {
        match self.order {
            Order::LittleEndian => "little_endian",
            Order::BigEndian => "big_endian",
        }
    }
}

/// A header in parts.
#[derive(Clone, Debug)]
pub struct Parts {
    /// What stands before the first semicolon; none: the length, at the right of its characters.
    pub stated: Option<Vec<u8>>,
    pub items: Vec<Item>,
    /// White space before the closing brace.
    pub before_closing: Vec<u8>,
    /// The least length of the header.
    pub least: usize,
}

impl Parts {
    /// The required items for these pixels.
    pub fn new(shape: &Shape) -> Parts {
        let items = vec![
            Item::new("DIM", 2),
            Item::new("SIZE1", shape.columns),
            Item::new("SIZE2", shape.rows),
            Item::new("BYTE_ORDER", shape.order_name()),
            Item::new("Data_type", shape.type_name()),
        ];
        Parts {
            stated: None,
            items,
            before_closing: Vec::new(),
            least: BLOCK,
        }
    }

    pub fn header(&self) -> Vec<u8> {
        let items: Vec<u8> = self.items.iter().flat_map(Item::bytes).collect();
        let rest = [b";\n", items.as_slice(), &self.before_closing, CLOSING].concat();
        let bytes = START.len() + DIGITS + rest.len();
        let length = bytes.next_multiple_of(BLOCK).max(self.least);
        let right = || format!("{length:>DIGITS$}").into_bytes();
        let stated = self.stated.clone().unwrap_or_else(right);
        let mut header = [START, &stated, &rest].concat();
        header.resize(length, b' ');
        header
    }
}
