//! Headers of frames, made line by line: 96 lines of 80 characters, 15 blocks.

pub const LENGTH: usize = 96 * 80;

pub struct Header(Vec<u8>);

impl Header {
    /// FORMAT 100 with one byte per pixel, no table, and a baseline of 32 that is not in use.
    pub fn new(rows: u32, columns: u32) -> Header {
        Header(vec![b' '; LENGTH])
            .line(0, "FORMAT :100")
            .line(1, "VERSION:11")
            .line(2, "HDRBLKS:15")
            .line(20, "NOVERFL:-1 0 0")
            .line(39, "NPIXELB:1 0")
            .line(40, &format!("NROWS  :{rows}"))
            .line(41, &format!("NCOLS  :{columns}"))
            .line(58, "LINEAR :1 0")
            .line(79, "NEXP   :1 0 32")
    }

    /// The same header with another line.
    pub fn line(mut self, line: usize, text: &str) -> Header {
        let padded = format!("{text:<80}");
        self.0[80 * line..80 * line + 80].copy_from_slice(padded.as_bytes());
        self
    }

    pub fn bytes(self) -> Vec<u8> {
        self.0
    }
}
