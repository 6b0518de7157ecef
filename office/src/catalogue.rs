//! The fields of a catalogue as its bytes hold them, before anybody judges them.

use std::fmt;

/// Bytes before the first size, of a size without its rows, and of a row.
pub const HEAD: usize = 7;
pub const SIZE: usize = 4;
pub const ROW: usize = 8;

#[derive(Clone, Copy, Debug, Default, PartialEq, Eq)]
pub struct Row {
    /// ml/s
    pub flow: u32,
    /// mm/s
    pub velocity: u16,
    /// mm per metre
    pub slope: u16,
}

#[derive(Clone, Debug, Default, PartialEq, Eq)]
pub struct Size {
    /// mm
    pub bore: u16,
    /// Per metre.
    pub price: u16,
    pub rows: Vec<Row>,
}

#[derive(Clone, Debug, Default, PartialEq, Eq)]
pub struct Catalogue {
    /// The length that the catalogue states of itself.
    pub stated: u32,
    pub version: u8,
    /// Rows of each size.
    pub rows: u8,
    /// Size 1 is at place 0; at most 255, which is what the count's byte holds.
    pub sizes: Vec<Size>,
}

/// Bytes that are no catalogue of 7 + sizes × (4 + 8 × R) bytes.
#[derive(Clone, Debug, PartialEq, Eq)]
pub struct NoCatalogue {
    pub given: usize,
    /// Sizes and rows that the bytes state, where they reach that far.
    pub counts: Option<(u8, u8)>,
}

impl fmt::Display for NoCatalogue {
    fn fmt(&self, f: &mut fmt::Formatter) -> fmt::Result {
        let given = self.given;
        match self.counts {
            None => write!(f, "{given} bytes, but a catalogue has at least {HEAD}"),
            Some((sizes, rows)) => {
                let asked = length(sizes, rows);
                write!(f, "{given} bytes, but a catalogue with size count {sizes} and row count {rows} has {asked}")
            }
        }
    }
}

impl std::error::Error for NoCatalogue {}

/// The bytes of a catalogue with these counts.
pub fn length(sizes: u8, rows: u8) -> usize {
    HEAD + usize::from(sizes) * (SIZE + ROW * usize::from(rows))
}

impl Catalogue {
    /// The fields of any bytes whose length is what their counts ask for.
    pub fn read(bytes: &[u8]) -> Result<Catalogue, NoCatalogue> {
        let counts = (bytes.len() >= HEAD).then(|| (bytes[5], bytes[6]));
        let no = NoCatalogue { given: bytes.len(), counts };
        let Some((_, rows)) = counts.filter(|(sizes, rows)| length(*sizes, *rows) == bytes.len()) else {
            return Err(no);
        };
        Ok(Catalogue {
            stated: u32_at(bytes, 0),
            version: bytes[4],
            rows,
            sizes: bytes[HEAD..].chunks_exact(SIZE + ROW * usize::from(rows)).map(size).collect(),
        })
    }

    /// The catalogue's bytes. The stated length is written as it is kept, right or wrong.
    pub fn bytes(&self) -> Vec<u8> {
        let mut bytes = Vec::with_capacity(self.len());
        bytes.extend(self.stated.to_be_bytes());
        bytes.extend([self.version, self.sizes.len() as u8, self.rows]);
        for size in &self.sizes {
            bytes.extend(size.bore.to_be_bytes());
            bytes.extend(size.price.to_be_bytes());
            for row in &size.rows {
                bytes.extend(row.flow.to_be_bytes());
                bytes.extend(row.velocity.to_be_bytes());
                bytes.extend(row.slope.to_be_bytes());
            }
        }
        bytes
    }

    /// How many bytes the catalogue has.
    pub fn len(&self) -> usize {
        length(self.sizes.len() as u8, self.rows)
    }

    /// A catalogue is never empty: its head is there.
    pub fn is_empty(&self) -> bool {
        false
    }

    /// The size with this number, from 1.
    pub fn size(&self, number: u8) -> Option<&Size> {
        self.sizes.get(usize::from(number).checked_sub(1)?)
    }
}

impl Size {
    /// The flow of the first row, in ml/s.
    pub fn first_flow(&self) -> u32 {
        self.rows.first().map_or(0, |row| row.flow)
    }

    /// The last flow that it serves, in ml/s.
    pub fn last_flow(&self) -> u32 {
        self.rows.last().map_or(0, |row| row.flow)
    }
}

fn size(bytes: &[u8]) -> Size {
    let row = |eight: &[u8]| Row { flow: u32_at(eight, 0), velocity: u16_at(eight, 4), slope: u16_at(eight, 6) };
    Size { bore: u16_at(bytes, 0), price: u16_at(bytes, 2), rows: bytes[SIZE..].chunks_exact(ROW).map(row).collect() }
}

fn u16_at(bytes: &[u8], at: usize) -> u16 {
    u16::from_be_bytes([bytes[at], bytes[at + 1]])
}

fn u32_at(bytes: &[u8], at: usize) -> u32 {
    u32::from_be_bytes([bytes[at], bytes[at + 1], bytes[at + 2], bytes[at + 3]])
}
