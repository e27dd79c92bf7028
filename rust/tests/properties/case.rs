//! The input of one call, owned, and what the caller sees after it.

use std::fmt;
use std::ops::{Deref, DerefMut};

use hoglidra::raw::{numbers, Record};

/// A buffer that prints itself in hexadecimal.
#[derive(Clone, Default, PartialEq)]
pub struct Bytes(pub Vec<u8>);

/// The fields and buffers of a column, by the paper's names.
#[derive(Clone, Debug, Default)]
pub struct Table {
    pub kind: u64,
    pub width: u64,
    pub size: u64,
    pub offset_width: u64,
    pub rows: u64,
    pub data_bit: u64,
    pub validity_bit: u64,
    pub data: Bytes,
    pub offsets: Bytes,
    pub validity: Bytes,
}

#[derive(Clone, Debug, Default)]
pub struct IndexColumn {
    pub width: u64,
    pub count: u64,
    pub validity_bit: u64,
    pub data: Bytes,
    pub validity: Bytes,
}

/// The lent output, before a call or after it.
#[derive(Clone, Debug, Default, PartialEq)]
pub struct Lent {
    pub validity: Bytes,
    pub offsets: Bytes,
    pub data: Bytes,
}

#[derive(Clone, Debug)]
pub struct Case {
    pub table: Table,
    pub indices: IndexColumn,
    pub lent: Lent,
    pub answer: Bytes,
}

/// The records of a batch, as bytes. They print themselves as numbers.
#[derive(Clone, Default)]
pub struct Descriptions(pub Bytes);

/// The input of one call on a batch.
#[derive(Clone, Debug)]
pub struct BatchCase {
    pub columns: u64,
    pub descriptions: Descriptions,
    pub body: Bytes,
    pub indices: IndexColumn,
    pub lent: Lent,
    pub answer: Bytes,
}

/// All that a call tells: the returned number, the answer slice and the output, whole.
#[derive(Debug, PartialEq)]
pub struct Seen {
    pub returned: u64,
    pub answer: Bytes,
    pub lent: Lent,
}

impl Seen {
    /// What a caller sees who lent a whole answer.
    pub fn new(answer: &Bytes, numbers: [u64; 4], lent: Lent) -> Self {
        let mut answer = answer.clone();
        for (i, number) in numbers.iter().enumerate() {
            answer[8 * i..][..8].copy_from_slice(&number.to_le_bytes());
        }
        Seen { returned: numbers[0], answer, lent }
    }

    /// The answer's four numbers, where there was room to write them.
    pub fn numbers(&self) -> Option<[u64; 4]> {
        self.answer.first_chunk().map(numbers)
    }

    pub fn place(&self) -> Option<u64> {
        self.numbers().map(|[_, place, _, _]| place)
    }
}

/// Written by hand and not by [`Record::to_bytes`], so that the two are held against each other.
impl Descriptions {
    pub fn new(records: &[Record]) -> Self {
        let mut descriptions = Descriptions::default();
        for record in records {
            descriptions.0.extend([0; 104]);
            descriptions.set(descriptions.whole() - 1, record);
        }
        descriptions
    }

    /// How many whole records there are.
    pub fn whole(&self) -> usize {
        self.0.len() / 104
    }

    pub fn get(&self, k: usize) -> Record {
        let mut words = self.0[104 * k..][..104].chunks(8);
        let mut word = || u64::from_le_bytes(words.next().unwrap().try_into().unwrap());
        let mut record = Record::default();
        in_order(&mut record, |number| *number = word());
        record
    }

    pub fn set(&mut self, k: usize, record: &Record) {
        let mut at = 104 * k;
        in_order(&mut record.clone(), |number| {
            self.0[at..][..8].copy_from_slice(&number.to_le_bytes());
            at += 8;
        });
    }
}

/// The thirteen numbers of a record, in the order in which it has them.
fn in_order(record: &mut Record, mut each: impl FnMut(&mut u64)) {
    each(&mut record.kind);
    each(&mut record.width);
    each(&mut record.size);
    each(&mut record.offset_width);
    each(&mut record.rows);
    each(&mut record.data_bit);
    each(&mut record.validity_bit);
    for extent in [&mut record.data, &mut record.offsets, &mut record.validity] {
        each(&mut extent.start);
        each(&mut extent.len);
    }
}

impl Deref for Bytes {
    type Target = Vec<u8>;

    fn deref(&self) -> &Vec<u8> {
        &self.0
    }
}

impl DerefMut for Bytes {
    fn deref_mut(&mut self) -> &mut Vec<u8> {
        &mut self.0
    }
}

impl fmt::Debug for Descriptions {
    fn fmt(&self, f: &mut fmt::Formatter) -> fmt::Result {
        f.debug_list()
            .entries((0..self.whole()).map(|k| self.get(k)))
            .entry(&Bytes(self.0[104 * self.whole()..].to_vec()))
            .finish()
    }
}

impl fmt::Debug for Bytes {
    /// The first 65,536 bytes; the seed gives the rest.
    fn fmt(&self, f: &mut fmt::Formatter) -> fmt::Result {
        write!(f, "{} bytes ", self.len())?;
        for byte in self.iter().take(65_536) {
            write!(f, "{byte:02x}")?;
        }
        f.write_str(if self.len() > 65_536 { ".." } else { "" })
    }
}
