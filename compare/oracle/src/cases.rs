//! A case file: descriptors, each with the queries on its table. `FORMAT.md` tells its bytes.

use std::io::{self, Read, Write};

/// One question to a built table.
#[derive(Clone, Copy, Debug, PartialEq)]
pub enum Query {
    /// Map an offset, with a length asked.
    Map { offset: u64, length: u64 },
    /// Walk from an offset, with a length and a list of so many places.
    Walk { offset: u64, length: u64, places: u16 },
}

/// A descriptor and the queries on its table.
#[derive(Clone, Debug, Default)]
pub struct Case {
    /// Its bytes
    pub descriptor: Vec<u8>,
    /// At most 255
    pub queries: Vec<Query>,
}

impl Case {
    /// Write the record.
    pub fn write(&self, out: &mut impl Write) -> io::Result<()> {
        out.write_all(&(self.descriptor.len() as u32).to_le_bytes())?;
        out.write_all(&self.descriptor)?;
        out.write_all(&[u8::try_from(self.queries.len()).expect("at most 255 queries")])?;
        for query in &self.queries {
            let (kind, offset, length, places) = match *query {
                Query::Map { offset, length } => (0, offset, length, 0),
                Query::Walk { offset, length, places } => (1, offset, length, places),
            };
            out.write_all(&[kind])?;
            out.write_all(&offset.to_le_bytes())?;
            out.write_all(&length.to_le_bytes())?;
            out.write_all(&u16::to_le_bytes(places))?;
        }
        Ok(())
    }

    /// Read the next record; none at the file's end.
    pub fn read(from: &mut impl Read) -> io::Result<Option<Case>> {
        let mut first = [0];
        if from.read(&mut first)? == 0 {
            return Ok(None);
        }
        let [b, c, d] = bytes(from)?;
        let length = u32::from_le_bytes([first[0], b, c, d]);
        let mut descriptor = vec![0; length as usize];
        from.read_exact(&mut descriptor)?;
        let [count] = bytes(from)?;
        let queries = (0..count).map(|_| read_query(from)).collect::<io::Result<_>>()?;
        Ok(Some(Case { descriptor, queries }))
    }
}

/// The next query.
fn read_query(from: &mut impl Read) -> io::Result<Query> {
    let [kind] = bytes(from)?;
    let offset = u64::from_le_bytes(bytes(from)?);
    let length = u64::from_le_bytes(bytes(from)?);
    let places = u16::from_le_bytes(bytes(from)?);
    match kind {
        0 => Ok(Query::Map { offset, length }),
        1 => Ok(Query::Walk { offset, length, places }),
        _ => Err(io::Error::other("a query's kind is 0 or 1")),
    }
}

/// The next so many bytes.
fn bytes<const N: usize>(from: &mut impl Read) -> io::Result<[u8; N]> {
    let mut array = [0; N];
    from.read_exact(&mut array)?;
    Ok(array)
}
