//! The bytes of a meter list taken apart and put together, without a look at what they mean.

/// The records of a list, without their length bytes, where the lengths fit.
pub fn records(list: &[u8]) -> Option<Vec<Vec<u8>>> {
    if list.len() < 3 || list[0] != 1 || u16::from_be_bytes([list[1], list[2]]) as usize != list.len() - 3 {
        return None;
    }
    let mut out = Vec::new();
    let mut rest = &list[3..];
    while let Some((len, after)) = rest.split_first() {
        out.push(after.get(..*len as usize)?.to_vec());
        rest = &after[*len as usize..];
    }
    Some(out)
}

/// The list of some records; its count is the bytes' number modulo 65,536.
pub fn list_of(records: &[Vec<u8>]) -> Vec<u8> {
    let body: Vec<u8> = records.iter().flat_map(|r| [vec![r.len() as u8], r.clone()].concat()).collect();
    [vec![1, (body.len() >> 8) as u8, body.len() as u8], body].concat()
}

/// Primary, version, own baud and the four texts of a record, where they fit.
pub fn fields(record: &[u8]) -> Option<Vec<Vec<u8>>> {
    let mut out: Vec<Vec<u8>> = vec![record.get(..1)?.to_vec(), record.get(1..2)?.to_vec(), record.get(2..6)?.to_vec()];
    let mut rest = &record[6..];
    for _ in 0..4 {
        let (len, after) = rest.split_first()?;
        out.push(after.get(..*len as usize)?.to_vec());
        rest = &after[*len as usize..];
    }
    rest.is_empty().then_some(out)
}

pub fn record_of(fields: &[Vec<u8>]) -> Vec<u8> {
    let mut out = fields[..3].concat();
    for text in &fields[3..] {
        out.push(text.len() as u8);
        out.extend(text);
    }
    out
}
