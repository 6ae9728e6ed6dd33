// A second version of the capsule's rules (C of docs/RULES.md), written from their text for the comparison only. It
// shares no code with the crates: whole numbers, no care for speed.

fn number(s: &[u8], at: usize, width: usize) -> u128 {
    s[at..at + width].iter().rev().fold(0, |n, b| n * 256 + *b as u128)
}

type Places = [(usize, usize); 3];

// The count of drivers, and for each item where it, its image and its vendor code start, and their lengths.
fn items(s: &[u8]) -> Result<(usize, Vec<Places>), u32> {
    if s.len() < 28 {
        return Err(10);
    }
    let (header, flags, size) = (number(s, 16, 4), number(s, 20, 4), number(s, 24, 4));
    if header < 28 || header > size || size != s.len() as u128 {
        return Err(11);
    }
    if flags & 0x0004_0000 != 0 && flags & 0x0001_0000 == 0 {
        return Err(12);
    }
    if s[..16] != super::GUID {
        return Err(13);
    }
    let body = &s[header as usize..];
    if body.len() < 8 || number(body, 0, 4) != 1 {
        return Err(14);
    }
    let (drivers, payloads) = (number(body, 4, 2) as usize, number(body, 6, 2) as usize);
    let count = drivers + payloads;
    if count > 64 || body.len() < 8 + 8 * count {
        return Err(14);
    }
    let mut places: Vec<u128> = (0..count).map(|k| number(body, 8 + 8 * k, 8)).collect();
    if places.iter().any(|o| *o < 8 + 8 * count as u128 || *o >= body.len() as u128) {
        return Err(14);
    }
    if places.windows(2).any(|w| w[0] >= w[1]) {
        return Err(14);
    }
    places.push(body.len() as u128);
    let mut out = Vec::new();
    for k in 0..count {
        let item = &body[places[k] as usize..places[k + 1] as usize];
        let at = header as usize + places[k] as usize;
        if k < drivers {
            out.push([(at, item.len()), (at, item.len()), (at + item.len(), 0)]);
            continue;
        }
        if item.len() < 4 {
            return Err(15);
        }
        let head = match number(item, 0, 4) {
            1 => 32,
            2 => 40,
            _ => return Err(15),
        };
        if item.len() < head {
            return Err(15);
        }
        let (image, vendor) = (number(item, 24, 4), number(item, 28, 4));
        if head as u128 + image + vendor > item.len() as u128 {
            return Err(15);
        }
        let (image, vendor) = (image as usize, vendor as usize);
        out.push([(at, item.len()), (at + head, image), (at + head + image, vendor)]);
    }
    Ok((drivers, out))
}

// The counts of drivers and payloads, or the refusal's number.
pub fn counts(s: &[u8]) -> Result<[usize; 2], u32> {
    items(s).map(|(drivers, found)| [drivers, found.len() - drivers])
}

// Where item k, its image and its vendor code start, and their lengths, or the refusal's number.
pub fn parts(s: &[u8], k: usize) -> Result<Places, u32> {
    items(s)?.1.get(k).copied().ok_or(16)
}
