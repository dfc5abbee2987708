//! Lists of octets, and octets written as bits, as the vector files have them.

/// `FE,FF*79` or `FF7F*20,00..27`: groups of hexadecimal octets, each repeated or not, and ranges; `(30,FF*320)*204`: a list
/// repeated.
pub fn octets(text: &str) -> Result<Vec<u8>, String> {
    let mut list = Vec::new();
    if text.is_empty() {
        return Ok(list);
    }
    for item in items(text)? {
        if let Some(rest) = item.strip_prefix('(') {
            let faulty = format!("'{item}' is no list in brackets");
            let (inner, behind) = rest.rsplit_once(')').ok_or(faulty.clone())?;
            let (none, times) = repeated(behind)?;
            if !none.is_empty() {
                return Err(faulty);
            }
            list.extend(octets(inner)?.repeat(times));
            continue;
        }
        if let Some((from, to)) = item.split_once("..") {
            let (from, to) = (octet(from)?, octet(to)?);
            if from > to {
                return Err(format!("the range {item} falls"));
            }
            list.extend(from..=to);
            continue;
        }
        let (group, times) = repeated(item)?;
        if group.is_empty() || group.len() % 2 != 0 || !group.is_ascii() {
            return Err(format!("'{group}' is no group of hexadecimal octets"));
        }
        let group = (0..group.len()).step_by(2).map(|at| octet(&group[at..at + 2])).collect::<Result<Vec<u8>, _>>()?;
        for _ in 0..times {
            list.extend(&group);
        }
    }
    Ok(list)
}

/// The items of a list: what commas part that stand in no brackets.
fn items(text: &str) -> Result<Vec<&str>, String> {
    let (mut items, mut start, mut depth) = (Vec::new(), 0, 0);
    for (at, octet) in text.bytes().enumerate() {
        match octet {
            b'(' => depth += 1,
            b')' if depth == 0 => return Err(format!("'{text}' closes a bracket that it does not open")),
            b')' => depth -= 1,
            b',' if depth == 0 => {
                items.push(&text[start..at]);
                start = at + 1;
            }
            _ => {}
        }
    }
    items.push(&text[start..]);
    if depth == 0 {
        Ok(items)
    } else {
        Err(format!("'{text}' leaves a bracket open"))
    }
}

/// `10000110.11.1.000.1*80.00`: groups of bits, highest first, each repeated or not; whole octets in all.
pub fn bits(text: &str) -> Result<Vec<u8>, String> {
    let mut list = Vec::new();
    for item in text.split('.') {
        let (group, times) = repeated(item)?;
        if group.is_empty() || !group.bytes().all(|b| b == b'0' || b == b'1') {
            return Err(format!("'{group}' is no group of bits"));
        }
        for _ in 0..times {
            list.extend(group.bytes().map(|b| b - b'0'));
        }
    }
    if list.len() % 8 != 0 {
        return Err(format!("{} bits are no whole octets", list.len()));
    }
    Ok(list.chunks(8).map(|octet| octet.iter().fold(0, |sum, bit| sum * 2 + bit)).collect())
}

/// One octet, two hexadecimal digits.
pub(crate) fn octet(text: &str) -> Result<u8, String> {
    if text.len() != 2 || !text.bytes().all(|b| b.is_ascii_hexdigit()) {
        return Err(format!("'{text}' is no hexadecimal octet"));
    }
    u8::from_str_radix(text, 16).map_err(|e| e.to_string())
}

fn repeated(item: &str) -> Result<(&str, usize), String> {
    match item.split_once('*') {
        None => Ok((item, 1)),
        Some((group, times)) => {
            times.parse().map(|n| (group, n)).map_err(|_| format!("'{item}' has no count after '*'"))
        }
    }
}

#[cfg(test)]
mod tests {
    use super::{bits, octets};

    #[test]
    fn lists() {
        assert_eq!(octets(""), Ok(vec![]));
        assert_eq!(octets("FE,FF*3"), Ok(vec![0xFE, 0xFF, 0xFF, 0xFF]));
        assert_eq!(octets("FF7F*2,0E..10"), Ok(vec![0xFF, 0x7F, 0xFF, 0x7F, 0x0E, 0x0F, 0x10]));
        assert_eq!(octets("(30,FE*2)*2,00"), Ok(vec![0x30, 0xFE, 0xFE, 0x30, 0xFE, 0xFE, 0x00]));
        assert_eq!(octets("(01,(02*2,03)*2)"), Ok(vec![0x01, 0x02, 0x02, 0x03, 0x02, 0x02, 0x03]));
        for wrong in ["(FF", "FF)", "(FF*)", "(FF)*", "(FF)2", "()FF", "(FF,)*2", "FF(00)", "(00)(00)"] {
            assert!(octets(wrong).is_err(), "{wrong}");
        }
        for wrong in ["F", "FFF", "G0", "FF*", "FF,", "10..0F", "+1", "FF 7F"] {
            assert!(octets(wrong).is_err(), "{wrong}");
        }
    }

    #[test]
    fn octets_as_bits() {
        assert_eq!(bits("10000110.11.1.111.00.0000000.0"), Ok(vec![0x86, 0xFC, 0x00]));
        assert_eq!(bits("01010.01.11*20.0"), Ok(vec![0x53, 0xFF, 0xFF, 0xFF, 0xFF, 0xFE]));
        for wrong in ["", "0101", "0*8.", "01012345", "0*x"] {
            assert!(bits(wrong).is_err(), "{wrong}");
        }
    }
}
