//! The codes of tool 6's Rice parameter S.

#[derive(Clone, Copy, Debug, PartialEq, Eq)]
pub(crate) struct SCode {
    pub code: u8,
    pub bits: u8,
}

#[derive(Clone, Copy, Debug, PartialEq, Eq)]
pub(crate) struct SFound {
    pub s: u8,
    pub bits: u8,
}

const fn code(code: u8, bits: u8) -> SCode {
    SCode { code, bits }
}

// Entry S - 1 is the code of S.
static CODES_40: [SCode; 5] =
    [code(0b01, 2), code(0b10, 2), code(0b110, 3), code(0b1110, 4), code(0b1111, 4)];

static CODES_80: [SCode; 6] = [
    code(0b01, 2),
    code(0b10, 2),
    code(0b1100, 4),
    code(0b1101, 4),
    code(0b1110, 4),
    code(0b1111, 4),
];

static CODES_160_UP: [SCode; 9] = [
    code(0b01, 2),
    code(0b10, 2),
    code(0b1100, 4),
    code(0b1101, 4),
    code(0b11100, 5),
    code(0b11101, 5),
    code(0b11110, 5),
    code(0b111110, 6),
    code(0b111111, 6),
];

/// No code is longer, so this many bits always settle S.
pub(crate) const LONGEST: u32 = 6;

static FOUND_40: [SFound; 64] = by_next_six(&CODES_40);
static FOUND_80: [SFound; 64] = by_next_six(&CODES_80);
static FOUND_160_UP: [SFound; 64] = by_next_six(&CODES_160_UP);

/// The codes a frame length allows, S = 1 first.
pub(crate) fn codes(samples: usize) -> &'static [SCode] {
    match samples {
        40 => &CODES_40,
        80 => &CODES_80,
        _ => &CODES_160_UP,
    }
}

/// S and its code's length by the next six bits. Bits past the end of the
/// octets may be given as 0: the codes are free of prefixes, so a cut code
/// never shows up as one that is short enough.
#[inline]
pub(crate) fn find(samples: usize, next_six: usize) -> SFound {
    match samples {
        40 => FOUND_40[next_six],
        80 => FOUND_80[next_six],
        _ => FOUND_160_UP[next_six],
    }
}

const fn by_next_six(codes: &[SCode]) -> [SFound; 64] {
    // 00 belongs to tool 8 and never gets here; every other value of the six
    // bits is overwritten below.
    let mut found = [SFound { s: 0, bits: 2 }; 64];
    let mut index = 0;
    while index < codes.len() {
        let spare = LONGEST - codes[index].bits as u32;
        let first = (codes[index].code as usize) << spare;
        let mut tail = 0;
        while tail < 1 << spare {
            found[first + tail] = SFound { s: index as u8 + 1, bits: codes[index].bits };
            tail += 1;
        }
        index += 1;
    }
    found
}

#[cfg(test)]
mod tests {
    use super::*;

    #[test]
    fn codes_are_the_printed_ones() {
        let printed: [(usize, &[&str]); 5] = [
            (40, &["01", "10", "110", "1110", "1111"]),
            (80, &["01", "10", "1100", "1101", "1110", "1111"]),
            (160, &["01", "10", "1100", "1101", "11100", "11101", "11110", "111110", "111111"]),
            (240, &["01", "10", "1100", "1101", "11100", "11101", "11110", "111110", "111111"]),
            (320, &["01", "10", "1100", "1101", "11100", "11101", "11110", "111110", "111111"]),
        ];
        for (samples, row) in printed {
            let ours: Vec<String> = codes(samples)
                .iter()
                .map(|c| format!("{:0width$b}", c.code, width = c.bits as usize))
                .collect();
            assert_eq!(ours, row);
            for six in 0..64usize {
                let text = format!("{six:06b}");
                let hit = row.iter().position(|c| text.starts_with(c));
                let found = find(samples, six);
                match hit {
                    None => assert!(text.starts_with("00") && found.s == 0),
                    Some(index) => {
                        assert_eq!(found.s as usize, index + 1);
                        assert_eq!(found.bits as usize, row[index].len());
                    }
                }
            }
        }
    }
}
