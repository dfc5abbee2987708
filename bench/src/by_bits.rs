//! Reading as the archive had it before request R-2: the zeros of a run are looked at one by one. In Rust, after the code
//! of then function by function, so that before and after stand in one table. Nothing but the benchmark uses it.

/// What is read and the next place, or the number of the refusal.
type Outcome<T> = Result<(T, usize), u32>;
type Cells = [u8; 320];

const SHORT: u32 = 1;
const PREFIX: u32 = 2;
const TOOL: u32 = 3;
const ROOM: u32 = 4;
const CASE: u32 = 5;
const METHOD: u32 = 6;
const RUN: u32 = 7;
const PLACE: u32 = 8;
const ALIGN: u32 = 9;

fn bit_at(octets: &[u8], at: usize) -> usize {
    usize::from(octets[at / 8]) >> (7 - at % 8) & 1
}

fn bit(octets: &[u8], at: usize) -> Outcome<usize> {
    match octets.len() <= at / 8 {
        true => Err(SHORT),
        false => Ok((bit_at(octets, at), at + 1)),
    }
}

/// The loop that R-2 replaced: up to the first one, or to zero N + 1.
fn zeros(octets: &[u8], at: usize, n: usize) -> Outcome<usize> {
    let mut k = 0;
    loop {
        if n < k {
            return Err(RUN);
        }
        let place = at + k;
        if octets.len() <= place / 8 {
            return Err(SHORT);
        }
        if bit_at(octets, place) == 1 {
            return Ok((k, place + 1));
        }
        k += 1;
    }
}

/// Five octets as one number; one that is missing counts 0.
fn window_at(octets: &[u8], i: usize) -> usize {
    if let Some([a, b, c, d, e]) = octets.get(i..i + 5) {
        return (u32::from_be_bytes([*a, *b, *c, *d]) as usize) << 8 | usize::from(*e);
    }
    let octet = |i: usize| usize::from(octets.get(i).copied().unwrap_or(0));
    (i..i + 5).fold(0, |window, i| window << 8 | octet(i))
}

fn number(octets: &[u8], at: usize, n: usize) -> Outcome<usize> {
    if n == 0 {
        return Ok((0, at));
    }
    let end = at + n;
    if octets.len() < end.div_ceil(8) {
        return Err(SHORT);
    }
    Ok((window_at(octets, at / 8) >> (40 - (at % 8 + n)) & ((1 << n) - 1), end))
}

fn rice(octets: &[u8], at: usize, n: usize, s: usize) -> Outcome<usize> {
    let (k, next) = zeros(octets, at, n)?;
    let (low, end) = number(octets, next, s)?;
    Ok(((k << s) + low, end))
}

/// Runs over the first D cells: how many are of the other kind, and the next place.
fn runs(octets: &[u8], at: usize, [n, s, d]: [usize; 3], cells: &mut Cells, kinds: [u8; 2]) -> Outcome<usize> {
    cells[..d].fill(kinds[0]);
    let (mut filled, mut count, mut place) = (0, 0, at);
    while filled < d {
        let left = d - filled;
        let (v, next) = rice(octets, place, n, s)?;
        if left < v {
            return Err(RUN);
        }
        if v == left {
            return Ok((count, next));
        }
        cells[filled + v] = kinds[1];
        filled += v + 1;
        count += 1;
        place = next;
    }
    Ok((count, place))
}

/// D bits, a window of 32 at a time, spread over cells eight at a time.
fn straight(octets: &[u8], at: usize, d: usize, cells: &mut Cells, kinds: [u8; 2]) -> Outcome<usize> {
    let (mut filled, mut count, mut place) = (0, 0, at);
    while filled < d {
        let n = (d - filled).min(32);
        let (v, next) = number(octets, place, n)?;
        let few = |bits: usize, cells: &mut [u8]| {
            let last = cells.len();
            cells.iter_mut().enumerate().for_each(|(j, cell)| *cell = kinds[bits >> (last - j - 1) & 1]);
        };
        let mut j = 0;
        while j + 8 <= n {
            few(v >> (n - j - 8), &mut cells[filled + j..filled + j + 8]);
            j += 8;
        }
        few(v, &mut cells[filled + j..filled + n]);
        count += v.count_ones() as usize;
        filled += n;
        place = next;
    }
    Ok((count, place))
}

/// The code of S, a bit at a time.
fn code_of_s(octets: &[u8], at: usize, n: usize) -> Outcome<usize> {
    let (mut ones, mut place) = (0, at);
    let most = match n {
        40 => 4,
        80 => 2,
        _ => 3,
    };
    while ones < most {
        let (b, next) = bit(octets, place)?;
        place = next;
        if b == 0 {
            break;
        }
        ones += 1;
    }
    let pick = |s: usize, place: usize| bit(octets, place).map(|(b, next)| (s + b, next));
    match (n, ones) {
        (_, 0) => pick(0, place),
        (40, 4) => Ok((5, place)),
        (80, 2) => number(octets, place, 2).map(|(two, next)| (3 + two, next)),
        (40 | 80, ones) => Ok((1 + ones, place)),
        (_, 1) => Ok((2, place)),
        (_, 2) => pick(3, place),
        _ => match bit(octets, place)? {
            (0, next) => pick(5, next),
            (_, next) => match bit(octets, next)? {
                (0, end) => Ok((7, end)),
                (_, last) => pick(8, last),
            },
        },
    }
}

fn width_of(d: usize) -> usize {
    let (mut width, mut power) = (0, 1);
    while power < d {
        power += power;
        width += 1;
    }
    width
}

fn listed(octets: &[u8], at: usize, d: usize, cells: &mut Cells, kinds: [u8; 2]) -> Outcome<usize> {
    let (less, mut place) = number(octets, at, 2)?;
    cells[..d].fill(kinds[0]);
    let (width, mut least) = (width_of(d), 0);
    for _ in 0..=less {
        let (p, next) = number(octets, place, width)?;
        if p < least || d <= p {
            return Err(PLACE);
        }
        cells[p] = kinds[1];
        least = p + 1;
        place = next;
    }
    Ok((less + 1, place))
}

/// One value over the places still empty: how many it takes, at least one being left.
fn value(octets: &[u8], at: usize, n: usize, d: usize, cells: &mut Cells, kinds: [u8; 2]) -> Outcome<usize> {
    let (method, first) = number(octets, at, 3)?;
    let (count, next) = match method {
        0 => straight(octets, first, d, cells, kinds)?,
        1..=4 => runs(octets, first, [n, method, d], cells, kinds)?,
        5 => {
            cells[..d].fill(kinds[0]);
            (0, first)
        }
        6 => return Err(METHOD),
        _ => listed(octets, first, d, cells, kinds)?,
    };
    match d <= count {
        true => Err(PLACE),
        false => Ok((count, next)),
    }
}

/// Marks laid into the empty cells.
fn lay(cells: &mut [u8], marks: &Cells, plus: u8) {
    let mut p = 0;
    for cell in cells {
        let (old, mark) = (*cell, marks[p.min(319)]);
        *cell = if old == plus { mark } else { old };
        p += usize::from(old == plus);
    }
}

/// The octets of a row's values, and how many they are; none are CASE.
fn row_of(n: usize, case: usize, flag: usize, mask: u8) -> ([u8; 3], usize) {
    let (one, less) = (127 + mask, mask - 1);
    match (case, flag) {
        _ if n < 80 => ([0; 3], 0),
        (0, _) if n < 240 => ([0; 3], 0),
        (0, 1) => ([one, mask, less], 3),
        (0, _) => ([mask, one, less], 3),
        (1, 1) => ([one, mask, 0], 2),
        (1, _) => ([mask, one, 0], 2),
        (2, 0) => ([mask, less, 0], 2),
        (3, 1) => ([one, 0, 0], 1),
        _ => ([0; 3], 0),
    }
}

fn located(octets: &[u8], at: usize, n: usize, mask: u8, samples: &mut Cells) -> Outcome<()> {
    let (case, second) = number(octets, at, 2)?;
    let (flag, first) = number(octets, second, 1)?;
    let (values, count) = row_of(n, case, flag, mask);
    if count == 0 {
        return Err(CASE);
    }
    let plus = 128 + mask;
    let (ones, mut place) = value(octets, first, n, n, samples, [plus, values[0]])?;
    let (mut marks, mut empty) = ([0; 320], n - ones);
    for x in &values[1..count] {
        let (ones, next) = value(octets, place, n, empty, &mut marks, [plus, *x])?;
        lay(&mut samples[..n], &marks, plus);
        empty -= ones;
        place = next;
    }
    Ok(((), place))
}

/// What a first octet begins: a tool and a length; 6 stands for 6 or 8.
fn first_octet(first: u8) -> Option<(u32, usize)> {
    let long = if first < 0x30 { 240 } else { 320 };
    let short = [0, 40, 80, 160][usize::from(first >> 6)];
    Some(match first {
        0x00 => (0, 0),
        0x01 => return None,
        0x02..=0x1F => (11, 40),
        0x20..=0x3F => match first & 0x0F {
            low @ 0..=4 => (u32::from(low) + 1, long),
            5 => (7, long),
            6 | 7 => (10, long),
            8..=11 => (6, long),
            _ => (9, long),
        },
        _ => match first & 0x3F {
            low @ 0..=4 => (u32::from(low) + 1, short),
            6 if short > 40 => (7, short),
            5 if short == 40 => (12, short),
            0x08..=0x0F if short == 40 => (13, short),
            0x08..=0x0F if short == 160 => (10, short),
            0x05..=0x0F => return None,
            0x10..=0x1F => (6, short),
            _ => (9, short),
        },
    })
}

/// The body of a tool and the place after it. Only 6 needs the mark.
fn body(octets: &[u8], tool: u32, n: usize, mask: u8, samples: &mut Cells) -> Outcome<()> {
    let (plus, minus) = (128 + mask, mask);
    match tool {
        1 => {
            let end = 1 + n;
            samples[..n].copy_from_slice(octets.get(1..end).ok_or(SHORT)?);
            Ok(((), 8 * end))
        }
        2 | 3 => {
            samples[..n].fill(if tool == 2 { plus } else { minus });
            Ok(((), 8))
        }
        4 => number(octets, 8, 8).map(|(sample, next)| (samples[..n].fill(sample as u8), next)),
        5 => straight(octets, 8, n, samples, [plus, minus]).map(|(_, next)| ((), next)),
        6 => {
            let mark_at = if n >= 240 { 6 } else { 4 };
            let kinds = if bit_at(octets, mark_at) == 0 { [plus, minus] } else { [minus, plus] };
            let (s, first) = code_of_s(octets, mark_at + 1, n)?;
            runs(octets, first, [n, s, n], samples, kinds).map(|(_, next)| ((), next))
        }
        _ => located(octets, 8, n, mask, samples),
    }
}

/// A frame's samples at the output's start; their number and the octets and bits used.
fn frame(octets: &[u8], law: u32, set: u32, out: &mut [u8]) -> Result<[usize; 3], u32> {
    let first = *octets.first().ok_or(SHORT)?;
    let (mut tool, n) = first_octet(first).ok_or(PREFIX)?;
    if tool == 0 {
        return Ok([0, 1, 8]);
    }
    let decides = if n >= 240 { 7 } else { 5 };
    if tool == 6 && bit_at(octets, decides) == 0 && bit(octets, decides + 1)?.0 == 0 {
        tool = 8;
    }
    if tool > 7 || set >> (tool - 1) & 1 == 0 {
        return Err(TOOL);
    }
    if out.len() < n {
        return Err(ROOM);
    }
    let mut samples = [0; 320];
    let ((), bits) = body(octets, tool, n, if law == 0 { 0x55 } else { 0x7F }, &mut samples)?;
    if (bits..bits.next_multiple_of(8)).any(|at| bit_at(octets, at) == 1) {
        return Err(ALIGN);
    }
    out[..n].copy_from_slice(&samples[..n]);
    Ok([n, bits.div_ceil(8), bits])
}

/// One frame: the ending, and samples, octets and bits.
pub fn read(octets: &[u8], law: u32, set: u32, out: &mut [u8]) -> (u32, [usize; 3]) {
    match frame(octets, law, set, out) {
        Ok(report) => (0, report),
        Err(refusal) => (refusal, [0; 3]),
    }
}

/// A stream: the ending, and the frames, octets and samples kept.
pub fn walk(octets: &[u8], law: u32, set: u32, out: &mut [u8]) -> (u32, [usize; 3]) {
    let (mut frames, mut at, mut to) = (0, 0, 0);
    while at < octets.len() {
        match frame(&octets[at..], law, set, &mut out[to..]) {
            Err(refusal) => return (refusal, [frames, at, to]),
            Ok([samples, used, _]) => {
                frames += 1;
                at += used;
                to += samples;
            }
        }
    }
    (0, [frames, at, to])
}

#[cfg(test)]
mod tests {
    use super::{read, walk};
    use second::gen::{all_kinds, make_frame, Prng, LENGTHS};
    use std::io::Write;

    /// Written frames of every kind, whole and cut to each length, and streams of them: as the second program has it.
    #[test]
    fn as_the_second_program_reads() {
        let mut rng = Prng::new(51);
        let (mut reads, mut walks) = (0, 0);
        for (turn, kind) in all_kinds().into_iter().enumerate() {
            let law = turn as u32 % 2;
            let mut stream = Vec::new();
            for length in LENGTHS {
                let frame = make_frame(kind, length, law, &mut rng);
                let mut form = [0; 321];
                let set = 2 * rng.below(64) as u32 + 1;
                let wrote = second::write_frame(&frame, law, set, &mut form);
                for cut in 0..=wrote.octets {
                    let (mut ours, mut theirs) = ([0xA7; 320], [0xA7; 320]);
                    let (ending, report) = read(&form[..cut], law, 127, &mut ours);
                    let got = second::read_frame(&form[..cut], law, 127, &mut theirs);
                    assert_eq!(
                        (ending, report),
                        (got.ending, [got.samples, got.octets, got.bits]),
                        "{:02X?}",
                        &form[..cut]
                    );
                    assert_eq!(ours, theirs);
                    reads += 1;
                }
                stream.extend(&form[..wrote.octets]);
            }
            let (mut ours, mut theirs) = ([0xA7; 1_600], [0xA7; 1_600]);
            let (ending, report) = walk(&stream, law, 127, &mut ours);
            let got = second::walk(&stream, law, 127, &mut theirs);
            assert_eq!((ending, report), (got.ending, [got.frames, got.octets, got.samples]));
            assert_eq!(ours, theirs);
            walks += 1;
        }
        let said = format!("compared: the loop by bits of bench/: {reads} frames read, {walks} streams walked\n");
        std::io::stdout().write_all(said.as_bytes()).unwrap();
    }
}
