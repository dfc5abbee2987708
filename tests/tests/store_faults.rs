//! The comparison of stores itself (tests/src/store): back ends that are wrong in one way each must be found out, on the
//! vectors, on drawn lists of calls, damaged tables and changed numbers.

use second::gen::Prng;
use second::store::{Greeting, Jump, Mark, Store};
use second::table;
use tests::store::{
    asks_for_form, change, damaged, early_text_of, is_large, lowest_gap, profiles, rows_of, script, some_call,
    some_move, text_of, Call, Keeps, Record, Step, Stores, Told, ABSENT, BAD, BEYOND, BLOCK, DAMAGES, FORM, FULL,
    GREETINGS, LAW, MARKS, MORE_ROWS, MOST_BLOCK, MOST_WITHOUT, MOVE, NOROOM, NUMBER, PARTS, ROOM, TABLE, TAKEN,
};
use tests::{say, Codec, Second, ALL_TOOLS, LISTED_TOOLS, MOST};

/// Makes an enum and the list of all that it has.
macro_rules! faults {
    ($($fault:ident),* $(,)?) => {
        /// The second program, wrong in one way.
        #[derive(Clone, Copy, Debug, PartialEq)]
        enum Fault { $($fault),* }

        const FAULTS: &[Fault] = &[$(Fault::$fault),*];
    };
}

faults!(
    Nothing,
    HighestGap,
    SmallestGap,
    NoGapAtTheStart,
    MovedCountsAll,
    MovedCountsOne,
    NoRoomByLargestGap,
    ClosesUpEachTime,
    BackToFront,
    ClearsWhatIsLeft,
    DeletesOneMore,
    FullBeforeBad,
    TakenBeforeNumber,
    NoRoomBeforeFull,
    ThirtyOne,
    LongIsNoRoom,
    EmptyIsTaken,
    ByNumber,
    OneNumberTwice,
    EndPassedByOne,
    EmptyIsTable,
    BadBeforeTable,
    LeadingZero,
    ComesRound,
    NoLastEnd,
    LoadKeepsOld,
    JudgesNothing,
    ChangesWhenRefused,
    LooksPastTheBlock,
    SavesPastItsReport,
    ReportsWhenRefused,
    // Marks.
    MarkAfter64,
    PadsNotCounted,
    MarksFromTheBlock,
    MarksMove,
    SamplesOfTheLastFrame,
    AlwaysMu,
    LawNotJudged,
    LawAfterNumber,
    LawBeforeTable,
    DeleteLeavesMarks,
    DeleteClears,
    PutClears,
    SamplesBeforeBad,
    MarksComeRound,
    MixedTaken,
    EarlyIsLaw0,
    NoMarksTaken,
    MarksNotCompared,
    SavesEarlyLines,
    CountsOfMarksNotJudged,
    JudgesMarks,
    TableOf97,
    // Jumps.
    FirstOfEqualMarks,
    OffByOne,
    ReadWithoutTheNamed,
    PlaceInTheBlock,
    BeyondByOne,
    BeyondBeforeAbsent,
    SampleOf32Bits,
    FrameFromItsMark,
    PadsNotNamed,
    ReadsPastTheGreeting,
    SixtyFive,
    SixtyThree,
    WalksFromTheStart,
    MarksInTurn,
    JumpReportsWhenRefused,
    BadIsBeyond,
    // Longer greetings.
    FormByHeld,
    FormAlways,
    FormNever,
    FormByNumbersAlone,
    FormNotCounted,
    SavedIn16Bits,
    LoadedIn16Bits,
    LargeWithoutForm,
    LargeAfterBad,
    LargeEndRefused,
    FormNotNeededRefused,
    FormLeftOutRefused,
    FormAloneRefused,
    FormWithEarlyLines,
    FormTwice,
    FormBehind,
    AnyForm,
    OldLong,
    OldBlock,
    // Fractional-bit frames.
    OldToolsPut,
    OldToolsLoaded,
    OldToolsJumped,
    // Closing up by moves.
    TryCountsAll,
    TryDoesNotCloseUp,
    TryTellsTheGap,
    TryWithoutTheWalk,
    TryLooksForRoomFirst,
    NextIsTheLast,
    NextGoesToTheStart,
    NextIsTheOneBehind,
    NextByDistance,
    MovedTakesAny,
    MovedToItsOwnStart,
    MovedIn32Bits,
    MoveBeforeAbsent,
    MarksOfAMove,
    RenumberToItself,
    AbsentBeforeNumber,
    TakenBeforeAbsent,
    RenumberIn16Bits,
    RenumberTakesTwo,
    StepPastTheDistance,
    StepSpareAsLong,
    StepTakesDone,
    StepTakesAnyPage,
    StepTakesTheLastTwo,
    StepPastTheBlock,
    StepDoesNotTurn,
    StepLeavesTheMove,
    StepFillsTheSpare,
    StepReportsWhenRefused,
);

struct Wrong(Fault);

/// The store of lent numbers.
fn opened(block: &[u8], cells: &[u32]) -> Option<Store> {
    table::open(block, cells).ok()
}

/// Refusals that come too early, or are others, and puts at other places.
impl Wrong {
    /// The greetings put together with the new one at another place.
    fn at(&self, block: &mut [u8], cells: &mut [u32], number: u32, octets: &[u8], start: usize) -> Told {
        let mut rows = opened(block, cells).expect("a good table").greetings;
        let more = Greeting { number, start, octets: octets.len(), law: 1, samples: 0, marks: Vec::new() };
        rows.push(more);
        rows.sort_by_key(|row| row.start);
        block[start..start + octets.len()].copy_from_slice(octets);
        Second.load(&early_text_of(&rows), block, cells);
        Told::ok(start, 0)
    }

    /// A refusal that comes too early, or is another one.
    fn refuses(&self, store: &Store, law: u32, number: u32, octets: &[u8]) -> Option<u32> {
        let rows = &store.greetings;
        let free = law <= 1 && (1..65_536).contains(&number) && !rows.iter().any(|row| row.number == number);
        let full = rows.len() == GREETINGS;
        let short = store.held() + octets.len() > store.size();
        let gap = lowest_gap(rows, store.size(), octets.len());
        let put = store.clone().put(law, number, octets);
        match self.0 {
            Fault::FullBeforeBad if full && free => Some(FULL),
            Fault::TakenBeforeNumber if number > 65_535 && rows.iter().any(|row| row.number == number & 0xFFFF) => {
                Some(TAKEN)
            }
            Fault::NoRoomBeforeFull if full && short && put == Err(FULL) => Some(NOROOM),
            Fault::LongIsNoRoom if octets.len() > MOST && free => Some(NOROOM),
            Fault::OldLong if octets.len() > 65_535 && free => Some(BAD),
            Fault::OldToolsPut if free && needs_tool_11(octets) => Some(BAD),
            Fault::OldBlock if put.is_ok() && store.held() + octets.len() > BLOCK => Some(NOROOM),
            Fault::EmptyIsTaken if octets.is_empty() && free => Some(NUMBER),
            Fault::NoRoomByLargestGap if gap.is_none() && put.is_ok() => Some(NOROOM),
            Fault::ThirtyOne if rows.len() == 31 && put.is_ok() => Some(FULL),
            Fault::LawAfterNumber if law > 1 && !(1..65_536).contains(&number) => Some(NUMBER),
            _ => None,
        }
    }

    /// The same put at another place: it is undone and made again.
    fn elsewhere(
        &self,
        store: &Store,
        cells: &[u32],
        block: &mut [u8],
        table: &mut [u32],
        number: u32,
        octets: &[u8],
    ) -> Option<Told> {
        let rows = &store.greetings;
        let starts = [0].into_iter().chain(rows.iter().map(|row| row.start + row.octets));
        let ends = rows.iter().map(|row| row.start).chain([store.size()]);
        let gaps: Vec<(usize, usize)> = starts.zip(ends).filter(|(from, to)| to - from >= octets.len()).collect();
        let start = match self.0 {
            Fault::HighestGap => gaps.last()?.0,
            Fault::SmallestGap => gaps.iter().min_by_key(|(from, to)| to - from)?.0,
            Fault::NoGapAtTheStart => gaps.iter().find(|(from, _)| *from > 0)?.0,
            Fault::ClosesUpEachTime if !gaps.is_empty() => store.size(),
            _ => return None,
        };
        block.copy_from_slice(&store.block);
        table.copy_from_slice(cells);
        if self.0 != Fault::ClosesUpEachTime {
            return Some(self.at(block, table, number, octets, start));
        }
        let free = store.size() - store.held();
        if free > octets.len() && rows.len() < 31 && Second.put(block, table, 1, 65_534, &vec![0; free]).ending == 0 {
            Second.delete(block, table, 65_534);
        }
        Some(Second.put(block, table, 1, number, octets))
    }

    /// What is wrong once greetings have closed up.
    fn closed_up(&self, store: &Store, told: &mut Told, block: &mut [u8], table: &[u32], octets: usize) {
        let start = |block: &[u8], row: &Greeting| Second.get(block, table, row.number).report[0] as usize;
        match self.0 {
            Fault::MovedCountsAll => told.report[1] = store.held() as u64,
            Fault::MovedCountsOne => {
                told.report[1] = store.greetings.iter().filter(|row| start(block, row) != row.start).count() as u64;
            }
            Fault::BackToFront => {
                for row in &store.greetings {
                    let start = start(block, row);
                    let mut copied = store.block.clone();
                    (0..row.octets).rev().for_each(|at| copied[start + at] = copied[row.start + at]);
                    block[start..start + row.octets].copy_from_slice(&copied[start..start + row.octets]);
                }
            }
            Fault::ClearsWhatIsLeft => block[told.report[0] as usize + octets..store.size()].fill(0),
            _ => {}
        }
    }
}

/// Whether a walk with the older set stops at a frame of tool 11.
fn needs_tool_11(octets: &[u8]) -> bool {
    Codec::walk(&Second, octets, 1, LISTED_TOOLS, &mut vec![0; 320 * octets.len().min(MOST)]).tool == 11
}

/// Octets and samples of each frame of a good greeting.
fn lengths(octets: &[u8]) -> Vec<(usize, usize)> {
    let mut lengths = Vec::new();
    let mut at = 0;
    while at < octets.len() {
        let read = Codec::read(&Second, &octets[at..], 1, ALL_TOOLS, &mut [0; 320]);
        assert_eq!(read.ending, 0);
        lengths.push((read.octets, read.samples));
        at += read.octets;
    }
    lengths
}

/// Marks that are wrong.
impl Wrong {
    /// The marks of a greeting that was just put.
    fn mark(&self, greeting: &mut Greeting, octets: &[u8]) {
        let frames = lengths(octets);
        match self.0 {
            Fault::MarkAfter64 if frames.len() % 64 == 0 => {
                greeting.marks.push(Mark { octets: greeting.octets, samples: greeting.samples });
            }
            Fault::PadsNotCounted => {
                let (mut at, mut samples, mut counted) = (0, 0, 0);
                greeting.marks.clear();
                for (octets, more) in frames {
                    if counted % 64 == 0 && (more > 0 || at == 0) {
                        greeting.marks.push(Mark { octets: at, samples });
                    }
                    (at, samples, counted) = (at + octets, samples + more, counted + usize::from(more > 0));
                }
                greeting.marks.truncate(greeting.octets / 64 + 1);
            }
            Fault::MarksFromTheBlock => greeting.marks.iter_mut().for_each(|mark| mark.octets += greeting.start),
            Fault::SamplesOfTheLastFrame => greeting.samples = frames.last().map_or(0, |last| last.1),
            _ => {}
        }
    }

    /// After a put that was accepted.
    fn marked(&self, before: &Store, block: &[u8], lent: &mut [u32], number: u32, octets: &[u8]) {
        let mut store = opened(block, lent).expect("it was just put");
        for greeting in &mut store.greetings {
            match before.greetings.iter().find(|old| old.number == greeting.number) {
                None => self.mark(greeting, octets),
                Some(old) if self.0 == Fault::MarksMove => {
                    let by = old.start - greeting.start;
                    greeting.marks.iter_mut().for_each(|mark| mark.octets += by);
                }
                Some(_) => {}
            }
            if self.0 == Fault::AlwaysMu && greeting.number == number {
                greeting.law = 1;
            }
        }
        table::close(&store, lent);
        let used: usize = store.greetings.iter().map(|greeting| greeting.marks.len()).sum();
        if self.0 == Fault::PutClears {
            lent[MARKS + 2 * used..table::cells(block.len() as u64) as usize].fill(0);
        }
    }

    /// A refused load that this one takes, or refuses otherwise: the text to load in its place, or another ending.
    fn reads(&self, text: &[u8], block: &[u8], told: Told) -> Result<Vec<u8>, Told> {
        let said = String::from_utf8_lossy(text).to_string();
        let early: String = said
            .split_inclusive('\n')
            .filter(|line| ["prompt=", "start=", "octets="].iter().any(|key| line.starts_with(key)))
            .collect();
        let early_is_good = Store::load(early.as_bytes(), block.to_vec()).is_ok();
        let has_law = said.matches("law=").count();
        match (self.0, told.ending) {
            (Fault::SamplesBeforeBad, BAD) if rows_of(text).is_some_and(|rows| any_false(&rows, block)) => {
                Err(Told::refused(TABLE))
            }
            (Fault::MixedTaken, TABLE) if early_is_good && has_law > 0 && has_law < said.matches("prompt=").count() => {
                Ok(early.into_bytes())
            }
            (Fault::NoMarksTaken, TABLE) if early_is_good && has_law > 0 && !said.contains("mark=") => {
                Ok(early.into_bytes())
            }
            (Fault::MarksNotCompared, TABLE) if early_is_good && rows_of(text).is_some() => Ok(early.into_bytes()),
            (Fault::MarksComeRound, TABLE) => {
                let wrapped = |number: &str| number.parse::<u128>().map(|number| (number as u32).to_string()).ok();
                let line = |line: &str| {
                    let Some((octets, samples)) = line.strip_prefix("mark=").and_then(|mark| mark.split_once(','))
                    else {
                        return Some(format!("{line}\n"));
                    };
                    Some(format!("mark={},{}\n", wrapped(octets)?, wrapped(samples)?))
                };
                let lines: Option<String> = said.lines().map(line).collect();
                lines.map(String::into_bytes).filter(|_| said.ends_with('\n')).ok_or(told)
            }
            _ => Err(told),
        }
    }
}

/// First lines that are wrong, and numbers that they stand for.
impl Wrong {
    /// What is saved in the place of the right text.
    fn saves(&self, store: &Store, out: &mut [u8]) -> Option<Told> {
        let mut rows = store.greetings.clone();
        let asked = asks_for_form(&rows, store.size());
        let form = match self.0 {
            Fault::FormByHeld => store.held() > MOST_WITHOUT,
            Fault::FormAlways => true,
            Fault::FormNever => false,
            Fault::FormByNumbersAlone => rows.iter().any(is_large),
            Fault::FormNotCounted | Fault::SavedIn16Bits => asked,
            _ => return None,
        };
        if self.0 == Fault::SavedIn16Bits {
            rows.iter_mut().for_each(|row| (row.start, row.octets) = (row.start & 0xFFFF, row.octets & 0xFFFF));
        }
        let first = if form { FORM } else { &[] };
        let text = [first, &text_of(&rows)].concat();
        let needs = text.len() - if self.0 == Fault::FormNotCounted { first.len() } else { 0 };
        if out.len() < needs {
            return Some(Told::refused(ROOM));
        }
        let written = text.len().min(out.len());
        out[..written].copy_from_slice(&text[..written]);
        Some(Told::ok(text.len(), 0))
    }

    /// The text that is read in the place of one, or how it ends.
    fn first(&self, text: &[u8], block: &[u8]) -> Result<Vec<u8>, Told> {
        let behind = text.strip_prefix(FORM);
        let large = block.len() > MOST_WITHOUT;
        let refused = Err(Told::refused(TABLE));
        match (self.0, behind) {
            (Fault::FormNotNeededRefused, Some(_)) if !large => return refused,
            (Fault::FormLeftOutRefused, None) if large => return refused,
            (Fault::FormAloneRefused, Some([])) => return refused,
            (Fault::FormWithEarlyLines, Some(lines)) if !String::from_utf8_lossy(lines).contains("law=") => {
                return Ok(lines.to_vec());
            }
            (Fault::FormTwice, Some(lines)) if lines.starts_with(FORM) => return Ok(lines.to_vec()),
            (Fault::FormBehind, None) if text.ends_with(FORM) => return Ok(text[..text.len() - FORM.len()].to_vec()),
            (Fault::AnyForm, None) if text.starts_with(b"form=") => {
                let end = text.iter().position(|octet| *octet == b'\n').unwrap_or(text.len() - 1);
                if end > 5 && text[5..end].iter().all(u8::is_ascii_digit) {
                    return Ok([FORM, &text[end + 1..]].concat());
                }
            }
            (Fault::LargeEndRefused, None) => {
                if Store::load(text, block.to_vec())
                    .is_ok_and(|store| store.greetings.iter().any(|row| row.start + row.octets > MOST_WITHOUT))
                {
                    return refused;
                }
            }
            (Fault::LargeWithoutForm | Fault::LargeAfterBad, None) => {
                let with = [FORM, text].concat();
                match Store::load(&with, block.to_vec()) {
                    Ok(_) if self.0 == Fault::LargeWithoutForm => return Ok(with),
                    Err(BAD) if self.0 == Fault::LargeAfterBad => return Err(Told::refused(BAD)),
                    _ => {}
                }
            }
            (Fault::LoadedIn16Bits, Some(lines)) => {
                let shortened = |line: &str| match line.split_once('=') {
                    Some((key @ ("start" | "octets"), value)) => {
                        value.parse::<u32>().map_or(format!("{line}\n"), |number| format!("{key}={}\n", number as u16))
                    }
                    _ => format!("{line}\n"),
                };
                if lines.ends_with(b"\n") {
                    let lines: String = String::from_utf8_lossy(lines).lines().map(shortened).collect();
                    return Ok([FORM, lines.as_bytes()].concat());
                }
            }
            _ => {}
        }
        Ok(text.to_vec())
    }
}

/// Whether a greeting that the walk takes says of itself what the walk does not give.
fn any_false(rows: &[Greeting], block: &[u8]) -> bool {
    rows.iter().any(|row| {
        let early = early_text_of(std::slice::from_ref(row));
        Store::load(&early, block.to_vec())
            .is_ok_and(|store| (store.greetings[0].samples, &store.greetings[0].marks) != (row.samples, &row.marks))
    })
}

/// Jumps that are wrong.
impl Wrong {
    fn jumps(&self, store: &Store, number: u32, sample: u64) -> Result<Jump, u32> {
        if !(1..65_536).contains(&number) {
            return Err(NUMBER);
        }
        let Some(row) = store.greetings.iter().find(|row| row.number == number) else {
            return Err(if self.0 == Fault::BeyondBeforeAbsent && sample > 500 { BEYOND } else { ABSENT });
        };
        let sample = if self.0 == Fault::SampleOf32Bits { u64::from(sample as u32) } else { sample };
        let within = sample < row.samples as u64 || (self.0 == Fault::BeyondByOne && sample == row.samples as u64);
        if !within {
            return Err(BEYOND);
        }
        self.jump_in(store, row, sample as usize).ok_or(if self.0 == Fault::BadIsBeyond { BEYOND } else { BAD })
    }

    fn mark_for(&self, marks: &[Mark], sample: usize) -> usize {
        let (mut low, mut high) = (0, marks.len());
        if self.0 == Fault::MarksInTurn {
            return marks.iter().rposition(|mark| mark.samples <= sample).unwrap_or(0);
        }
        while high - low > 1 {
            let middle = low + (high - low) / 2;
            if marks[middle].samples <= sample {
                low = middle;
            } else {
                high = middle;
            }
        }
        if self.0 == Fault::FirstOfEqualMarks && !marks.is_empty() {
            low = marks.iter().position(|mark| mark.samples == marks[low].samples).unwrap_or(low);
        }
        if self.0 == Fault::WalksFromTheStart {
            return 0;
        }
        low
    }

    fn jump_in(&self, store: &Store, row: &Greeting, sample: usize) -> Option<Jump> {
        let at = self.mark_for(&row.marks, sample);
        let mark = *row.marks.get(at)?;
        let end = if self.0 == Fault::ReadsPastTheGreeting { store.size() } else { row.start + row.octets };
        let octets = &store.block[row.start..end];
        let most = match self.0 {
            Fault::SixtyFive => 65,
            Fault::SixtyThree => 63,
            Fault::WalksFromTheStart => usize::MAX,
            _ => 64,
        };
        let (mut place, mut before, mut pads) = (mark.octets, mark.samples, 0);
        if before > sample {
            return None;
        }
        for passed in 0..most {
            let set = if self.0 == Fault::OldToolsJumped { LISTED_TOOLS } else { ALL_TOOLS };
            let read = Codec::read(&Second, octets.get(place..)?, row.law, set, &mut [0; 320]);
            if read.ending != 0 {
                return None;
            }
            let reaches = before + read.samples + usize::from(self.0 == Fault::OffByOne && passed < 63);
            if sample < reaches {
                let frame = match self.0 {
                    Fault::FrameFromItsMark => passed,
                    Fault::PadsNotNamed => 64 * at + passed - pads,
                    _ => 64 * at + passed,
                };
                let read = passed + usize::from(self.0 != Fault::ReadWithoutTheNamed);
                let place = place + if self.0 == Fault::PlaceInTheBlock { row.start } else { 0 };
                return Some(Jump { frame, place, within: sample - before, read });
            }
            pads += usize::from(read.samples == 0);
            (place, before) = (place + read.octets, before + read.samples);
        }
        None
    }
}

impl Keeps for Wrong {
    fn cells(&self, size: u64) -> u64 {
        Keeps::cells(&Second, size)
    }

    fn put(&self, block: &mut [u8], lent: &mut [u32], law: u32, number: u32, octets: &[u8]) -> Told {
        if self.0 == Fault::LawBeforeTable && law > 1 {
            return Told::refused(LAW);
        }
        let law = if self.0 == Fault::LawNotJudged { law & 1 } else { law };
        let Some(store) = opened(block, lent) else { return Second.put(block, lent, law, number, octets) };
        if let Some(ending) = self.refuses(&store, law, number, octets) {
            return Told::refused(ending);
        }
        let cells = lent.to_vec();
        let mut told = Second.put(block, lent, law, number, octets);
        match (self.0, told.ending) {
            (Fault::ChangesWhenRefused, NOROOM) if octets.len() <= store.size() => {
                block[..octets.len()].copy_from_slice(octets);
            }
            (Fault::ReportsWhenRefused, NOROOM) => told.report[1] = store.held() as u64,
            (_, 0) => {
                if let Some(other) = self.elsewhere(&store, &cells, block, lent, number, octets) {
                    return other;
                }
                self.marked(&store, block, lent, number, octets);
                if told.report[1] > 0 {
                    self.closed_up(&store, &mut told, block, lent, octets.len());
                }
            }
            _ => {}
        }
        told
    }

    fn get(&self, block: &[u8], lent: &[u32], number: u32) -> Told {
        let mut told = Second.get(block, lent, number);
        let has_rows = || {
            let mut fewer = lent.to_vec();
            (0..GREETINGS).for_each(|row| fewer[MORE_ROWS + 3 + 3 * row] = 0);
            opened(block, &fewer).is_some()
        };
        match (self.0, told.ending) {
            (Fault::JudgesNothing, TABLE) => told = Told::refused(ABSENT),
            (Fault::CountsOfMarksNotJudged, TABLE) if has_rows() => told = Told::refused(ABSENT),
            (Fault::JudgesMarks, 0) => {
                let store = opened(block, lent).expect("it was got from");
                let falls = |row: &Greeting| row.marks.windows(2).any(|two| two[0].samples > two[1].samples);
                if store.greetings.iter().any(falls) {
                    told = Told::refused(TABLE);
                }
            }
            _ => {}
        }
        told
    }

    fn delete(&self, block: &[u8], lent: &mut [u32], number: u32) -> Told {
        let cells = lent.to_vec();
        let told = Second.delete(block, lent, number);
        if told.ending != 0 {
            return told;
        }
        match self.0 {
            Fault::DeletesOneMore => {
                if let Some(last) = opened(block, lent).and_then(|store| store.greetings.last().cloned()) {
                    Second.delete(block, lent, last.number);
                }
            }
            Fault::DeleteLeavesMarks => lent[MARKS..].copy_from_slice(&cells[MARKS..]),
            Fault::DeleteClears => {
                let store = opened(block, lent).expect("it was just deleted from");
                let used: usize = store.greetings.iter().map(|greeting| greeting.marks.len()).sum();
                lent[MARKS + 2 * used..table::cells(block.len() as u64) as usize].fill(0);
            }
            _ => {}
        }
        told
    }

    fn save(&self, block: &[u8], lent: &[u32], out: &mut [u8]) -> Told {
        if let Some(told) = opened(block, lent).and_then(|store| self.saves(&store, out)) {
            return told;
        }
        let mut told = Second.save(block, lent, out);
        if told.ending == 0 && told.report[0] > 0 {
            let text = told.report[0] as usize;
            let rows = || rows_of(&out[..text]).expect("a saved table");
            match self.0 {
                Fault::ByNumber => {
                    let mut rows = rows();
                    rows.sort_by_key(|row| row.number);
                    let lines = text_of(&rows);
                    out[text - lines.len()..text].copy_from_slice(&lines);
                }
                Fault::SavesEarlyLines => {
                    let early = early_text_of(&rows());
                    out[..early.len()].copy_from_slice(&early);
                    told = Told::ok(early.len(), 0);
                }
                Fault::SavesPastItsReport if text < out.len() => out[text] = 0,
                _ => {}
            }
        }
        told
    }

    fn load(&self, text: &[u8], block: &[u8], lent: &mut [u32]) -> Told {
        let mut given = match self.first(text, block) {
            Ok(given) => given,
            Err(told) => return told,
        };
        let mut lent_block = block.to_vec();
        match self.0 {
            Fault::NoLastEnd if !text.ends_with(b"\n") && !text.is_empty() => given.push(b'\n'),
            Fault::LeadingZero => {
                given = String::from_utf8_lossy(text).replace("=0", "=").replace("=\n", "=0\n").into_bytes();
                given = String::from_utf8_lossy(&given).replace("=,", "=0,").into_bytes();
            }
            Fault::EndPassedByOne if block.len() < MOST_BLOCK => lent_block.push(0),
            Fault::LooksPastTheBlock if block.len() > MOST_BLOCK => lent_block.rotate_left(block.len() - MOST_BLOCK),
            Fault::ComesRound => {
                let wrapped = |line: &str| {
                    let (key, value) = line.split_once('=')?;
                    let known = ["prompt", "start", "octets", "law", "samples"].contains(&key);
                    let number = value.parse::<u128>().ok().filter(|_| known);
                    Some(number.map_or(format!("{line}\n"), |number| format!("{key}={}\n", number as u32)))
                };
                let lines: Option<String> = String::from_utf8_lossy(text).lines().map(wrapped).collect();
                if let (Some(lines), true) = (lines, text.ends_with(b"\n")) {
                    given = lines.into_bytes();
                }
            }
            _ => {}
        }
        let mut told = Second.load(&given, &lent_block, lent);
        if told.ending != 0 {
            match self.reads(text, block, told) {
                Ok(other) => told = Second.load(&other, block, lent),
                Err(other) => told = other,
            }
        }
        let empty = String::from_utf8_lossy(text).contains("octets=0\n");
        match self.0 {
            Fault::EmptyIsTable if told.ending == BAD && empty => told = Told::refused(TABLE),
            Fault::BadBeforeTable if told.ending == TABLE && empty => told = Told::refused(BAD),
            Fault::OneNumberTwice if told.ending == TABLE => {
                let rows = rows_of(text).unwrap_or_default();
                let numbered = |(at, row): (usize, &Greeting)| Greeting { number: 1 + at as u32, ..row.clone() };
                let again: Vec<Greeting> = rows.iter().enumerate().map(numbered).collect();
                if !rows.is_empty() && Store::load(&text_of(&again), block.to_vec()).is_ok() {
                    told = Told::ok(0, 0);
                }
            }
            Fault::LoadKeepsOld if told.ending == 0 && text.is_empty() => lent[..4].copy_from_slice(&[1, 1, 0, 1]),
            Fault::JudgesNothing if told.ending == TABLE && lent.len() < 258 => told = Told::ok(0, 0),
            Fault::EarlyIsLaw0 if told.ending == 0 && !String::from_utf8_lossy(text).contains("law=") => {
                (0..lent[0] as usize).for_each(|row| lent[MORE_ROWS + 1 + 3 * row] = 0);
            }
            Fault::TableOf97 if told.ending == 0 => lent[MORE_ROWS] = 0,
            Fault::OldToolsLoaded if told.ending == 0 => {
                let store = opened(block, lent).expect("it was just loaded");
                let needs = |row: &Greeting| needs_tool_11(&block[row.start..row.start + row.octets]);
                if store.greetings.iter().any(needs) {
                    told = Told::refused(BAD);
                }
            }
            _ => {}
        }
        told
    }

    fn jump(&self, block: &[u8], lent: &[u32], number: u32, sample: u64) -> Told {
        let Some(store) = opened(block, lent) else { return Told::refused(TABLE) };
        match self.jumps(&store, number, sample) {
            Ok(jump) => Told::jumped([jump.frame, jump.place, jump.within, jump.read]),
            Err(BAD) if self.0 == Fault::JumpReportsWhenRefused => Told { ending: BAD, report: [0, 0, 0, 64] },
            Err(ending) => Told::refused(ending),
        }
    }

    fn try_put(&self, block: &[u8], lent: &[u32], law: u32, number: u32, octets: &[u8]) -> Told {
        let mut told = Second.try_put(block, lent, law, number, octets);
        let Some(store) = opened(block, lent) else { return told };
        match (self.0, told.ending) {
            (Fault::TryCountsAll, 0) if told.report[1] > 0 => told.report[1] = store.held() as u64,
            (Fault::TryDoesNotCloseUp, 0) if told.report[1] > 0 => told = Told::refused(NOROOM),
            (Fault::TryTellsTheGap, 0) if told.report[1] > 0 => {
                told.report[0] = store.greetings.last().map_or(0, |row| (row.start + row.octets) as u64);
            }
            (Fault::TryWithoutTheWalk, BAD) if !octets.is_empty() => told = Told::ok(0, 0),
            (Fault::TryLooksForRoomFirst, FULL) if store.held() + octets.len() > store.size() => {
                told = Told::refused(NOROOM);
            }
            _ => {}
        }
        told
    }

    fn next(&self, block: &[u8], lent: &[u32]) -> Told {
        let told = Second.next(block, lent);
        let Some(store) = opened(block, lent).filter(|_| told.report[0] > 0) else { return told };
        let rows = &store.greetings;
        let at = rows.iter().position(|row| u64::from(row.number) == told.report[0]).expect("it is held");
        let of = |row: &Greeting, to: u64| Told {
            ending: 0,
            report: [u64::from(row.number), row.start as u64, to, row.octets as u64],
        };
        match self.0 {
            Fault::NextIsTheLast => of(rows.last().expect("it has some"), told.report[2]),
            Fault::NextGoesToTheStart => of(&rows[at], 0),
            Fault::NextIsTheOneBehind => rows.get(at + 1).map_or(told, |row| of(row, told.report[2])),
            Fault::NextByDistance => {
                let [number, from, to, octets] = told.report;
                Told { ending: 0, report: [number, from, from - to, octets] }
            }
            _ => told,
        }
    }

    fn moved(&self, block: &[u8], lent: &mut [u32], number: u32, to: u64) -> Told {
        let mut told = Second.moved(block, lent, number, to);
        let Some(store) = opened(block, lent) else { return told };
        let row = store.greetings.iter().position(|row| row.number == number);
        match (self.0, told.ending, row) {
            (Fault::MovedTakesAny, MOVE, Some(row)) => {
                let next = store.next_move();
                if next.is_some_and(|next| next.to as u64 == to) && to < store.greetings[row].start as u64 {
                    told = Told::ok(0, 0);
                }
            }
            (Fault::MovedToItsOwnStart, MOVE, Some(row)) if store.greetings[row].start as u64 == to => {
                told = Told::ok(0, 0);
            }
            (Fault::MovedIn32Bits, MOVE, Some(_)) => told = Second.moved(block, lent, number, u64::from(to as u32)),
            (Fault::MoveBeforeAbsent, ABSENT, _) if store.next_move().is_none() => told = Told::refused(MOVE),
            (Fault::MarksOfAMove, 0, Some(_)) if lent[MARKS] == 0 => lent[MARKS] = 1,
            _ => {}
        }
        told
    }

    fn renumber(&self, block: &[u8], lent: &mut [u32], number: u32, to: u32) -> Told {
        let ranged = |number: u32| (1..65_536).contains(&number);
        let told = Second.renumber(block, lent, number, to);
        match (self.0, told.ending) {
            (Fault::RenumberToItself, TAKEN) if number == to => Told::ok(0, 0),
            (Fault::AbsentBeforeNumber, NUMBER) if ranged(number) => match Second.get(block, lent, number).ending {
                ABSENT => Told::refused(ABSENT),
                _ => told,
            },
            (Fault::TakenBeforeAbsent, ABSENT) if Second.get(block, lent, to).ending == 0 => Told::refused(TAKEN),
            (Fault::RenumberIn16Bits, NUMBER) => Second.renumber(block, lent, number & 0xFFFF, to & 0xFFFF),
            (Fault::RenumberTakesTwo, TAKEN) if number != to => Told::ok(0, 0),
            _ => told,
        }
    }

    fn step(&self, block: &mut [u8], spare: &mut [u8], record: &Record, next: &mut Record) -> u32 {
        let [page, state, from, to, octets, done, ..] = *record;
        let mut given = *record;
        match self.0 {
            Fault::StepPastTheDistance if state == 1 && to < from => {
                let (distance, left) = ((from - to) as usize, octets.saturating_sub(done) as usize);
                let mut tried = *next;
                if distance >= spare.len() && left > distance && Second.step(block, spare, record, &mut tried) == 0 {
                    let source = from as usize + done as usize + distance;
                    block[to as usize + done as usize + distance] = block[source];
                    *next = if left == distance + 1 { [1 - page, 0, 0, 0, 0, 0, 0, 0] } else { tried };
                    return 0;
                }
            }
            Fault::StepSpareAsLong if state == 2 && to < from && (from - to) as usize == spare.len() => {
                let mut longer = [&*spare, &[0]].concat();
                return Second.step(block, &mut longer, record, next);
            }
            Fault::StepTakesDone if done == octets && octets > 0 => given[5] = octets - 1,
            Fault::StepTakesAnyPage => given[0] &= 1,
            Fault::StepTakesTheLastTwo => (given[6], given[7]) = (0, 0),
            Fault::StepPastTheBlock => {
                let mut longer = [&*block, &[0]].concat();
                let ending = Second.step(&mut longer, spare, record, next);
                block.copy_from_slice(&longer[..block.len()]);
                return ending;
            }
            _ => {}
        }
        let ending = Second.step(block, spare, &given, next);
        match self.0 {
            Fault::StepDoesNotTurn if ending == 0 && next[1] == 0 => next[0] = page,
            Fault::StepLeavesTheMove if ending == 0 && next[1] == 0 => next[2] = from,
            Fault::StepFillsTheSpare if ending == 0 && next[1] == 2 => {
                let count = spare.len().min((octets - done) as usize);
                spare[count..].fill(0);
            }
            Fault::StepReportsWhenRefused if ending != 0 => *next = [0; 8],
            _ => {}
        }
        ending
    }

    fn reader(&self) -> &dyn Codec {
        &Second
    }
}

/// The vectors, on a back end that may be wrong, up to the first that finds it: only what differs from the model counts.
fn vectors(steps: &[Step], stores: &mut Stores) {
    for step in steps {
        match step {
            Step::Part(_, block) => stores.renew(block.clone()),
            Step::Makes(call, _) => {
                stores.call(call);
            }
            Step::Lends(at, cells) => {
                stores.lend(|lent| lent[*at..at + cells.len()].copy_from_slice(cells));
            }
            Step::Writes(at, octets) => {
                octets.iter().enumerate().for_each(|(more, octet)| stores.octet(at + more, *octet));
            }
            Step::Saves(_) => {
                stores.call(&Call::Save(stores.room()));
            }
            Step::Spare(spare) => stores.spare.clone_from(spare),
            Step::Steps(record, _) => {
                let _ = stores.step(record);
            }
            Step::Block(_) | Step::Cells(..) | Step::SpareIs(_) => {}
        }
        if stores.differences > 0 {
            return;
        }
    }
}

/// One drawn store: calls, a saved table loaded, damaged, in R-6's lines, and numbers changed.
fn drawn(turn: usize, profiles: &[tests::store::Profile], stores: &mut Stores, rng: &mut Prng) {
    let profile = &profiles[turn % profiles.len()];
    stores.renew(rng.octets(profile.block));
    for _ in 0..60 {
        let call = some_call(profile, stores, rng);
        stores.call(&call);
    }
    stores.saved_and_loaded();
    let rows = stores.model.greetings.clone();
    let damage = DAMAGES[turn % DAMAGES.len()];
    if let Some(made) = damaged(damage, &rows, stores.model.size(), rng) {
        stores.call(&Call::Load(made.text));
    }
    stores.call(&Call::Load(early_text_of(&rows)));
    let part = PARTS[turn % PARTS.len()];
    stores.lend(|cells| change(part, cells, rng));
    for _ in 0..12 {
        let call = some_call(profile, stores, rng);
        stores.call(&call);
    }
    for _ in 0..20 {
        let call = some_move(profile, stores, rng);
        stores.call(&call);
    }
}

/// The second program itself, and with no fault, differs in nothing; each of the wrong ones does.
#[test]
fn a_wrong_back_end_is_found() {
    let mut rng = Prng::new(606);
    let profiles = profiles(&mut rng);
    let files = [include_str!("../vectors/moves.txt"), include_str!("../vectors/store.txt")];
    let steps: Vec<Step> = files.iter().flat_map(|file| script(file).unwrap()).collect();
    let keepers: [&dyn Keeps; 2] = [&Second, &Wrong(Fault::Nothing)];
    for keeper in keepers {
        let mut stores = Stores::new(keeper, Vec::new());
        vectors(&steps, &mut stores);
        (0..80).for_each(|turn| drawn(turn, &profiles, &mut stores, &mut rng));
        stores.close();
    }
    let (mut by_vectors, faults) = (0, &FAULTS[1..]);
    for fault in faults {
        let wrong = Wrong(*fault);
        let mut stores = Stores::new(&wrong, Vec::new());
        vectors(&steps, &mut stores);
        by_vectors += usize::from(stores.differences > 0);
        let mut turn = 0;
        while stores.differences == 0 && turn < 400 {
            drawn(turn, &profiles, &mut stores, &mut rng);
            turn += 1;
        }
        assert!(stores.differences > 0, "{fault:?} was not found in {} calls", stores.calls);
    }
    let all = faults.len();
    say(&format!("compared: store, {all} wrong back ends: each one found, {by_vectors} by the vectors alone\n"));
}
