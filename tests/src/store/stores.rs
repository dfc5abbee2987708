//! A back end's block and table beside the model, call by call.

use super::{saved_room, text_of, Frames, Keeps, Record, Told, TABLE};
use second::moves::{move_step, Move};
use second::store::{Greeting, Store};
use second::table;
use std::collections::BTreeMap;

/// A call, and what it is given.
#[derive(Clone, Debug, PartialEq, Eq)]
pub enum Call {
    /// Law, number, octets.
    Put(u32, u32, Vec<u8>),
    Get(u32),
    Delete(u32),
    /// Into so much room.
    Save(usize),
    Load(Vec<u8>),
    /// Number, sample.
    Jump(u32, u64),
    /// Law, number, octets.
    Try(u32, u32, Vec<u8>),
    Next,
    /// Number, where it goes.
    Moved(u32, u64),
    /// Number, the new one.
    Renumber(u32, u32),
}

impl Call {
    pub fn name(&self) -> &'static str {
        match self {
            Call::Put(..) => "put",
            Call::Get(_) => "get",
            Call::Delete(_) => "delete",
            Call::Save(_) => "save",
            Call::Load(_) => "load",
            Call::Jump(..) => "jump",
            Call::Try(..) => "try",
            Call::Next => "next",
            Call::Moved(..) => "moved",
            Call::Renumber(..) => "renumber",
        }
    }

    pub(super) fn words(&self) -> String {
        match self {
            Call::Put(law, number, octets) | Call::Try(law, number, octets) => {
                let shown: String = octets.iter().take(60).map(|octet| format!("{octet:02X}")).collect();
                format!("{} {number} {shown} ({} octets, law {law})", self.name(), octets.len())
            }
            Call::Get(number) => format!("get {number}"),
            Call::Delete(number) => format!("delete {number}"),
            Call::Save(room) => format!("save in {room} octets"),
            Call::Load(text) => format!("load {}", shortened(text)),
            Call::Jump(number, sample) => format!("jump {number} {sample}"),
            Call::Next => "next".to_string(),
            Call::Moved(number, to) => format!("moved {number} {to}"),
            Call::Renumber(number, to) => format!("renumber {number} {to}"),
        }
    }

    /// Whether it may change the table.
    fn changes(&self) -> bool {
        matches!(self, Call::Put(..) | Call::Delete(_) | Call::Load(_) | Call::Moved(..) | Call::Renumber(..))
    }
}

/// A text as it is shown.
fn shortened(text: &[u8]) -> String {
    let start = text[..text.len().min(MOST_SHOWN)].escape_ascii();
    format!("{start} ({} octets)", text.len())
}

/// Numbers and octets before and after what is lent. They belong to the caller.
const MARGIN: usize = 16;
/// What lies there, and in the text that is lent, in turn.
const FILLS: [u8; 2] = [0xA7, 0x58];
/// Differences shown at most; they are all counted.
const SHOWN: usize = 20;
/// Octets of a text shown at most.
const MOST_SHOWN: usize = 600;

/// What was put under a number: its law, its octets, and all its frames.
pub(super) struct Kept {
    pub law: u32,
    pub octets: Vec<u8>,
    pub frames: Frames,
}

/// A back end's block and table beside the model, and what differed.
pub struct Stores<'a> {
    pub(super) keeper: &'a dyn Keeps,
    pub model: Store,
    /// The spare of moves, the model's.
    pub spare: Vec<u8>,
    /// Whether the lent numbers are a table that calls leave, false marks or not. Else the model says nothing.
    pub judged: bool,
    block: Vec<u8>,
    /// The table that is lent, margins and all, and what it was before the call.
    table: Vec<u32>,
    before: Vec<u32>,
    /// The greetings that the back end last saved, and the text of the last save.
    pub(super) rows: Vec<Greeting>,
    pub text: Vec<u8>,
    /// What was put under each number that is kept, and the sums since the block was fresh.
    pub(super) kept: BTreeMap<u32, Kept>,
    pub(super) put: usize,
    pub(super) deleted: usize,
    pub calls: usize,
    pub differences: usize,
    shown: Vec<String>,
}

impl<'a> Stores<'a> {
    /// A fresh store on a block of this content.
    pub fn new(keeper: &'a dyn Keeps, block: Vec<u8>) -> Stores<'a> {
        let mut stores = Stores {
            keeper,
            model: Store::fresh(Vec::new()),
            spare: Vec::new(),
            judged: true,
            block: Vec::new(),
            table: Vec::new(),
            before: Vec::new(),
            rows: Vec::new(),
            text: Vec::new(),
            kept: BTreeMap::new(),
            put: 0,
            deleted: 0,
            calls: 0,
            differences: 0,
            shown: Vec::new(),
        };
        stores.renew(block);
        stores
    }

    /// Begins anew on a fresh block, and goes on counting.
    pub fn renew(&mut self, block: Vec<u8>) {
        let cells = table::cells(block.len() as u64) as usize;
        let fill = FILLS[self.calls % 2];
        self.block = [&[fill; MARGIN][..], &block, &[fill; MARGIN]].concat();
        self.table = vec![u32::from(fill) * 0x0101_0101; MARGIN + cells + MARGIN];
        self.table[MARGIN..MARGIN + cells].fill(0);
        self.model = Store::fresh(block);
        self.judged = true;
        self.rows.clear();
        self.kept.clear();
        (self.put, self.deleted) = (0, 0);
    }

    fn octets_lent(&self) -> std::ops::Range<usize> {
        MARGIN..self.block.len() - MARGIN
    }

    fn cells_lent(&self) -> std::ops::Range<usize> {
        MARGIN..self.table.len() - MARGIN
    }

    /// Room that the table is saved in, whatever its numbers say.
    pub fn room(&self) -> usize {
        saved_room(self.model.block.len())
    }

    /// The table's numbers.
    pub fn cells(&self) -> &[u32] {
        &self.table[self.cells_lent()]
    }

    /// The table's numbers changed behind the back end's back. Gives whether they still are a table; the model follows.
    pub fn lend(&mut self, change: impl FnOnce(&mut [u32])) -> bool {
        let lent = self.cells_lent();
        change(&mut self.table[lent.clone()]);
        self.judged = match table::open(&self.model.block, &self.table[lent]) {
            Ok(store) => {
                self.model = store;
                true
            }
            Err(_) => false,
        };
        self.judged
    }

    /// An octet of the block, the same.
    pub fn octet(&mut self, at: usize, octet: u8) {
        self.block[MARGIN + at] = octet;
        self.model.block[at] = octet;
    }

    /// Octets of the block brought to another place, behind the back end's back; the model's follow.
    pub fn carry(&mut self, place: std::ops::Range<usize>, to: usize) {
        self.model.block.copy_within(place.clone(), to);
        self.block.copy_within(MARGIN + place.start..MARGIN + place.end, MARGIN + to);
    }

    pub fn differ(&mut self, what: &str, fault: &str) {
        self.differences += 1;
        if self.shown.len() < SHOWN {
            let kept = shortened(&text_of(&self.model.greetings));
            self.shown.push(format!("{what}, block of {}, {kept}: {fault}", self.model.block.len()));
        }
    }

    pub fn shown(&self) -> &[String] {
        &self.shown
    }

    /// Fails if anything differed.
    pub fn close(&self) {
        assert!(self.differences == 0, "{} differences\n{}", self.differences, self.shown.join("\n"));
    }

    /// A call of the back end on what is lent, and the text that it saved.
    pub(super) fn make(&mut self, call: &Call) -> Told {
        let (octets, cells) = (self.octets_lent(), self.cells_lent());
        let (block, table) = (&mut self.block[octets], &mut self.table[cells]);
        match call {
            Call::Put(law, number, octets) => self.keeper.put(block, table, *law, *number, octets),
            Call::Get(number) => self.keeper.get(block, table, *number),
            Call::Delete(number) => self.keeper.delete(block, table, *number),
            Call::Load(text) => self.keeper.load(text, block, table),
            Call::Jump(number, sample) => self.keeper.jump(block, table, *number, *sample),
            Call::Try(law, number, octets) => self.keeper.try_put(block, table, *law, *number, octets),
            Call::Next => self.keeper.next(block, table),
            Call::Moved(number, to) => self.keeper.moved(block, table, *number, *to),
            Call::Renumber(number, to) => self.keeper.renumber(block, table, *number, *to),
            Call::Save(room) => {
                let fill = FILLS[self.calls % 2];
                let mut lent = vec![fill; MARGIN + room + MARGIN];
                let told = self.keeper.save(block, table, &mut lent[MARGIN..MARGIN + room]);
                let written = (told.report[0] as usize).min(*room);
                self.text = lent[MARGIN..MARGIN + written].to_vec();
                let outside = lent[..MARGIN].iter().chain(&lent[MARGIN + written..]);
                if outside.into_iter().any(|octet| *octet != fill) {
                    self.differ(&call.words(), "wrote past the text");
                }
                told
            }
        }
    }

    /// The model's answer. Only a load does not look at the numbers that are lent.
    fn wanted(&mut self, call: &Call) -> Told {
        if !self.judged && !matches!(call, Call::Load(_)) {
            return Told::refused(TABLE);
        }
        let model = &mut self.model;
        let answer = match call {
            Call::Put(law, number, octets) => {
                model.put(*law, *number, octets).map(|put| Told::ok(put.start, put.moved))
            }
            Call::Get(number) => model.get(*number).map(|(start, octets)| Told::ok(start, octets)),
            Call::Delete(number) => model.delete(*number).map(|()| Told::ok(0, 0)),
            Call::Save(room) => model.save(&mut vec![0; *room]).map(|octets| Told::ok(octets, 0)),
            Call::Load(text) => Store::load(text, model.block.clone()).map(|store| {
                *model = store;
                self.judged = true;
                Told::ok(0, 0)
            }),
            Call::Jump(number, sample) => {
                let told = model.jump(*number, *sample);
                told.map(|jump| Told::jumped([jump.frame, jump.place, jump.within, jump.read]))
            }
            Call::Try(law, number, octets) => {
                model.try_put(*law, *number, octets).map(|put| Told::ok(put.start, put.moved))
            }
            Call::Next => Ok(model.next_move().map_or(Told::ok(0, 0), |Move { number, from, to, octets }| {
                Told::jumped([number as usize, from, to, octets])
            })),
            Call::Moved(number, to) => model.moved(*number, *to).map(|()| Told::ok(0, 0)),
            Call::Renumber(number, to) => model.renumber(*number, *to).map(|()| Told::ok(0, 0)),
        };
        answer.unwrap_or_else(Told::refused)
    }

    /// Makes a call on the back end and on the model: answer, report, whole block, whole table.
    pub fn call(&mut self, call: &Call) -> Told {
        self.calls += 1;
        self.before.clone_from(&self.table);
        let got = self.make(call);
        let wanted = self.wanted(call);
        if got != wanted {
            self.differ(&call.words(), &format!("{got:?}, wanted {wanted:?}"));
        }
        self.check_block(&call.words());
        let changed = wanted.ending == 0 && call.changes();
        if changed {
            // Cells in use are the model's, the others as they were.
            let lent = self.cells_lent();
            table::close(&self.model, &mut self.before[lent]);
        }
        self.check_table(call);
        if matches!(call, Call::Save(_)) {
            if got.ending == 0 && self.text != self.model.text() {
                self.differ(&call.words(), &format!("saved {}", shortened(&self.text)));
            }
        } else if changed {
            self.check_saved(&call.words());
        }
        wanted
    }

    /// A step on the back end and on the model, on the block and the spare: answer, record after it, whole block, whole spare. A refused
    /// one leaves the lent record as it was.
    pub fn step(&mut self, record: &Record) -> Result<Record, u32> {
        self.calls += 1;
        let fill = FILLS[self.calls % 2];
        let mut lent = [&[fill; MARGIN][..], &self.spare, &[fill; MARGIN]].concat();
        let (octets, spare) = (self.octets_lent(), MARGIN..MARGIN + self.spare.len());
        let (mut next, mut wanted) = ([u32::from(fill); 8], [u32::from(fill); 8]);
        let ending = self.keeper.step(&mut self.block[octets], &mut lent[spare], record, &mut next);
        let judged = move_step(&mut self.model.block, &mut self.spare, record, &mut wanted);
        let words = format!("step of {record:?}, spare of {}", self.spare.len());
        if ending != judged.err().unwrap_or(0) || next != wanted {
            self.differ(&words, &format!("{ending}, {next:?}, wanted {judged:?}, {wanted:?}"));
        }
        self.check_block(&words);
        if lent != [&[fill; MARGIN][..], &self.spare, &[fill; MARGIN]].concat() {
            self.differ(&words, "the spare or what lies beside it differs");
        }
        judged.map(|()| wanted)
    }

    /// The whole block, margins too.
    fn check_block(&mut self, words: &str) {
        let octets = self.octets_lent();
        if self.block[octets.clone()] != self.model.block {
            let at = (0..self.model.block.len()).find(|at| self.block[MARGIN + at] != self.model.block[*at]);
            self.differ(words, &format!("the block differs at {at:?}"));
            self.block[octets.clone()].copy_from_slice(&self.model.block);
        }
        let fill = self.block[0];
        if self.block[..MARGIN].iter().chain(&self.block[octets.end..]).any(|octet| *octet != fill) {
            self.differ(words, "octets beside the block have changed");
            self.block[..MARGIN].fill(fill);
            self.block[octets.end..].fill(fill);
        }
    }

    /// The whole table, margins too, beside what it was or should have become.
    fn check_table(&mut self, call: &Call) {
        if self.table != self.before {
            let at = (0..self.table.len()).find(|at| self.table[*at] != self.before[*at]).unwrap_or(0);
            let numbers = format!("{}, wanted {}", self.table[at], self.before[at]);
            self.differ(&call.words(), &format!("cell {} is {numbers}", at as isize - MARGIN as isize));
            self.table.clone_from(&self.before);
        }
    }

    /// What is saved after a call that changed something.
    fn check_saved(&mut self, words: &str) {
        let told = self.make(&Call::Save(self.room()));
        let wanted = self.model.text();
        if told != Told::ok(wanted.len(), 0) || self.text != wanted {
            self.differ(words, &format!("then {told:?}, saved {}", shortened(&self.text)));
        }
    }

    /// Saves the table, loads it into other numbers with the same block, and goes on with those.
    pub fn saved_and_loaded(&mut self) {
        self.make(&Call::Save(self.room()));
        let text = std::mem::take(&mut self.text);
        let lent = self.cells_lent();
        self.table[lent].fill(0x1234_5678);
        if self.call(&Call::Load(text.clone())).ending != 0 {
            self.differ("a saved table", "it is not loaded");
        }
        self.make(&Call::Save(self.room()));
        if self.text != text {
            self.differ("a saved table", "it is not saved as it was loaded");
        }
    }
}
