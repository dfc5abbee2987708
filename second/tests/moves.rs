//! Closing up one move at a time: the calls worked out by hand, their refusals
//! in order, and the readings C1 to C11. Cuts are in `cuts.rs`.

use second::gen::Prng;
use second::lasting::{page_octets, AsTold, Caller, Lasting, Run, Write};
use second::moves::{
    move_step, store_moved, store_next, store_renumber, store_try, Move, Record, FRESH, MOVE,
};
use second::store::{Put, Store, MOST_BLOCK};
use second::table;

const LAW: u32 = 12;
const NUMBER: u32 = 15;
const TAKEN: u32 = 16;
const ABSENT: u32 = 17;
const BAD: u32 = 18;
const FULL: u32 = 19;
const NOROOM: u32 = 20;
const TABLE: u32 = 26;

/// A block of 12: 7 at 0 (2), 8 at 3 (3), 9 at 8 (1).
fn three() -> Store {
    let mut store = Store::fresh(vec![0xEE; 12]);
    for (number, octets) in
        [(7, &[0x41, 0x42][..]), (1, &[0]), (8, &[0x31, 0x32, 0]), (2, &[0, 0]), (9, &[0x21])]
    {
        store.put(number % 2, number, octets).unwrap();
    }
    store.delete(1).unwrap();
    store.delete(2).unwrap();
    store
}

/// A store's block and its numbers.
fn lent(store: &Store) -> (Vec<u8>, Vec<u32>) {
    let mut cells = vec![5; table::cells(store.size() as u64) as usize + 3];
    table::close(store, &mut cells);
    (store.block.clone(), cells)
}

#[test]
fn moves_one_after_another() {
    let mut store = three();
    assert_eq!(store.next_move(), Some(Move { number: 8, from: 3, to: 2, octets: 3 }));
    let (block, mut cells) = lent(&store);
    assert_eq!(store_next(&block, &cells), Ok([8, 3, 2, 3]));
    assert_eq!(store_moved(&block, &mut cells, 8, 2), Ok(()));
    assert_eq!(store.moved(8, 2), Ok(()));
    assert_eq!(lent(&store), (block.clone(), cells.clone()));
    assert_eq!(store_next(&block, &cells), Ok([9, 8, 5, 1]));
    assert_eq!(store_moved(&block, &mut cells, 9, 5), Ok(()));
    assert_eq!(store_next(&block, &cells), Ok([0; 4]));
    assert_eq!(cells[..10], [3, 7, 0, 2, 8, 2, 3, 9, 5, 1]);
    // No greetings, no move.
    let (block, cells) = lent(&Store::fresh(vec![0; 4]));
    assert_eq!(store_next(&block, &cells), Ok([0; 4]));
}

/// C1: the refusals of `moved`, and what is no next move.
#[test]
fn what_is_not_the_next_move() {
    let (block, cells) = lent(&three());
    let moved = |number: u32, to: u64| {
        let mut after = cells.clone();
        let answer = store_moved(&block, &mut after, number, to);
        assert!(answer.is_ok() || after == cells);
        answer
    };
    assert_eq!(moved(8, 2), Ok(()));
    assert_eq!(moved(0, 2), Err(NUMBER));
    assert_eq!(moved(65_536, 2), Err(NUMBER));
    assert_eq!(moved(1, 2), Err(ABSENT));
    assert_eq!(moved(7, 0), Err(MOVE));
    assert_eq!(moved(9, 5), Err(MOVE));
    assert_eq!(moved(9, 6), Err(MOVE));
    for to in [0, 1, 3, 4, 1 << 32 | 2, u64::MAX] {
        assert_eq!(moved(8, to), Err(MOVE), "{to}");
    }
    // With no next move every held number is MOVE, also to its own start.
    let mut store = three();
    store.moved(8, 2).unwrap();
    store.moved(9, 5).unwrap();
    for (number, to) in [(7, 0), (8, 2), (9, 5)] {
        assert_eq!(store.moved(number, to), Err(MOVE));
    }
    assert_eq!(store.moved(1, 0), Err(ABSENT));
    // The numbers are judged first.
    let mut broken = cells.clone();
    broken[1] = 0;
    assert_eq!(store_next(&block, &broken), Err(TABLE));
    assert_eq!(store_moved(&block, &mut broken, 0, 0), Err(TABLE));
    assert_eq!(store_renumber(&block, &mut broken, 0, 0), Err(TABLE));
    assert_eq!(store_try(&block, &broken, 2, 0, &[]), Err(TABLE));
    assert_eq!(store_next(&block, &cells[..100]), Err(TABLE));
}

/// C2: both numbers are judged before either is looked for.
#[test]
fn other_numbers() {
    let (block, mut cells) = lent(&three());
    let before = cells.clone();
    for (number, to, refusal) in [
        (0, 5, NUMBER),
        (8, 0, NUMBER),
        (3, 65_536, NUMBER),
        (3, 7, ABSENT),
        (3, 3, ABSENT),
        (8, 7, TAKEN),
        (8, 8, TAKEN),
    ] {
        assert_eq!(store_renumber(&block, &mut cells, number, to), Err(refusal), "{number} {to}");
        assert_eq!(cells, before);
    }
    assert_eq!(store_renumber(&block, &mut cells, 8, 65_535), Ok(()));
    let changed: Vec<usize> = (0..cells.len()).filter(|&at| cells[at] != before[at]).collect();
    assert_eq!((changed, cells[4]), (vec![4], 65_535));
}

#[test]
fn tries_tell_what_a_put_would() {
    let store = three();
    let (block, cells) = lent(&store);
    let tried = |law, number, octets: &[u8]| store_try(&block, &cells, law, number, octets);
    assert_eq!(tried(1, 1, &[0x41; 3]), Ok([9, 0]));
    assert_eq!(tried(1, 1, &[0x41]), Ok([2, 0]));
    assert_eq!(tried(1, 1, &[0x41; 6]), Ok([6, 4]));
    assert_eq!(tried(2, 0, &[]), Err(LAW));
    assert_eq!(tried(1, 0, &[]), Err(NUMBER));
    assert_eq!(tried(1, 7, &[]), Err(TAKEN));
    assert_eq!(tried(1, 1, &[]), Err(BAD));
    assert_eq!(tried(1, 1, &[0; 7]), Err(NOROOM));
    let mut full = Store::fresh(vec![0; 40]);
    (1..=32).for_each(|number| assert!(full.put(1, number, &[0]).is_ok()));
    assert_eq!(full.try_put(1, 33, &[0; 9]), Err(FULL));
    assert_eq!(full.try_put(1, 33, &[0x46]), Err(BAD));
}

/// One step on a block of 10 that counts from 0, with a spare of so many EE.
fn step(spare: usize, record: Record) -> Result<(Vec<u8>, Vec<u8>, Record), u32> {
    let (mut block, mut spare, mut next): (Vec<u8>, _, _) = ((0..10).collect(), vec![0xEE; spare], [9; 8]);
    let before = (block.clone(), spare.clone());
    match move_step(&mut block, &mut spare, &record, &mut next) {
        Ok(()) => Ok((block, spare, next)),
        Err(refusal) => {
            assert_eq!((block, spare, next), (before.0, before.1, [9; 8]));
            Err(refusal)
        }
    }
}

/// C3: a distance of the spare's length goes without it.
#[test]
fn steps() {
    // Distance 2, 5 octets from 4 to 2: chunks of 2, 2 and 1.
    let got = step(0, [0, 1, 4, 2, 5, 0, 0, 0]);
    assert_eq!(got, Ok((vec![0, 1, 4, 5, 4, 5, 6, 7, 8, 9], vec![], [0, 1, 4, 2, 5, 2, 0, 0])));
    assert_eq!(step(2, [0, 1, 4, 2, 5, 0, 0, 0]).map(|got| got.1), Ok(vec![0xEE; 2]));
    let got = step(1, [1, 1, 4, 2, 5, 4, 0, 0]);
    assert_eq!(got, Ok((vec![0, 1, 2, 3, 4, 5, 8, 7, 8, 9], vec![0xEE], [0; 8])));
    // A longer spare: into it, and from it.
    let got = step(3, [0, 1, 4, 2, 5, 0, 0, 0]);
    assert_eq!(got, Ok(((0..10).collect(), vec![4, 5, 6], [0, 2, 4, 2, 5, 0, 0, 0])));
    let got = step(3, [0, 2, 4, 2, 5, 0, 0, 0]);
    assert_eq!(
        got,
        Ok((vec![0, 1, 0xEE, 0xEE, 0xEE, 5, 6, 7, 8, 9], vec![0xEE; 3], [0, 1, 4, 2, 5, 3, 0, 0]))
    );
    let got = step(3, [0, 2, 4, 2, 5, 3, 0, 0]);
    assert_eq!(got, Ok((vec![0, 1, 2, 3, 4, 0xEE, 0xEE, 7, 8, 9], vec![0xEE; 3], [1, 0, 0, 0, 0, 0, 0, 0])));
    // A spare longer than what is left: the rest of it stays.
    let got = step(9, [0, 1, 4, 2, 5, 3, 0, 0]);
    assert_eq!(got.map(|got| got.1), Ok(vec![7, 8, 0xEE, 0xEE, 0xEE, 0xEE, 0xEE, 0xEE, 0xEE]));
}

/// C4 and C5: records that tell of no move in this block.
#[test]
fn records_of_no_move() {
    assert!(step(3, [1, 2, 5, 4, 5, 4, 0, 0]).is_ok());
    for record in [
        FRESH,
        [0, 0, 4, 2, 5, 0, 0, 0],
        [0, 3, 4, 2, 5, 0, 0, 0],
        [2, 1, 4, 2, 5, 0, 0, 0],
        [0, 1, 4, 4, 5, 0, 0, 0],
        [0, 1, 4, 5, 5, 0, 0, 0],
        [0, 1, 4, 2, 7, 0, 0, 0],
        [0, 1, 4, 2, u32::MAX, 0, 0, 0],
        [0, 1, u32::MAX, 2, u32::MAX, 0, 0, 0],
        [0, 1, u32::MAX, 0, 1, 0, 0, 0],
        [0, 1, 4, 2, 5, 5, 0, 0],
        [0, 1, 4, 2, 5, 6, 0, 0],
        [0, 1, 4, 2, 0, 0, 0, 0],
        [0, 2, 4, 1, 5, 0, 0, 0],
        [0, 1, 4, 2, 5, 0, 1, 0],
        [0, 1, 4, 2, 5, 0, 0, 1],
    ] {
        assert_eq!(step(3, record), Err(MOVE), "{record:?}");
    }
    // Of a longer block 1,048,576 octets are the block.
    let mut block = vec![0x41; MOST_BLOCK + 9];
    let most = MOST_BLOCK as u32;
    let mut next = FRESH;
    assert_eq!(move_step(&mut block, &mut [], &[0, 1, most - 1, 7, 1, 0, 0, 0], &mut next), Ok(()));
    assert_eq!(move_step(&mut block, &mut [], &[0, 1, most - 1, 7, 2, 0, 0, 0], &mut next), Err(MOVE));
    assert_eq!(next, [1, 0, 0, 0, 0, 0, 0, 0]);
}

/// What lasts for `three`, with page 0 in use.
fn lasting(spare: usize) -> Lasting {
    let store = three();
    let mut page = store.text();
    page.resize(page_octets(12), 0);
    Lasting { block: store.block, pages: [page.clone(), page], spare: vec![7; spare], record: FRESH }
}

fn kinds(writes: &[Write]) -> String {
    let kind = |write: &Write| match write {
        Write::Block { .. } => 'b',
        Write::Page { page, .. } => ['0', '1'][*page],
        Write::Spare { .. } => 's',
        Write::Record(_) => 'r',
    };
    writes.iter().map(kind).collect()
}

/// C6 to C9: the writes of each loop, in their order.
#[test]
fn the_order_of_writes() {
    let start = |spare: usize| {
        let mut run = Run::of(lasting(spare));
        let store = AsTold.start(&mut run).unwrap();
        assert!(run.writes.is_empty());
        (run, store)
    };
    // 8 goes by 1 (3 chunks), 9 by 3; then the put.
    let (mut run, mut store) = start(0);
    assert_eq!(AsTold.put(&mut run, &mut store, 1, 1, &[0x41; 6]), Ok(Put { start: 6, moved: 4 }));
    assert_eq!(kinds(&run.writes), "1rbrbrbr0rbrb1r");
    assert_eq!(run.writes[1], Write::Record([0, 1, 3, 2, 3, 0, 0, 0]));
    assert_eq!(run.writes[7], Write::Record([1, 0, 0, 0, 0, 0, 0, 0]));
    // With a spare of 2: 8 by way of it, in two chunks.
    let (mut run, mut store) = start(2);
    assert_eq!(AsTold.put(&mut run, &mut store, 1, 1, &[0x41; 6]), Ok(Put { start: 6, moved: 4 }));
    assert_eq!(kinds(&run.writes), "1rsrbrsrbr0rbrb1r");
    // A gap holds it: no move. Refused: nothing is written.
    let (mut run, mut store) = start(2);
    assert_eq!(AsTold.put(&mut run, &mut store, 1, 1, &[0x41]), Ok(Put { start: 2, moved: 0 }));
    assert_eq!(AsTold.put(&mut run, &mut store, 1, 1, &[0x41]), Err(TAKEN));
    assert_eq!(AsTold.delete(&mut run, &mut store, 5), Err(ABSENT));
    assert_eq!(AsTold.delete(&mut run, &mut store, 1), Ok(()));
    assert_eq!(kinds(&run.writes), "b1r0r");
    // A replace asks for room for both, and of a number that is held.
    let (mut run, mut store) = start(0);
    assert_eq!(AsTold.replace(&mut run, &mut store, 1, 5, &[0x41]), Err(ABSENT));
    assert_eq!(AsTold.replace(&mut run, &mut store, 1, 0, &[0x41]), Err(NUMBER));
    assert_eq!(AsTold.replace(&mut run, &mut store, 1, 8, &[0x41; 7]), Err(NOROOM));
    assert_eq!(AsTold.replace(&mut run, &mut store, 1, 8, &[0x46]), Err(BAD));
    assert!(run.writes.is_empty());
    assert_eq!(AsTold.replace(&mut run, &mut store, 1, 8, &[0x41, 0x41]), Ok(Put { start: 6, moved: 0 }));
    assert_eq!(kinds(&run.writes), "b1r0r");
    assert_eq!((store.get(8), store.get(1)), (Ok((6, 2)), Err(ABSENT)));
    let text = |at: usize| String::from_utf8(run.writes[at].octets().to_vec()).unwrap();
    assert!(text(1).contains("prompt=1\nstart=6\n") && text(1).contains("prompt=8\nstart=3\n"));
    assert!(text(3).contains("prompt=8\nstart=6\n") && !text(3).contains("start=3\n"));
}

/// C10 and C11: a start that meets what no calls leave; a page's text.
#[test]
fn starts() {
    for record in [[0, 3, 0, 0, 0, 0, 0, 0], [0, 1, 3, 3, 1, 0, 0, 0], [2, 0, 0, 0, 0, 0, 0, 0]] {
        let mut run = Run::of(Lasting { record, ..lasting(0) });
        assert_eq!(AsTold.start(&mut run), Err(MOVE), "{record:?}");
        assert!(run.writes.is_empty());
    }
    // Still is a matter of the state alone; what load refuses the start refuses.
    let record = [1, 0, 5, 5, 5, 5, 5, 5];
    assert_eq!(AsTold.start(&mut Run::of(Lasting { record, ..lasting(0) })), Ok(three()));
    let mut broken = lasting(0);
    broken.pages[0][0] = b'x';
    assert_eq!(AsTold.start(&mut Run::of(broken)), Err(TABLE));
    let mut rng = Prng::new(46);
    let noise = [rng.octets(page_octets(70_000)), rng.octets(page_octets(70_000))];
    let mut run = Run::of(Lasting::fresh(rng.octets(70_000), noise, vec![]));
    assert_eq!(AsTold.start(&mut run).map(|store| store.greetings.len()), Ok(0));
    assert_eq!((page_octets(0), page_octets(64), page_octets(16_384)), (2_855, 2_878, 8_743));
    assert_eq!((page_octets(MOST_BLOCK), page_octets(MOST_BLOCK + 64)), (379_687, 379_687));
    // No text is longer: 32 greetings with the longest numbers there are.
    let lines = "prompt=65535\nstart=1048575\noctets=1048576\nlaw=1\nsamples=335544320\n";
    assert_eq!((lines.len(), "mark=1048575,335544320\n".len(), "form=2\n".len()), (66, 23, 7));
}
