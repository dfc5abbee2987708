//! The store: calls worked out by hand, the readings G1 to G10, and what is
//! promised over drawn lists of calls. Marks and jumps are in `marks.rs`.

use second::gen::{make_any_form, Prng};
use second::store::{Greeting, Mark, Put, Store, MOST_BLOCK};

const ROOM: u32 = 4;
const NUMBER: u32 = 15;
const TAKEN: u32 = 16;
const ABSENT: u32 = 17;
const BAD: u32 = 18;
const FULL: u32 = 19;
const NOROOM: u32 = 20;
const TABLE: u32 = 26;

/// A fresh store whose block holds EE everywhere, which no greeting here has.
fn fresh(size: usize) -> Store {
    Store::fresh(vec![0xEE; size])
}

/// The law of every greeting here but where it matters: see `marks.rs`.
const MU: u32 = 1;

fn put(start: usize, moved: usize) -> Result<Put, u32> {
    Ok(Put { start, moved })
}

/// R-6's lines.
fn text_of(greetings: &[(&str, &str, &str)]) -> Vec<u8> {
    let lines = greetings.iter().map(|(n, s, o)| format!("prompt={n}\nstart={s}\noctets={o}\n"));
    lines.collect::<String>().into_bytes()
}

#[test]
fn gaps_are_filled_lowest_first_and_closed_up() {
    let mut store = fresh(10);
    assert_eq!(store.put(MU, 7, &[0x41, 0x42, 0x00]), put(0, 0));
    assert_eq!(store.put(MU, 9, &[0x43, 0xAA]), put(3, 0));
    assert_eq!(store.put(MU, 5, &[0, 0, 0]), put(5, 0));
    assert_eq!(store.block, [0x41, 0x42, 0, 0x43, 0xAA, 0, 0, 0, 0xEE, 0xEE]);
    assert_eq!(store.delete(9), Ok(()));
    // The gap of 9 holds two; the deleted octets stay until then.
    assert_eq!(store.block[3..5], [0x43, 0xAA]);
    assert_eq!(store.put(MU, 8, &[0x41, 0x41]), put(3, 0));
    assert_eq!(store.get(8), Ok((3, 2)));
    assert_eq!(store.delete(7), Ok(()));
    // Gaps of 3 and 2, none of 5: 8 and 5 move to 0 and 2.
    assert_eq!(store.put(MU, 4, &[0x41, 0x42, 0x41, 0x42, 0x41]), put(5, 5));
    assert_eq!(store.block, [0x41, 0x41, 0, 0, 0, 0x41, 0x42, 0x41, 0x42, 0x41]);
    let saved = b"prompt=8\nstart=0\noctets=2\nlaw=1\nsamples=80\nmark=0,0\n\
        prompt=5\nstart=2\noctets=3\nlaw=1\nsamples=0\nmark=0,0\n\
        prompt=4\nstart=5\noctets=5\nlaw=1\nsamples=200\nmark=0,0\n";
    assert_eq!(store.text(), saved);
    assert_eq!(store.put(MU, 1, &[0]), Err(NOROOM));
    assert_eq!(store.held(), 10);
    assert_eq!(Store::load(saved, store.block.clone()), Ok(store.clone()));
    // In R-6's lines it is the same store: each greeting has law 1.
    let early = text_of(&[("8", "0", "2"), ("5", "2", "3"), ("4", "5", "5")]);
    assert_eq!(Store::load(&early, store.block.clone()), Ok(store));
}

/// G1: those that stay are not counted, and what is left behind stays.
#[test]
fn octets_moved() {
    let mut store = fresh(12);
    store.put(MU, 1, &[0x41; 2]).unwrap();
    store.put(MU, 2, &[0x42; 2]).unwrap();
    store.put(MU, 3, &[0x31; 3]).unwrap();
    store.put(MU, 4, &[0x21]).unwrap();
    store.delete(2).unwrap();
    // 1 stays at 0; 3 moves from 4 to 2, 4 from 7 to 5; gaps were 2 and 4.
    assert_eq!(store.put(MU, 5, &[0; 6]), put(6, 4));
    assert_eq!(store.block, [0x41, 0x41, 0x31, 0x31, 0x31, 0x21, 0, 0, 0, 0, 0, 0]);
    store.delete(5).unwrap();
    store.delete(1).unwrap();
    // Gaps of 2 and 6: no closing up for 6.
    assert_eq!(store.put(MU, 6, &[0x81; 6]), put(6, 0));
    store.delete(6).unwrap();
    // None for 7; what is put has 8 octets of block behind 4, so the rest of
    // the block keeps what 5 and 6 left.
    assert_eq!(store.put(MU, 7, &[0x82; 7]), put(4, 4));
    assert_eq!(store.block[..11], [0x31, 0x31, 0x31, 0x21, 0x82, 0x82, 0x82, 0x82, 0x82, 0x82, 0x82]);
    assert_eq!(store.block[11], 0x81);
}

/// G2: the order of the refusals.
#[test]
fn refusals_in_order() {
    let mut store = fresh(40);
    for number in 1..=32 {
        store.put(MU, number, &[0x41]).unwrap();
    }
    let before = store.clone();
    let long = vec![0; 100];
    assert_eq!(store.put(MU, 0, &[0x46]), Err(NUMBER));
    assert_eq!(store.put(MU, 65_536, &long), Err(NUMBER));
    assert_eq!(store.put(MU, 1, &[0x46]), Err(TAKEN));
    assert_eq!(store.put(MU, 33, &[]), Err(BAD));
    assert_eq!(store.put(MU, 33, &[0x41, 0x46]), Err(BAD));
    assert_eq!(store.put(MU, 33, &[0x56]), Err(BAD));
    assert_eq!(store.put(MU, 33, &long), Err(FULL));
    assert_eq!(store.get(0), Err(NUMBER));
    assert_eq!(store.get(65_535), Err(ABSENT));
    assert_eq!(store.delete(65_536), Err(NUMBER));
    assert_eq!(store.delete(33), Err(ABSENT));
    assert_eq!(store, before);
    store.delete(32).unwrap();
    assert_eq!(store.put(MU, 65_535, &[0; 10]), Err(NOROOM));
    assert_eq!(store.put(MU, 65_535, &[0; 9]), put(31, 0));
}

/// G3: a greeting longer than a walk takes is BAD, one longer than the block
/// is NOROOM.
#[test]
fn long_greetings() {
    let mut store = fresh(16_384);
    assert_eq!(store.put(MU, 1, &vec![0; 1_048_577]), Err(BAD));
    assert_eq!(store.put(MU, 1, &vec![0; 1_048_576]), Err(NOROOM));
    assert_eq!(store.put(MU, 1, &vec![0; 16_385]), Err(NOROOM));
    assert_eq!(store.put(MU, 1, &vec![0; 16_384]), put(0, 0));
}

/// G4: a block is as long as what is lent, and at most 1,048,576 octets of it.
#[test]
fn blocks_of_other_sizes() {
    let mut none = fresh(0);
    assert_eq!(none.put(MU, 1, &[0]), Err(NOROOM));
    assert_eq!(Store::load(b"", vec![]), Ok(none));
    let mut large = fresh(MOST_BLOCK + 5);
    assert_eq!(large.size(), MOST_BLOCK);
    assert_eq!(large.put(MU, 1, &vec![0; 1_048_576]), put(0, 0));
    assert_eq!(large.put(MU, 2, &[0]), Err(NOROOM));
    assert_eq!(large.block[MOST_BLOCK..], [0xEE; 5]);
}

/// G5 to G9: tables that are refused, and how.
#[test]
fn tables() {
    let block = vec![0; 20];
    let load = |text: &[u8]| Store::load(text, block.clone()).map(|store| store.greetings);
    let whole = Greeting {
        number: 1,
        start: 0,
        octets: 20,
        law: MU,
        samples: 0,
        marks: vec![Mark { octets: 0, samples: 0 }],
    };
    let one = |n: &str, s: &str, o: &str| load(&text_of(&[(n, s, o)]));
    assert_eq!(load(b""), Ok(vec![]));
    assert_eq!(one("1", "0", "20"), Ok(vec![whole]));
    // Form.
    for (n, s, o) in [("01", "0", "1"), ("1", "00", "1"), ("1", "0", "+1"), ("1", "0", "1 "), ("", "0", "1"), ("1", "0", "1\r")] {
        assert_eq!(one(n, s, o), Err(TABLE), "{n} {s} {o}");
    }
    for text in [
        &b"prompt=1\nstart=0\noctets=1"[..],
        b"prompt=1\nstart=0\n",
        b"prompt=1\noctets=1\nstart=0\n",
        b"start=0\nprompt=1\noctets=1\n",
        b"Prompt=1\nstart=0\noctets=1\n",
        b"prompt=1\nstart=0\noctets=1\n\n",
        b"prompt=1\nstart=0\noctets=1\n\0",
        b"\nprompt=1\nstart=0\noctets=1\n",
        b"prompt=1\r\nstart=0\r\noctets=1\r\n",
        b"form=1\n",
    ] {
        assert_eq!(load(text), Err(TABLE), "{}", text.escape_ascii());
    }
    // Numbers out of range or used twice; numbers that would come round.
    let many = "1000000000000000000000000000000000000001";
    for (n, s, o) in [("0", "0", "1"), ("65536", "0", "1"), ("1", "20", "1"), ("1", "0", "21"), ("1", "4294967296", "1"), ("1", "0", "18446744073709551617"), (many, "0", "1"), ("1", many, "1"), ("1", "1", many)] {
        assert_eq!(one(n, s, o), Err(TABLE), "{n} {s} {o}");
    }
    assert_eq!(load(&text_of(&[("1", "0", "1"), ("1", "1", "1")])), Err(TABLE));
    // Overlap and order.
    assert_eq!(load(&text_of(&[("1", "0", "2"), ("2", "1", "1")])), Err(TABLE));
    assert_eq!(load(&text_of(&[("1", "5", "2"), ("2", "1", "1")])), Err(TABLE));
    assert!(load(&text_of(&[("1", "0", "2"), ("2", "2", "1")])).is_ok());
    // 33 greetings.
    let names: Vec<String> = (0..33).map(|at| at.to_string()).collect();
    let rows: Vec<(&str, &str, &str)> = (1..33).map(|at| (&names[at][..], &names[at - 1][..], "1")).collect();
    assert_eq!(Store::load(&text_of(&rows), vec![0; 64]).map(|store| store.greetings.len()), Ok(32));
    let more: Vec<_> = rows.iter().copied().chain([("40", "40", "1")]).collect();
    assert_eq!(Store::load(&text_of(&more), vec![0; 64]), Err(TABLE));
    // An empty greeting is BAD, where it lies as one may.
    assert_eq!(one("1", "0", "0"), Err(BAD));
    assert_eq!(one("1", "20", "0"), Err(BAD));
    assert_eq!(one("1", "21", "0"), Err(TABLE));
    assert_eq!(load(&text_of(&[("1", "0", "2"), ("2", "1", "0")])), Err(TABLE));
    assert_eq!(load(&text_of(&[("1", "3", "0"), ("2", "3", "1")])), Err(BAD));
    // TABLE anywhere comes before BAD anywhere.
    assert_eq!(load(&text_of(&[("1", "0", "0"), ("1", "1", "1")])), Err(TABLE));
    assert_eq!(Store::load(&text_of(&[("1", "0", "1")]), vec![0x46]), Err(BAD));
    assert_eq!(Store::load(&text_of(&[("1", "0", "1"), ("0", "1", "1")]), vec![0x46, 0]), Err(TABLE));
}

/// G10: saving needs room for all of the text, and none for no greetings.
#[test]
fn room_for_a_table() {
    let mut store = fresh(10);
    assert_eq!(store.save(&mut []), Ok(0));
    store.put(MU, 12, &[0x41]).unwrap();
    let wanted = b"prompt=12\nstart=0\noctets=1\nlaw=1\nsamples=40\nmark=0,0\n";
    let mut out = [0xA7; 56];
    assert_eq!(store.save(&mut out[..52]), Err(ROOM));
    assert_eq!(out, [0xA7; 56]);
    assert_eq!(store.save(&mut out), Ok(53));
    assert_eq!(out[..53], wanted[..]);
    assert_eq!(out[53..], [0xA7; 3]);
}

/// The promises over any list of calls from a fresh block.
#[test]
fn any_list_of_calls() {
    let mut rng = Prng::new(6);
    for _ in 0..300 {
        let mut store = fresh([40, 200, 1_000][rng.below(3)]);
        let (mut put_in, mut deleted) = (0, 0);
        for _ in 0..150 {
            let before = store.clone();
            let number = 1 + rng.below(40) as u32;
            let mut written = vec![];
            if rng.chance(2, 3) {
                let octets: Vec<u8> = (0..1 + rng.below(3)).flat_map(|_| make_any_form(1, &mut rng).octets).collect();
                let gap = (0..store.size()).find(|&at| {
                    let clear = |g: &Greeting| at + octets.len() <= g.start || at >= g.start + g.octets;
                    at + octets.len() <= store.size() && before.greetings.iter().all(clear)
                });
                match store.put(MU, number, &octets) {
                    Ok(done) => {
                        put_in += octets.len();
                        assert_eq!(&store.block[done.start..done.start + octets.len()], &octets[..]);
                        assert!(gap.is_none() || gap == Some(done.start));
                        assert_eq!(gap.is_some(), store.greetings.len() == 1 || before.greetings.iter().all(|g| store.greetings.contains(g)));
                        let moved: usize = store.greetings.iter().filter(|now| before.greetings.iter().any(|g| g.number == now.number && g.start != now.start)).map(|g| g.octets).sum();
                        assert_eq!(moved, done.moved);
                        let changed = |g: &&Greeting| !before.greetings.contains(g);
                        written = store.greetings.iter().filter(changed).map(|g| g.start..g.start + g.octets).collect();
                    }
                    Err(NOROOM) => assert!(before.held() + octets.len() > before.size()),
                    Err(ending) => assert!(ending == TAKEN || ending == FULL),
                }
            } else if store.delete(number).is_ok() {
                deleted += before.get(number).unwrap().1;
            }
            assert_eq!(store.held(), put_in - deleted);
            for g in &before.greetings {
                if let Ok((start, octets)) = store.get(g.number) {
                    assert_eq!(store.block[start..start + octets], before.block[g.start..g.start + g.octets]);
                }
            }
            for at in 0..store.block.len() {
                assert!(store.block[at] == before.block[at] || written.iter().any(|place| place.contains(&at)));
            }
            assert_eq!(Store::load(&store.text(), store.block.clone()), Ok(store.clone()));
        }
    }
}
