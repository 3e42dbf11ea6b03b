//! Cuts the first worked example, P1, and says in words what came back: a context by glyph with
//! three rules, of which the maps leave two. Cuts it again with the glyph map as runs, a context that
//! covers a long run of glyphs, and in both layouts a chained context that has one coverage at three
//! places. Then replays three recorded runs over one lookup, after asking what that may cost. Last,
//! lists what differs between P1 and what is kept of it.

use gillcurtain::{compare, differences, replay, replay_cost, subset};
use gillcurtain::{Answer, Compared, Comparer, Glyphs, Layout, Subsetter, CHAINED, CONTEXT};

const SOURCE: [u16; 28] = [
    1, 48, 2, 10, 36, // format 1, coverage, two sets
    2, 6, 16, // the set of glyph 3: two rules
    2, 1, 9, 0, 7, // 3 9: lookup 7
    2, 1, 6, 0, 4, // 3 6: lookup 4
    1, 4, // the set of glyph 5: one rule
    1, 1, 0, 5, // 5: lookup 5
    1, 2, 3, 5, // the coverage: 3 5
];
const GLYPHS: [u16; 6] = [3, 1, 5, 2, 9, 3];
const RUNS: [u16; 9] = [3, 1, 1, 5, 2, 1, 9, 3, 1]; // the same, a glyph a run
const LOOKUPS: [u16; 4] = [4, 0, 7, 2];

// Glyphs 1000 to 1999 become 0 to 999: one run. Of the covered glyphs 990 to 1009 ten are retained.
const WIDE: [u16; 9] = [3, 1, 0, 8, 2, 1, 990, 1009, 0];
const THOUSAND: [u16; 3] = [1000, 0, 1000];

// A chained context with glyphs 3 and 5 before, at and after the place, by one coverage.
const THRICE: [u16; 12] = [
    3, 1, 16, 1, 16, 1, 16, 0, // format 3, three places, no record
    1, 2, 3, 5, // the coverage: 3 5
];

// One lookup, kind 5, which puts glyph 6 for glyph 5; of the three runs the last was not recorded so.
const LIST: [u16; 5] = [5, 0, 0, 0, 12];
const BUFFER: [u16; 6] = [1, 6, 1, 1, 1, 5];
const TRACE: [u16; 11] = [
    2, 5, 7, 6, 7, // 5 7 -> 6 7
    1, 7, 7, // 7 -> 7
    1, 5, 5, // 5 -> 5
];

/// Words as their bytes, big-endian.
fn bytes(words: &[u16]) -> Vec<u8> {
    words.iter().flat_map(|word| word.to_be_bytes()).collect()
}

/// Says what came back for so many bytes of P1 and a buffer of `room` bytes.
fn say(length: usize, room: usize, how: &str, answer: Answer) -> Answer {
    println!("{length} bytes of P1 into {room}{how}: answer {}, {answer}", answer.number());
    answer
}

/// Cuts the first so many words of P1 into `out`.
fn cut(words: usize, out: &mut [u8]) -> Answer {
    let source = bytes(&SOURCE[..words]);
    let glyphs = bytes(&GLYPHS);
    let answer = subset(CONTEXT, Layout::Plain, &source, Glyphs::Pairs(&glyphs), &bytes(&LOOKUPS), out);
    say(source.len(), out.len(), "", answer)
}

/// Cuts P1 into `out` with the glyph map as runs.
fn cut_by_runs(out: &mut [u8]) -> Answer {
    let source = bytes(&SOURCE);
    let runs = bytes(&RUNS);
    let answer = subset(CONTEXT, Layout::Plain, &source, Glyphs::Runs(&runs), &bytes(&LOOKUPS), out);
    say(source.len(), out.len(), " with the map as runs", answer)
}

/// Cuts P1 into `out` with lent scratch, which serves any number of calls.
fn cut_with(subsetter: &mut Subsetter, out: &mut [u8]) -> Answer {
    let (source, glyphs) = (bytes(&SOURCE), bytes(&GLYPHS));
    subsetter.subset(CONTEXT, Layout::Plain, &source, Glyphs::Pairs(&glyphs), &bytes(&LOOKUPS), out)
}

/// Cuts the chained context in a layout.
fn cut_thrice(layout: Layout) -> Vec<u8> {
    let (source, glyphs, mut out) = (bytes(&THRICE), bytes(&GLYPHS), vec![0; 64]);
    match subset(CHAINED, layout, &source, Glyphs::Pairs(&glyphs), &bytes(&LOOKUPS), &mut out) {
        Answer::Kept(n) => out.truncate(n),
        _ => std::process::exit(1),
    }
    out
}

/// Cuts it in both layouts, which say the same; the packed one has the coverage once.
fn cut_packed() {
    let (plain, packed) = (cut_thrice(Layout::Plain), cut_thrice(Layout::Packed));
    println!("one coverage at three places: {} bytes plain, {} packed", plain.len(), packed.len());
    print(&packed);
    assert!(packed.len() <= plain.len());
    assert_eq!(compare(CHAINED, &plain, &packed, &mut []), Compared::Listed(0));
}

/// Prints bytes in lines of 16.
fn print(bytes: &[u8]) {
    for line in bytes.chunks(16) {
        println!("{}", line.iter().map(|byte| format!("{byte:02x}")).collect::<String>());
    }
}

fn main() {
    // Without its last word the coverage, at 48, is cut short.
    let Answer::Malformed(48) = cut(SOURCE.len() - 1, &mut [0; 56]) else {
        std::process::exit(1);
    };
    let Answer::NoRoom(needed) = cut(SOURCE.len(), &mut []) else {
        std::process::exit(1);
    };
    let mut out = vec![0; needed];
    let Answer::Kept(n) = cut(SOURCE.len(), &mut out) else {
        std::process::exit(1);
    };
    print(&out[..n]);
    let mut room = [0; 56];
    let answer = cut_with(&mut Subsetter::new(), &mut room);
    let Answer::Kept(n) = say(2 * SOURCE.len(), room.len(), " with lent scratch", answer) else {
        std::process::exit(1);
    };
    print(&room[..n]);
    // However little scratch is lent, the answer is the same.
    for bytes in [0, 1, 7, 8, 100, 1000, 10_000, 100_000] {
        let mut other = [0; 56];
        assert_eq!(cut_with(&mut Subsetter::with_bytes(bytes), &mut other), answer);
        assert_eq!(other, room);
    }
    let Answer::Kept(n) = cut_by_runs(&mut room) else {
        std::process::exit(1);
    };
    print(&room[..n]);
    let (run, mut small) = (bytes(&THOUSAND), [0; 18]);
    let answer = subset(CONTEXT, Layout::Plain, &bytes(&WIDE), Glyphs::Runs(&run), &[], &mut small);
    let Answer::Kept(wide) = answer else {
        std::process::exit(1);
    };
    println!("a run of 1000 glyphs, in {} bytes: answer 0, kept", run.len());
    print(&small[..wide]);
    cut_packed();
    let cost = replay_cost(&bytes(&LIST), &bytes(&BUFFER));
    println!("cost: answer {}, at most {} lookups asked for each glyph", cost.number, cost.steps);
    let told = replay(&bytes(&LIST), &bytes(&BUFFER), &bytes(&TRACE));
    println!(
        "replay: answer {}, {} runs, {} agree, the first that does not is run {}",
        told.number, told.runs, told.agreements, told.first
    );
    let (source, mut list) = (bytes(&SOURCE), [0; 192]);
    let Compared::Listed(length) = Comparer::new().compare(CONTEXT, &source, &room[..n], &mut list) else {
        std::process::exit(1);
    };
    println!("compare: answer 0, {} differences", length / 12);
    for d in differences(&list[..length as usize]) {
        println!("  sort {}, side {}, glyph {}, rank {}", d.sort, d.side, d.first, d.rank);
    }
    assert_eq!(compare(CONTEXT, &source, &source, &mut []), Compared::Listed(0));
}
