//! Word books, right and wrong, and sheets of edition 3 that name their entries.

use super::random::Random;
use super::write::{
    Body, Catch, book, book_of, call, counted, define_function, jump, named, pop, push, set_target,
    sheet_in, string, strings, try_, with,
};
use crate::book::EMPTY;
use crate::sheet::{Edition, LONGEST_SHEET, NAMED, TRAILER, cut, measure};

/// Takes a sheet and a book.
pub type Give<'a> = &'a mut dyn FnMut(Vec<u8>, Vec<u8>);

/// A sheet's strings in another form: of edition 3, and the entries of its book. `chosen` tells of each string whether it is named;
/// one of 65,535 bytes is, since it cannot be spelt. None if the sheet does not read whole.
fn respelt(sheet: &[u8], mut chosen: impl FnMut() -> bool) -> Option<(Vec<u8>, Vec<Vec<u8>>)> {
    let places = measure(sheet, &EMPTY).ok()?.places;
    let (start, _) = cut(sheet).ok()?;
    let (mut main, mut entries, mut at) = (vec![], vec![], start);
    for place in places {
        main.extend(&sheet[at..place.start]);
        at = place.end;
        let text = &sheet[place.start + 2..place.end];
        if chosen() || text.len() == usize::from(NAMED) {
            main.extend(named(number_of(text, &mut entries)));
        } else {
            main.extend(&sheet[place]);
        }
    }
    main.extend(&sheet[at..sheet.len() - TRAILER]);
    Some((of_edition_3(&sheet[..start], &main), entries))
}

/// The number of an entry with this text, which is added unless there is one.
fn number_of(text: &[u8], entries: &mut Vec<Vec<u8>>) -> u16 {
    let found = entries.iter().position(|entry| entry == text);
    let number = found.unwrap_or_else(|| {
        entries.push(text.to_vec());
        entries.len() - 1
    });
    u16::try_from(number).expect("an entry number")
}

/// A sheet that spells its strings as one of edition 3 that names them all. None if it has none.
pub fn all_named(sheet: &[u8]) -> Option<(Vec<u8>, Vec<u8>)> {
    let (sheet, entries) = respelt(sheet, || true)?;
    (!entries.is_empty()).then(|| (sheet, book(&[], &entries)))
}

/// A sheet that names some of its strings, and its book: with a note, and with entries that no string names. Now and then the book
/// is a bad one.
pub fn named_at_random(sheet: &[u8], random: &mut Random) -> Option<(Vec<u8>, Vec<u8>)> {
    let (spelt, most) = (random.below(4), 4);
    let (sheet, mut entries) = respelt(sheet, || random.below(most) >= spelt)?;
    for _ in 0..random.below(3) {
        entries.push(text(random));
    }
    let note = text(random);
    let book = match random.below(24) {
        0 => bad_book(random),
        _ => book(&note, &entries),
    };
    Some((sheet, book))
}

/// A book for a sheet that names no entry, or none that there is. Edition 3 mostly gets a good one; to others any bytes will do.
pub fn any_book(edition: Edition, random: &mut Random) -> Vec<u8> {
    let good = edition.has_book() && !random.once_in(16);
    match random.below(if good { 3 } else { 5 }) {
        0 => EMPTY.to_vec(),
        1 | 2 => {
            let (note, count) = (text(random), 1 + random.below(4));
            let entries: Vec<Vec<u8>> = (0..count).map(|_| text(random)).collect();
            book(&note, &entries)
        }
        3 => vec![],
        _ => bad_book(random),
    }
}

/// Any few bytes, or a book with one byte changed.
fn bad_book(random: &mut Random) -> Vec<u8> {
    if random.once_in(2) {
        return (0..random.below(20)).map(|_| random.u8()).collect();
    }
    let mut book = book(&[], &[text(random), text(random)]);
    let at = random.below(book.len());
    book[at] ^= 1 << random.below(8);
    book
}

fn text(random: &mut Random) -> Vec<u8> {
    let length = random.pick(&[0, 1, 2, 3, 5, 9]);
    (0..length).map(|_| random.u8().max(1)).collect()
}

fn of_edition_3(note: &[u8], main: &[u8]) -> Vec<u8> {
    sheet_in(Edition::Three.number(), note, main)
}

pub fn books(give: Give) {
    every_book(give);
    every_trailer(give);
    every_place(give);
    counts(give);
    lengths(give);
    orders(give);
    long_blocks(give);
}

/// A sheet whose strings are these entries.
fn names(entries: &[u16]) -> Vec<u8> {
    let targets = entries.iter().map(|entry| target(&named(*entry)));
    of_edition_3(&[], &targets.fold(Body::new(), Body::action).bytes())
}

/// SetTarget of a string that is already bytes.
fn target(string: &[u8]) -> Vec<u8> {
    [&[0x8B], string].concat()
}

/// Every run of up to four bytes out of a few that matter, under every distance and count that come near it, and behind a note:
/// with a sheet that names no entry, and with one that names the first three.
fn every_book(give: Give) {
    let mut runs = vec![vec![]];
    for length in 0..=4 {
        for run in &runs {
            for (distance, count) in (0..=length + 1).flat_map(|d| (0..=3).map(move |n| (d, n))) {
                let book = book_of(run, distance, count);
                give(names(&[]), book.clone());
                give(names(&[0, 1, 2]), book);
            }
        }
        runs = runs
            .iter()
            .flat_map(|run| [0x00, 0x01, 0x02, 0x61].map(|byte| [&run[..], &[byte]].concat()))
            .collect();
    }
}

/// Every byte in every place of a book's trailer, and every length of a book: in every edition, named and not.
fn every_trailer(give: Give) {
    let good = book(b"n\0", &[b"ab".to_vec(), vec![], b"c".to_vec()]);
    let unnamed = Body::new().action(set_target(b"x")).bytes();
    let mut sheets = Edition::ALL
        .map(|edition| sheet_in(edition.number(), &[], &unnamed))
        .to_vec();
    sheets.push(names(&[0, 1, 2]));
    for sheet in sheets {
        for at in 0..good.len() {
            for byte in 0..=255 {
                let mut other = good.clone();
                other[at] = byte;
                give(sheet.clone(), other);
            }
        }
        for start in 0..=good.len() {
            give(sheet.clone(), good[start..].to_vec());
            give(sheet.clone(), good[..start].to_vec());
        }
    }
}

/// An action with a string, which is already bytes, in each place where one can stand.
const PLACES: &[fn(&[u8]) -> Vec<u8>] = &[
    target,
    |s| [&[0x8C], s].concat(),
    |s| [&[0x83], s, &string(b"t")].concat(),
    |s| [&[0x83][..], &string(b""), s].concat(),
    |s| [&[0x88, 1, 0], s].concat(),
    |s| [&[0x88, 3, 0][..], &string(b"ab"), s, s].concat(),
    |s| [&[0x9B], s, &[0, 0, 0, 0, 1, 0, 0x17]].concat(),
    |s| [&[0x9B][..], &string(b""), &[2, 0], s, s, &[0, 0, 0, 0]].concat(),
    |s| [&[0x8E], s, &[0, 0, 9, 0xFF, 1, 0, 0, 0, 0]].concat(),
    |s| {
        let params = [&[2, 0, 1], s, &[2], s].concat();
        [&[0x8E][..], &string(b"f"), &params, &[3, 0, 0, 0, 0, 0, 0]].concat()
    },
    |s| [&[0x8F, 1], s, &[0, 0, 1, 0, 0x17, 0, 0, 0, 0]].concat(),
    |s| [&[0x96, 1, 0, 0], s].concat(),
    |s| [&[0x96, 4, 0, 2, 0], s, &[0], s, &[8, 0, 1]].concat(),
];

/// In each of these places, in every edition and in a body: entries up to the count and from it on, a number that is cut, and the
/// longest string that is spelt. A number that is cut stands last in the sheet.
fn every_place(give: Give) {
    let entries = [b"a".to_vec(), vec![], b"\xFFbc".to_vec()];
    let longest = string(&[b'a'; 65_534]);
    let book = book(b"note", &entries);
    let mut forms: Vec<Vec<u8>> = [0, 1, 2, 3, 4, 256, NAMED].map(named).to_vec();
    forms.push(longest);
    for edition in Edition::ALL.map(Edition::number) {
        for place in PLACES {
            for form in &forms {
                let main = Body::new().action(pop()).action(place(form));
                give(sheet_in(edition, b"n", &main.bytes()), book.clone());
                let main = Body::new().action(with(&main)).action(call());
                give(sheet_in(edition, &[], &main.bytes()), book.clone());
                give(sheet_in(edition, &[], &main.bytes()), EMPTY.to_vec());
            }
            let main = Body::new().action(place(&named(2))).bytes();
            for end in 0..main.len() {
                give(sheet_in(edition, &[], &main[..end]), book.clone());
            }
        }
    }
}

/// Counts at which a reader could change its way of finding an entry: powers of two, and one to either side.
fn counts(give: Give) {
    let powers = (0..=16).map(|power| 1 << power);
    let mut counts: Vec<usize> = powers.flat_map(|n: usize| n - 1..=n + 1).collect();
    counts.retain(|count| *count <= usize::from(u16::MAX));
    counts.dedup();
    for count in counts {
        // of different lengths, so that no entry is found by its number alone
        let entries: Vec<Vec<u8>> = (0..count)
            .map(|n| [&vec![b'_'; n % 3][..], format!("{n:x}").as_bytes()].concat())
            .collect();
        let book = book(b"note", &entries);
        // all of them forward, and with a stride that comes to all of them
        give(pools((0..count).map(|n| n as u16)), book.clone());
        let stride = (0..count).map(|n| (n * 40_507 % count.max(1)) as u16);
        give(pools(stride), book.clone());
        // the last, and what is none
        for entry in [count.wrapping_sub(1), count, count + 1, 65_535] {
            give(names(&[0, entry as u16]), book.clone());
        }
    }
    // empty entries, and one that is not among the first, in the middle and as the last
    let mut entries = vec![vec![]; 65_535];
    for at in [0, 1, 4_095, 32_768, 65_534] {
        entries[at] = b"found".to_vec();
        let numbers = [0, 1, 2, 4_094, 4_095, 4_096, 32_767, 32_768, 65_533, 65_534];
        give(names(&numbers), book(&[], &entries));
    }
    give(names(&[65_535]), book(&[], &entries));
}

/// Pools of 8,000 named strings each.
fn pools(numbers: impl Iterator<Item = u16>) -> Vec<u8> {
    let strings: Vec<Vec<u8>> = numbers.map(named).collect();
    let pools = strings.chunks(8_000);
    let pools = pools.map(|chunk| [vec![0x88], counted(chunk)].concat());
    of_edition_3(&[], &pools.fold(Body::new(), Body::action).bytes())
}

/// The longest entries; books that are longer than a sheet may be; and a length of 65,535 that is plain in editions 1 and 2.
fn lengths(give: Give) {
    for length in [65_533, 65_534, 65_535] {
        let entries = [b"a".to_vec(), vec![b'b'; length], b"c".to_vec()];
        let book = book(b"n", &entries);
        for entry in 0..3 {
            give(names(&[entry]), book.clone());
        }
        // cut by one byte, and with a NUL as the last of the longest
        let (front, cut) = (book.len() - TRAILER, entries.concat().len() + 6);
        give(names(&[0]), book_of(&book[1..front - 1], cut as u32 - 1, 3));
        let mut nul = book[..front].to_vec();
        nul[front - 4] = 0;
        give(names(&[0]), book_of(&nul, cut as u32, 3));
    }
    let many = vec![vec![b'm'; 65_000]; 65];
    for note in [
        vec![],
        vec![0; LONGEST_SHEET],
        vec![0xFF; 4 * LONGEST_SHEET],
    ] {
        give(names(&[0, 1]), book(&note, &[b"a".to_vec(), b"b".to_vec()]));
        give(names(&[64, 65]), book(&note, &many));
    }
    for edition in Edition::ALL.map(Edition::number) {
        for length in [65_534, 65_535, 65_536] {
            // In editions 1 and 2 the last byte of the longest one is left over.
            let string = [&NAMED.to_le_bytes(), &vec![1; length][..]].concat();
            let main = Body::new().action(target(&string)).bytes();
            let book = book(&[], &vec![vec![b'e']; 258]);
            give(sheet_in(edition, &[], &main), book);
        }
    }
    // edition 3 of the longest sheet, and over it, with a bad book
    for length in LONGEST_SHEET..=LONGEST_SHEET + 1 {
        let main = Body::new().action(target(&named(0))).bytes();
        let note = vec![0x5A; length - TRAILER - main.len()];
        give(of_edition_3(&note, &main), book(&[], &[b"e".to_vec()]));
        give(of_edition_3(&note, &main), vec![]);
    }
}

/// A bad book among the other answers: behind 1 and 2, before 3 to 7 and all that come later, in edition 3 alone.
fn orders(give: Give) {
    let bad = book_of(&[1, 0, 0], 3, 1);
    let good = book(&[], &[b"e".to_vec()]);
    let deep = (0..17).fold(Body::new(), |body, _| Body::new().action(with(&body)));
    let far = Body::new().label(0, 0).times(33_000, pop()).action(jump(0));
    let long = [vec![0x88], strings(&[&b"a"[..]; 40_000])].concat();
    let wide = Body::new().times(65_533, pop()).action(call());
    let mains = [
        vec![],
        vec![0xFF],
        Body::new().action(pop()).action(vec![0x01]).bytes(),
        Body::new().label(4_096, 0).bytes(),
        Body::new().action(target(&named(1))).bytes(),
        Body::new().action(target(&[NAMED as u8; 3])).bytes(),
        Body::new().action(set_target(b"a\0")).bytes(),
        deep.bytes(),
        [Body::new().bytes(), vec![0]].concat(),
        Body::new().action(long).bytes(),
        Body::new().action(with(&wide)).bytes(),
        far.bytes(),
        Body::new().action(jump(9)).bytes(),
        Body::new().action(define_function(b"f", &[], &far)).bytes(),
        Body::new().bytes(),
    ];
    for book in [bad, good, EMPTY.to_vec(), vec![], vec![0x31; 7]] {
        for main in &mains {
            for edition in 0..=4 {
                give(sheet_in(edition, &[], main), book.clone());
            }
            let mut marked = of_edition_3(&[], main);
            marked.pop();
            give(marked, book.clone());
        }
    }
}

/// Blocks that no u32 counts, by a book of one long entry: at powers of two, at the most that a sheet can come to, and with what is
/// refused behind so many bytes.
fn long_blocks(give: Give) {
    let longest = vec![b'b'; 65_534];
    let entries = book(
        &[],
        &[
            longest,
            vec![b'c'; 65_531],
            vec![b'd'; 65_530],
            vec![b'e'; 65_527],
        ],
    );
    let mut give_main = |main: Body| give(of_edition_3(&[], &main.bytes()), entries.clone());
    for length in [1 << 31, 1 << 32].into_iter().flat_map(|n| n - 1..=n + 1) {
        give_main(of_length(length));
    }
    give_main(Body::new().times(65_535, target(&named(0))));
    give_main(Body::new().times(65_535, long_function()));
    give_main(Body::new().times(31_774, long_try()));
    give_main(longest_block());
    // 8 and 9; 10, back and by a branch from the front; 14 and 15
    let filled = || Body::new().times(65_533, target(&named(0)));
    let wide = with(&Body::new().action(target(&named(0))));
    give_main(filled().action(set_target(&[b'a'; 65_534])).action(wide));
    give_main(filled().action(push(&vec![vec![6; 9]; 7_282])));
    give_main(filled().label(0, 0).action(jump(0)));
    give_main(
        Body::new()
            .label(0, 65_534)
            .action(jump(0))
            .times(65_533, target(&named(0))),
    );
    give_main(filled().action(jump(0)));
    let records = define_function(b"f", &[], &Body::new().label(0, 0));
    give_main(filled().action(records).action(jump(0)));
}

/// A main body of a block of so many bytes: entries of 65,534 and a string or two that are spelt.
fn of_length(length: u64) -> Body {
    let (each, least) = (65_538, 4);
    let spelt = |n: u64| set_target(&vec![b'a'; (n - least) as usize]);
    let (times, rest) = ((length - 1 - least) / each, (length - 1 - least) % each);
    let main = Body::new().times(times as u16, target(&named(0)));
    match rest + least {
        n if n <= each => main.action(spelt(n)),
        n => main.action(spelt(n - least)).action(spelt(least)),
    }
}

/// A payload and a body of 65,535 bytes each.
fn long_function() -> Vec<u8> {
    let inner = Body::new().action(target(&named(1)));
    [&[0x9B][..], &named(2), &[0, 0], &inner.bytes()].concat()
}

/// A payload and three bodies of 65,535 bytes each.
fn long_try() -> Vec<u8> {
    let inner = Body::new().action(target(&named(1)));
    let spelt = try_(&inner, Some(Catch::Name(b"", &inner)), Some(&inner));
    [&spelt[..2], &named(3), &spelt[4..]].concat()
}

/// As many bytes as a sheet can come to: no action has more of them than such a Try, and none more for a byte of the sheet than
/// SetTarget; a body has 65,535 actions at most.
pub fn longest_block() -> Body {
    let (short, long) = (target(&named(0)).len(), long_try().len());
    let most = LONGEST_SHEET - TRAILER - Body::new().bytes().len();
    let tries = (most - 65_535 * short) / (long - short);
    Body::new()
        .times(65_535 - tries as u16, target(&named(0)))
        .times(tries as u16, long_try())
}
