//! Lists and sizes that hold no rows, or other rows: a change to an entry, a length or a size.

use super::any;
use crate::lists::{fitting, Lists};
use crate::rng::Rng;

type Change = fn(&mut Rng, &mut Lists, &mut [usize; 3]);

/// What is done to lists that hold rows, one or more. After the last ones they still do.
const CHANGES: [(&str, Change); 21] = [
    ("size above a list's length", |rng, lists, sizes| size_above(rng, lists, sizes)),
    ("size one more", |rng, _, sizes| sizes[rng.below(3)] += 1),
    ("size one less", |rng, _, sizes| sizes[rng.below(3)] -= 1),
    ("list one shorter", |rng, lists, sizes| shorten(rng, lists, sizes)),
    ("token end that does not rise", |rng, lists, sizes| fall(rng, &mut lists.ends[..sizes[1]])),
    ("token end too far", |rng, lists, sizes| too_far(rng, &mut lists.ends[..sizes[1]])),
    ("last token end off", |rng, lists, sizes| off(rng, &mut lists.ends[sizes[1] - 1])),
    ("line end that does not rise", |rng, lists, sizes| fall(rng, &mut lists.line_ends[..sizes[2]])),
    ("line end too far", |rng, lists, sizes| too_far(rng, &mut lists.line_ends[..sizes[2]])),
    ("last line end off", |rng, lists, sizes| off(rng, &mut lists.line_ends[sizes[2] - 1])),
    ("line without tokens", |rng, lists, sizes| empty_line(rng, lists, sizes)),
    ("mark of 512 or more", |rng, lists, sizes| lists.marks[rng.below(sizes[2])] += 512 * rng.range(1, 126) as u16),
    ("indent 255", |rng, lists, sizes| lists.marks[rng.below(sizes[2])] |= 255),
    ("address where the mark has none", |rng, lists, sizes| unmarked(rng, lists, sizes)),
    ("kind above 7", |rng, lists, sizes| lists.kinds[rng.below(sizes[1])] = rng.pick(&[8, 9, 15, 16, 128, 255])),
    ("entry of any list", |rng, lists, sizes| any_entry(rng, lists, sizes)),
    ("other good entry", |rng, lists, sizes| good_entry(rng, lists, sizes)),
    ("all places and addresses", |rng, lists, sizes| (0..sizes[2]).for_each(|n| heads(rng, lists, n))),
    ("longer lists", |rng, lists, _| longer(rng, lists)),
    ("first lines alone", |rng, lists, sizes| first_lines(rng, lists, sizes)),
    ("sizes 0", |_, _, sizes| *sizes = [0; 3]),
];

pub const KINDS: usize = CHANGES.len();

/// What a kind of change is called.
pub fn name(kind: usize) -> &'static str {
    CHANGES[kind].0
}

/// Lists that hold one row or more, with one kind of change at a random place.
pub fn changed(rng: &mut Rng, lists: &Lists, sizes: [usize; 3], kind: usize) -> (Lists, [usize; 3]) {
    let (mut lists, mut sizes) = (lists.clone(), sizes);
    CHANGES[kind].1(rng, &mut lists, &mut sizes);
    (lists, sizes)
}

fn size_above(rng: &mut Rng, lists: &Lists, sizes: &mut [usize; 3]) {
    let which = rng.below(3);
    let length = [lists.text.len(), lists.ends.len(), lists.line_ends.len()][which];
    sizes[which] = rng.pick(&[length + 1, length + 1000, 1 << 32, usize::MAX, sizes[which] + (1 << 32)]);
}

/// One of the seven lists lacks the last entry that its size speaks of.
fn shorten(rng: &mut Rng, lists: &mut Lists, sizes: &[usize; 3]) {
    let mut lengths = fitting(*sizes);
    lengths[rng.below(7)] -= 1;
    *lists = lists.clone().cut(lengths);
}

/// An end at or below the one before it.
fn fall(rng: &mut Rng, ends: &mut [u32]) {
    let at = rng.below(ends.len());
    let before = if at == 0 { 0 } else { ends[at - 1] };
    ends[at] = if rng.percent(50) { before } else { rng.range(0, before as usize) as u32 };
}

fn too_far(rng: &mut Rng, ends: &mut [u32]) {
    let all = ends[ends.len() - 1];
    ends[rng.below(ends.len())] = rng.pick(&[all, all + 1, all + 1000, u32::MAX, 1 << 31]);
}

fn off(rng: &mut Rng, end: &mut u32) {
    *end = if rng.percent(50) { *end - 1 } else { *end + 1 };
}

/// A line with every other list in order, but no token.
fn empty_line(rng: &mut Rng, lists: &mut Lists, sizes: &mut [usize; 3]) {
    let at = rng.range(0, sizes[2]);
    let before = if at == 0 { 0 } else { lists.line_ends[at - 1] };
    lists.line_ends.insert(at, before);
    lists.addresses.insert(at, 0);
    lists.marks.insert(at, 0);
    lists.places.insert(at, 0);
    sizes[2] += 1;
}

fn unmarked(rng: &mut Rng, lists: &mut Lists, sizes: &[usize; 3]) {
    let at = rng.below(sizes[2]);
    lists.marks[at] %= 256;
    lists.addresses[at] = rng.pick(&[1, 0x1000, 1 << 32, 1 << 63, u64::MAX]);
}

/// Any value for any entry: now and then a good one.
fn any_entry(rng: &mut Rng, lists: &mut Lists, [text, tokens, lines]: &[usize; 3]) {
    match rng.below(7) {
        0 => lists.text[rng.below(*text)] = rng.u64() as u8,
        1 => lists.ends[rng.below(*tokens)] = rng.any_width() as u32,
        2 => lists.kinds[rng.below(*tokens)] = rng.any_width() as u8,
        3 => lists.addresses[rng.below(*lines)] = rng.any_width(),
        4 => lists.marks[rng.below(*lines)] = rng.any_width() as u16,
        5 => lists.places[rng.below(*lines)] = rng.any_width() as u16,
        _ => lists.line_ends[rng.below(*lines)] = rng.any_width() as u32,
    }
}

fn good_entry(rng: &mut Rng, lists: &mut Lists, [text, tokens, lines]: &[usize; 3]) {
    match rng.below(3) {
        0 => lists.text[rng.below(*text)] = rng.u64() as u8,
        1 => lists.kinds[rng.below(*tokens)] = rng.below(8) as u8,
        _ => heads(rng, lists, rng.aside().below(*lines)),
    }
}

/// Another address, indent and place for a line.
fn heads(rng: &mut Rng, lists: &mut Lists, line: usize) {
    let address = any::address(rng);
    lists.addresses[line] = address.unwrap_or(0);
    lists.marks[line] = u16::from(any::indent(rng)) + if address.is_some() { 256 } else { 0 };
    lists.places[line] = any::place(rng);
}

/// Entries past the sizes are not looked at.
fn longer(rng: &mut Rng, lists: &mut Lists) {
    let mut more = || rng.below(4);
    let n: [usize; 7] = std::array::from_fn(|_| more());
    lists.text.extend(vec![b'"'; n[0]]);
    lists.ends.extend(vec![0; n[1]]);
    lists.kinds.extend(vec![0xff; n[2]]);
    lists.addresses.extend(vec![u64::MAX; n[3]]);
    lists.marks.extend(vec![0xffff; n[4]]);
    lists.places.extend(vec![0xffff; n[5]]);
    lists.line_ends.extend(vec![0; n[6]]);
}

fn first_lines(rng: &mut Rng, lists: &Lists, sizes: &mut [usize; 3]) {
    let lines = rng.range(1, sizes[2]);
    let tokens = lists.line_ends[lines - 1] as usize;
    *sizes = [lists.ends[tokens - 1] as usize, tokens, lines];
}
