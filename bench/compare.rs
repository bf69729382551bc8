//! Random calls of the atlas, valid and damaged, openings of all small words, walks of all small windows, searches in all small genera, the
//! census of every genus, all short histories of a list of generators and all jobs of at most two bytes, against an implementation from the
//! plain definitions: sets of numbers, sums of two elements, gap lists, and jobs read byte after byte. It uses no seed tables but those of
//! definition 1.3, and no bit tricks but in the censuses of genus 19 and above, which are made by counts of leading and trailing bits. Searches
//! and censuses in these genera are held to the lists of the atlas's own walk, the sums over each census to its count and its elementary
//! counts, and the grandchildren of all words of three genera, together, to the known numbers of semigroups two genera on. The listing program
//! is run on all inputs of at most one byte and on others. Prints the seed, the number of calls of each kind and the number of differences,
//! which must be 0.

use std::collections::HashMap;
use std::io::Write;
use std::process::{Command, Stdio};

// ---- the atlas, by its C interface (include/atlas.h)

#[repr(C)]
#[derive(Clone, Copy, PartialEq, Debug)]
struct Number {
    refused: u64,
    value: u64,
}

#[repr(C)]
#[derive(Clone, Copy, PartialEq, Debug)]
struct Report {
    refused: u64,
    genus: u64,
    multiplicity: u64,
    conductor: u64,
    largest_gap: i64,
}

#[repr(C)]
#[derive(Clone, Copy, PartialEq, Debug)]
struct Table {
    refused: u64,
    table: u64,
    generators: u64,
}

#[repr(C)]
#[derive(Clone, Copy, PartialEq, Debug)]
struct Walk {
    genus: u64,
    word: u64,
    lowest: u8,
    highest: u8,
    finished: u8,
}

#[repr(C)]
#[derive(Clone, Copy, PartialEq, Debug)]
struct Begun {
    refused: u64,
    walk: Walk,
}

#[repr(C)]
#[derive(Clone, Copy, PartialEq, Debug)]
struct Moved {
    refused: u64,
    walk: Walk,
    count: usize,
    finished: bool,
}

#[repr(C)]
#[derive(Clone, Copy, PartialEq, Debug)]
struct Found {
    refused: u64,
    found: bool,
    word: u64,
}

#[repr(C)]
#[derive(Clone, Copy, PartialEq, Debug)]
struct Shortest {
    found: bool,
    length: u64,
}

#[repr(C)]
#[derive(Clone, Copy, PartialEq, Debug)]
struct Saved {
    refused: u64,
    walk: Walk,
    written: u64,
}

#[repr(C)]
#[derive(Clone, Copy, PartialEq, Debug)]
struct Editor {
    bytes: [u8; 16],
    length: usize,
    answer: Number,
}

#[repr(C)]
#[derive(Clone, Copy, PartialEq, Debug)]
struct Changed {
    refused: u64,
    editor: Editor,
}

extern "C" {
    fn atlas_look(word: u64) -> Report;
    fn atlas_opening(word: u64) -> Shortest;
    fn atlas_seed_table(word: u64) -> Table;
    fn atlas_child(word: u64, element: u64) -> Number;
    fn atlas_grandchildren(word: u64) -> Number;
    fn atlas_fresh(genus: u64) -> Begun;
    fn atlas_fresh_in(genus: u64, lowest: u8, highest: u8) -> Begun;
    fn atlas_start(word: u64) -> Begun;
    fn atlas_start_in(word: u64, lowest: u8, highest: u8) -> Begun;
    fn atlas_batch(walk: Walk, out: *mut u64, length: usize) -> Moved;
    fn atlas_count(word: u64, genus: u64) -> Number;
    fn atlas_first_descendant(word: u64, genus: u64) -> Found;
    fn atlas_generators(word: u64, out: *mut u8, length: usize) -> Number;
    fn atlas_word_from(list: *const u8, length: usize) -> Number;
    fn atlas_elementary(frobenius: u64, genus: u64) -> Number;
    fn atlas_census(genus: u64, out: *mut u64, length: usize) -> Number;
    fn atlas_kunz(word: u64, out: *mut u8, length: usize) -> Number;
    fn atlas_word_from_kunz(list: *const u8, length: usize) -> Number;
    fn atlas_find(genus: u64, largest_gap: i8, multiplicity: u8) -> Found;
    fn atlas_job_write(walk: Walk, written: u64, out: *mut u8, length: usize) -> Number;
    fn atlas_job_read(job: *const u8, length: usize) -> Saved;
    fn atlas_editor_empty() -> Editor;
    fn atlas_editor_add(editor: Editor, byte: u8) -> Changed;
    fn atlas_editor_remove(editor: Editor, byte: u8) -> Changed;
}

// ---- the plain definitions

fn given(value: u64) -> Number {
    Number { refused: 0, value }
}

fn refused(refused: u64) -> Number {
    Number { refused, value: 0 }
}

/// The walk on a word, or the finished one where there is none.
fn standing(genus: u64, word: Option<u64>, lowest: u8, highest: u8) -> Walk {
    Walk {
        genus,
        word: word.unwrap_or(0),
        lowest,
        highest,
        finished: word.is_none() as u8,
    }
}

fn begun(walk: Walk) -> Begun {
    Begun { refused: 0, walk }
}

fn not_begun(refused: u64) -> Begun {
    let walk = Walk {
        genus: 0,
        word: 0,
        lowest: 0,
        highest: 0,
        finished: 0,
    };
    Begun { refused, walk }
}

/// Is x in the set of the word?
fn holds(word: u64, x: u64) -> bool {
    x == 0 || x > 64 || word / 2u64.pow(x as u32 - 1) % 2 == 0
}

fn gaps(word: u64) -> Vec<u64> {
    (1..=64).filter(|&x| !holds(word, x)).collect()
}

fn word_of(gaps: &[u64]) -> u64 {
    gaps.iter().map(|&x| 2u64.pow(x as u32 - 1)).sum()
}

fn sum_of_two(set: impl Fn(u64) -> bool, n: u64) -> bool {
    (1..n).any(|a| set(a) && set(n - a))
}

fn closed(word: u64) -> bool {
    gaps(word).iter().all(|&x| !sum_of_two(|a| holds(word, a), x))
}

/// Questions 1 and 2.
fn word_refused(word: u64) -> Option<u64> {
    if gaps(word).len() > 32 {
        Some(1)
    } else if !closed(word) {
        Some(2)
    } else {
        None
    }
}

/// The conductor of the seeds paper: the largest gap plus 1, and 1 where there is none.
fn conductor(word: u64) -> u64 {
    gaps(word).last().map_or(1, |f| f + 1)
}

/// The reported conductor: the least number from which on all belong to the set, as those above 64 do.
fn reported_conductor(word: u64) -> u64 {
    (0..=65).find(|&n| (n..=65).all(|x| holds(word, x))).unwrap()
}

/// The largest gap, and -1 where there is none.
fn largest_gap(word: u64) -> i64 {
    gaps(word).last().map_or(-1, |&f| f as i64)
}

fn multiplicity(word: u64) -> u64 {
    (1..).find(|&x| holds(word, x)).unwrap()
}

fn within(word: u64, lowest: u8, highest: u8) -> bool {
    (lowest as u64..=highest as u64).contains(&multiplicity(word))
}

fn generator(word: u64, x: u64) -> bool {
    x > 0 && holds(word, x) && !sum_of_two(|a| holds(word, a), x)
}

/// The seed table of a word, and the number of 1s in row 0.
fn seed_table(word: u64) -> Table {
    let c = conductor(word);
    let k = (c - gaps(word).len() as u64) as usize;
    let elements: Vec<u64> = (0..).filter(|&x| holds(word, x)).take(k + 1).collect();
    let mut table = 0;
    let mut generators = 0;
    let mut place = 0;
    for i in 0..k {
        for j in 0..elements[i + 1] - elements[i] {
            let left = |x: u64| holds(word, x) && !elements[1..=i].contains(&x);
            if !sum_of_two(left, c + j + elements[i]) {
                table += 2u64.pow(place);
                generators += (i == 0) as u64;
            }
            place += 1;
        }
    }
    Table {
        refused: 0,
        table,
        generators,
    }
}

fn children(word: u64) -> Vec<u64> {
    let c = conductor(word);
    (c..c + multiplicity(word)).filter(|&x| x <= 64 && generator(word, x)).map(|x| word + 2u64.pow(x as u32 - 1)).collect()
}

/// Is the set that misses the numbers of a list, each at most 70, and no other closed under addition?
fn closed_list(gaps: &[u64]) -> bool {
    let mut set = [true; 71];
    for &x in gaps {
        set[x as usize] = false;
    }
    gaps.iter().all(|&x| !sum_of_two(|a| set[a as usize], x))
}

/// How many gap lists of semigroups have two gaps behind those of the word: no gap of a semigroup of genus g is above 2 g.
fn grandchildren(word: u64) -> u64 {
    let mut list = gaps(word);
    let most = 2 * (list.len() as u64 + 2);
    let mut count = 0;
    for x in conductor(word)..=most {
        for y in x + 1..=most {
            list.extend([x, y]);
            count += closed_list(&list) as u64;
            list.truncate(list.len() - 2);
        }
    }
    count
}

/// For n from 0 to the number of gaps of a word: are its n smallest gaps those of a semigroup?
fn possible_openings(word: u64) -> Vec<bool> {
    let gaps = gaps(word);
    (0..=gaps.len()).map(|n| closed_list(&gaps[..n])).collect()
}

/// The shortest impossible opening by such a list: the least n at which it says no.
fn shortest(possible: &[bool]) -> Shortest {
    let impossible = possible.iter().position(|p| !p);
    Shortest {
        found: impossible.is_some(),
        length: impossible.unwrap_or(0) as u64,
    }
}

fn minimal_generators(word: u64) -> Vec<u8> {
    (1..conductor(word) + multiplicity(word)).filter(|&x| generator(word, x)).map(|x| x as u8).collect()
}

fn gcd(a: u64, b: u64) -> u64 {
    if b == 0 { a } else { gcd(b, a % b) }
}

/// The word of all sums, by the sums from 1 on until a whole period of them is reached.
fn word_from(list: &[u8]) -> Number {
    if list.contains(&0) {
        return refused(7);
    }
    if list.iter().fold(0, |d, &a| gcd(d, a as u64)) != 1 {
        return refused(8);
    }
    let least = *list.iter().min().unwrap() as usize;
    let mut sums = vec![true];
    let mut missed = Vec::new();
    let mut in_row = 0;
    while in_row < least {
        let n = sums.len();
        let sum = list.iter().any(|&a| a as usize <= n && sums[n - a as usize]);
        sums.push(sum);
        in_row = if sum { in_row + 1 } else { 0 };
        if !sum {
            missed.push(n as u64);
        }
        if missed.len() > 32 {
            return refused(9);
        }
    }
    given(word_of(&missed))
}

/// The state that holds a list of generators, with its answer.
fn holding(list: &[u8]) -> Editor {
    let mut bytes = [0; 16];
    bytes[..list.len()].copy_from_slice(list);
    Editor {
        bytes,
        length: list.len(),
        answer: word_from(list),
    }
}

/// A change of a list of generators.
#[derive(Clone, Copy, Debug)]
enum Change {
    Add(u8),
    Remove(u8),
}

/// Makes a change of a list, or gives the number of its refusal.
fn make(change: Change, list: &mut Vec<u8>) -> u64 {
    match change {
        Change::Add(0) => 7,
        Change::Add(_) if list.len() == 16 => 15,
        Change::Add(byte) => {
            list.push(byte);
            0
        }
        Change::Remove(byte) => match list.iter().position(|&held| held == byte) {
            None => 16,
            Some(first) => {
                list.remove(first);
                0
            }
        },
    }
}

/// Is the length at most 16, no held byte 0, each place past the length 0, and the answer that of the held bytes?
fn in_order(editor: &Editor) -> bool {
    editor.length <= 16 && {
        let (held, past) = editor.bytes.split_at(editor.length);
        !held.contains(&0) && past.iter().all(|&b| b == 0) && editor.answer == word_from(held)
    }
}

/// A change of any state.
fn changed(change: Change, editor: &Editor) -> Changed {
    let mut after = *editor;
    let refused = if in_order(editor) {
        let mut list = editor.bytes[..editor.length].to_vec();
        let refused = make(change, &mut list);
        if refused == 0 {
            after = holding(&list);
        }
        refused
    } else {
        14
    };
    Changed { refused, editor: after }
}

/// For i from 1 to m - 1 the number x with m x + i the least element that leaves i on division by m.
fn coordinates(word: u64) -> Vec<u8> {
    let m = multiplicity(word);
    (1..m).map(|i| (0..).find(|x| holds(word, m * x + i)).unwrap() as u8).collect()
}

/// The inequality of the places i and j of a list of coordinates.
fn inequality(list: &[u8], i: usize, j: usize) -> bool {
    let m = list.len() + 1;
    let x = |place: usize| list[place - 1] as u64;
    if i + j < m {
        x(i) + x(j) >= x(i + j)
    } else {
        i + j == m || x(i) + x(j) + 1 >= x(i + j - m)
    }
}

/// The word whose gaps are m t + i for t below the entry at i.
fn word_from_coordinates(list: &[u8]) -> Number {
    let m = list.len() + 1;
    if list.contains(&0) {
        return refused(11);
    }
    if list.iter().map(|&x| x as u64).sum::<u64>() > 32 {
        return refused(12);
    }
    if (1..m).any(|i| (1..m).any(|j| !inequality(list, i, j))) {
        return refused(13);
    }
    let gaps: Vec<u64> = (1..m).flat_map(|i| (0..list[i - 1] as usize).map(move |t| (m * t + i) as u64)).collect();
    given(word_of(&gaps))
}

fn begins(word: u64, other: u64) -> bool {
    gaps(other).starts_with(&gaps(word))
}

/// All gap sets of g numbers up to 2 g - 1, in list order, of which the closed ones are kept.
fn searched(g: u64) -> Vec<u64> {
    fn go(left: u64, from: u64, to: u64, front: &mut Vec<u64>, list: &mut Vec<u64>) {
        if left == 0 {
            let word = word_of(front);
            if closed(word) {
                list.push(word);
            }
            return;
        }
        for x in from..=to {
            front.push(x);
            go(left - 1, x + 1, to, front, list);
            front.pop();
        }
    }
    let mut list = Vec::new();
    go(g, 1, (2 * g).saturating_sub(1), &mut Vec::new(), &mut list);
    list
}

/// Adds the words of a window that are `left` levels below a word to a list, in list order, until it has `most`. A child has the gaps of
/// its word and a larger one: below a word with a gap above its multiplicity all have this multiplicity, and outside the window none is in.
fn below(word: u64, left: u64, lowest: u8, highest: u8, most: usize, list: &mut Vec<u64>) {
    let inside = within(word, lowest, highest);
    if list.len() >= most || !inside && conductor(word) > multiplicity(word) {
        return;
    }
    if left > 0 {
        for child in children(word) {
            below(child, left - 1, lowest, highest, most, list);
        }
    } else if inside {
        list.push(word);
    }
}

/// The first word of a list with each pair of a largest gap and a multiplicity.
type Firsts = HashMap<(i64, u64), u64>;

fn firsts(list: &[u64]) -> Firsts {
    let mut firsts = Firsts::new();
    for &w in list {
        firsts.entry((largest_gap(w), multiplicity(w))).or_insert(w);
    }
    firsts
}

/// A word that was looked for, or that there is none.
fn found(word: Option<u64>) -> Found {
    Found {
        refused: 0,
        found: word.is_some(),
        word: word.unwrap_or(0),
    }
}

fn not_sought(refused: u64) -> Found {
    Found {
        refused,
        found: false,
        word: 0,
    }
}

/// What is found in a list by its first words.
fn found_by(firsts: &Firsts, largest_gap: i8, multiplicity: u8) -> Found {
    found(firsts.get(&(largest_gap as i64, multiplicity as u64)).copied())
}

/// How many words of a list have each pair of a multiplicity and a reported conductor.
type Tally = HashMap<(u64, u64), u64>;

/// The multiplicity and the reported conductor.
fn multiplicity_and_conductor(word: u64) -> (u64, u64) {
    (multiplicity(word), reported_conductor(word))
}

/// The same by counts of bits, for long lists: the gaps below the multiplicity are trailing ones, and the largest gap is 64 less the leading
/// zeros.
fn counted_bits(word: u64) -> (u64, u64) {
    let conductor = if word == 0 { 0 } else { 65 - word.leading_zeros() as u64 };
    (word.trailing_ones() as u64 + 1, conductor)
}

/// The tally of a list, each word's pair by the given function.
fn tally(list: &[u64], pair: fn(u64) -> (u64, u64)) -> Tally {
    let mut tally = Tally::new();
    for &w in list {
        *tally.entry(pair(w)).or_insert(0) += 1;
    }
    tally
}

/// A census with the tally of the genus: the answer, and the lent list afterwards. Questions 3 and 6.
fn census(genus: u64, tally: &Tally, mut lent: Vec<u64>) -> (Number, Vec<u64>) {
    if genus > 32 {
        return (refused(3), lent);
    }
    if lent.len() < 2210 {
        return (refused(6), lent);
    }
    for m in 0..=33 {
        for c in 0..=64 {
            lent[65 * m + c] = tally.get(&(m as u64, c as u64)).copied().unwrap_or(0);
        }
    }
    (given(tally.iter().map(|((_, c), number)| c * number).sum()), lent)
}

/// Questions 3 and 4 of a walk.
fn walk_refused(walk: &Walk) -> Option<u64> {
    let Walk { genus, word, .. } = *walk;
    let in_order = match walk.finished {
        0 => word_refused(word).is_none() && gaps(word).len() as u64 == genus && within(word, walk.lowest, walk.highest),
        1 => word == 0,
        _ => false,
    };
    if genus > 32 {
        Some(3)
    } else if !in_order {
        Some(4)
    } else {
        None
    }
}

/// The first word of each genus with each multiplicity up to 33, or that there is none.
struct Places(Vec<Vec<Option<u64>>>);

impl Places {
    fn new(words: &Words) -> Places {
        let first = |genus, m| words.window(genus, m, m, 1).first().copied();
        Places((0..=32).map(|genus| (0..=33).map(|m| first(genus, m)).collect()).collect())
    }

    /// Where the fresh walk of a window stands: in list order larger multiplicities come first.
    fn fresh(&self, genus: u64, lowest: u8, highest: u8) -> Option<u64> {
        (lowest..=highest.min(33)).rev().find_map(|m| self.0[genus as usize][m as usize])
    }
}

/// The fields of a job that are there.
#[derive(Clone, Copy, Debug)]
struct Fields {
    version: Option<u8>,
    genus: Option<u8>,
    lowest: Option<u8>,
    highest: Option<u8>,
    word: Option<u64>,
    written: Option<u64>,
    finished: bool,
}

impl Fields {
    /// The job with just these fields.
    fn job(&self) -> Vec<u8> {
        let mut job = vec![0];
        let mut put = |bit: u32, bytes: Option<Vec<u8>>| {
            if let Some(bytes) = bytes {
                job[0] += 2u8.pow(bit);
                job.extend(bytes);
            }
        };
        put(7, self.version.map(|byte| vec![byte]));
        put(0, self.genus.map(|byte| vec![byte]));
        put(1, self.lowest.map(|byte| vec![byte]));
        put(2, self.highest.map(|byte| vec![byte]));
        put(3, self.word.map(|number| number.to_le_bytes().to_vec()));
        put(4, self.written.map(|number| number.to_le_bytes().to_vec()));
        put(5, self.finished.then(Vec::new));
        job
    }

    /// What they mean, where they are accepted.
    fn meaning(&self, places: &Places) -> Saved {
        let (genus, lowest, highest) = (self.genus.unwrap() as u64, self.lowest.unwrap_or(1), self.highest.unwrap_or(33));
        let place = if self.finished { None } else { self.word.or_else(|| places.fresh(genus, lowest, highest)) };
        Saved {
            refused: 0,
            walk: standing(genus, place, lowest, highest),
            written: self.written.unwrap_or(0),
        }
    }
}

/// The job that is written for a walk in order: version 2, and every field but the word of a finished walk.
fn job_of(walk: &Walk, written: u64) -> Vec<u8> {
    let finished = walk.finished == 1;
    let fields = Fields {
        version: Some(2),
        genus: Some(walk.genus as u8),
        lowest: Some(walk.lowest),
        highest: Some(walk.highest),
        word: (!finished).then_some(walk.word),
        written: Some(written),
        finished,
    };
    fields.job()
}

/// The bytes of a job that are not read yet.
struct Unread<'a>(&'a [u8]);

impl Unread<'_> {
    /// The next byte, or refusal 18 where there is none.
    fn byte(&mut self) -> Result<u8, u64> {
        let (&byte, rest) = self.0.split_first().ok_or(18u64)?;
        self.0 = rest;
        Ok(byte)
    }

    /// The number of the next 8 bytes, lowest byte first.
    fn number(&mut self) -> Result<u64, u64> {
        let mut number = 0;
        for i in 0..8 {
            number += self.byte()? as u64 * 256u64.pow(i);
        }
        Ok(number)
    }
}

/// The walk and the number written that a job keeps, or the number of its refusal: it is read byte after byte.
fn kept(job: &[u8], places: &Places) -> Result<(Walk, u64), u64> {
    let mut unread = Unread(job);
    let map = unread.byte()?;
    let bit = |i: u32| map / 2u8.pow(i) % 2 == 1;
    let version = if bit(7) { unread.byte()? } else { 1 };
    if version != 1 && version != 2 || bit(6) || version == 1 && bit(4) {
        return Err(17);
    }
    let genus = if bit(0) { unread.byte()? as u64 } else { 0 };
    let lowest = if bit(1) { unread.byte()? } else { 1 };
    let highest = if bit(2) { unread.byte()? } else { 33 };
    let word = if bit(3) { unread.number()? } else { 0 };
    let written = if bit(4) { unread.number()? } else { 0 };
    if !unread.0.is_empty() {
        return Err(18);
    }
    if !bit(0) || bit(3) && bit(5) {
        return Err(19);
    }
    if genus > 32 {
        return Err(3);
    }
    let place = if bit(5) {
        None
    } else if bit(3) {
        Some(word)
    } else {
        places.fresh(genus, lowest, highest)
    };
    let walk = standing(genus, place, lowest, highest);
    walk_refused(&walk).map_or(Ok((walk, written)), Err)
}

/// The answer to a job.
fn saved(job: &[u8], places: &Places) -> Saved {
    match kept(job, places) {
        Ok((walk, written)) => Saved {
            refused: 0,
            walk,
            written,
        },
        Err(refused) => Saved {
            refused,
            walk: not_begun(refused).walk,
            written: 0,
        },
    }
}

/// The genus that an input of the listing program with at least one byte asks for.
fn asked_genus(input: &[u8]) -> Result<u64, u64> {
    match input {
        [digits @ .., b'\n'] if (1..3).contains(&digits.len()) && digits.iter().all(u8::is_ascii_digit) => {
            let genus = digits.iter().fold(0, |n, &digit| 10 * n + (digit - b'0') as u64);
            if genus <= 32 { Ok(genus) } else { Err(3) }
        }
        _ => Err(10),
    }
}

/// The header of a genus with these words.
fn header_line(genus: usize, list: &[u64]) -> String {
    format!("genus {genus} count {}\n", list.len())
}

/// What the listing program writes for an input; `lists` has the words of each genus that is listed, and of genus 0 to 20.
fn program_text(input: &[u8], lists: &[Vec<u64>]) -> String {
    if input.is_empty() {
        return (0..=20).map(|g| header_line(g, &lists[g])).collect();
    }
    match asked_genus(input) {
        Err(number) => format!("refused {number}\n"),
        Ok(genus) => {
            let list = &lists[genus as usize];
            let lines = list.iter().map(|&w| format!("{w} {} {}\n", reported_conductor(w), multiplicity(w)));
            std::iter::once(header_line(genus as usize, list)).chain(lines).collect()
        }
    }
}

// ---- random numbers

struct Random(u64);

impl Random {
    fn next(&mut self) -> u64 {
        self.0 ^= self.0 << 13;
        self.0 ^= self.0 >> 7;
        self.0 ^= self.0 << 17;
        self.0
    }

    fn below(&mut self, n: u64) -> u64 {
        self.next() % n
    }
}

/// Words of semigroups, and words that are damaged.
struct Words {
    lists: Vec<Vec<u64>>,
    deep: Vec<u64>,
    last: Vec<u64>,
}

impl Words {
    /// A semigroup of a genus below `genera`.
    fn listed(&self, genera: u64, r: &mut Random) -> u64 {
        let list = &self.lists[r.below(genera) as usize];
        list[r.below(list.len() as u64) as usize]
    }

    fn valid(&self, r: &mut Random) -> u64 {
        if r.below(2) == 0 {
            self.deep[r.below(self.deep.len() as u64) as usize]
        } else {
            self.listed(self.lists.len() as u64, r)
        }
    }

    fn any(&self, r: &mut Random) -> u64 {
        match r.below(8) {
            0 => r.next(),
            1 => r.next() & r.next() & r.next(),
            2 => self.valid(r) ^ 1 << r.below(64),
            3 => self.valid(r) ^ 1 << r.below(64) ^ 1 << r.below(64),
            4 => [0, u64::MAX, 1 << 63, 13, (1 << 33) - 1, (1 << 32) - 1, 6148914691236517205][r.below(7) as usize],
            _ => self.valid(r),
        }
    }

    /// Any word, or, as often, a semigroup of genus 30 to 32.
    fn any_or_last(&self, r: &mut Random) -> u64 {
        if r.below(2) == 0 {
            self.last[r.below(self.last.len() as u64) as usize]
        } else {
            self.any(r)
        }
    }

    /// The words of a window of a genus, the first `most` of them: by the list where it is at hand, else by the tree.
    fn window(&self, genus: u64, lowest: u8, highest: u8, most: usize) -> Vec<u64> {
        if let Some(list) = self.lists.get(genus as usize) {
            return list.iter().copied().filter(|&w| within(w, lowest, highest)).take(most).collect();
        }
        let mut list = Vec::new();
        below(0, genus, lowest, highest, most, &mut list);
        list
    }
}

/// All windows of some genera with bounds from 0 to `most`.
fn every_window(genera: std::ops::RangeInclusive<u64>, most: u8) -> impl Iterator<Item = (u64, u8, u8)> {
    genera.flat_map(move |genus| (0..=most).flat_map(move |lowest| (0..=most).map(move |highest| (genus, lowest, highest))))
}

/// A bound of a window.
fn bound(r: &mut Random) -> u8 {
    match r.below(8) {
        0 => [0, 1, 2, 255][r.below(4) as usize],
        1 => 30 + r.below(6) as u8,
        2 => r.next() as u8,
        _ => r.below(20) as u8,
    }
}

/// The bounds of a window: most have the multiplicity m between them.
fn bounds(m: u64, r: &mut Random) -> (u8, u8) {
    let m = m as u8;
    match r.below(16) {
        0..=4 => (1, 33),
        5 | 6 => (0, 255),
        7 | 8 => (m, m),
        9 | 10 => (m - r.below(2) as u8, m + r.below(2) as u8),
        11 => (bound(r).min(m), m),
        12 => (m, bound(r).max(m)),
        13 => (m + 1, bound(r)),
        14 => (bound(r), m - 1),
        _ => (bound(r), bound(r)),
    }
}

struct Kind {
    name: &'static str,
    calls: u64,
    differences: u64,
}

impl Kind {
    fn new(name: &'static str) -> Kind {
        Kind {
            name,
            calls: 0,
            differences: 0,
        }
    }

    fn same<T: PartialEq + std::fmt::Debug>(&mut self, ours: T, plain: T, asked: &dyn Fn() -> String) {
        self.calls += 1;
        if ours != plain {
            self.differences += 1;
            if self.differences < 4 {
                println!("{} {}: ours {:?}, plain {:?}", self.name, asked(), ours, plain);
            }
        }
    }
}

/// Which answers of a call on `n` words were met, and how many accepted words of each genus.
struct Met {
    n: u64,
    answers: [u64; 3],
    genera: [u64; 33],
}

impl Met {
    fn new(n: u64) -> Met {
        Met {
            n,
            answers: [0; 3],
            genera: [0; 33],
        }
    }

    /// Counts a word with its refusal, 0 where it is accepted.
    fn word(&mut self, word: u64, refused: u64) {
        self.answers[refused as usize] += 1;
        if refused == 0 {
            self.genera[gaps(word).len()] += 1;
        }
    }

    /// Each answer must be met, and genus 30, 31 and 32.
    fn check(&self) {
        assert!(self.answers.iter().all(|&q| q > self.n / 100), "each answer is met: {:?}", self.answers);
        assert!(self.genera[30..].iter().all(|&g| g > self.n / 10), "genus 30, 31 and 32 are met: {:?}", self.genera);
    }
}

// ---- the calls

/// Looks at random words; refusals of each number and the word 0 are met.
fn looks(n: u64, words: &Words, r: &mut Random) -> Kind {
    let mut kind = Kind::new("look");
    let mut met = [0u64; 4];
    for _ in 0..n {
        let w = words.any(r);
        let plain = match word_refused(w) {
            Some(q) => Report {
                refused: q,
                genus: 0,
                multiplicity: 0,
                conductor: 0,
                largest_gap: 0,
            },
            None => Report {
                refused: 0,
                genus: gaps(w).len() as u64,
                multiplicity: multiplicity(w),
                conductor: reported_conductor(w),
                largest_gap: largest_gap(w),
            },
        };
        met[if w == 0 { 3 } else { plain.refused as usize }] += 1;
        kind.same(unsafe { atlas_look(w) }, plain, &|| w.to_string());
    }
    assert!(met.iter().all(|&q| q > n / 100), "each answer and the word 0 are met: {met:?}");
    kind
}

/// Seed tables with their numbers, of random words, half of them of genus 30 to 32; each answer and these genera are met.
fn tables(n: u64, words: &Words, r: &mut Random) -> Kind {
    let mut kind = Kind::new("seed table");
    let mut met = Met::new(n);
    for _ in 0..n {
        let w = words.any_or_last(r);
        let plain = match word_refused(w) {
            Some(refused) => Table {
                refused,
                table: 0,
                generators: 0,
            },
            None => seed_table(w),
        };
        met.word(w, plain.refused);
        kind.same(unsafe { atlas_seed_table(w) }, plain, &|| w.to_string());
    }
    met.check();
    kind
}

/// Of every word of genus 0 to 10, and of many of genus 30 to 32: the number with the table is that of the elements at which a child is
/// given, and the count one genus on; at genus 32 it is given although there are none.
fn counted_children(words: &Words) -> Kind {
    let mut kind = Kind::new("children of listed words, by the number with the table");
    for w in words.lists[..11].iter().flatten().chain(&words.last).copied() {
        let genus = gaps(w).len() as u64;
        let generators = unsafe { atlas_seed_table(w) }.generators;
        let answered = (0..130).filter(|&e| unsafe { atlas_child(w, e) }.refused == 0).count() as u64;
        kind.same(answered, if genus < 32 { generators } else { 0 }, &|| w.to_string());
        let next = if genus < 32 { given(generators) } else { refused(3) };
        kind.same(unsafe { atlas_count(w, genus + 1) }, next, &|| w.to_string());
    }
    kind
}

/// The grandchildren of every word of genus 0 to 14, and of the first word of each multiplicity of genus 15 to 32.
fn listed_grandchildren(words: &Words) -> Kind {
    let mut kind = Kind::new("grandchildren of listed words");
    let firsts = (15..=32).flat_map(|genus| (2..=genus as u8 + 1).map(move |m| unsafe { atlas_fresh_in(genus, m, m) }.walk.word));
    for w in words.lists[..15].iter().flatten().copied().chain(firsts) {
        kind.same(unsafe { atlas_grandchildren(w) }, given(grandchildren(w)), &|| w.to_string());
    }
    kind
}

/// Grandchildren of random words, half of them of genus 30 to 32; each of these genera and each answer is met.
fn many_grandchildren(n: u64, words: &Words, r: &mut Random) -> Kind {
    let mut kind = Kind::new("grandchildren");
    let mut met = Met::new(n);
    for _ in 0..n {
        let w = words.any_or_last(r);
        let plain = word_refused(w).map_or_else(|| given(grandchildren(w)), refused);
        met.word(w, plain.refused);
        kind.same(unsafe { atlas_grandchildren(w) }, plain, &|| w.to_string());
    }
    met.check();
    kind
}

fn childs(n: u64, words: &Words, r: &mut Random) -> Kind {
    let mut kind = Kind::new("child");
    for _ in 0..n {
        let w = words.any(r);
        let e = match r.below(4) {
            0 => r.next(),
            1 => r.below(140),
            _ => conductor(w).wrapping_add(r.below(10)),
        };
        let plain = if let Some(q) = word_refused(w) {
            refused(q)
        } else if gaps(w).len() + 1 > 32 {
            refused(3)
        } else if e < conductor(w) || e > 200 || !generator(w, e) {
            refused(5)
        } else {
            given(w + 2u64.pow(e as u32 - 1))
        };
        kind.same(unsafe { atlas_child(w, e) }, plain, &|| format!("{w} {e}"));
    }
    kind
}

fn starts(n: u64, words: &Words, r: &mut Random) -> Kind {
    let mut kind = Kind::new("fresh, start");
    for _ in 0..n {
        let g = if r.below(8) == 0 { r.next() } else { r.below(40) };
        let plain = if g > 32 { not_begun(3) } else { begun(standing(g, Some(word_of(&(1..=g).collect::<Vec<_>>())), 1, 33)) };
        kind.same(unsafe { atlas_fresh(g) }, plain, &|| g.to_string());
        let w = words.any(r);
        let plain = word_refused(w).map_or_else(|| begun(standing(gaps(w).len() as u64, Some(w), 1, 33)), not_begun);
        kind.same(unsafe { atlas_start(w) }, plain, &|| w.to_string());
    }
    kind
}

/// Fresh walks in a window: single ones of genus 32, then random ones. Windows of some words and of none, and refusals, are met.
fn fresh_ins(n: u64, words: &Words, r: &mut Random) -> Kind {
    let mut kind = Kind::new("fresh in a window");
    let ordinary = word_of(&(1..=32).collect::<Vec<_>>());
    let hyperelliptic = word_of(&(1..=63).step_by(2).collect::<Vec<_>>());
    for (lowest, highest, word) in [
        (0, 255, Some(ordinary)),
        (33, 33, Some(ordinary)),
        (2, 2, Some(hyperelliptic)),
        (1, 1, None),
        (34, 255, None),
    ] {
        let plain = begun(standing(32, word, lowest, highest));
        kind.same(unsafe { atlas_fresh_in(32, lowest, highest) }, plain, &|| format!("32 {lowest} {highest}"));
    }
    let mut met = [0u64; 4];
    for _ in 0..n {
        let g = match r.below(16) {
            0 => r.next(),
            1 => r.below(37),
            _ => r.below(16),
        };
        let lowest = bound(r);
        let highest = match r.below(4) {
            0 => lowest,
            1 => lowest.saturating_add(r.below(8) as u8),
            _ => bound(r),
        };
        let plain = if g > 32 {
            not_begun(3)
        } else {
            begun(standing(g, words.window(g, lowest, highest, 1).first().copied(), lowest, highest))
        };
        met[plain.refused as usize + plain.walk.finished as usize] += 1;
        kind.same(unsafe { atlas_fresh_in(g, lowest, highest) }, plain, &|| format!("{g} {lowest} {highest}"));
    }
    assert!([0, 1, 3].iter().all(|&q| met[q] > n / 100), "each answer is met: {met:?}");
    kind
}

/// Walks that start on a word in a window; refusals of each number are met.
fn start_ins(n: u64, words: &Words, r: &mut Random) -> Kind {
    let mut kind = Kind::new("start in a window");
    let mut met = [0u64; 14];
    for _ in 0..n {
        let w = words.any(r);
        let (lowest, highest) = bounds(multiplicity(w), r);
        let answer = unsafe { atlas_start_in(w, lowest, highest) };
        met[answer.refused as usize] += 1;
        let plain = if let Some(q) = word_refused(w) {
            not_begun(q)
        } else if !within(w, lowest, highest) {
            not_begun(4)
        } else {
            begun(standing(gaps(w).len() as u64, Some(w), lowest, highest))
        };
        kind.same(answer, plain, &|| format!("{w} {lowest} {highest}"));
    }
    assert!([0, 1, 2, 4].iter().all(|&q| met[q] > n / 100), "each answer is met: {met:?}");
    kind
}

/// A batch of a walk that has these words still to give: how it ends, and the lent list afterwards.
fn moved(walk: Walk, left: &[u64], mut lent: Vec<u64>) -> (Moved, Vec<u64>) {
    let count = left.len().min(lent.len());
    lent[..count].copy_from_slice(&left[..count]);
    let next = left.get(count).copied();
    let moved = Moved {
        refused: 0,
        walk: standing(walk.genus, next, walk.lowest, walk.highest),
        count,
        finished: next.is_none(),
    };
    (moved, lent)
}

/// Every window of the genera to 12 with bounds to 14, and of genus 32 with bounds to 4: from the fresh walk by batches of random lengths
/// to its end, and one batch more.
fn windows(words: &Words, r: &mut Random) -> Kind {
    let mut kind = Kind::new("fresh and batch in every window");
    for (genus, lowest, highest) in every_window(0..=12, 14).chain(every_window(32..=32, 4)) {
        let all = words.window(genus, lowest, highest, usize::MAX);
        let fresh = standing(genus, all.first().copied(), lowest, highest);
        let answer = unsafe { atlas_fresh_in(genus, lowest, highest) };
        kind.same(answer, begun(fresh), &|| format!("{genus} {lowest} {highest}"));
        let mut walk = answer.walk;
        let mut left = &all[..];
        loop {
            let finished = left.is_empty();
            let lent: Vec<u64> = (0..r.below(9)).map(|_| r.next()).collect();
            let mut ours = lent.clone();
            let ending = unsafe { atlas_batch(walk, ours.as_mut_ptr(), ours.len()) };
            let plain = moved(fresh, left, lent);
            left = &left[plain.0.count..];
            kind.same((ending, ours), plain, &|| format!("{walk:?}"));
            if finished {
                break;
            }
            walk = ending.walk;
        }
    }
    kind
}

/// The words of the walk's window from its word on, at most `most` of them: by the list where it is at hand, else by the tree.
fn rest(words: &Words, walk: Walk, most: usize) -> Vec<u64> {
    if walk.finished == 1 {
        return Vec::new();
    }
    if let Some(list) = words.lists.get(walk.genus as usize) {
        let place = list.iter().position(|&w| w == walk.word).unwrap();
        return list[place..].iter().copied().filter(|&w| within(w, walk.lowest, walk.highest)).take(most).collect();
    }
    let path = gaps(walk.word);
    let mut list = vec![walk.word];
    for i in (0..path.len()).rev() {
        for child in children(word_of(&path[..i])) {
            if child > word_of(&path[..=i]) {
                below(child, (path.len() - i - 1) as u64, walk.lowest, walk.highest, most, &mut list);
            }
        }
    }
    list.truncate(most);
    list
}

/// A walk on a word, or with another genus, another word or any finished byte.
fn random_walk(word: u64, r: &mut Random) -> Walk {
    let (lowest, highest) = bounds(multiplicity(word), r);
    let (genus, word, finished) = match r.below(12) {
        0 => (r.below(50), word, 0),
        1 => (r.below(36), 0, 1),
        2 => (r.below(34), r.below(3), r.below(2) as u8),
        3 => (r.below(36), r.below(2) * word, [1, 2, 128, 255][r.below(4) as usize]),
        4 => (gaps(word).len() as u64, word, [0, 0, 0, 1, 2, 255][r.below(6) as usize]),
        _ => (gaps(word).len() as u64, word, 0),
    };
    Walk {
        genus,
        word,
        lowest,
        highest,
        finished,
    }
}

/// Batches of random walks; an answer and refusals of each number are met.
fn batches(n: u64, words: &Words, r: &mut Random) -> Kind {
    let mut kind = Kind::new("batch");
    let mut met = [0u64; 14];
    for i in 0..n {
        let word = if i % 50 == 0 { words.any(r) } else { words.listed(14, r) };
        let walk = random_walk(word, r);
        let length = [0, 1, 2, 3, 7, 20][r.below(6) as usize];
        let lent: Vec<u64> = (0..length).map(|_| r.next()).collect();
        let mut ours = lent.clone();
        let ending = unsafe { atlas_batch(walk, ours.as_mut_ptr(), ours.len()) };
        met[ending.refused as usize] += 1;
        let plain = if let Some(refused) = walk_refused(&walk) {
            let unmoved = Moved {
                refused,
                walk,
                count: 0,
                finished: false,
            };
            (unmoved, lent)
        } else {
            moved(walk, &rest(words, walk, length + 1), lent)
        };
        kind.same((ending, ours), plain, &|| format!("{walk:?} {length}"));
    }
    assert!([0, 3, 4].iter().all(|&q| met[q] > n / 100), "each answer is met: {met:?}");
    kind
}

fn counts(n: u64, words: &Words, r: &mut Random) -> Kind {
    let mut kind = Kind::new("count");
    for _ in 0..n {
        let w = if r.below(4) == 0 { words.any(r) } else { words.listed(12, r) };
        let g = if r.below(8) == 0 { r.next() } else { r.below(16) };
        let plain = if let Some(q) = word_refused(w) {
            refused(q)
        } else if g > 32 {
            refused(3)
        } else {
            given(words.lists[g as usize].iter().filter(|&&v| begins(w, v)).count() as u64)
        };
        kind.same(unsafe { atlas_count(w, g) }, plain, &|| format!("{w} {g}"));
    }
    kind
}

/// The list of each genus up to 14, cut by each word of genus 0 to 9 up to its own: the descendants stand side by side in it, none of the others
/// between; the first of them and their number are told, and a walk from the first on writes just these, by two lists that are together as
/// long. In the order of the words of a genus they are the whole list.
fn stretches(words: &Words, r: &mut Random) -> Kind {
    let mut kind = Kind::new("descendants cut out of genus lists");
    for (h, ancestors) in words.lists.iter().enumerate().take(10) {
        for g in h..=14 {
            let list = &words.lists[g];
            let mut joined = Vec::new();
            for &w in ancestors {
                let descendants: Vec<u64> = list.iter().copied().filter(|&v| begins(w, v)).collect();
                let place = list.iter().position(|&v| begins(w, v)).unwrap_or(0);
                assert!(list[place..].starts_with(&descendants), "the descendants of {w} of genus {g} stand side by side");
                let asked = || format!("{w} {g}");
                let first = unsafe { atlas_first_descendant(w, g as u64) };
                kind.same(first, found(descendants.first().copied()), &asked);
                kind.same(unsafe { atlas_count(w, g as u64) }, given(descendants.len() as u64), &asked);
                if first.found {
                    let mut walk = unsafe { atlas_start(first.word) }.walk;
                    let mut out = vec![0; descendants.len()];
                    let cut = r.below(out.len() as u64 + 1) as usize;
                    for part in [0..cut, cut..out.len()] {
                        let moved = unsafe { atlas_batch(walk, out[part.clone()].as_mut_ptr(), part.len()) };
                        kind.same((moved.refused, moved.count), (0, part.len()), &asked);
                        walk = moved.walk;
                    }
                    kind.same(&out, &descendants, &asked);
                    joined.extend(out);
                }
            }
            kind.same(&joined, list, &|| format!("all of genus {h} {g}"));
        }
    }
    kind
}

/// First descendants of random words: by the list of the genus where it is at hand, else by the tree; a word, none and refusals of each
/// number are met.
fn first_descendants(n: u64, words: &Words, r: &mut Random) -> Kind {
    let mut kind = Kind::new("first descendant");
    let mut met = [0u64; 5];
    for _ in 0..n {
        let w = words.any(r);
        let own = gaps(w).len() as u64;
        let g = match r.below(8) {
            0 => [33, 1 << 32, 1 << 63, u64::MAX][r.below(4) as usize],
            1 => r.below(40),
            2 => r.next(),
            3 => 32,
            _ => own + r.below(8),
        };
        let plain = if let Some(q) = word_refused(w) {
            not_sought(q)
        } else if g > 32 {
            not_sought(3)
        } else if let Some(list) = words.lists.get(g as usize) {
            found(list.iter().copied().find(|&v| begins(w, v)))
        } else if g < own {
            found(None)
        } else {
            let mut list = Vec::new();
            below(w, g - own, 0, 255, 1, &mut list);
            found(list.first().copied())
        };
        met[if plain.found { 4 } else { plain.refused as usize }] += 1;
        kind.same(unsafe { atlas_first_descendant(w, g) }, plain, &|| format!("{w} {g}"));
    }
    assert!(met.iter().all(|&q| q > n / 100), "each answer is met: {met:?}");
    kind
}

/// A call that lists bytes of a word into a lent list, against what is to be listed: questions 1, 2 and 6.
fn listed(
    mut kind: Kind,
    call: unsafe extern "C" fn(u64, *mut u8, usize) -> Number,
    all: fn(u64) -> Vec<u8>,
    n: u64,
    words: &Words,
    r: &mut Random,
) -> Kind {
    for _ in 0..n {
        let w = words.any(r);
        let length = r.below(40) as usize;
        let lent: Vec<u8> = (0..length).map(|_| r.next() as u8).collect();
        let mut ours = lent.clone();
        let answer = unsafe { call(w, ours.as_mut_ptr(), length) };
        let mut list = lent.clone();
        let plain = match word_refused(w) {
            Some(q) => refused(q),
            None => {
                let all = all(w);
                if all.len() > length {
                    refused(6)
                } else {
                    list[..all.len()].copy_from_slice(&all);
                    given(all.len() as u64)
                }
            }
        };
        kind.same((answer, ours), (plain, list), &|| format!("{w} {length}"));
    }
    kind
}

/// A list of coordinates: valid, with an entry changed, cut or longer, of few random entries, or all the same byte.
fn random_coordinates(words: &Words, r: &mut Random) -> Vec<u8> {
    let mut list = coordinates(words.valid(r));
    match r.below(8) {
        0 => {}
        1..=3 => {
            if !list.is_empty() {
                let i = r.below(list.len() as u64) as usize;
                list[i] = [list[i] + 1, list[i] - 1, 0, r.next() as u8][r.below(4) as usize];
            }
        }
        4 => list.truncate(r.below(33) as usize),
        5 => list.push(1 + r.below(4) as u8),
        6 => list = (0..r.below(7)).map(|_| r.below(9) as u8).collect(),
        _ => {
            let length = [0, 1, 31, 32, 33, 1000][r.below(6) as usize];
            list = vec![[0, 1, 255][r.below(3) as usize]; length];
            if length > 0 && r.below(2) == 0 {
                let i = r.below(length as u64) as usize;
                list[i] = r.below(3) as u8;
            }
        }
    }
    list
}

/// Words from lists of coordinates; what is accepted comes back as the list, and refusals of each number are met.
fn words_from_coordinates(n: u64, words: &Words, r: &mut Random) -> Kind {
    let mut kind = Kind::new("word from coordinates");
    let mut met = [0u64; 14];
    for _ in 0..n {
        let list = random_coordinates(words, r);
        let answer = unsafe { atlas_word_from_kunz(list.as_ptr(), list.len()) };
        met[answer.refused as usize] += 1;
        kind.same(answer, word_from_coordinates(&list), &|| format!("{list:?}"));
        if answer.refused == 0 {
            let mut back = [0; 32];
            let number = unsafe { atlas_kunz(answer.value, back.as_mut_ptr(), back.len()) };
            kind.same((number, &back[..list.len()]), (given(list.len() as u64), &list[..]), &|| format!("{list:?} and back"));
        }
    }
    assert!([0, 11, 12, 13].iter().all(|&q| met[q] > n / 100), "each answer is met: {met:?}");
    kind
}

/// A list of generators: the minimal ones of a word, random ones or a long list, up to three times changed by a byte more, a repeat, a byte
/// less or the other order.
fn random_generators(words: &Words, r: &mut Random) -> Vec<u8> {
    let mut list: Vec<u8> = match r.below(64) {
        0 => {
            let (first, step) = (r.below(255), r.below(255));
            (0..r.below(600)).map(|i| (1 + (first + i * step) % 255) as u8).collect()
        }
        1..=21 => minimal_generators(words.valid(r)),
        22..=42 => (0..r.below(6)).map(|_| 1 + r.below(70) as u8).collect(),
        _ => (0..r.below(12)).map(|_| r.next() as u8).collect(),
    };
    for _ in 0..r.below(4) {
        match r.below(4) {
            0 => list.push(if r.below(9) == 0 { 0 } else { r.next() as u8 }),
            1 if !list.is_empty() => {
                let i = r.below(list.len() as u64) as usize;
                list.push(list[i]);
            }
            2 if !list.is_empty() => {
                let i = r.below(list.len() as u64) as usize;
                list.remove(i);
            }
            _ => list.reverse(),
        }
    }
    list
}

fn words_from(n: u64, words: &Words, r: &mut Random) -> Kind {
    let mut kind = Kind::new("word from generators");
    for _ in 0..n {
        let list = random_generators(words, r);
        kind.same(generated(&list), word_from(&list), &|| format!("{list:?}"));
    }
    kind
}

/// What the call answers to a list of generators.
fn generated(list: &[u8]) -> Number {
    unsafe { atlas_word_from(list.as_ptr(), list.len()) }
}

/// The minimal generators of an accepted word, by the call.
fn reduced(word: u64) -> Vec<u8> {
    let mut out = [0; 33];
    let number = unsafe { atlas_generators(word, out.as_mut_ptr(), out.len()) };
    assert!(number.refused == 0, "the generators of {word}");
    out[..number.value as usize].to_vec()
}

/// Two lists A and B: A joined with B, B with A, A with itself, and where A is accepted the minimal generators of its word with B; then A with
/// B is accepted just where B has no 0. Each answer for A, and B with and without 0, are met.
fn joins(n: u64, words: &Words, r: &mut Random) -> Kind {
    let mut kind = Kind::new("joined generators");
    let mut met = [0u64; 12];
    for _ in 0..n {
        let (a, b) = (random_generators(words, r), random_generators(words, r));
        let asked = || format!("{a:?} {b:?}");
        let alone = word_from(&a);
        let both = word_from(&[&a[..], &b].concat());
        met[if alone.refused == 0 && b.contains(&0) { 1 } else { alone.refused as usize }] += 1;
        kind.same(generated(&[&a[..], &b].concat()), both, &asked);
        kind.same(generated(&[&b[..], &a].concat()), both, &asked);
        kind.same(generated(&[&a[..], &a].concat()), alone, &asked);
        if alone.refused == 0 {
            let answer = generated(&[&reduced(alone.value)[..], &b].concat());
            kind.same((answer, answer.refused), (both, if b.contains(&0) { 7 } else { 0 }), &asked);
        }
    }
    assert!([0, 1, 7, 8, 9].iter().all(|&q| met[q] > n / 100), "each answer is met: {met:?}");
    kind
}

/// Up to six lists, most of them short, joined to what is held one after the other and reduced where the call gives a word: after each the
/// answer is that of all so far, and at the end the generators of its word are held. Each answer is met at the end.
fn stages(n: u64, words: &Words, r: &mut Random) -> Kind {
    let mut kind = Kind::new("generators in stages");
    let mut met = [0u64; 10];
    for _ in 0..n {
        let mut all = Vec::new();
        let mut held = Vec::new();
        for _ in 0..r.below(7) {
            let mut list = random_generators(words, r);
            if r.below(8) > 0 {
                list.truncate(r.below(5) as usize);
            }
            all.extend_from_slice(&list);
            held.extend_from_slice(&list);
            let answer = generated(&held);
            kind.same(answer, word_from(&all), &|| format!("{held:?} of {all:?}"));
            if answer.refused == 0 {
                held = reduced(answer.value);
            }
        }
        let plain = word_from(&all);
        met[plain.refused as usize] += 1;
        let left = if plain.refused == 0 { minimal_generators(plain.value) } else { held.clone() };
        kind.same((generated(&held), &held), (plain, &left), &|| format!("{all:?}"));
    }
    assert!([0, 7, 8, 9].iter().all(|&q| met[q] > n / 100), "each answer is met: {met:?}");
    kind
}

/// Is x a sum of members of the list?
fn is_sum(list: &[u8], x: u8) -> bool {
    let mut sums = vec![true];
    for n in 1..=x as usize {
        sums.push(list.iter().any(|&a| a > 0 && a as usize <= n && sums[n - a as usize]));
    }
    sums[x as usize]
}

/// A list, and one made of it: sums of two members are added, positive members that are sums of the others are left out, and the first ones go
/// to the end. They get the same answer; each answer is met.
fn same_sums(n: u64, words: &Words, r: &mut Random) -> Kind {
    let mut kind = Kind::new("generators with the same sums");
    let mut met = [0u64; 10];
    for _ in 0..n {
        let list = random_generators(words, r);
        let mut other = list.clone();
        let changes = if list.is_empty() { 0 } else { r.below(6) };
        for _ in 0..changes {
            let i = r.below(other.len() as u64) as usize;
            let j = r.below(other.len() as u64) as usize;
            match other[i].checked_add(other[j]) {
                None | Some(0) => {}
                Some(sum) => other.push(sum),
            }
        }
        for _ in 0..changes {
            let x = other.remove(0);
            if x == 0 || !is_sum(&other, x) {
                other.push(x);
            }
        }
        let plain = word_from(&list);
        met[plain.refused as usize] += 1;
        kind.same(generated(&other), plain, &|| format!("{list:?} {other:?}"));
    }
    assert!([0, 7, 8, 9].iter().all(|&q| met[q] > n / 100), "each answer is met: {met:?}");
    kind
}

/// What the call for a change gives.
fn edited(change: Change, editor: Editor) -> Changed {
    match change {
        Change::Add(byte) => unsafe { atlas_editor_add(editor, byte) },
        Change::Remove(byte) => unsafe { atlas_editor_remove(editor, byte) },
    }
}

/// A history from the empty start, change by change: the state afterwards is the one that holds the list that is left. Gives that state.
fn history(changes: &[Change], kind: &mut Kind, met: &mut [u64; 17]) -> Editor {
    let mut list = Vec::new();
    let mut editor = unsafe { atlas_editor_empty() };
    kind.same(editor, holding(&[]), &|| "the empty start".to_string());
    for (i, &change) in changes.iter().enumerate() {
        let refused = make(change, &mut list);
        met[refused as usize] += 1;
        let answer = edited(change, editor);
        let plain = Changed {
            refused,
            editor: holding(&list),
        };
        kind.same(answer, plain, &|| format!("{:?}", &changes[..=i]));
        editor = answer.editor;
    }
    editor
}

/// All histories of five changes, each an addition or a removal of 0, 2 or 3.
fn short_histories() -> Kind {
    let mut kind = Kind::new("changes in all short histories");
    let changes = [0, 2, 3].map(|byte| [Change::Add(byte), Change::Remove(byte)]).concat();
    let mut met = [0u64; 17];
    for n in 0..changes.len().pow(5) {
        let history_n: Vec<Change> = (0..5).map(|i| changes[n / changes.len().pow(i) % changes.len()]).collect();
        history(&history_n, &mut kind, &mut met);
    }
    assert!([0, 7, 16].iter().all(|&q| met[q] > 0), "each answer is met: {met:?}");
    kind
}

/// A history of up to 79 changes: of few different bytes or of many, with more additions or more removals, some of 0.
fn random_history(words: &Words, r: &mut Random) -> Vec<Change> {
    let mut bytes = match r.below(4) {
        0 => minimal_generators(words.valid(r)),
        1 => (0..4).map(|_| 1 + r.below(9) as u8).collect(),
        2 => (0..1 + r.below(20)).map(|_| (2 + 2 * r.below(127)) as u8).collect(),
        _ => (0..1 + r.below(20)).map(|_| r.next() as u8).collect(),
    };
    bytes.extend([0, 255]);
    let removals = [10, 30, 60][r.below(3) as usize];
    (0..r.below(80))
        .map(|_| {
            let byte = bytes[r.below(bytes.len() as u64) as usize];
            if r.below(100) < removals { Change::Remove(byte) } else { Change::Add(byte) }
        })
        .collect()
}

/// A state with up to two damages: to its length, to a byte or to its answer, or all of it random.
fn damage(mut editor: Editor, r: &mut Random) -> Editor {
    for _ in 0..r.below(3) {
        match r.below(7) {
            0 => editor.length = [0, 1, 15, 16, 17, 255, 1 << 32, usize::MAX][r.below(8) as usize],
            1 => editor.length = editor.length.wrapping_add_signed([-1, 1][r.below(2) as usize]),
            2 => editor.bytes[r.below(16) as usize] = 0,
            3 => editor.bytes[r.below(16) as usize] = r.next() as u8,
            4 => editor.answer.refused = [0, 7, 8, 9, 10, 14, 20, u64::MAX][r.below(8) as usize],
            5 => editor.answer.value = [0, 1, editor.answer.value ^ 1 << r.below(64), r.next()][r.below(4) as usize],
            _ => editor = unsafe { std::mem::transmute([r.next(), r.next(), r.below(20), r.below(12), r.next()]) },
        }
    }
    editor
}

/// Random histories, and after each changes of damaged states. In histories each refusal of a change and each kept answer is met, and of the
/// damaged states each refusal.
fn editors(n: u64, words: &Words, r: &mut Random) -> [Kind; 2] {
    let (mut kind, mut damaged) = (Kind::new("changes in histories"), Kind::new("changes of damaged states"));
    let (mut met, mut kept, mut met_damaged) = ([0u64; 17], [0u64; 10], [0u64; 17]);
    for _ in 0..n {
        let changes = random_history(words, r);
        let last = history(&changes, &mut kind, &mut met);
        kept[last.answer.refused as usize] += 1;
        for _ in 0..4 {
            let editor = damage(last, r);
            let byte = if r.below(2) == 0 { editor.bytes[r.below(16) as usize] } else { [0, 1, 255][r.below(3) as usize] };
            for change in [Change::Add(byte), Change::Remove(byte)] {
                let plain = changed(change, &editor);
                met_damaged[plain.refused as usize] += 1;
                damaged.same(edited(change, editor), plain, &|| format!("{change:?} {editor:?}"));
            }
        }
    }
    assert!([0, 7, 15, 16].iter().all(|&q| met[q] > n / 100), "each answer is met: {met:?}");
    assert!([0, 8, 9].iter().all(|&q| kept[q] > n / 100), "each kept answer is met: {kept:?}");
    assert!([0, 7, 14, 15, 16].iter().all(|&q| met_damaged[q] > n / 100), "each answer is met: {met_damaged:?}");
    [kind, damaged]
}

fn elementaries(n: u64, words: &Words, r: &mut Random) -> Kind {
    let mut kind = Kind::new("elementary");
    let mut table = vec![vec![0u64; 64]; words.lists.len()];
    for (g, list) in words.lists.iter().enumerate() {
        for &w in list {
            if w != 0 && conductor(w) - 1 < 2 * multiplicity(w) {
                table[g][conductor(w) as usize - 1] += 1;
            }
        }
    }
    for _ in 0..n {
        let g = if r.below(8) == 0 { 33 + r.below(1 << 40) } else { r.below(table.len() as u64) };
        let f = if r.below(8) == 0 { r.next() } else { r.below(64) };
        let plain = if g > 32 {
            refused(3)
        } else {
            given(if f < 64 { table[g as usize][f as usize] } else { 0 })
        };
        kind.same(unsafe { atlas_elementary(f, g) }, plain, &|| format!("{f} {g}"));
    }
    kind
}

/// The words of a window of a genus, by the walk.
fn walked(genus: u64, lowest: u8, highest: u8) -> Vec<u64> {
    let mut list = Vec::new();
    let mut walk = unsafe { atlas_fresh_in(genus, lowest, highest) }.walk;
    loop {
        let mut out = [0; 4096];
        let moved = unsafe { atlas_batch(walk, out.as_mut_ptr(), out.len()) };
        assert!(moved.refused == 0, "the walk of genus {genus} from {lowest} to {highest}");
        list.extend_from_slice(&out[..moved.count]);
        if moved.finished {
            return list;
        }
        walk = moved.walk;
    }
}

/// The numbers with the tables of all words of genus 30, 31 and 32, together, and their grandchildren: the numbers of semigroups one and two
/// genera on (OEIS A007323).
fn summed_over_a_genus() -> Kind {
    let mut kind = Kind::new("seed table and grandchildren, summed over a genus");
    for (genus, one_on, two_on) in [(30, 9_266_788, 15_195_070), (31, 15_195_070, 24_896_206), (32, 24_896_206, 40_761_087)] {
        let list = walked(genus, 1, 33);
        let generators: u64 = list.iter().map(|&w| unsafe { atlas_seed_table(w) }.generators).sum();
        let grandchildren: u64 = list.iter().map(|&w| unsafe { atlas_grandchildren(w) }.value).sum();
        kind.same(generators, one_on, &|| genus.to_string());
        kind.same(grandchildren, two_on, &|| genus.to_string());
    }
    kind
}

/// All searches of genus 0 to 9, and those of genus 10 to 26 with a largest gap from -2 to 54 and a multiplicity from 0 to 30, of which the
/// semigroups there have 10 to 51 and 2 to 27.
fn small_finds(words: &Words) -> Kind {
    let mut kind = Kind::new("find in small genera");
    for genus in 0..=26 {
        let firsts = match words.lists.get(genus as usize) {
            Some(list) => firsts(list),
            None => firsts(&walked(genus, 1, 33)),
        };
        let (largest_gaps, multiplicities) = if genus <= 9 { (-128..=127, 0..=255) } else { (-2..=54, 0..=30) };
        for f in largest_gaps {
            for m in multiplicities.clone() {
                kind.same(unsafe { atlas_find(genus, f, m) }, found_by(&firsts, f, m), &|| format!("{genus} {f} {m}"));
            }
        }
    }
    kind
}

/// Random searches of genus 27 to 32, and refused ones; a word found, none and a refusal are met.
fn finds(n: u64, r: &mut Random) -> Kind {
    let mut kind = Kind::new("find");
    let mut met = [0u64; 4];
    let mut windows = HashMap::new();
    for _ in 0..n {
        let genus = if r.below(16) == 0 { [33, 1 << 63, u64::MAX][r.below(3) as usize] } else { 27 + r.below(6) };
        let near = genus.min(32);
        let m = if r.below(8) == 0 { [0, 255][r.below(2) as usize] } else { r.below(36) as u8 };
        let f = match r.below(8) {
            0 => [-128, -1, 0, 127][r.below(4) as usize],
            1 => r.next() as i8,
            _ => (near - 1 + r.below(near + 2)) as i8,
        };
        let plain = if genus > 32 {
            not_sought(3)
        } else {
            found_by(windows.entry((genus, m)).or_insert_with(|| firsts(&walked(genus, m, m))), f, m)
        };
        met[plain.refused as usize + plain.found as usize] += 1;
        kind.same(unsafe { atlas_find(genus, f, m) }, plain, &|| format!("{genus} {f} {m}"));
    }
    assert!([0, 1, 3].iter().all(|&q| met[q] > n / 100), "each answer is met: {met:?}");
    kind
}

/// The first place where two lists of the same length differ, with what stands there.
fn first_difference(ours: &[u64], plain: &[u64]) -> Option<(usize, u64, u64)> {
    (0..plain.len()).find(|&p| ours[p] != plain[p]).map(|p| (p, ours[p], plain[p]))
}

/// A census into a list that is lent full of random numbers: the answer and the whole list are compared. Gives the list afterwards.
fn one_census(genus: u64, tally: &Tally, length: usize, kind: &mut Kind, r: &mut Random) -> Vec<u64> {
    let lent: Vec<u64> = (0..length).map(|_| r.next()).collect();
    let mut ours = lent.clone();
    let answer = unsafe { atlas_census(genus, ours.as_mut_ptr(), length) };
    let (plain, list) = census(genus, tally, lent);
    kind.same((answer, first_difference(&ours, &list)), (plain, None), &|| format!("{genus} {length}"));
    ours
}

/// All places of a census make the count of the genus, and those of a conductor c from 1 on where c is at most 2 m the elementary count of the
/// largest gap c - 1.
fn census_sums(genus: u64, list: &[u64], kind: &mut Kind) {
    let total = list[..2210].iter().sum();
    kind.same(unsafe { atlas_count(0, genus) }, given(total), &|| format!("{genus}, all places"));
    for c in 1..=64 {
        let sum = (0..=33).filter(|m| c <= 2 * m).map(|m| list[65 * m + c]).sum();
        kind.same(unsafe { atlas_elementary(c as u64 - 1, genus) }, given(sum), &|| format!("{genus}, elementary of conductor {c}"));
    }
}

/// The census of every genus from 0 to 32, by the lists up to genus 18 and by the walk above, with its sums, and those of larger genera, each
/// with lists that are too short, just long enough and longer: an answer and refusals of each number are met.
fn censuses(words: &Words, r: &mut Random) -> Kind {
    let mut kind = Kind::new("census and its sums");
    for w in words.lists.iter().chain([&words.deep, &words.last]).flatten().copied() {
        assert!(counted_bits(w) == multiplicity_and_conductor(w), "multiplicity and conductor of {w} by counts of bits");
    }
    let larger = [33, 34, 1 << 8, 1 << 32, (1 << 32) + 3, 1 << 63, u64::MAX];
    let random: Vec<u64> = (0..100).map(|i| if i % 2 == 0 { 33 + r.below(1000) } else { r.next().max(33) }).collect();
    for genus in (0..=32).chain(larger).chain(random) {
        let tally = match words.lists.get(genus as usize) {
            Some(list) => tally(list, multiplicity_and_conductor),
            None if genus > 32 => Tally::new(),
            None => tally(&walked(genus, 1, 33), counted_bits),
        };
        for length in [0, 1, 2209, 2210, 3000] {
            let list = one_census(genus, &tally, length, &mut kind, r);
            if genus <= 32 && length == 2210 {
                census_sums(genus, &list, &mut kind);
            }
        }
    }
    kind
}

/// A word with more than 32 gaps whose set is closed: all numbers up to one are gaps, and from there to another most of those with which the set
/// stays closed.
fn many_gaps(r: &mut Random) -> u64 {
    loop {
        let mut list: Vec<u64> = (1..=1 + r.below(64)).collect();
        for x in list.len() as u64 + 1..=33 + r.below(32) {
            list.push(x);
            if r.below(8) == 0 || !closed_list(&list) {
                list.pop();
            }
        }
        if list.len() > 32 {
            return word_of(&list);
        }
    }
}

/// The word with one more gap above its largest, unless that is 64.
fn gap_above(word: u64, r: &mut Random) -> u64 {
    let lowest = conductor(word).min(64);
    word | 1 << (lowest - 1 + r.below(65 - lowest))
}

/// A word with any number of gaps: random with few or many, all gaps up to one with up to three bits flipped, a semigroup or a closed set with
/// more than 32 gaps, and these with a bit flipped or with a gap above.
fn word_with_any_gaps(words: &Words, r: &mut Random) -> u64 {
    match r.below(10) {
        0 => r.next(),
        1 => (0..1 + r.below(4)).fold(r.next(), |w, _| w & r.next()),
        2 => (0..1 + r.below(4)).fold(r.next(), |w, _| w | r.next()),
        3 => (0..r.below(4)).fold(u64::MAX >> r.below(64), |w, _| w ^ 1 << r.below(64)),
        4 => gap_above(words.valid(r), r),
        5 | 6 => words.any_or_last(r),
        7 => many_gaps(r),
        8 => many_gaps(r) ^ 1 << r.below(64),
        _ => gap_above(many_gaps(r), r),
    }
}

/// The shortest impossible opening of a word, and its laws: there is none just where a look does not refuse the word with 2 and its set is
/// closed; every shorter opening is possible, and no longer one is. Gives the plain answer.
fn one_opening(word: u64, kind: &mut Kind) -> Shortest {
    let possible = possible_openings(word);
    let plain = shortest(&possible);
    let answer = unsafe { atlas_opening(word) };
    kind.same(answer, plain, &|| word.to_string());
    let none = unsafe { atlas_look(word) }.refused != 2 && closed(word);
    let shorter = (0..possible.len() as u64).map(|n| !answer.found || n < answer.length).collect();
    kind.same((!answer.found, shorter), (none, possible), &|| format!("{word}, laws"));
    plain
}

/// The openings of every word below 2^20, and of all words with one gap, with all gaps but one and with all gaps up to one.
fn small_openings() -> Kind {
    let mut kind = Kind::new("opening and its laws, of every small word");
    let each = (0..64).flat_map(|i| [1 << i, u64::MAX - (1 << i), u64::MAX >> i]);
    for w in (0..1 << 20).chain(each) {
        one_opening(w, &mut kind);
    }
    kind
}

/// Openings of random words; none, one and one that ends with the largest gap are met, of words with at most 32 gaps and of words with more.
fn openings(n: u64, words: &Words, r: &mut Random) -> Kind {
    let mut kind = Kind::new("opening and its laws");
    let mut met = [[0u64; 3]; 2];
    for _ in 0..n {
        let w = word_with_any_gaps(words, r);
        let plain = one_opening(w, &mut kind);
        let genus = gaps(w).len() as u64;
        met[(genus > 32) as usize][plain.found as usize + (plain.length == genus && plain.found) as usize] += 1;
    }
    assert!(met.iter().flatten().all(|&q| q > n / 100), "each answer is met: {met:?}");
    kind
}

/// Reads a job. Gives the plain answer.
fn one_read(job: &[u8], places: &Places, kind: &mut Kind) -> Saved {
    let plain = saved(job, places);
    kind.same(unsafe { atlas_job_read(job.as_ptr(), job.len()) }, plain, &|| format!("{job:?}"));
    plain
}

/// Reads the empty job and every job of one and of two bytes. An answer and refusals 3, 17, 18 and 19 are met; there is no word in them.
fn short_jobs(places: &Places) -> Kind {
    let mut kind = Kind::new("job read, of every job of at most two bytes");
    let mut met = [0u64; 20];
    let two = (0..=255).flat_map(|first| (0..=255).map(move |second| vec![first, second]));
    for job in [vec![]].into_iter().chain((0..=255).map(|byte| vec![byte])).chain(two) {
        met[one_read(&job, places, &mut kind).refused as usize] += 1;
    }
    assert!([0, 3, 17, 18, 19].iter().all(|&q| met[q] > 0), "each answer is met: {met:?}");
    kind
}

/// A number of words that were written.
fn random_written(r: &mut Random) -> u64 {
    match r.below(4) {
        0 => [0, 1, 255, 256, 1 << 32, 1 << 63, u64::MAX][r.below(7) as usize],
        1 => r.below(20_000_000),
        _ => r.next(),
    }
}

/// Fields that are accepted: of either version, each absent at times but the genus; the word is left out where it is outside the window.
fn accepted_fields(words: &Words, r: &mut Random) -> Fields {
    let word = words.valid(r);
    let (lowest, highest) = bounds(multiplicity(word), r);
    let lowest = (r.below(3) > 0).then_some(lowest);
    let highest = (r.below(3) > 0).then_some(highest);
    let version = [None, Some(1), Some(2), Some(2)][r.below(4) as usize];
    let place = r.below(4);
    Fields {
        version,
        genus: Some(gaps(word).len() as u8),
        lowest,
        highest,
        word: (place > 1 && within(word, lowest.unwrap_or(1), highest.unwrap_or(33))).then_some(word),
        written: (version == Some(2) && r.below(4) > 0).then(|| random_written(r)),
        finished: place == 0,
    }
}

/// Reads accepted jobs; those without a number written in version 1, without and with a version byte, and in version 2: they mean the same.
/// Walks on a given word, on the first of their window, finished by the mark and by an empty window are met.
fn accepted_jobs(n: u64, words: &Words, places: &Places, r: &mut Random) -> Kind {
    let mut kind = Kind::new("job read, of accepted jobs of both versions");
    let mut met = [[0u64; 2]; 2];
    for _ in 0..n {
        let fields = accepted_fields(words, r);
        let meaning = fields.meaning(places);
        met[(fields.finished || fields.word.is_some()) as usize][meaning.walk.finished as usize] += 1;
        let versions = if fields.written.is_none() { vec![None, Some(1), Some(2)] } else { vec![fields.version] };
        for version in versions {
            let plain = one_read(&Fields { version, ..fields }.job(), places, &mut kind);
            assert!(plain == meaning, "the meaning of {fields:?}");
        }
    }
    assert!(met.iter().flatten().all(|&q| q > n / 100), "each answer is met: {met:?}");
    kind
}

/// The bytes that a byte of a job is changed to: all others in a short job; else those with one other bit, some that have a meaning in a job,
/// and a random one.
fn other_bytes(byte: u8, short: bool, r: &mut Random) -> Vec<u8> {
    let bytes: Vec<u8> = if short {
        (0..=255).collect()
    } else {
        (0..8).map(|i| byte ^ 1 << i).chain([0, 1, 2, 3, 32, 33, 255, r.next() as u8]).collect()
    };
    bytes.into_iter().filter(|&other| other != byte).collect()
}

/// Reads accepted jobs with each byte changed, cut to every length, and with one to three and with 65,536 bytes more. An answer and refusals of
/// each number are met.
fn changed_jobs(n: u64, words: &Words, places: &Places, r: &mut Random) -> Kind {
    let mut kind = Kind::new("job read, of changed, cut and lengthened jobs");
    let mut met = [0u64; 20];
    for _ in 0..n {
        let job = accepted_fields(words, r).job();
        for (i, &byte) in job.iter().enumerate() {
            for other in other_bytes(byte, job.len() <= 5, r) {
                let mut changed = job.clone();
                changed[i] = other;
                met[one_read(&changed, places, &mut kind).refused as usize] += 1;
            }
            met[one_read(&job[..i], places, &mut kind).refused as usize] += 1;
        }
        for more in [1, 2, 3, 65_536] {
            let mut longer = job.clone();
            longer.extend((0..more).map(|_| [0, r.next() as u8][r.below(2) as usize]));
            met[one_read(&longer, places, &mut kind).refused as usize] += 1;
        }
    }
    assert!([0, 3, 4, 17, 18, 19].iter().all(|&q| met[q] > n / 2), "each answer is met: {met:?}");
    kind
}

/// A job with any fields, most of them of an accepted one: with a wrong version or a bit that the version lacks, without a genus, with a word and
/// finished, with any genus or any word, and at times with a byte less or more.
fn random_job(words: &Words, r: &mut Random) -> Vec<u8> {
    let mut fields = accepted_fields(words, r);
    for _ in 0..r.below(3) {
        match r.below(8) {
            0 => fields.version = [None, Some(1), Some(2), Some(r.below(5) as u8), Some(r.next() as u8)][r.below(5) as usize],
            1 => fields.genus = [None, Some(r.below(36) as u8), Some(r.next() as u8)][r.below(3) as usize],
            2 => fields.lowest = Some(bound(r)),
            3 => fields.highest = Some(bound(r)),
            4 => fields.word = Some(words.any(r)),
            5 => fields.word = fields.genus.map(|genus| word_of(&(1..=genus as u64 % 64).collect::<Vec<_>>())),
            6 => fields.written = Some(random_written(r)),
            _ => fields.finished = !fields.finished,
        }
    }
    let mut job = fields.job();
    match r.below(16) {
        0 => job[0] |= 64,
        1 => job.truncate(r.below(job.len() as u64) as usize),
        2 => job.push(r.next() as u8),
        _ => {}
    }
    job
}

/// Reads random bytes, of which half have a bit map without bit 6 and a version byte 1 or 2, and as many jobs with any fields. An answer and
/// refusals of each number are met.
fn random_jobs(n: u64, words: &Words, places: &Places, r: &mut Random) -> Kind {
    let mut kind = Kind::new("job read, of random bytes and of any fields");
    let mut met = [0u64; 20];
    for i in 0..n {
        let mut bytes: Vec<u8> = (0..r.below(25)).map(|_| r.next() as u8).collect();
        if i % 2 == 0 && bytes.len() > 1 {
            bytes[0] &= 0xbf;
            bytes[1] = 1 + r.below(2) as u8;
        }
        for job in [bytes, random_job(words, r)] {
            met[one_read(&job, places, &mut kind).refused as usize] += 1;
        }
    }
    assert!([0, 3, 4, 17, 18, 19].iter().all(|&q| met[q] > n / 100), "each answer is met: {met:?}");
    kind
}

/// Writes the jobs of random walks to lists that are lent full of random bytes, and reads back what was written. Finished and other walks and
/// refusals of each number are met.
fn written_jobs(n: u64, words: &Words, places: &Places, r: &mut Random) -> Kind {
    let mut kind = Kind::new("job write, and read back");
    let mut met = [0u64; 7];
    for _ in 0..n {
        let word = words.any(r);
        let mut walk = random_walk(word, r);
        if r.below(16) == 0 {
            walk.genus += [1 << 8, 1 << 32, 1 << 63][r.below(3) as usize];
        }
        let written = random_written(r);
        let length = if r.below(2) == 0 { r.below(31) } else { [12, 13, 20, 21, 22, 256][r.below(6) as usize] };
        let lent: Vec<u8> = (0..length).map(|_| r.next() as u8).collect();
        let mut list = lent.clone();
        let job = job_of(&walk, written);
        let plain = if let Some(q) = walk_refused(&walk) {
            refused(q)
        } else if lent.len() < job.len() {
            refused(6)
        } else {
            list[..job.len()].copy_from_slice(&job);
            given(job.len() as u64)
        };
        met[plain.refused as usize + (plain.refused == 0 && walk.finished == 1) as usize] += 1;
        let mut ours = lent.clone();
        let answer = unsafe { atlas_job_write(walk, written, ours.as_mut_ptr(), ours.len()) };
        kind.same((answer, &ours), (plain, &list), &|| format!("{walk:?} {written} {length}"));
        if plain.refused == 0 {
            let read = one_read(&list[..job.len()], places, &mut kind);
            assert!((read.refused, read.walk, read.written) == (0, walk, written), "what is kept by {job:?}");
        }
    }
    assert!([0, 1, 3, 4, 6].iter().all(|&q| met[q] > n / 100), "each answer is met: {met:?}");
    kind
}

/// Jobs that are read and written.
fn jobs(words: &Words, r: &mut Random) -> [Kind; 5] {
    let places = Places::new(words);
    for (genus, lowest, highest) in every_window(0..=12, 14) {
        let first = words.window(genus, lowest, highest, 1).first().copied();
        assert!(places.fresh(genus, lowest, highest) == first, "the first word of genus {genus} from {lowest} to {highest}");
    }
    [
        short_jobs(&places),
        accepted_jobs(150_000, words, &places, r),
        changed_jobs(1_500, words, &places, r),
        random_jobs(300_000, words, &places, r),
        written_jobs(250_000, words, &places, r),
    ]
}

/// What the listing program does write.
fn program_run(input: &[u8]) -> String {
    let mut program = Command::new("target/bin/list").stdin(Stdio::piped()).stdout(Stdio::piped()).spawn().expect("the listing program");
    program.stdin.take().unwrap().write_all(input).expect("its input");
    String::from_utf8(program.wait_with_output().expect("its output").stdout).expect("text")
}

/// An input of the listing program: digits and line feeds, blanks and other bytes.
fn random_input(r: &mut Random) -> Vec<u8> {
    let length = r.below(6);
    let byte = |r: &mut Random| match r.below(8) {
        0..=4 => b'0' + r.below(10) as u8,
        5 => b'\n',
        6 => b" -+\r\t\0"[r.below(6) as usize],
        _ => r.below(256) as u8,
    };
    let mut input: Vec<u8> = (0..length).map(|_| byte(r)).collect();
    if r.below(2) == 0 {
        input.push(b'\n');
    }
    input
}

/// Runs the listing program on no bytes, every byte, every byte before a line feed and behind a digit, every two digits with a line feed, and
/// random inputs, but for those that ask for a genus above 14. No bytes, listings and refusals 3 and 10 are met.
fn runs(n: u64, words: &Words, r: &mut Random) -> Kind {
    let mut kind = Kind::new("the listing program, by runs of it");
    let mut lists = words.lists.clone();
    while lists.len() <= 20 {
        lists.push(lists[lists.len() - 1].iter().flat_map(|&w| children(w)).collect());
    }
    let bytes = (0..=255).flat_map(|byte| [vec![byte], vec![byte, b'\n'], vec![b'3', byte]]);
    let numbers = (0..100).map(|n| format!("{n:02}\n").into_bytes());
    let others: Vec<Vec<u8>> = (0..n).map(|_| random_input(r)).collect();
    let mut met = [0u64; 4];
    for input in std::iter::once(vec![]).chain(bytes).chain(numbers).chain(others) {
        let asked = asked_genus(&input);
        if asked.is_ok_and(|genus| genus > 14) {
            continue;
        }
        kind.same(program_run(&input), program_text(&input, &lists), &|| format!("{input:?}"));
        met[if input.is_empty() { 0 } else { asked.map_or_else(|number| 1 + (number == 10) as usize, |_| 3) }] += 1;
    }
    assert!(met.iter().all(|&q| q > n / 100), "each answer is met: {met:?}");
    kind
}

fn main() {
    let seed = std::env::args().nth(1).map_or(20261115, |s| s.parse().expect("a seed is a number"));
    let mut r = Random(seed | 1);
    let mut lists = vec![vec![0]];
    for g in 1..19 {
        let next: Vec<u64> = lists[g - 1].iter().flat_map(|&w| children(w)).collect();
        lists.push(next);
    }
    for g in 0..12 {
        assert!(lists[g] == searched(g as u64), "the plain search of genus {g}");
    }
    let mut deep = Vec::new();
    while deep.len() < 3000 {
        let mut w = lists[8][r.below(lists[8].len() as u64) as usize];
        for _ in 0..r.below(25) {
            let below = children(w);
            if below.is_empty() {
                break;
            }
            w = below[r.below(below.len() as u64) as usize];
        }
        deep.push(w);
    }
    let mut last = Vec::new();
    while last.len() < 3000 {
        let genus = 30 + last.len() as u64 % 3;
        let mut w = lists[8][r.below(lists[8].len() as u64) as usize];
        while (gaps(w).len() as u64) < genus {
            let below = children(w);
            if below.is_empty() {
                break;
            }
            w = below[r.below(below.len() as u64) as usize];
        }
        if gaps(w).len() as u64 == genus {
            last.push(w);
        }
    }
    let words = Words { lists, deep, last };
    for (g, lowest, highest) in every_window(0..=9, 11) {
        let mut list = Vec::new();
        below(0, g, lowest, highest, usize::MAX, &mut list);
        assert!(list == words.window(g, lowest, highest, usize::MAX), "the window {lowest} to {highest} of genus {g} by the tree");
    }
    let mut kinds = vec![
        looks(400_000, &words, &mut r),
        tables(100_000, &words, &mut r),
        childs(150_000, &words, &mut r),
        counted_children(&words),
        listed_grandchildren(&words),
        many_grandchildren(60_000, &words, &mut r),
        summed_over_a_genus(),
        starts(60_000, &words, &mut r),
        fresh_ins(20_000, &words, &mut r),
        start_ins(60_000, &words, &mut r),
        windows(&words, &mut r),
        batches(200_000, &words, &mut r),
        counts(10_000, &words, &mut r),
        stretches(&words, &mut r),
        first_descendants(50_000, &words, &mut r),
        listed(Kind::new("generators"), atlas_generators, minimal_generators, 100_000, &words, &mut r),
        words_from(150_000, &words, &mut r),
        joins(50_000, &words, &mut r),
        stages(50_000, &words, &mut r),
        same_sums(50_000, &words, &mut r),
        elementaries(50_000, &words, &mut r),
        listed(Kind::new("coordinates"), atlas_kunz, coordinates, 150_000, &words, &mut r),
        words_from_coordinates(200_000, &words, &mut r),
        small_finds(&words),
        finds(100_000, &mut r),
        short_histories(),
    ];
    kinds.extend(editors(12_000, &words, &mut r));
    kinds.push(censuses(&words, &mut r));
    kinds.push(small_openings());
    kinds.push(openings(60_000, &words, &mut r));
    kinds.extend(jobs(&words, &mut r));
    kinds.push(runs(2_000, &words, &mut r));
    println!("seed {seed}");
    for kind in &kinds {
        println!("{:>9} calls of {}: {} differences", kind.calls, kind.name, kind.differences);
    }
    let differences: u64 = kinds.iter().map(|k| k.differences).sum();
    println!("{:>9} calls in all: {} differences", kinds.iter().map(|k| k.calls).sum::<u64>(), differences);
    std::process::exit((differences != 0) as i32);
}
