//! The tree of semigroups by seed tables in plain Rust, as one would write it for speed without proofs: children by the bits of the
//! table's first row, raking by doubling, no child made that has no children, and the last three levels from rows 0, 1 and 2 alone. And a
//! look at a word that tries every element for its sums.
#![crate_type = "staticlib"]

#[derive(Clone, Copy)]
struct Node {
    word: u64,
    table: u64,
    conductor: u32,
}

const FIRST: Node = Node {
    word: 1,
    table: 3,
    conductor: 2,
};

impl Node {
    /// The row of the table that begins at an element below the conductor: an entry for it and for each gap up to the next element.
    fn row(self, element: u32) -> u64 {
        let later = self.word >> element;
        (self.table >> element) & (later ^ (later + 1))
    }

    fn multiplicity(self) -> u32 {
        self.word.trailing_ones() + 1
    }

    /// The second positive element.
    fn second_element(self) -> u32 {
        let m = self.multiplicity();
        m + (self.word >> m).trailing_ones() + 1
    }

    /// Does the child at an offset have children, where `later` has the offsets after it? Row 1 tells it of the last one, where there is a row 1.
    fn goes_on(self, d: u32, later: u64) -> bool {
        let m = self.multiplicity();
        later != 0 || self.conductor <= m || self.row(m) >> d & 1 != 0
    }

    fn child(self, d: u32) -> Node {
        let mut table = self.table;
        if d != 0 {
            let (mut moved, mut done) = (self.word << 1, 1);
            while done < d - done {
                moved &= moved << done;
                done += done;
            }
            table &= moved & moved << (d - done);
        }
        let c = self.conductor + d;
        Node {
            word: self.word | 1 << (c - 1),
            table: table >> d >> 1 | 7 << (c - 2),
            conductor: c + 1,
        }
    }
}

fn ones(bits: u64) -> u64 {
    bits.count_ones() as u64
}

fn count(n: Node, left: u32) -> u64 {
    let mut row = n.row(0);
    if left == 1 {
        return ones(row);
    }
    let m = n.multiplicity();
    if left == 2 && m < n.conductor {
        let k = ones(row);
        return (k * k - k) / 2 + ones(row & n.row(m));
    }
    let a = n.second_element();
    if left == 3 && a < n.conductor {
        let k = ones(row);
        let pairs = (k * k - k) / 2;
        return (pairs * k - 2 * pairs) / 3 + ones(row & n.row(m)) * (k - 1) + ones(row & n.row(a) & n.table >> (a - m));
    }
    let mut sum = 0;
    while row != 0 {
        let d = row.trailing_zeros();
        row &= row - 1;
        if n.goes_on(d, row) {
            sum += count(n.child(d), left - 1);
        }
    }
    sum
}

/// The number of semigroups of a genus.
#[no_mangle]
pub extern "C" fn plain_count(genus: u32) -> u64 {
    if genus < 2 { 1 } else { count(FIRST, genus - 1) }
}

struct Sink<'a> {
    words: &'a mut [u64],
    used: usize,
    total: u64,
    mixed: u64,
}

impl Sink<'_> {
    /// The word with each of the bits; the buffer has 64 places or more.
    fn put(&mut self, word: u64, bits: u64) {
        if self.words.len() < self.used + 64 {
            self.flush();
        }
        let mut rest = bits;
        while rest != 0 {
            let later = rest & (rest - 1);
            self.words[self.used] = word | (rest ^ later);
            self.used += 1;
            rest = later;
        }
    }

    /// The words two levels below a word of multiplicity m with these generators not below its conductor, of which these are order-one seeds.
    fn put_pairs(&mut self, word: u64, m: u32, generators: u64, seeds: u64) {
        let mut rest = generators;
        while rest != 0 {
            let later = rest & (rest - 1);
            let e = rest ^ later;
            self.put(word | e, later | (seeds & e) << m);
            rest = later;
        }
    }

    fn flush(&mut self) {
        for &word in &self.words[..self.used] {
            self.mixed = self.mixed.wrapping_mul(31).wrapping_add(word);
        }
        self.total += self.used as u64;
        self.used = 0;
    }
}

fn walk(n: Node, left: u32, sink: &mut Sink) {
    let up = n.conductor - 1;
    let mut row = n.row(0);
    if left == 1 {
        return sink.put(n.word, row << up);
    }
    let m = n.multiplicity();
    if left == 2 && m < n.conductor {
        return sink.put_pairs(n.word, m, row << up, n.row(m) << up);
    }
    let a = n.second_element();
    if left == 3 && a < n.conductor {
        let (seeds, last) = (n.row(m) << up, n.row(a) << up);
        let mut rest = row << up;
        while rest != 0 {
            let later = rest & (rest - 1);
            let e = rest ^ later;
            sink.put_pairs(n.word | e, m, later | (seeds & e) << m, seeds | (last & e) << (a - m));
            rest = later;
        }
        return;
    }
    while row != 0 {
        let d = row.trailing_zeros();
        row &= row - 1;
        if n.goes_on(d, row) {
            walk(n.child(d), left - 1, sink);
        }
    }
}

/// All semigroups of a genus through a buffer of 64 places or more: how many, and a number mixed from their words in order.
#[no_mangle]
pub unsafe extern "C" fn plain_walk(genus: u32, words: *mut u64, length: usize, mixed: *mut u64) -> u64 {
    let mut sink = Sink {
        words: std::slice::from_raw_parts_mut(words, length),
        used: 0,
        total: 0,
        mixed: 0,
    };
    match genus {
        0 => sink.total = 1,
        1 => sink.put(0, 1),
        _ => walk(FIRST, genus - 1, &mut sink),
    }
    sink.flush();
    *mixed = sink.mixed;
    sink.total
}

/// What is told of a word, or the number of a refusal.
#[repr(C)]
pub struct Report {
    refused: u64,
    genus: u64,
    multiplicity: u64,
    conductor: u64,
    largest_gap: i64,
}

fn refused(refused: u64) -> Report {
    Report { refused, genus: 0, multiplicity: 0, conductor: 0, largest_gap: 0 }
}

/// Is no gap a sum of two positive elements? Every element is tried, up to the first that has such a sum.
fn closed(word: u64) -> bool {
    let elements = !word;
    (1..64).all(|a| elements >> (a - 1) & 1 == 0 || (elements << a) & word == 0)
}

#[no_mangle]
pub extern "C" fn plain_look(word: u64) -> Report {
    if word.count_ones() > 32 {
        return refused(1);
    }
    if !closed(word) {
        return refused(2);
    }
    let conductor = if word == 0 { 0 } else { 65 - word.leading_zeros() as u64 };
    Report {
        refused: 0,
        genus: word.count_ones() as u64,
        multiplicity: word.trailing_ones() as u64 + 1,
        conductor,
        largest_gap: conductor as i64 - 1,
    }
}
