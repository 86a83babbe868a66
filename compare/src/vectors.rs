//! Fixed vectors: calls of the library's functions, and what must come of them by the readings of this package, in a flat
//! file that `crates/runs_vectors` replays.
//!
//! A vector begins with 25 words, little endian: the function; a number that it is given (a version, a choice, a length, a
//! row); the upper and the lower half of its answer; the lengths of three inputs; and for each of six buffers that it is
//! lent how long it is, how much of it is written, and how much written or cleared. What is not used is 0. The inputs follow,
//! then what is written to each buffer. Before the call every byte that is lent is 165; the length of an area is counted in
//! its elements.

pub mod resolved;

use std::collections::BTreeMap;

/// What a buffer is filled with, to see which of its bytes were changed.
pub const FILLED: u8 = 0xa5;

const WORDS: usize = 25;
const INPUTS: usize = 3;
const LENT: usize = 6;

/// The functions by their numbers in the file.
#[derive(Clone, Copy, PartialEq, Eq, PartialOrd, Ord, Debug)]
pub enum Function {
    Resolve,
    ResolveTold,
    ResolveWith,
    Convert,
    Moved,
    Sheet,
    Check,
    Compare,
    Unresolve,
    Mend,
    Member,
    Meant,
    Share,
    Batch,
}

/// A buffer that is lent, after the call: its first bytes are these, those up to `cleared` zero, and later ones as they were.
pub struct Lent {
    length: usize,
    written: Vec<u8>,
    cleared: usize,
}

impl Lent {
    /// A buffer that then holds this.
    pub fn holding(content: &[u8]) -> Lent {
        let changed = content.iter().rposition(|byte| *byte != FILLED).map_or(0, |last| last + 1);
        let written = content[..changed].iter().rposition(|byte| *byte != 0).map_or(0, |last| last + 1);
        Lent { length: content.len(), written: content[..written].to_vec(), cleared: changed }
    }

    /// A buffer of `length` elements, to whose front these bytes are written.
    pub fn written(length: usize, bytes: Vec<u8>) -> Lent {
        Lent { length, cleared: bytes.len(), written: bytes }
    }

    /// An area of `length` elements, which is then zero up to this size.
    pub fn cleared(length: usize, size: usize) -> Lent {
        Lent { length, written: Vec::new(), cleared: length.min(size) }
    }
}

/// A call, and what must come of it.
pub struct Vector {
    pub function: Function,
    pub number: u32,
    pub answer: u64,
    pub inputs: Vec<Vec<u8>>,
    pub lent: Vec<Lent>,
}

impl Vector {
    fn append_to(&self, bytes: &mut Vec<u8>) {
        let mut words = vec![self.function as u32, self.number, (self.answer >> 32) as u32, self.answer as u32];
        words.extend(self.inputs.iter().map(|input| input.len() as u32));
        words.resize(4 + INPUTS, 0);
        for lent in &self.lent {
            words.extend([lent.length, lent.written.len(), lent.cleared].map(|length| length as u32));
        }
        words.resize(4 + INPUTS + 3 * LENT, 0);
        bytes.extend(words.into_iter().flat_map(u32::to_le_bytes));
        bytes.extend(self.inputs.iter().flatten());
        bytes.extend(self.lent.iter().flat_map(|lent| &lent.written));
    }
}

/// The bytes of the vectors of a function in a file, one by one.
fn of_function(mut bytes: &[u8], function: Function) -> Vec<&[u8]> {
    let mut all = Vec::new();
    while !bytes.is_empty() {
        let word = |at: usize| word(bytes, at);
        let inputs: usize = (4..4 + INPUTS).map(word).sum();
        let written: usize = (0..LENT).map(|at| word(4 + INPUTS + 3 * at + 1)).sum();
        let (vector, rest) = bytes.split_at(4 * WORDS + inputs + written);
        if word(0) == function as usize {
            all.push(vector);
        }
        bytes = rest;
    }
    all
}

/// A word of a vector.
fn word(vector: &[u8], at: usize) -> usize {
    u32::from_le_bytes(vector[4 * at..4 * at + 4].try_into().expect("four bytes")) as usize
}

/// Vectors, and how many of them show each kind of thing.
#[derive(Default)]
pub struct Sample {
    kinds: BTreeMap<(Function, String), usize>,
    bytes: Vec<u8>,
}

impl Sample {
    /// Takes a vector that shows these kinds of things, if one of them is shown by fewer than `most` so far.
    pub fn offer<K: Into<String>>(&mut self, kinds: impl IntoIterator<Item = K>, most: usize, vector: &Vector) {
        let kinds: Vec<_> = kinds.into_iter().map(|kind| (vector.function, kind.into())).collect();
        if kinds.iter().all(|kind| self.kinds.get(kind).is_some_and(|shown| *shown >= most)) {
            return;
        }
        for kind in kinds {
            *self.kinds.entry(kind).or_default() += 1;
        }
        vector.append_to(&mut self.bytes);
    }

    /// How many there are of each function and kind.
    pub fn summary(&self) -> String {
        self.kinds.iter().map(|((function, kind), shown)| format!("{function:?}, {kind}: {shown}\n")).collect()
    }

    pub fn bytes(&self) -> &[u8] {
        &self.bytes
    }
}

/// What an answer is counted as.
pub fn said(answer: u64) -> String {
    match answer >> 32 {
        0 => "accepted".to_string(),
        number => format!("refused with {number}"),
    }
}
