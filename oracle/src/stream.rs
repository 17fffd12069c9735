//! The cases as a stream of 64-bit words, the lowest byte first. A record is its kind, the number of words that follow, and
//! those words. Bytes, 16-bit and 32-bit numbers are packed into words, the rest of the last word 0.
use std::io::{BufWriter, Stdout, Write, stdout};

pub use crate::kind::Kind;
use crate::paper::Paper;

pub struct Stream {
    out: BufWriter<Stdout>,
    words: Vec<u64>,
    pub records: u64,
    /// Where the records go in place of the stream.
    paper: Option<Paper>,
}

impl Stream {
    pub fn new() -> Self {
        Stream { out: BufWriter::with_capacity(1 << 18, stdout()), words: Vec::new(), records: 0, paper: None }
    }

    /// The records as the fixed list.
    pub fn listed() -> Self {
        Stream { paper: Some(Paper::new()), ..Stream::new() }
    }

    pub fn word(&mut self, w: u64) -> &mut Self {
        self.words.push(w);
        self
    }

    pub fn answer(&mut self, a: i64) -> &mut Self {
        self.word(a as u64)
    }

    pub fn words(&mut self, list: &[u64]) -> &mut Self {
        self.words.extend_from_slice(list);
        self
    }

    /// Words with their number before them.
    pub fn list(&mut self, list: &[u64]) -> &mut Self {
        self.word(list.len() as u64).words(list)
    }

    pub fn real(&mut self, x: f64) -> &mut Self {
        self.word(x.to_bits())
    }

    /// A list of reals with its length before it.
    pub fn reals(&mut self, list: &[f64]) -> &mut Self {
        self.word(list.len() as u64);
        self.words.extend(list.iter().map(|x| x.to_bits()));
        self
    }

    /// Bytes with their number before them.
    pub fn bytes(&mut self, list: &[u8]) -> &mut Self {
        self.word(list.len() as u64);
        for chunk in list.chunks(8) {
            let mut w = [0u8; 8];
            w[..chunk.len()].copy_from_slice(chunk);
            self.words.push(u64::from_le_bytes(w));
        }
        self
    }

    /// Numbers of 16 bits with their number before them.
    pub fn quarters(&mut self, list: &[u16]) -> &mut Self {
        self.word(list.len() as u64);
        for four in list.chunks(4) {
            self.words.push(four.iter().rev().fold(0, |w, &x| w << 16 | u64::from(x)));
        }
        self
    }

    /// Numbers of 32 bits with their number before them.
    pub fn halves(&mut self, list: &[u32]) -> &mut Self {
        self.word(list.len() as u64);
        for pair in list.chunks(2) {
            let high = pair.get(1).copied().unwrap_or(0);
            self.words.push(u64::from(pair[0]) | u64::from(high) << 32);
        }
        self
    }

    /// Ends a record.
    pub fn end(&mut self, kind: Kind) {
        if let Some(paper) = &mut self.paper {
            paper.record(kind, &self.words);
        } else {
            let head = [kind as u64, self.words.len() as u64];
            for w in head.iter().chain(&self.words) {
                put(&mut self.out, &w.to_le_bytes());
            }
        }
        self.words.clear();
        self.records += 1;
    }

    pub fn finish(&mut self) {
        if let Some(paper) = &mut self.paper {
            put(&mut self.out, paper.finish().as_bytes());
        } else {
            let records = self.records;
            self.word(records).end(Kind::End);
        }
        if self.out.flush().is_err() {
            std::process::exit(3);
        }
    }
}

/// The reader is gone once it has found too much: there is nobody left to write for.
fn put(out: &mut BufWriter<Stdout>, bytes: &[u8]) {
    if out.write_all(bytes).is_err() {
        std::process::exit(3);
    }
}
