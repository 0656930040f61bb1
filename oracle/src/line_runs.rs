//! Random lines for the line program: calls as they may come, some refused, and lines of no known form among them.

use crate::line_faults::{filled, malformed_lines};
use crate::{Draws, LINE_SLOTS};

/// An open's line.
pub fn open_line(key: u64, k: u64, n: u64) -> String {
    format!("open\t{key:016x}\t{k}\t{n}")
}

/// What the next lines go by: how rare an open is, the last one's k, and how many terminals joined since, as if all had been
/// accepted.
struct Run<'a> {
    draws: &'a mut Draws,
    malformed: Vec<Vec<u8>>,
    rarity: u64,
    k: u64,
    joined: u64,
}

impl Run<'_> {
    fn one_in(&mut self, n: u64) -> bool {
        self.draws.below(n) == 0
    }

    /// Up to 2^30, small ones more often, now and then a layer's size.
    fn any_n(&mut self) -> u64 {
        let bits = self.draws.below(31);
        if self.one_in(4) {
            return 1 << (bits - bits % 2);
        }
        1 + self.draws.below(1 << bits)
    }

    /// k and n: k mostly up to 12, now and then past what the list holds; or what is refused by itself.
    fn any_open(&mut self) -> (u64, u64) {
        let n = self.any_n();
        let most = [9000, 500, 100, 12, 12, 12, 12, 12][self.draws.below(8) as usize];
        let k = 1 + self.draws.below(n.min(most));
        match self.draws.below(24) {
            0 => (0, n),
            1 => (n + 1, n),
            2 => (k, (1 << 30) + self.draws.below(3)),
            3 => (k, u64::from(u32::MAX)),
            _ => (k, n),
        }
    }

    fn open(&mut self) -> String {
        let (k, n) = self.any_open();
        if (1..=n).contains(&k) && n <= 1 << 30 {
            self.k = k;
            self.joined = 0;
        }
        let key = self.draws.next();
        if self.one_in(4) {
            return format!("open\t{key:016X}\t{k}\t{n}");
        }
        open_line(key, k, n)
    }

    fn join(&mut self) -> String {
        self.joined = (self.joined + 1).min(LINE_SLOTS as u64);
        "join".into()
    }

    /// Mostly of a slot that may be active.
    fn withdraw(&mut self) -> String {
        let slot = match self.draws.below(12) {
            0 => self.draws.below(1 << 32),
            1 => self.joined,
            2 => self.joined.saturating_sub(1),
            _ => self.draws.below(self.joined.max(1)),
        };
        if self.one_in(16) {
            return format!("withdraw\t{slot:010}");
        }
        format!("withdraw\t{slot}")
    }

    /// A plan, the rarer the longer it would be.
    fn plan(&mut self) -> String {
        let rarity = self.k / 8 + 1;
        if self.one_in(rarity) {
            return "plan".into();
        }
        self.join()
    }

    fn good(&mut self) -> Vec<u8> {
        let line = match self.draws.below(64) {
            _ if self.one_in(self.rarity) => self.open(),
            0..12 => "admit".into(),
            12..38 => self.join(),
            38..60 => self.withdraw(),
            _ => self.plan(),
        };
        line.into_bytes()
    }

    /// A good line with a byte out, in or other than it was.
    fn spoilt(&mut self) -> Vec<u8> {
        let mut line = self.good();
        let place = self.draws.below(line.len() as u64) as usize;
        let byte = self.draws.next() as u8;
        match self.draws.below(4) {
            0 => drop(line.remove(place)),
            1 => line.insert(place, byte),
            2 => line[place] = byte,
            _ => line[place] ^= 1 << (byte % 8),
        }
        line
    }

    fn bad(&mut self) -> Vec<u8> {
        match self.draws.below(8) {
            0 => {
                let bytes = self.draws.below(100);
                (0..bytes).map(|_| self.draws.next() as u8).collect()
            }
            1 => filled(
                b"join",
                self.draws.next() as u8,
                78 + self.draws.below(6) as usize,
            ),
            2..5 => self.spoilt(),
            _ => {
                let which = self.draws.below(self.malformed.len() as u64);
                self.malformed[which as usize].clone()
            }
        }
    }

    fn line(&mut self) -> Vec<u8> {
        if self.one_in(10) {
            return self.bad();
        }
        self.good()
    }
}

/// So many random lines, an open first but now and then.
pub fn any_lines(count: u64, draws: &mut Draws) -> Vec<u8> {
    let rarity = [16, 64, 1024][draws.below(3) as usize];
    let mut run = Run {
        draws,
        malformed: malformed_lines(),
        rarity,
        k: 1,
        joined: 0,
    };
    let mut input = Vec::new();
    if !run.one_in(8) {
        input.extend(run.open().into_bytes());
        input.push(b'\n');
    }
    for _ in 0..count {
        input.extend(run.line());
        input.push(b'\n');
    }
    input
}
