//! Document 01's choosers to the letter, on any record and list: what those made by hand are held to. Hashes are the
//! original's.

use oracle::{prev, seq_builder, Told};

/// The largest n.
pub const LIMIT: u64 = 1 << 62;

/// "g(i, n) = i + prev of n−i under state mix(s xor i)"
fn g(state: u64, i: u64, n: u64) -> u64 {
    i + prev(seq_builder(state, i), n - i).unwrap()
}

/// "S(k, n) is b, the largest g(i, n) for i below k, with S(k−1, b)", ascending.
pub fn sample(state: u64, k: u64, n: u64) -> Vec<u64> {
    let mut sample = Vec::new();
    let mut b = n;
    for k in (1..=k).rev() {
        b = (0..k).map(|i| g(state, i, b)).max().unwrap();
        sample.push(b);
    }
    sample.reverse();
    sample
}

/// "The choice order Q(n) has as t-th number the member of S(t, n) that S(t−1, n) lacks", up to its t-th number.
pub fn choice_order(state: u64, n: u64, t: u64) -> Vec<u64> {
    let samples: Vec<_> = (0..=t.min(n)).map(|k| sample(state, k, n)).collect();
    samples
        .windows(2)
        .map(|two| *two[1].iter().find(|x| !two[0].contains(x)).unwrap())
        .collect()
}

/// A chooser's three words (state, n, k) and its list.
pub struct Memory {
    pub words: [u64; 3],
    pub list: Vec<u64>,
}

impl Memory {
    /// Refusal 12's test.
    pub fn fits(&self) -> bool {
        let [_, n, k] = self.words;
        let Some(samples) = self.list.get(..k as usize) else {
            return false;
        };
        samples.windows(2).all(|two| two[0] < two[1]) && samples.iter().all(|&x| x < n)
    }

    /// The samples, unless the record is refused.
    fn samples(&self) -> Told<Vec<u64>> {
        let [_, n, k] = self.words;
        if !self.fits() {
            return Err(12);
        }
        if n > LIMIT {
            return Err(1);
        }
        Ok(self.list[..k as usize].to_vec())
    }

    /// Leaves an n and samples.
    fn leave(&mut self, n: u64, samples: &[u64]) {
        self.list[..samples.len()].copy_from_slice(samples);
        self.words[1..].copy_from_slice(&[n, samples.len() as u64]);
    }

    /// "To lower from m: from the last sample (index i) down, while it is not below m, it becomes the larger of the sample
    /// before it, if any, and g(i, m), and m becomes that; the answer is the index above the first sample found below m, else
    /// 0."
    fn lowered(&self, samples: &mut [u64], mut m: u64) -> u64 {
        for i in (0..samples.len()).rev() {
            if samples[i] < m {
                return i as u64 + 1;
            }
            m = g(self.words[0], i as u64, m);
            if i > 0 {
                m = m.max(samples[i - 1]);
            }
            samples[i] = m;
        }
        0
    }

    /// "Grow appends g(k, n) and answers k if that is above the last sample or k is 0; else it lowers from the last, then
    /// appends the old last."
    pub fn grow_k(&mut self) -> Told<u64> {
        let mut samples = self.samples()?;
        let [state, n, k] = self.words;
        if k == n {
            return Err(6);
        }
        if k as usize == self.list.len() {
            return Err(4);
        }
        let new = g(state, k, n);
        let (index, last) = match samples.last() {
            Some(&last) if new <= last => (self.lowered(&mut samples, last), last),
            _ => (k, new),
        };
        samples.push(last);
        self.leave(n, &samples);
        Ok(index)
    }

    /// "6 grow with k = n (the iterator says none)"
    pub fn next_number(&mut self) -> Told<Option<u64>> {
        match self.grow_k() {
            Err(6) => Ok(None),
            said => said.map(|index| Some(self.list[index as usize])),
        }
    }

    /// "Shrink sets n to the last sample and lowers from it."
    pub fn shrink_n(&mut self) -> Told<u64> {
        let mut samples = self.samples()?;
        let [_, n, k] = self.words;
        if k == 0 || n <= k || samples.iter().copied().eq(0..k) {
            return Err(5);
        }
        let last = samples[k as usize - 1];
        let index = self.lowered(&mut samples, last);
        self.leave(last, &samples);
        Ok(index)
    }
}
