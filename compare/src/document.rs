//! Document 01's orders and reservoirs to the letter, on any record and list: what those made by hand are held to. Layers are
//! the original's.

use oracle::{layer_apply, Told};

/// The size of a layer.
pub fn size(j: u32) -> u32 {
    4 << (2 * j)
}

fn layer_of(n: u32) -> u32 {
    if n <= 1 {
        0
    } else {
        (n - 1).ilog2() / 2
    }
}

/// Whether the two top bits of an output are 00.
fn descends(j: u32, y: u32) -> bool {
    y >> (2 * j) == 0
}

fn key_of(words: &[u32]) -> u64 {
    u64::from(words[0]) + (u64::from(words[1]) << 32)
}

/// "The next number of layer j"; 12 where it meets a counter at its size.
fn number(key: u64, counters: &mut [u32], j: u32) -> Told<u32> {
    let counter = &mut counters[j as usize];
    if *counter == size(j) {
        return Err(12);
    }
    let y = layer_apply(j, key, *counter);
    *counter += 1;
    match descends(j, y) {
        false => Ok(y),
        true if j == 0 => Ok(0),
        true => number(key, counters, j - 1),
    }
}

/// The next of an order, given by its eighteen words.
pub fn order_next(words: &mut [u32; 18]) -> Told<Option<u32>> {
    let (key, n) = (key_of(words), words[2]);
    let mut counters = words[3..].to_vec();
    if (0..15).any(|j| counters[j as usize] > size(j)) {
        return Err(12);
    }
    if n > 1 << 30 {
        return Err(1);
    }
    if n == 0 {
        return Ok(None);
    }
    let top = layer_of(n);
    let mut found = None;
    while found.is_none() && counters[top as usize] < size(top) {
        found = Some(number(key, &mut counters, top)?).filter(|&x| x < n);
    }
    words[3..].copy_from_slice(&counters);
    Ok(found)
}

/// A reservoir's six words and its list.
pub struct Memory {
    pub words: [u32; 6],
    pub list: Vec<u32>,
}

impl Memory {
    /// The listed numbers, as far as the list goes.
    fn listed(&self) -> &[u32] {
        let used = self.words[5] as usize;
        &self.list[..used.min(self.list.len())]
    }

    /// Refusal 12's test.
    pub fn fits(&self) -> bool {
        let [_, _, k, n, j, used] = self.words;
        let listed = self.listed();
        (j <= 14 && 1 <= k && k <= n && n <= size(j) && used as usize <= self.list.len())
            && listed.iter().filter(|&&x| x < n).count() == k as usize
            && listed.iter().all(|&x| x < size(j))
            && listed.last().is_some_and(|&x| x < n)
    }

    fn fitting(&self) -> Told<()> {
        self.fits().then_some(()).ok_or(12)
    }

    /// "its Li(k) outputs become the list, the t-th such 00 output replaced by the t-th old entry"
    fn grown(&self, layer: u32) -> Vec<u32> {
        let mut old = self.listed().iter().copied().peekable();
        let mut x = 0;
        std::iter::from_fn(|| {
            old.peek()?;
            let y = layer_apply(layer, key_of(&self.words), x);
            x += 1;
            if descends(layer, y) {
                old.next()
            } else {
                Some(y)
            }
        })
        .collect()
    }

    /// Leaves a layer, an n and listed numbers, if the list holds them.
    fn leave(&mut self, j: u32, n: u32, listed: &[u32]) -> Told<()> {
        let place = self.list.get_mut(..listed.len()).ok_or(4u32)?;
        place.copy_from_slice(listed);
        self.words[3..].copy_from_slice(&[n, j, listed.len() as u32]);
        Ok(())
    }

    /// Admit: the number that comes in and the one that goes out, or none.
    pub fn admit(&mut self) -> Told<Option<(u32, u32)>> {
        self.fitting()?;
        let [_, _, k, n, mut j, used] = self.words;
        let mut listed = self.listed().to_vec();
        if used == k {
            let mut layers = (j + 1..15).map(|i| (i, self.grown(i)));
            let Some((i, grown)) = layers.find(|(_, grown)| grown.len() > k as usize) else {
                self.words[4] = 14;
                return Ok(None);
            };
            (j, listed) = (i, grown);
        }
        let went = listed.pop().unwrap();
        let came = *listed.iter().filter(|&&x| n <= x).min().unwrap();
        while listed.len() > k as usize && listed.last().is_some_and(|&x| came < x) {
            listed.pop();
        }
        self.leave(j, came + 1, &listed)?;
        Ok(Some((came, went)))
    }

    pub fn grow_layer(&mut self) -> Told<()> {
        self.fitting()?;
        let [_, _, k, n, j, used] = self.words;
        if used > k {
            return Err(7);
        }
        if j == 14 {
            return Err(8);
        }
        self.leave(j + 1, n, &self.grown(j + 1))
    }

    /// The sample, into the first k places of another list.
    pub fn sample(&self, out: &mut [u32]) -> Told<()> {
        self.fitting()?;
        let [_, _, k, n, ..] = self.words;
        let place = out.get_mut(..k as usize).ok_or(4u32)?;
        let below = self.listed().iter().filter(|&&x| x < n);
        place.iter_mut().zip(below).for_each(|(to, &x)| *to = x);
        Ok(())
    }
}
