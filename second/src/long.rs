//! The same answers for long rings, by methods that are neither the library's nor the definitions read literally:
//! ranks by doubling, a stack of Lyndon words, borders, and Booth's failure table.

/// The rank of each position's word, where words of 2^k letters are ranked from words of half that length.
/// With `round` the words go on round the ring; without, they end at the last letter and a proper prefix comes first.
fn ranks(word: &[u8], round: bool) -> Vec<usize> {
    let n = word.len();
    let mut rank: Vec<usize> = word.iter().map(|&letter| letter as usize + 1).collect();
    let mut size = 1;
    while size < n {
        let pair = |i: usize| {
            let behind = match (i + size < n, round) {
                (true, _) => rank[i + size],
                (false, true) => rank[(i + size) % n],
                (false, false) => 0,
            };
            (rank[i], behind)
        };
        let mut order: Vec<((usize, usize), usize)> = (0..n).map(|i| (pair(i), i)).collect();
        order.sort_unstable();
        let mut next = vec![1; n];
        for two in order.windows(2) {
            let grown = (two[1].0 != two[0].0) as usize;
            next[two[1].1] = next[two[0].1] + grown;
        }
        let most = next[order[n - 1].1];
        rank = next;
        if most == n {
            break;
        }
        size *= 2;
    }
    rank
}

/// The first position of lowest rank, of words of at least n letters round the ring.
pub fn start(ring: &[u8]) -> usize {
    let rank = ranks(ring, true);
    let least = *rank.iter().min().unwrap();
    rank.iter().position(|&r| r == least).unwrap()
}

/// A factor begins where a suffix is less than every suffix before it.
pub fn factors(word: &[u8]) -> Vec<usize> {
    let rank = ranks(word, false);
    let mut least = usize::MAX;
    let mut table = Vec::new();
    for (i, &r) in rank.iter().enumerate() {
        if r < least {
            least = r;
            table.push(i);
        }
    }
    table
}

/// The least suffix of each prefix: a stack of Lyndon words, the last two joined while the first of them is the less.
pub fn suffixes(word: &[u8]) -> Vec<usize> {
    let mut heads: Vec<usize> = Vec::new();
    let mut table = Vec::with_capacity(word.len());
    for end in 1..=word.len() {
        heads.push(end - 1);
        while let [.., first, second] = heads[..] {
            if word[first..second] < word[second..end] {
                heads.pop();
            } else {
                break;
            }
        }
        table.push(*heads.last().unwrap());
    }
    table
}

/// The length less the longest proper border, where that divides the length; else the length.
pub fn repeat(ring: &[u8]) -> usize {
    let n = ring.len();
    let mut border = vec![0; n];
    let mut k = 0;
    for i in 1..n {
        while k > 0 && ring[i] != ring[k] {
            k = border[k - 1];
        }
        if ring[i] == ring[k] {
            k += 1;
        }
        border[i] = k;
    }
    let period = n - border[n - 1];
    if n % period == 0 {
        period
    } else {
        n
    }
}

/// Booth's least reading; `failure` is room for twice the letters.
pub fn booth(ring: &[u8], failure: &mut [i32]) -> usize {
    let n = ring.len();
    let at = |i: usize| ring[if i < n { i } else { i - n }];
    failure[..2 * n].fill(-1);
    let mut k = 0usize;
    for j in 1..2 * n {
        let letter = at(j);
        let mut i = failure[j - k - 1];
        while i != -1 && letter != at(k + i as usize + 1) {
            if letter < at(k + i as usize + 1) {
                k = j - i as usize - 1;
            }
            i = failure[i as usize];
        }
        if i == -1 && letter != at(k) {
            if letter < at(k) {
                k = j;
            }
            failure[j - k] = -1;
        } else {
            failure[j - k] = i + 1;
        }
    }
    k
}

/// The start of the ring made of each prefix, one after another.
pub fn starts(word: &[u8]) -> Vec<usize> {
    let mut failure = vec![0; 2 * word.len()];
    (1..=word.len()).map(|size| booth(&word[..size], &mut failure) % size).collect()
}
