//! Shards: equal parts of all files, each of which a machine or a process of its own takes.

use std::error::Error;
use std::fmt;
use std::io::{self, Read, Seek, SeekFrom};
use std::str::FromStr;

/// How many bytes at the beginning and at the end of a file decide its shard. To read all of each file would take
/// each of the machines as long as all of them.
const END: u64 = 4096;

/// An odd number whose bits are spread: 2^64 divided by the golden ratio.
const MULTIPLIER: u64 = 0x9e37_79b9_7f4a_7c15;

/// One of N parts of all files. Each content is in exactly one of them, wherever the file is and whatever it is called.
#[derive(Clone, Copy, Debug, PartialEq, Eq)]
pub struct Shard {
    /// Which one it is, from 1 on.
    number: u32,
    /// How many there are.
    count: u32,
}

/// A text names no shard.
#[derive(Clone, Copy, Debug, PartialEq, Eq)]
pub struct ShardError;

impl Shard {
    /// Whether a content of `size` bytes is in this part.
    ///
    /// # Errors
    ///
    /// Those of reading.
    pub fn has(&self, mut content: impl Read + Seek, size: u64) -> io::Result<bool> {
        let mut ends = size.to_le_bytes().to_vec();
        content.by_ref().take(END).read_to_end(&mut ends)?;
        content.seek(SeekFrom::Start(size.saturating_sub(END)))?;
        content.by_ref().take(END).read_to_end(&mut ends)?;
        Ok(mark_of_bytes(&ends) % u64::from(self.count) == u64::from(self.number - 1))
    }
}

/// A number that spreads contents evenly over shards. Each of these looks at all files, so a SHA-256 of the same bytes
/// would take 64 shards a tenth of the time of all the work.
fn mark_of_bytes(bytes: &[u8]) -> u64 {
    let mixed = |mark: u64, word: u64| {
        let product = (mark ^ word).wrapping_mul(MULTIPLIER);
        product ^ product >> 32
    };
    let word = |bytes: &[u8]| bytes.iter().rev().fold(0, |word, byte| word << 8 | u64::from(*byte));
    bytes.chunks(8).map(word).chain([bytes.len() as u64]).fold(0, mixed)
}

impl FromStr for Shard {
    type Err = ShardError;

    /// Reads `K/N`, where K is from 1 to N.
    fn from_str(text: &str) -> Result<Shard, ShardError> {
        let (number, count) = text.split_once('/').ok_or(ShardError)?;
        let number = number.parse().map_err(|_| ShardError)?;
        let count = count.parse().map_err(|_| ShardError)?;
        if number == 0 || number > count {
            return Err(ShardError);
        }
        Ok(Shard { number, count })
    }
}

impl fmt::Display for ShardError {
    fn fmt(&self, f: &mut fmt::Formatter<'_>) -> fmt::Result {
        f.write_str("a shard is K/N, with K from 1 to N, such as 2/8")
    }
}

impl Error for ShardError {}

#[cfg(test)]
mod tests {
    use super::{Shard, ShardError};
    use std::io::Cursor;

    #[test]
    fn each_content_is_in_exactly_one_shard() {
        let shards: Vec<Shard> = (1..=7).map(|number| format!("{}/7", number).parse().unwrap()).collect();
        let mut sizes = [0; 7];
        for number in 0..500_u32 {
            let content = number.to_le_bytes().repeat(number as usize % 5_000 + 1);
            let has = |shard: &Shard| shard.has(Cursor::new(&content), content.len() as u64).unwrap();
            let holders: Vec<_> = (0..7).filter(|index| has(&shards[*index])).collect();
            assert_eq!(holders.len(), 1);
            sizes[holders[0]] += 1;
        }
        // 500 contents in 7 shards: 71 each, and seven times the standard deviation of 8 either way.
        assert!(sizes.iter().all(|size| (15..=127).contains(size)), "{:?}", sizes);
    }

    #[test]
    fn what_names_no_shard_is_refused() {
        for text in ["", "1", "0/3", "4/3", "1/0", "a/3", "1/3/3", "-1/3", "1/99999999999"] {
            assert_eq!(text.parse::<Shard>(), Err(ShardError), "{}", text);
        }
    }
}
