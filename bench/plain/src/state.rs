//! States: which facts hold.

/// The fact is not below the state's size: question 24.
#[derive(Debug, PartialEq, Eq)]
pub struct FactBeyond;

pub trait State {
    fn size(&self) -> u16;

    /// Whether the fact holds; `None` where it is not below the size.
    fn get(&self, fact: u16) -> Option<bool>;

    fn set(&mut self, fact: u16, value: bool) -> Result<(), FactBeyond>;
}

/// 256 facts, a bit each.
#[derive(Default)]
pub struct BitState {
    words: [u64; 4],
}

impl State for BitState {
    fn size(&self) -> u16 {
        256
    }

    fn get(&self, fact: u16) -> Option<bool> {
        let word = self.words.get(usize::from(fact / 64))?;
        Some(word >> (fact % 64) & 1 == 1)
    }

    fn set(&mut self, fact: u16, value: bool) -> Result<(), FactBeyond> {
        let word = self
            .words
            .get_mut(usize::from(fact / 64))
            .ok_or(FactBeyond)?;
        let bit = 1 << (fact % 64);
        if value {
            *word |= bit;
        } else {
            *word &= !bit;
        }
        Ok(())
    }
}
