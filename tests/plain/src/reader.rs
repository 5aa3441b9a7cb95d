//! Words and figures of a text. The line feed belongs to the last word of a
//! line, so nobody looks for the end of a line.

/// The part of a text that is not yet read.
#[derive(Clone, Copy)]
pub struct Reader<'a> {
    rest: &'a [u8],
}

impl<'a> Reader<'a> {
    pub fn new(text: &'a [u8]) -> Reader<'a> {
        Reader { rest: text }
    }

    pub fn at_end(&self) -> bool {
        self.rest.is_empty()
    }

    /// The word, or nothing.
    #[inline(always)]
    pub fn word<const M: usize>(&mut self, word: &[u8; M]) -> Option<()> {
        let (head, rest) = self.rest.split_first_chunk::<M>()?;
        if head != word {
            return None;
        }
        self.rest = rest;
        Some(())
    }

    /// The next byte.
    #[inline(always)]
    pub fn byte(&mut self) -> Option<u8> {
        let (&byte, rest) = self.rest.split_first()?;
        self.rest = rest;
        Some(byte)
    }

    /// A figure of at most 5 digits without a leading zero. A digit more is
    /// left, and the word that is due after the figure does not begin with
    /// one.
    #[inline(always)]
    pub fn figure(&mut self) -> Option<u32> {
        let mut value = digit(self.byte()?)?;
        if value == 0 {
            return Some(0);
        }
        for _ in 0..4 {
            let Some((&byte, rest)) = self.rest.split_first() else {
                break;
            };
            let Some(next) = digit(byte) else {
                break;
            };
            value = 10 * value + next;
            self.rest = rest;
        }
        Some(value)
    }

    /// A figure and the word after it.
    #[inline(always)]
    pub fn figure_then<const M: usize>(&mut self, word: &[u8; M]) -> Option<u32> {
        let value = self.figure()?;
        self.word(word)?;
        Some(value)
    }

    /// A label: 1 for `h`, 2 for `v`, 3 for `b`.
    #[inline(always)]
    pub fn label(&mut self) -> Option<u8> {
        match self.byte()? {
            b'h' => Some(1),
            b'v' => Some(2),
            b'b' => Some(3),
            _ => None,
        }
    }
}

#[inline(always)]
fn digit(byte: u8) -> Option<u32> {
    let value = byte.wrapping_sub(b'0');
    (value < 10).then_some(u32::from(value))
}
