use std::borrow::Cow;
use std::fmt;

/// A text as a field of a probe: `N` is 8, 16, 24, 32, 40 or 48 bytes, and it counts as `N / 8` of a record's eight fields.
///
/// Zeros stand after its end. One that is longer is cut at a character's border, and full stops stand after that. Any bytes may stand in it, but readers take a
/// zero for its end. The trace's metadata says of it that it is a text, so that babeltrace2 prints `sql = "select .."`.
///
/// ```
/// use dspec::Text;
///
/// let short = Text::<16>::of("select 1");
/// assert!(short.is_whole() && short.as_bytes() == b"select 1");
/// let cut = Text::<8>::of("größer als acht");
/// assert!(!cut.is_whole());
/// assert_eq!(cut.to_string(), "größer");
/// assert_eq!(Text::<8>::of("1234567€").to_string(), "1234567.");
/// ```
#[derive(Clone, Copy, PartialEq, Eq, Hash)]
#[repr(align(8))]
pub struct Text<const N: usize>([u8; N]);

impl<const N: usize> Text<N> {
    /// The text, as far as it has room.
    #[must_use]
    #[inline]
    pub fn of(text: &str) -> Text<N> {
        Text::of_bytes(text.as_bytes())
    }

    /// These bytes, as far as they have room; of UTF-8 up to a character's border.
    #[must_use]
    #[inline]
    pub fn of_bytes(bytes: &[u8]) -> Text<N> {
        let mut all = [0; N];
        if bytes.len() > N {
            fill(&mut all, bytes);
        } else {
            all[..bytes.len()].copy_from_slice(bytes);
        }
        Text(all)
    }

    /// The bytes in front of its first zero, or all.
    #[must_use]
    pub fn as_bytes(&self) -> &[u8] {
        let end = self.0.iter().position(|&byte| byte == 0).unwrap_or(N);
        &self.0[..end]
    }

    /// These as a text; what is no UTF-8 is shown by U+FFFD.
    #[must_use]
    pub fn to_string_lossy(&self) -> Cow<'_, str> {
        String::from_utf8_lossy(self.as_bytes())
    }

    /// Whether nothing of it was cut; false of one that fills it too, which isn't told from one that was cut.
    #[must_use]
    pub fn is_whole(&self) -> bool {
        self.0.last() == Some(&0)
    }

    #[inline]
    pub(crate) fn words(&self) -> impl Iterator<Item = u64> + '_ {
        self.0.chunks_exact(8).map(|word| word.iter().rev().fold(0, |all, &byte| all << 8 | u64::from(byte)))
    }

    pub(crate) fn of_words(words: &[u64]) -> Text<N> {
        let mut all = [0; N];
        for (bytes, word) in all.chunks_exact_mut(8).zip(words) {
            bytes.copy_from_slice(&word.to_le_bytes());
        }
        Text(all)
    }
}

/// Puts a longer text: up to a character's border, and full stops after that.
#[cold]
fn fill(all: &mut [u8], bytes: &[u8]) {
    let most = all.len();
    let is_border = |&at: &usize| bytes[at] & 0xc0 != 0x80;
    let cut = (most.saturating_sub(3)..=most).rev().find(is_border).unwrap_or(most);
    all[..cut].copy_from_slice(&bytes[..cut]);
    all[cut..].fill(b'.');
}

impl<const N: usize> Default for Text<N> {
    fn default() -> Text<N> {
        Text([0; N])
    }
}

impl<const N: usize> From<&str> for Text<N> {
    #[inline]
    fn from(text: &str) -> Text<N> {
        Text::of(text)
    }
}

impl<const N: usize> fmt::Display for Text<N> {
    fn fmt(&self, f: &mut fmt::Formatter<'_>) -> fmt::Result {
        f.pad(&self.to_string_lossy())
    }
}

impl<const N: usize> fmt::Debug for Text<N> {
    fn fmt(&self, f: &mut fmt::Formatter<'_>) -> fmt::Result {
        fmt::Debug::fmt(&*self.to_string_lossy(), f)
    }
}
