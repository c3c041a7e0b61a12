//! Fields drawn as pictures, against which many positions are held at once.

/// What may stand in each position: from `low` on, so many characters more.
pub struct Picture<const N: usize> {
    low: [u8; N],
    more: [u8; N],
}

impl<const N: usize> Picture<N> {
    /// 9 stands for any digit, 1 for 0 or 1, any other character for itself.
    pub const fn of(drawn: &[u8; N]) -> Self {
        let (mut low, mut more) = (*drawn, [0; N]);
        let mut at = 0;
        while at < N {
            if matches!(drawn[at], b'9' | b'1') {
                low[at] = b'0';
                more[at] = drawn[at] - b'0';
            }
            at += 1;
        }
        Picture { low, more }
    }

    /// No way out before the end, so that the bytes can be taken many at a time.
    #[inline(always)]
    pub fn shows(&self, bytes: &[u8; N]) -> bool {
        let bounds = self.low.iter().zip(&self.more);
        let beyond = bytes.iter().zip(bounds).map(|(byte, (low, more))| {
            let above = byte.wrapping_sub(*low);
            above.saturating_sub(*more)
        });
        beyond.fold(0, |any, beyond| any | beyond) == 0
    }
}
