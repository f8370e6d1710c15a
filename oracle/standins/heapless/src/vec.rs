use core::fmt;
use core::mem::MaybeUninit;

/// Up to `N` elements in place. Storage that holds no element is left as it is, never cleared.
pub struct Vec<T, const N: usize> {
    len: usize,
    places: [MaybeUninit<T>; N],
}

impl<T: Copy, const N: usize> Default for Vec<T, N> {
    fn default() -> Self {
        Self::new()
    }
}

impl<T: Copy, const N: usize> Vec<T, N> {
    pub const fn new() -> Self {
        Self { len: 0, places: [const { MaybeUninit::uninit() }; N] }
    }

    pub fn len(&self) -> usize {
        self.len
    }

    pub fn is_empty(&self) -> bool {
        self.len == 0
    }

    pub fn clear(&mut self) {
        self.len = 0;
    }

    pub fn as_slice(&self) -> &[T] {
        // SAFETY: the first `len` places are filled, as `extend_from_slice` alone raises `len`.
        unsafe { core::slice::from_raw_parts(self.places.as_ptr().cast(), self.len) }
    }

    /// Appends all, or refuses and changes nothing.
    pub fn extend_from_slice(&mut self, more: &[T]) -> Result<(), ()> {
        let places = self.places[self.len..].get_mut(..more.len()).ok_or(())?;
        // SAFETY: `places` has `more.len()` places and is borrowed apart from `more`.
        unsafe { core::ptr::copy_nonoverlapping(more.as_ptr(), places.as_mut_ptr().cast(), more.len()) };
        self.len += more.len();
        Ok(())
    }
}

impl<T: Copy + fmt::Debug, const N: usize> fmt::Debug for Vec<T, N> {
    fn fmt(&self, f: &mut fmt::Formatter<'_>) -> fmt::Result {
        self.as_slice().fmt(f)
    }
}
