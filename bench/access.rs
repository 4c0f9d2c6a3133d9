//! Reading and writing a list at a place, with a check of the place or without: the hot loops in plain Rust are compiled both ways.

pub trait Access {
    fn get<T: Copy>(list: &[T], place: usize) -> T;
    fn put<T>(list: &mut [T], place: usize, value: T);
}

/// Safe Rust.
pub struct Checked;

/// For the benchmark only: it runs the same loops on the same arguments with checks first, so no place is outside its list.
pub struct Unchecked;

impl Access for Checked {
    #[inline(always)]
    fn get<T: Copy>(list: &[T], place: usize) -> T {
        list[place]
    }

    #[inline(always)]
    fn put<T>(list: &mut [T], place: usize, value: T) {
        list[place] = value;
    }
}

impl Access for Unchecked {
    #[inline(always)]
    fn get<T: Copy>(list: &[T], place: usize) -> T {
        // SAFETY: the same place was checked before.
        unsafe { *list.get_unchecked(place) }
    }

    #[inline(always)]
    fn put<T>(list: &mut [T], place: usize, value: T) {
        // SAFETY: the same place was checked before.
        unsafe { *list.get_unchecked_mut(place) = value }
    }
}
