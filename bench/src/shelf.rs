//! Room for a text and for what is written of it: each begins a page and stands behind the one before, wherever the whole lies. So a
//! number of instructions depends neither on the allocator nor on the machine.

pub const PAGE: usize = 4_096;

#[repr(C, align(4096))]
#[derive(Clone, Copy)]
pub struct Page([u8; PAGE]);

/// Pages that are still to be handed out.
pub struct Shelf<'a>(&'a mut [Page]);

/// Enough pages for any job on a text of so many bytes.
pub fn pages(length: usize) -> Vec<Page> {
    vec![Page([0; PAGE]); 16 * (length / PAGE + 1)]
}

/// Numbers, which any bytes are.
pub trait Number: Copy + PartialEq + 'static {}
impl Number for u8 {}
impl Number for u16 {}
impl Number for u32 {}

impl<'a> Shelf<'a> {
    pub fn new(pages: &'a mut [Page]) -> Shelf<'a> {
        Shelf(pages)
    }

    /// So many zeros from the next page on.
    pub fn take<T: Number>(&mut self, length: usize) -> &'a mut [T] {
        let pages = (length * size_of::<T>()).div_ceil(PAGE);
        let (taken, left) = std::mem::take(&mut self.0).split_at_mut(pages);
        self.0 = left;
        // SAFETY: a page is bytes alone, and any bytes are numbers.
        let (_, numbers, _) = unsafe { taken.align_to_mut() };
        &mut numbers[..length]
    }

    /// A copy from the next page on.
    pub fn put<T: Number>(&mut self, text: &[T]) -> &'a [T] {
        let copy = self.take(text.len());
        copy.copy_from_slice(text);
        copy
    }
}
