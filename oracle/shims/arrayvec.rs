//! A short list, for the crate's motion vectors, which nothing here runs.

pub struct ArrayVec<T, const N: usize>(Vec<T>);

impl<T, const N: usize> ArrayVec<T, N> {
    #[allow(clippy::new_without_default)]
    pub fn new() -> Self {
        ArrayVec(Vec::new())
    }
    pub fn push(&mut self, value: T) {
        self.0.push(value);
    }
    pub fn extend<I: Iterator<Item = T>>(&mut self, items: I) {
        self.0.extend(items);
    }
    pub fn iter(&self) -> std::slice::Iter<'_, T> {
        self.0.iter()
    }
}
