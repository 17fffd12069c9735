//! A frame rate. No rule reads it.

#[derive(Clone, Copy, Debug, PartialEq, Eq)]
pub struct Rational32(pub i32, pub i32);

impl Rational32 {
    pub fn recip(&self) -> Self {
        Rational32(self.1, self.0)
    }
}
