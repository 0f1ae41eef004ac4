//! Stands in for the crate of this name: a budget of two sizes. Nothing that is compared comes here.
pub struct Budget {
    pub bottom_bytes: usize,
    pub top_bytes: usize,
}

impl Budget {
    pub fn new(bottom_bytes: usize, top_bytes: usize) -> Self {
        Budget {
            bottom_bytes,
            top_bytes,
        }
    }

    pub fn total(&self) -> usize {
        self.bottom_bytes + self.top_bytes
    }
}
