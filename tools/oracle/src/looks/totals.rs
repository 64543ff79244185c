//! The looks of many listings, beside the blocks of their ranges (B) and the edges of their records (E).

/// "For E edges in the record and B blocks in the range it is at most 5 × B × E."
const MOST: usize = 5;

#[derive(Default)]
pub struct Totals {
    pub looks: usize,
    /// The sum of B × E.
    pub products: usize,
    /// The most looks of a listing.
    pub most: usize,
    /// The most looks for each of B × E, with B and E where they were met.
    pub ratio: f64,
    pub met: [usize; 2],
}

impl Totals {
    /// Adds a listing; more looks than the request allows are an error.
    pub fn add(&mut self, looks: usize, blocks: usize, edges: usize) -> Result<(), String> {
        let product = blocks * edges;
        if looks > MOST * product {
            return Err(format!("{looks} looks are more than {MOST} × {blocks} × {edges}"));
        }
        self.looks += looks;
        self.products += product;
        self.most = self.most.max(looks);
        let ratio = looks as f64 / product.max(1) as f64;
        if ratio > self.ratio {
            self.ratio = ratio;
            self.met = [blocks, edges];
        }
        Ok(())
    }
}
