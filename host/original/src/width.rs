/// Stands in for the trait of `unicode_width`, so that `geom.rs` compiles.
pub trait UnicodeWidthChar {
    fn width(self) -> Option<usize>;
}

impl UnicodeWidthChar for char {
    /// Only `Selection::row_span_on` measures, which document 01 leaves out.
    fn width(self) -> Option<usize> {
        unreachable!("the table of widths is not at hand")
    }
}
