//! STAND-IN: only `format_with`, used by Display of BlockPartition.
use std::cell::RefCell;
use std::fmt;
pub struct FormatWith<'a, I, F> {
    sep: &'a str,
    inner: RefCell<Option<(I, F)>>,
}
impl<I, F> fmt::Display for FormatWith<'_, I, F>
where
    I: Iterator,
    F: FnMut(I::Item, &mut dyn FnMut(&dyn fmt::Display) -> fmt::Result) -> fmt::Result,
{
    fn fmt(&self, f: &mut fmt::Formatter<'_>) -> fmt::Result {
        let (iter, mut format) = self.inner.borrow_mut().take().expect("FormatWith: was already formatted once");
        for (i, item) in iter.enumerate() {
            if i > 0 {
                f.write_str(self.sep)?;
            }
            format(item, &mut |d: &dyn fmt::Display| d.fmt(f))?;
        }
        Ok(())
    }
}
pub trait Itertools: Iterator + Sized {
    fn format_with<F>(self, sep: &str, format: F) -> FormatWith<'_, Self, F>
    where
        F: FnMut(Self::Item, &mut dyn FnMut(&dyn fmt::Display) -> fmt::Result) -> fmt::Result,
    {
        FormatWith { sep, inner: RefCell::new(Some((self, format))) }
    }
}
impl<I: Iterator> Itertools for I {}
