//! The guard of inline HTML.

#[derive(Clone, Debug, Default)]
pub struct HtmlScanGuard {
    pub cdata: usize,
    pub processing: usize,
    pub declaration: usize,
    pub comment: usize,
}
