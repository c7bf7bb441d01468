//! The calls as C sees them; `figpliers.h` says what each does.

#[repr(C)]
#[derive(Clone, Copy, Debug, Default)]
pub struct FigReport {
    pub length: usize,
    pub errors: u64,
    pub at: u64,
    pub quirks: u8,
    pub plain: u8,
}

#[repr(C)]
#[derive(Clone, Copy, Debug, Default)]
pub struct FigCleaned {
    pub length: usize,
    pub at: u64,
    pub unwrapped: u64,
    pub dropped: u64,
    pub attributes: u64,
    pub comments: u64,
}

#[repr(C)]
#[derive(Clone, Copy, Debug, Default)]
pub struct FigDecoded {
    pub length: usize,
    pub errors: u64,
    pub at: u64,
    pub encoding: u8,
    pub why: u8,
}

pub type Call<R> = unsafe extern "C" fn(*const u8, usize, *mut u8, usize, *mut R) -> u32;
pub type CallWith<R> = unsafe extern "C" fn(*const u8, usize, *const u8, usize, *mut u8, usize, *mut R) -> u32;
pub type CallOfNode = unsafe extern "C" fn(*const u8, usize, u32, *mut u8, usize, *mut FigReport) -> u32;

extern "C" {
    pub fn fig_normalise(page: *const u8, page_length: usize, output: *mut u8, room: usize, report: *mut FigReport) -> u32;
    pub fn fig_normalise_with(
        table: *const u8, table_length: usize, page: *const u8, page_length: usize, output: *mut u8, room: usize, report: *mut FigReport,
    ) -> u32;
    pub fn fig_tree(page: *const u8, page_length: usize, output: *mut u8, room: usize, report: *mut FigReport) -> u32;
    pub fn fig_tree_with(
        table: *const u8, table_length: usize, page: *const u8, page_length: usize, output: *mut u8, room: usize, report: *mut FigReport,
    ) -> u32;
    pub fn fig_placed_tree(page: *const u8, page_length: usize, output: *mut u8, room: usize, report: *mut FigReport) -> u32;
    pub fn fig_fragment_tree(
        context: *const u8, context_length: usize, page: *const u8, page_length: usize, output: *mut u8, room: usize,
        report: *mut FigReport,
    ) -> u32;
    pub fn fig_select(
        selector: *const u8, selector_length: usize, image: *const u8, image_length: usize, node: u32, output: *mut u8, room: usize,
        report: *mut FigReport,
    ) -> u32;
    pub fn fig_errors(page: *const u8, page_length: usize, output: *mut u8, room: usize, report: *mut FigReport) -> u32;
    pub fn fig_decode(
        label: *const u8, label_length: usize, page: *const u8, page_length: usize, output: *mut u8, room: usize, report: *mut FigDecoded,
    ) -> u32;
    pub fn fig_serialize(
        image: *const u8, image_length: usize, node: u32, output: *mut u8, room: usize, report: *mut FigReport,
    ) -> u32;
    pub fn fig_links(image: *const u8, image_length: usize, node: u32, output: *mut u8, room: usize, report: *mut FigReport) -> u32;
    // texts are read from the image, and compared with this in tests
    #[cfg(test)]
    pub fn fig_text_content(
        image: *const u8, image_length: usize, node: u32, output: *mut u8, room: usize, report: *mut FigReport,
    ) -> u32;
    pub fn fig_clean(page: *const u8, page_length: usize, output: *mut u8, room: usize, report: *mut FigCleaned) -> u32;
    pub fn fig_clean_document(page: *const u8, page_length: usize, output: *mut u8, room: usize, report: *mut FigCleaned) -> u32;
    pub fn fig_clean_by(
        policy: *const u8, policy_length: usize, page: *const u8, page_length: usize, output: *mut u8, room: usize, report: *mut FigCleaned,
    ) -> u32;
    pub fn fig_clean_document_by(
        policy: *const u8, policy_length: usize, page: *const u8, page_length: usize, output: *mut u8, room: usize, report: *mut FigCleaned,
    ) -> u32;
    pub fn fig_policy(name: *const u8, name_length: usize, output: *mut u8, room: usize, report: *mut FigReport) -> u32;
}
