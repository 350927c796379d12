//! The C interface. Every function answers a value ≥ 0, or minus the refusal's number.

/// A call on a plan: check, grid_len, payload_len.
pub type OfPlan = unsafe extern "C" fn(*const u8, usize) -> i64;
/// Build and read: plan, what is given, what is filled.
pub type Transfer = unsafe extern "C" fn(*const u8, usize, *const u8, usize, *mut u8, usize) -> i64;
/// The owner at s, k on a port.
pub type OfPlace = unsafe extern "C" fn(*const u8, usize, usize, usize, usize) -> i64;
/// The elements of a kind.
pub type OfKind = unsafe extern "C" fn(*const u8, usize, usize) -> i64;
/// A call on an element's three bytes.
pub type OfElement = unsafe extern "C" fn(u8, u8, u8) -> i64;

/// A library's ten functions. The self-tests put wrong ones in their place.
#[derive(Clone, Copy)]
pub struct Library {
    pub check: OfPlan,
    pub grid_len: OfPlan,
    pub payload_len: OfPlan,
    pub build: Transfer,
    pub read: Transfer,
    pub owner: OfPlace,
    pub count: OfKind,
    pub sample_kind: OfElement,
    pub sample_i: OfElement,
    pub sample_j: OfElement,
}

extern "C" {
    fn mapper_check(plan: *const u8, plan_len: usize) -> i64;
    fn mapper_grid_len(plan: *const u8, plan_len: usize) -> i64;
    fn mapper_payload_len(plan: *const u8, plan_len: usize) -> i64;
    fn mapper_build(
        plan: *const u8,
        plan_len: usize,
        payload: *const u8,
        payload_len: usize,
        grid: *mut u8,
        grid_len: usize,
    ) -> i64;
    fn mapper_read(
        plan: *const u8,
        plan_len: usize,
        grid: *const u8,
        grid_len: usize,
        payload: *mut u8,
        payload_len: usize,
    ) -> i64;
    fn mapper_owner(plan: *const u8, plan_len: usize, s: usize, k: usize, port: usize) -> i64;
    fn mapper_count(plan: *const u8, plan_len: usize, kind: usize) -> i64;
    fn mapper_sample_kind(unit_byte: u8, i: u8, j: u8) -> i64;
    fn mapper_sample_i(unit_byte: u8, i: u8, j: u8) -> i64;
    fn mapper_sample_j(unit_byte: u8, i: u8, j: u8) -> i64;
}

impl Library {
    /// The one of target/staticlib.
    pub const LINKED: Library = Library {
        check: mapper_check,
        grid_len: mapper_grid_len,
        payload_len: mapper_payload_len,
        build: mapper_build,
        read: mapper_read,
        owner: mapper_owner,
        count: mapper_count,
        sample_kind: mapper_sample_kind,
        sample_i: mapper_sample_i,
        sample_j: mapper_sample_j,
    };
}
