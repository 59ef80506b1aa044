//! The calls of include/uimg.h. Each is safe to call with pointers to as many bytes as their sizes
//! say, none null, those that are written to apart from the others.

pub const DONE: u32 = 0;
pub const BAD_KEYS: u32 = 2;
pub const NO_MEMORY: u32 = 3;

#[repr(C)]
#[derive(Default)]
pub struct Report {
    pub status: u32,
    pub fault: u32,
    pub place: u64,
    pub needed: usize,
    pub written: usize,
    pub peak: u64,
}

#[repr(C)]
#[derive(Default)]
pub struct Payload {
    pub status: u32,
    pub fault: u32,
    pub place: u64,
    pub start: usize,
    pub size: usize,
    pub peak: u64,
}

#[repr(C)]
#[derive(Default)]
pub struct Count {
    pub status: u32,
    pub fault: u32,
    pub place: u64,
    pub count: usize,
    pub peak: u64,
}

pub type Reporting = unsafe extern "C" fn(*const u8, usize, *mut u8, usize, *mut Report) -> u32;
pub type Checking = unsafe extern "C" fn(*const u8, usize, u32, *mut Report) -> u32;

extern "C" {
    pub fn uimg_list(
        image: *const u8,
        image_size: usize,
        text: *mut u8,
        text_size: usize,
        report: *mut Report,
    ) -> u32;
    pub fn uimg_verify(
        image: *const u8,
        image_size: usize,
        text: *mut u8,
        text_size: usize,
        report: *mut Report,
    ) -> u32;
    pub fn uimg_check(image: *const u8, image_size: usize, need: u32, report: *mut Report) -> u32;
    pub fn uimg_check_strict(
        image: *const u8,
        image_size: usize,
        need: u32,
        report: *mut Report,
    ) -> u32;
    pub fn uimg_check_signed(
        image: *const u8,
        image_size: usize,
        keys: *const u8,
        keys_size: usize,
        config: *const u8,
        config_size: usize,
        need: u32,
        report: *mut Report,
    ) -> u32;
    pub fn uimg_payload_at(
        image: *const u8,
        image_size: usize,
        position: u32,
        payload: *mut Payload,
    ) -> u32;
    pub fn uimg_payload_named(
        image: *const u8,
        image_size: usize,
        name: *const u8,
        name_size: usize,
        payload: *mut Payload,
    ) -> u32;
    pub fn uimg_payload_name(
        image: *const u8,
        image_size: usize,
        position: u32,
        payload: *mut Payload,
    ) -> u32;
    pub fn uimg_payload_count(image: *const u8, image_size: usize, count: *mut Count) -> u32;
    pub fn uimg_fault_line(fault: u32, text: *mut u8, text_size: usize) -> usize;
    pub fn uimg_version(text: *mut u8, text_size: usize) -> usize;
}
