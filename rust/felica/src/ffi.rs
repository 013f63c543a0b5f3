//! The functions and types of include/felica.h, which has their contracts.

#[repr(C)]
#[derive(Clone, Copy, Debug, PartialEq, Eq)]
pub struct FelicaAnswer {
    pub refusal: u8,
    pub code: u8,
    pub long_count: u16,
}

#[repr(C)]
#[derive(Clone, Copy, Debug, PartialEq, Eq)]
pub struct FelicaWritten {
    pub refusal: u8,
    pub length: usize,
}

unsafe extern "C" {
    pub fn felica_parse_frame(
        frame: *const u8,
        frame_len: usize,
        idm: *mut [u8; 8],
        challenge: *mut [u8; 16],
        fields: *mut [u16; 5],
        parts: *mut [usize; 10],
    ) -> FelicaAnswer;

    pub fn felica_parse_payload(
        payload: *const u8,
        payload_len: usize,
        idm: *mut [u8; 8],
        challenge: *mut [u8; 16],
        fields: *mut [u16; 5],
        parts: *mut [usize; 10],
    ) -> FelicaAnswer;

    pub fn felica_parse_secure_payload(
        command_code: u8,
        payload: *const u8,
        payload_len: usize,
        idm: *mut [u8; 8],
        challenge: *mut [u8; 16],
        fields: *mut [u16; 5],
        parts: *mut [usize; 10],
    ) -> FelicaAnswer;

    pub fn felica_list_frame(
        frame: *const u8,
        frame_len: usize,
        first: *mut u16,
        first_len: usize,
        second: *mut u16,
        second_len: usize,
        numbers: *mut u16,
        numbers_len: usize,
        places: *mut u8,
        places_len: usize,
        modes: *mut u8,
        modes_len: usize,
        idm: *mut [u8; 8],
        challenge: *mut [u8; 16],
        fields: *mut [u16; 5],
        parts: *mut [usize; 10],
    ) -> FelicaAnswer;

    pub fn felica_list_payload(
        payload: *const u8,
        payload_len: usize,
        first: *mut u16,
        first_len: usize,
        second: *mut u16,
        second_len: usize,
        numbers: *mut u16,
        numbers_len: usize,
        places: *mut u8,
        places_len: usize,
        modes: *mut u8,
        modes_len: usize,
        idm: *mut [u8; 8],
        challenge: *mut [u8; 16],
        fields: *mut [u16; 5],
        parts: *mut [usize; 10],
    ) -> FelicaAnswer;

    pub fn felica_list_secure_payload(
        command_code: u8,
        payload: *const u8,
        payload_len: usize,
        first: *mut u16,
        first_len: usize,
        second: *mut u16,
        second_len: usize,
        numbers: *mut u16,
        numbers_len: usize,
        places: *mut u8,
        places_len: usize,
        modes: *mut u8,
        modes_len: usize,
        idm: *mut [u8; 8],
        challenge: *mut [u8; 16],
        fields: *mut [u16; 5],
        parts: *mut [usize; 10],
    ) -> FelicaAnswer;

    pub fn felica_write(
        code: u8,
        idm: *const [u8; 8],
        challenge: *const [u8; 16],
        selector: u8,
        number: u16,
        index: u16,
        option: u8,
        choice: u8,
        first: *const u16,
        first_len: usize,
        second: *const u16,
        second_len: usize,
        numbers: *const u16,
        numbers_len: usize,
        places: *const u8,
        places_len: usize,
        modes: *const u8,
        modes_len: usize,
        data: *const u8,
        data_len: usize,
        package: *const u8,
        package_len: usize,
        out: *mut u8,
        out_len: usize,
    ) -> FelicaWritten;
}
