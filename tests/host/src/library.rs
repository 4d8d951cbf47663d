//! The library's functions, as include/chips69000.h declares them, over slices.

// tests/boundary compares these with the header and with the Rattle source: functions, types, order and names of parameters.
mod raw {
    extern "C" {
        pub fn chips69000_version() -> u32;
        pub fn chips69000_state_version() -> u32;
        pub fn chips69000_reset(state: *mut u8, state_length: usize, first: u8, second: u8) -> u8;
        pub fn chips69000_port_write(state: *mut u8, state_length: usize, port: u16, value: u8) -> u32;
        pub fn chips69000_port_read(state: *mut u8, state_length: usize, port: u16) -> u16;
        pub fn chips69000_register(state: *const u8, state_length: usize, group: u8, index: u8) -> u16;
        pub fn chips69000_entry(state: *const u8, state_length: usize, entry: u8) -> u32;
        pub fn chips69000_pixel(state: *const u8, state_length: usize, pixel: u8) -> u32;
        pub fn chips69000_memory_read(memory: *const u8, memory_length: usize, at: usize) -> u16;
        pub fn chips69000_memory_write(memory: *mut u8, memory_length: usize, at: usize, value: u8) -> u8;
        #[allow(clippy::too_many_arguments)]
        pub fn chips69000_transfer(
            memory: *mut u8, memory_length: usize, destination: usize, destination_span: usize, source: usize,
            source_span: usize, width: usize, height: usize, code: u8, leftward: bool, upward: bool, pattern: usize,
            pattern_row: usize,
        ) -> u8;
        pub fn chips69000_check_script(file: *const u8, file_length: usize, value: *mut usize) -> u8;
        pub fn chips69000_write_script(
            steps: *const u8, steps_length: usize, file: *mut u8, file_length: usize, value: *mut usize,
        ) -> u8;
        pub fn chips69000_translate_script(
            file: *const u8, file_length: usize, commands: *mut u8, commands_length: usize, value: *mut usize,
        ) -> u8;
        pub fn chips69000_translate_short(
            file: *const u8, file_length: usize, commands: *mut u8, commands_length: usize, value: *mut usize,
        ) -> u8;
        pub fn chips69000_step_commands(file: *const u8, file_length: usize, step: usize, value: *mut usize) -> u8;
        pub fn chips69000_short_step_commands(file: *const u8, file_length: usize, step: usize, value: *mut usize) -> u8;
        #[allow(clippy::too_many_arguments)]
        pub fn chips69000_run(
            state: *mut u8, state_length: usize, commands: *const u8, commands_length: usize, limit: usize, count: *mut usize,
            place: *mut usize, changing: *mut usize,
        ) -> u8;
        #[allow(clippy::too_many_arguments)]
        pub fn chips69000_play(
            state: *mut u8, state_length: usize, file: *const u8, file_length: usize, commands: *mut u8,
            commands_length: usize, count: *mut usize, value: *mut usize, changing: *mut usize,
        ) -> u8;
    }
}

pub const STATE: usize = 1057;
pub const NO_STATE: u8 = 255;

/// The versions of the library and of a state's bytes.
pub fn versions() -> (u32, u32) {
    unsafe { (raw::chips69000_version(), raw::chips69000_state_version()) }
}

pub fn reset(s: &mut [u8], first: u8, second: u8) -> u8 {
    unsafe { raw::chips69000_reset(s.as_mut_ptr(), s.len(), first, second) }
}

/// The number, 0, and the byte before and after.
pub fn port_write(s: &mut [u8], port: u16, v: u8) -> [u8; 4] {
    unsafe { raw::chips69000_port_write(s.as_mut_ptr(), s.len(), port, v) }.to_be_bytes()
}

/// The number and the byte.
pub fn port_read(s: &mut [u8], port: u16) -> (u8, u8) {
    let r = unsafe { raw::chips69000_port_read(s.as_mut_ptr(), s.len(), port) };
    ((r >> 8) as u8, r as u8)
}

/// The number and the byte.
pub fn register(s: &[u8], group: u8, index: u8) -> (u8, u8) {
    let r = unsafe { raw::chips69000_register(s.as_ptr(), s.len(), group, index) };
    ((r >> 8) as u8, r as u8)
}

/// The number, red, green and blue.
pub fn entry(s: &[u8], entry: u8) -> [u8; 4] {
    unsafe { raw::chips69000_entry(s.as_ptr(), s.len(), entry) }.to_be_bytes()
}

/// The number, red, green and blue.
pub fn pixel(s: &[u8], pixel: u8) -> [u8; 4] {
    unsafe { raw::chips69000_pixel(s.as_ptr(), s.len(), pixel) }.to_be_bytes()
}

pub fn memory_read(m: &[u8], at: usize) -> (u8, u8) {
    let r = unsafe { raw::chips69000_memory_read(m.as_ptr(), m.len(), at) };
    ((r >> 8) as u8, r as u8)
}

pub fn memory_write(m: &mut [u8], at: usize, v: u8) -> u8 {
    unsafe { raw::chips69000_memory_write(m.as_mut_ptr(), m.len(), at, v) }
}

#[derive(Clone, Copy, Debug)]
pub struct Transfer {
    pub dst: usize,
    pub dstspan: usize,
    pub src: usize,
    pub srcspan: usize,
    pub width: usize,
    pub height: usize,
    pub code: u8,
    pub leftward: bool,
    pub upward: bool,
    pub pattern: usize,
    pub row: usize,
}

pub fn transfer(m: &mut [u8], t: Transfer) -> u8 {
    unsafe {
        raw::chips69000_transfer(
            m.as_mut_ptr(), m.len(), t.dst, t.dstspan, t.src, t.srcspan, t.width, t.height, t.code, t.leftward, t.upward,
            t.pattern, t.row,
        )
    }
}

/// The number, the count, the place, and how many of the commands carried out changed a register or a colour.
pub fn run(s: &mut [u8], commands: &[u8], limit: usize) -> (u8, usize, usize, usize) {
    let [mut count, mut place, mut changing] = [usize::MAX; 3];
    let r = unsafe {
        raw::chips69000_run(
            s.as_mut_ptr(), s.len(), commands.as_ptr(), commands.len(), limit, &mut count, &mut place, &mut changing,
        )
    };
    (r, count, place, changing)
}

/// The number, the count, the value, and how many of the commands carried out changed a register or a colour.
pub fn play(s: &mut [u8], file: &[u8], commands: &mut [u8]) -> (u8, usize, usize, usize) {
    let [mut count, mut value, mut changing] = [usize::MAX; 3];
    let r = unsafe {
        raw::chips69000_play(
            s.as_mut_ptr(), s.len(), file.as_ptr(), file.len(), commands.as_mut_ptr(), commands.len(), &mut count, &mut value,
            &mut changing,
        )
    };
    (r, count, value, changing)
}

/// The number and the value.
pub fn check_script(file: &[u8]) -> (u8, usize) {
    let mut value = usize::MAX;
    let r = unsafe { raw::chips69000_check_script(file.as_ptr(), file.len(), &mut value) };
    (r, value)
}

pub fn write_script(list: &[u8], file: &mut [u8]) -> (u8, usize) {
    let mut value = usize::MAX;
    let r = unsafe { raw::chips69000_write_script(list.as_ptr(), list.len(), file.as_mut_ptr(), file.len(), &mut value) };
    (r, value)
}

pub fn translate_script(file: &[u8], commands: &mut [u8]) -> (u8, usize) {
    let mut value = usize::MAX;
    let r = unsafe {
        raw::chips69000_translate_script(file.as_ptr(), file.len(), commands.as_mut_ptr(), commands.len(), &mut value)
    };
    (r, value)
}

pub fn translate_short(file: &[u8], commands: &mut [u8]) -> (u8, usize) {
    let mut value = usize::MAX;
    let r = unsafe {
        raw::chips69000_translate_short(file.as_ptr(), file.len(), commands.as_mut_ptr(), commands.len(), &mut value)
    };
    (r, value)
}

pub fn step_commands(file: &[u8], step: usize) -> (u8, usize) {
    let mut value = usize::MAX;
    let r = unsafe { raw::chips69000_step_commands(file.as_ptr(), file.len(), step, &mut value) };
    (r, value)
}

pub fn short_step_commands(file: &[u8], step: usize) -> (u8, usize) {
    let mut value = usize::MAX;
    let r = unsafe { raw::chips69000_short_step_commands(file.as_ptr(), file.len(), step, &mut value) };
    (r, value)
}
