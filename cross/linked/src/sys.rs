//! The functions of `include/hanuzak.h`, as the archive has them.

use crate::types::*;

extern "C" {
    pub fn hanuzak_judge(stretch: *const u8, n: usize) -> Event;
    pub fn hanuzak_receiver_new() -> Receiver;
    pub fn hanuzak_step(receiver: Receiver, store: *mut u8, n: usize, byte: u8) -> Stepped;
    pub fn hanuzak_run(
        receiver: Receiver,
        store: *mut u8,
        n: usize,
        piece: *const u8,
        m: usize,
    ) -> Ran;
    pub fn hanuzak_write_frame(
        ver: u8,
        adr: u8,
        cid1: u8,
        cid2: u8,
        info: *const u8,
        n: usize,
        out: *mut u8,
        m: usize,
    ) -> Written;
    pub fn hanuzak_write_analog(module: Module, flag: u8, out: *mut u8, n: usize) -> Written;
    pub fn hanuzak_write_alarm(module: Module, flag: u8, out: *mut u8, n: usize) -> Written;
    pub fn hanuzak_write_parameters(module: Module, flag: u8, out: *mut u8, n: usize) -> Written;
    pub fn hanuzak_write_limits(module: Module, out: *mut u8, n: usize) -> Written;
    pub fn hanuzak_write_serial(module: Module, out: *mut u8, n: usize) -> Written;
    pub fn hanuzak_write_version(module: Module, out: *mut u8, n: usize) -> Written;
    pub fn hanuzak_write_analog_group(
        table: *const Module,
        n: usize,
        flag: u8,
        out: *mut u8,
        m: usize,
    ) -> Written;
    pub fn hanuzak_write_alarm_group(
        table: *const Module,
        n: usize,
        flag: u8,
        out: *mut u8,
        m: usize,
    ) -> Written;
    pub fn hanuzak_module_new(adr: u8) -> Module;
    pub fn hanuzak_table(table: *const Module, n: usize) -> u8;
    pub fn hanuzak_record(table: *const Module, n: usize, at: usize, other: Module) -> Module;
    pub fn hanuzak_replace(table: *mut Module, n: usize, at: usize, module: Module);
    pub fn hanuzak_switch_off(table: *mut Module, n: usize, at: usize);
    pub fn hanuzak_answer(
        table: *mut Module,
        n: usize,
        station: Station,
        stretch: *const u8,
        m: usize,
        out: *mut u8,
        k: usize,
    ) -> Answered;
    pub fn hanuzak_read_reply(
        table: *mut Module,
        n: usize,
        question: Question,
        stretch: *const u8,
        m: usize,
    ) -> Reply;
    pub fn hanuzak_listing_new() -> Listing;
    pub fn hanuzak_list(
        listing: Listing,
        store: *mut u8,
        n: usize,
        piece: *const u8,
        m: usize,
        out: *mut u8,
        k: usize,
    ) -> Listed;
    pub fn hanuzak_list_close(listing: Listing, out: *mut u8, n: usize) -> Written;
    pub fn hanuzak_tenths_celsius(raw: i16) -> i32;
    pub fn hanuzak_milliamps(current: i16) -> i32;
}
