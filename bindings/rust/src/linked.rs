//! The functions of the archive as they are linked, and the records that they reply with, each of which begins with a
//! refusal. Their declarations in C are `bindings/c/zulagbemi.h`; the two are held to the same layouts.

use crate::{Arrow, Entry, NestEntry, Refusal};
use core::mem::{align_of, offset_of, size_of};

#[repr(C)]
pub struct Amount {
    pub refusal: Refusal,
    pub value: u32,
}

#[repr(C)]
pub struct Measure {
    pub refusal: Refusal,
    pub c: u32,
    pub p: u32,
}

#[repr(C)]
pub struct Answer {
    pub refusal: Refusal,
    pub c: u32,
    pub p: u32,
    pub s: u32,
    pub load: f32,
    pub fits: u32,
    pub margin: u32,
}

#[repr(C)]
pub struct PlanEnd {
    pub refusal: Refusal,
    pub end: u32,
}

#[repr(C)]
pub struct Counts {
    pub refusal: Refusal,
    pub subtasks: u32,
    pub arrows: u32,
}

#[repr(C)]
pub struct Written {
    pub refusal: Refusal,
    pub bytes: u32,
}

const _: () = {
    assert!(size_of::<usize>() == 8);
    assert!(size_of::<Arrow>() == 4 && align_of::<Arrow>() == 2 && offset_of!(Arrow, to) == 2);
    assert!(size_of::<Entry>() == 8 && offset_of!(Entry, start) == 4);
    assert!(size_of::<Refusal>() == 12 && offset_of!(Refusal, place) == 4 && offset_of!(Refusal, second) == 8);
    assert!(size_of::<Answer>() == 36 && offset_of!(Answer, load) == 24 && offset_of!(Answer, margin) == 32);
    assert!(size_of::<Amount>() == 16 && size_of::<PlanEnd>() == 16 && size_of::<Counts>() == 20);
    assert!(size_of::<Written>() == 16 && size_of::<Measure>() == 20);
    assert!(size_of::<NestEntry>() == 12 && align_of::<NestEntry>() == 4);
};

/// A join of two graphs into two lent rows.
pub type Join = unsafe extern "C" fn(
    *const u16,
    usize,
    *const Arrow,
    usize,
    *const u16,
    usize,
    *const Arrow,
    usize,
    *mut u16,
    usize,
    *mut Arrow,
    usize,
) -> Counts;

extern "C" {
    pub fn zul_total_work(times: *const u16, n: usize, arrows: *const Arrow, arrows_len: usize) -> Amount;
    pub fn zul_longest_path(times: *const u16, n: usize, arrows: *const Arrow, arrows_len: usize) -> Amount;
    pub fn zul_judge(times: *const u16, n: usize, arrows: *const Arrow, arrows_len: usize, m: u32, d: u32) -> Answer;
    pub fn zul_list_plan(
        times: *const u16,
        n: usize,
        arrows: *const Arrow,
        arrows_len: usize,
        m: u32,
        order: *const u16,
        order_len: usize,
        plan: *mut Entry,
        plan_len: usize,
    ) -> PlanEnd;
    pub fn zul_check_plan(
        times: *const u16,
        n: usize,
        arrows: *const Arrow,
        arrows_len: usize,
        m: u32,
        plan: *const Entry,
        plan_len: usize,
    ) -> PlanEnd;
    pub fn zul_read_stg(
        text: *const u8,
        len: usize,
        times: *mut u16,
        times_len: usize,
        arrows: *mut Arrow,
        arrows_len: usize,
    ) -> Counts;
    pub fn zul_write_stg(
        times: *const u16,
        n: usize,
        arrows: *const Arrow,
        arrows_len: usize,
        text: *mut u8,
        text_len: usize,
    ) -> Written;
    pub fn zul_end_to_end(
        first_times: *const u16,
        first_n: usize,
        first_arrows: *const Arrow,
        first_arrows_len: usize,
        second_times: *const u16,
        second_n: usize,
        second_arrows: *const Arrow,
        second_arrows_len: usize,
        times: *mut u16,
        times_len: usize,
        arrows: *mut Arrow,
        arrows_len: usize,
    ) -> Counts;
    pub fn zul_side_by_side(
        first_times: *const u16,
        first_n: usize,
        first_arrows: *const Arrow,
        first_arrows_len: usize,
        second_times: *const u16,
        second_n: usize,
        second_arrows: *const Arrow,
        second_arrows_len: usize,
        times: *mut u16,
        times_len: usize,
        arrows: *mut Arrow,
        arrows_len: usize,
    ) -> Counts;
    pub fn zul_nest(row: *const NestEntry, len: usize) -> Measure;
}
