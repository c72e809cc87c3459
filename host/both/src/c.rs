//! The calls from C: `c/through.c` makes them as the header declares them.
//!
//! What is read off an answer here is what its comment in the header says; all else of it has to be 0.

use std::mem::MaybeUninit;

use hornbillrug::raw::{Answer, AnswerF32, AnswerF64, StationAnswer};
use hornbillrug::{Format, Record, Refusal, StationRefusal, Step, RECORD_SIZE};

use crate::{Calls, Rewritten, Written};

/// The C functions over the header.
pub struct C;

extern "C" {
    pub static through_format: [usize; 33];
    pub static through_answer: [usize; 7];
    pub static through_answer_f64: [usize; 7];
    pub static through_answer_f32: [usize; 7];
    pub static through_station_answer: [usize; 11];
    pub static through_limits: [usize; 6];
    fn through_write_integer(v: u64, r: u32, w: u32, p: *mut u8, n: usize, answer: *mut Answer);
    fn through_write_f64(x: f64, f: &Format, p: *mut u8, n: usize, answer: *mut Answer);
    fn through_write_f32(x: f32, f: &Format, p: *mut u8, n: usize, answer: *mut Answer);
    fn through_read_f64(t: *const u8, tn: usize, f: &Format, answer: *mut AnswerF64);
    fn through_read_f32(t: *const u8, tn: usize, f: &Format, answer: *mut AnswerF32);
    fn through_rewrite_f64(
        t: *const u8,
        tn: usize,
        from: &Format,
        to: &Format,
        p: *mut u8,
        n: usize,
        answer: *mut StationAnswer,
    );
    fn through_rewrite_f32(
        t: *const u8,
        tn: usize,
        from: &Format,
        to: &Format,
        p: *mut u8,
        n: usize,
        answer: *mut StationAnswer,
    );
    fn through_chain_f64(
        t: *const u8,
        tn: usize,
        from: &Format,
        first: &Format,
        further: *const u8,
        further_n: usize,
        p: *mut u8,
        n: usize,
        answer: *mut StationAnswer,
    );
    fn through_chain_f32(
        t: *const u8,
        tn: usize,
        from: &Format,
        first: &Format,
        further: *const u8,
        further_n: usize,
        p: *mut u8,
        n: usize,
        answer: *mut StationAnswer,
    );
    fn through_table_to_sheet(
        t: *const u8,
        tn: usize,
        f: &Format,
        p: *mut u8,
        n: usize,
        answer: *mut Answer,
    );
    fn through_sheet_to_table(
        t: *const u8,
        tn: usize,
        f: &Format,
        p: *mut u8,
        n: usize,
        answer: *mut Answer,
    );
    fn through_pack(t: *const u8, tn: usize, p: *mut u8, n: usize, answer: *mut Answer);
    fn through_unpack(t: *const u8, tn: usize, p: *mut u8, n: usize, answer: *mut Answer);
    fn through_record(f: &Format, record: *mut u8);
}

/// What a C function stored behind its last argument.
///
/// SAFETY: `call` has to store an answer there.
unsafe fn stored<T>(call: impl FnOnce(*mut T)) -> T {
    let mut answer = MaybeUninit::uninit();
    call(answer.as_mut_ptr());
    answer.assume_init()
}

fn written(a: Answer) -> Written {
    if a.number == 0 {
        assert_eq!(a.place, 0);
        return Ok(a.value);
    }
    assert_eq!(a.value, 0);
    Err(Refusal { number: a.number, place: a.place })
}

pub(crate) fn rewritten(a: StationAnswer) -> Rewritten {
    if a.number == 0 {
        assert_eq!((a.writing, a.station, a.place), (false, 0, 0));
        return Ok(a.value);
    }
    assert_eq!(a.value, 0);
    Err(StationRefusal {
        station: a.station,
        step: if a.writing { Step::Writing } else { Step::Reading },
        refusal: Refusal { number: a.number, place: a.place },
    })
}

// SAFETY of each call: pointers and lengths are those of one slice, and each stores an answer.
impl Calls for C {
    fn write_integer(value: u64, radix: u32, width: u32, b: &mut [u8]) -> Written {
        written(unsafe {
            stored(|a| through_write_integer(value, radix, width, b.as_mut_ptr(), b.len(), a))
        })
    }
    fn write_f64(x: f64, format: &Format, b: &mut [u8]) -> Written {
        written(unsafe { stored(|a| through_write_f64(x, format, b.as_mut_ptr(), b.len(), a)) })
    }
    fn write_f32(x: f32, format: &Format, b: &mut [u8]) -> Written {
        written(unsafe { stored(|a| through_write_f32(x, format, b.as_mut_ptr(), b.len(), a)) })
    }
    fn read_f64(text: &[u8], format: &Format) -> Result<f64, Refusal> {
        let a = unsafe { stored(|a| through_read_f64(text.as_ptr(), text.len(), format, a)) };
        if a.number == 0 {
            assert_eq!(a.place, 0);
            return Ok(a.value);
        }
        assert_eq!(a.value.to_bits(), 0);
        Err(Refusal { number: a.number, place: a.place })
    }
    fn read_f32(text: &[u8], format: &Format) -> Result<f32, Refusal> {
        let a = unsafe { stored(|a| through_read_f32(text.as_ptr(), text.len(), format, a)) };
        if a.number == 0 {
            assert_eq!(a.place, 0);
            return Ok(a.value);
        }
        assert_eq!(a.value.to_bits(), 0);
        Err(Refusal { number: a.number, place: a.place })
    }
    fn rewrite_f64(t: &[u8], from: &Format, to: &Format, b: &mut [u8]) -> Rewritten {
        rewritten(unsafe {
            stored(|a| {
                through_rewrite_f64(t.as_ptr(), t.len(), from, to, b.as_mut_ptr(), b.len(), a)
            })
        })
    }
    fn rewrite_f32(t: &[u8], from: &Format, to: &Format, b: &mut [u8]) -> Rewritten {
        rewritten(unsafe {
            stored(|a| {
                through_rewrite_f32(t.as_ptr(), t.len(), from, to, b.as_mut_ptr(), b.len(), a)
            })
        })
    }
    fn chain_f64(
        t: &[u8],
        from: &Format,
        first: &Format,
        further: &[Record],
        b: &mut [u8],
    ) -> Rewritten {
        C::chain_bytes(t, from, first, further.as_flattened(), b)
    }
    fn chain_f32(
        t: &[u8],
        from: &Format,
        first: &Format,
        further: &[Record],
        b: &mut [u8],
    ) -> Rewritten {
        let f = further.as_flattened();
        let (tp, fp, bp) = (t.as_ptr(), f.as_ptr(), b.as_mut_ptr());
        rewritten(unsafe {
            stored(|a| through_chain_f32(tp, t.len(), from, first, fp, f.len(), bp, b.len(), a))
        })
    }
    fn chain_bytes(t: &[u8], from: &Format, first: &Format, f: &[u8], b: &mut [u8]) -> Rewritten {
        let (tp, fp, bp) = (t.as_ptr(), f.as_ptr(), b.as_mut_ptr());
        rewritten(unsafe {
            stored(|a| through_chain_f64(tp, t.len(), from, first, fp, f.len(), bp, b.len(), a))
        })
    }
    fn table_to_sheet(t: &[u8], format: &Format, b: &mut [u8]) -> Written {
        written(unsafe {
            stored(|a| {
                through_table_to_sheet(t.as_ptr(), t.len(), format, b.as_mut_ptr(), b.len(), a)
            })
        })
    }
    fn sheet_to_table(t: &[u8], format: &Format, b: &mut [u8]) -> Written {
        written(unsafe {
            stored(|a| {
                through_sheet_to_table(t.as_ptr(), t.len(), format, b.as_mut_ptr(), b.len(), a)
            })
        })
    }
    fn pack(t: &[u8], b: &mut [u8]) -> Written {
        written(unsafe {
            stored(|a| through_pack(t.as_ptr(), t.len(), b.as_mut_ptr(), b.len(), a))
        })
    }
    fn unpack(t: &[u8], b: &mut [u8]) -> Written {
        written(unsafe {
            stored(|a| through_unpack(t.as_ptr(), t.len(), b.as_mut_ptr(), b.len(), a))
        })
    }
    fn record(format: &Format) -> Record {
        let mut record = [0; RECORD_SIZE];
        unsafe { through_record(format, record.as_mut_ptr()) };
        record
    }
}
