// ---- Appended by bench/run to the oracle's main.rs: the Rust's lowering and reducing for bench/driver.c.
unsafe extern "C" { fn clock_ns() -> u64; }
unsafe fn bytes<'a>(at: *const u8, n: usize) -> &'a [u8] { unsafe { std::slice::from_raw_parts(at, n) } }

/// The tree of a record, built once; the settings are taken too.
#[unsafe(no_mangle)]
pub unsafe extern "C" fn rust_tree(s: *const u8, sn: usize, t: *const u8, tn: usize) -> *mut E {
    unsafe { settings(bytes(s, sn)).unwrap(); Box::into_raw(Box::new(rec(bytes(t, tn)).unwrap().0)) }
}

/// Nanoseconds of `copies` calls of to_sql_impl. It takes its tree, so the copies are made before the clock runs; dropping the tree is part of the
/// call, and each String is dropped as it comes.
#[unsafe(no_mangle)]
pub unsafe extern "C" fn rust_lower(tree: *const E, copies: usize) -> u64 {
    unsafe {
        let made: Vec<E> = (0..copies).map(|_| (*tree).clone()).collect();
        let start = clock_ns();
        for e in made { std::hint::black_box(ds::gpkg::lower(std::hint::black_box(e)).unwrap()); }
        clock_ns() - start
    }
}

/// The copies alone: what has to be taken off where instructions are counted.
#[unsafe(no_mangle)]
pub unsafe extern "C" fn rust_copy(tree: *const E, copies: usize) {
    let made: Vec<E> = (0..copies).map(|_| unsafe { (*tree).clone() }).collect();
    for e in made { std::mem::forget(std::hint::black_box(e)); }
}

/// Nanoseconds of `copies` times: settings and tree built from their bytes, then to_sql_impl.
#[unsafe(no_mangle)]
pub unsafe extern "C" fn rust_decode_lower(s: *const u8, sn: usize, t: *const u8, tn: usize, copies: usize) -> u64 {
    unsafe {
        let start = clock_ns();
        for _ in 0..copies {
            settings(std::hint::black_box(bytes(s, sn))).unwrap();
            std::hint::black_box(ds::gpkg::lower(rec(std::hint::black_box(bytes(t, tn))).unwrap().0).unwrap());
        }
        clock_ns() - start
    }
}

/// The Rust's text, copied to `out`.
#[unsafe(no_mangle)]
pub unsafe extern "C" fn rust_text(tree: *const E, out: *mut u8, room: usize) -> usize {
    unsafe {
        let text = ds::gpkg::lower((*tree).clone()).unwrap();
        assert!(text.len() <= room);
        std::ptr::copy_nonoverlapping(text.as_ptr(), out, text.len());
        text.len()
    }
}

/// Nanoseconds of `copies` calls of E::reduce, which takes its tree apart: the copies are made before the clock runs, and dropping what is left of one and
/// what came of it is part of the call.
#[unsafe(no_mangle)]
pub unsafe extern "C" fn rust_reduce(tree: *const E, copies: usize) -> u64 {
    unsafe {
        let made: Vec<E> = (0..copies).map(|_| (*tree).clone()).collect();
        let start = clock_ns();
        for mut e in made { std::hint::black_box(E::reduce(std::hint::black_box(&mut e)).unwrap()); }
        clock_ns() - start
    }
}

/// The Rust's text of the reduced tree, copied to `out`.
#[unsafe(no_mangle)]
pub unsafe extern "C" fn rust_reduced_text(tree: *const E, out: *mut u8, room: usize) -> usize {
    unsafe { rust_text(&E::reduce(&mut (*tree).clone()).unwrap(), out, room) }
}
