//! The proved transforms, by their C names (crates/measured). A slice is a pointer and a length.

extern "C" {
    fn measured_table_length(set: usize, i: usize) -> usize;
    fn measured_tables(set: usize, i: usize, out: *mut u32, out_length: usize);
    fn measured_inverse_tables(set: usize, i: usize, out: *mut u32, out_length: usize);
    fn measured_send(set: usize, i: usize, tables: *const u32, tables_length: usize, x: *mut u32, x_length: usize, n: usize);
    fn measured_recover(set: usize, i: usize, tables: *const u32, tables_length: usize, x: *mut u32, x_length: usize, m: usize);
}

/// The tables of root number i of a set.
pub fn tables(set: usize, i: usize) -> Vec<u32> {
    let mut out = vec![0; unsafe { measured_table_length(set, i) }];
    unsafe { measured_tables(set, i, out.as_mut_ptr(), out.len()) }
    out
}

/// The tables of its inverse.
pub fn inverse_tables(set: usize, i: usize) -> Vec<u32> {
    let mut out = vec![0; unsafe { measured_table_length(set, i) }];
    unsafe { measured_inverse_tables(set, i, out.as_mut_ptr(), out.len()) }
    out
}

/// `tables` must be those of root number i of the set, and x as many residues as its transform has places.
pub fn send(set: usize, i: usize, tables: &[u32], x: &mut [u32]) {
    unsafe { measured_send(set, i, tables.as_ptr(), tables.len(), x.as_mut_ptr(), x.len(), x.len()) }
}

/// `tables` must be those of the inverse of root number i of the set, and x as many residues as its transform has places.
pub fn recover(set: usize, i: usize, tables: &[u32], x: &mut [u32]) {
    unsafe { measured_recover(set, i, tables.as_ptr(), tables.len(), x.as_mut_ptr(), x.len(), x.len()) }
}
