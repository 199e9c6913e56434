//! Elements and tables of elements.
use crate::sys::{self, Element};
use crate::{room, Refusal};

/// The product.
pub fn mul(a: Element, b: Element) -> Element {
    // SAFETY: numbers only.
    unsafe { sys::magnetar_mul(a, b) }
}

/// Elements as words.
pub fn words(elements: &[Element]) -> Vec<u64> {
    elements.iter().flat_map(|e| [e.lo, e.hi]).collect()
}

/// The table of eq at the point, from a start: entry i is the start times the product over j of p_j where bit j of i is 1, and of 1 + p_j
/// where it is 0. From 1 it is the table of eq itself, from 0 it is zeros.
pub fn eq_build(point: &[u64], start: Element) -> Result<Vec<u64>, Refusal> {
    let mut out = room(2usize.checked_shl(point.len().min(64) as u32 / 2));
    // SAFETY: here and below each pointer and length are of one slice, and what is written is borrowed as `&mut`.
    Refusal::check(unsafe { sys::magnetar_eq_build(point.as_ptr(), point.len(), start, out.as_mut_ptr(), out.len()) })?;
    Ok(out)
}

/// The value at the point of the multilinear polynomial with this table of values: the sum of each value times its entry of the eq table.
pub fn eval_mle(values: &[u64], point: &[u64]) -> Result<Element, Refusal> {
    let mut s = room(Some(values.len()));
    let found = unsafe {
        sys::magnetar_eval_mle(values.as_ptr(), values.len(), point.as_ptr(), point.len(), s.as_mut_ptr(), s.len())
    };
    Refusal::check(found.code).map(|()| found.element)
}

/// The same of a vector with an element for each login: the logins folded at the point.
pub fn fold_instances(vector: &[u64], point: &[u64]) -> Result<Element, Refusal> {
    let mut s = room(Some(vector.len()));
    let found = unsafe {
        sys::magnetar_fold_instances(vector.as_ptr(), vector.len(), point.as_ptr(), point.len(), s.as_mut_ptr(), s.len())
    };
    Refusal::check(found.code).map(|()| found.element)
}

/// Binds variable `var` to `r`: the table becomes half as long.
pub fn bind_var(table: &mut Vec<u64>, var: usize, r: Element) -> Result<(), Refusal> {
    Refusal::check(unsafe { sys::magnetar_bind_var(table.as_mut_ptr(), table.len(), var, r) })?;
    table.truncate(table.len() / 2);
    Ok(())
}

/// The eq table without variable `v`: it becomes half as long.
pub fn drop_var(table: &mut Vec<u64>, v: usize) -> Result<(), Refusal> {
    Refusal::check(unsafe { sys::magnetar_drop_var(table.as_mut_ptr(), table.len(), v) })?;
    table.truncate(table.len() / 2);
    Ok(())
}
