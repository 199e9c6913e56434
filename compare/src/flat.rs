//! The words of a proof.

/// The elements of a proof of the Rust's, as document 01 orders them. A macro: each copy of the published files has types of its own.
macro_rules! flat {
    ($proof:expr) => {{
        let (p, mut all) = ($proof, vec![]);
        for (bin, fld) in &p.outer_shared {
            all.extend(bin);
            all.extend(fld);
        }
        all.extend(p.outer_bin.iter().flatten());
        all.extend(p.outer_fld.iter().flatten());
        all.extend(&p.terminals);
        all.extend(p.inner.iter().flatten());
        all.push(p.v_z);
        all.extend(&p.segment_values);
        all
    }};
}
