//! What ../../example.c does, through the safe functions: the two write the same.
use magnetar::*;

fn hex(words: &[u64]) -> String {
    words.chunks(2).map(|e| format!(" {:016x}{:016x}", e[1], e[0])).collect()
}

/// What was found, as text, or the number of the refusal.
fn say(what: &str, found: Result<String, Refusal>) {
    println!("{what}{}", found.unwrap_or_else(|e| format!(" refused {}", e.number())));
}

fn say_words(what: &str, found: Result<Vec<u64>, Refusal>) {
    say(what, found.map(|w| hex(&w)));
}

fn say_element(what: &str, found: Result<Element, Refusal>) {
    say_words(what, found.map(|e| words(&[e])));
}

fn say_numbers<N: ToString>(what: &str, found: Result<Vec<N>, Refusal>) {
    say(what, found.map(|v| v.iter().map(|n| format!(" {}", n.to_string())).collect()));
}

fn say_flag(what: &str, found: Result<bool, Refusal>) {
    say(what, found.map(|yes| if yes { " yes" } else { " no" }.into()));
}

fn say_round(what: &str, found: Result<Option<Vec<Element>>, Refusal>) {
    say(what, found.map(|r| r.map_or(" does not add up".into(), |e| hex(&words(&e)))));
}

/// A draw from the transcript, which tells one transcript from another.
fn say_next(what: &str, t: &Transcript, absorbed: impl FnOnce(&mut Transcript) -> Result<(), Refusal>) {
    let mut t = *t;
    let heard = absorbed(&mut t);
    say_element(what, heard.and_then(|()| t.challenge_field(b"next")));
}

fn digits(d: Digest) -> String {
    d.bytes.iter().map(|b| format!("{b:02x}")).collect()
}

fn small(lo: u64) -> Element {
    Element { lo, hi: 0 }
}

fn smalls(numbers: &[u64]) -> Vec<u64> {
    numbers.iter().flat_map(|&n| [n, 0]).collect()
}

fn tables() {
    say_element("2 * x^127:", Ok(mul(small(2), Element { lo: 0, hi: 1 << 63 })));

    let point = smalls(&[2, 4]);
    say_words("eq of []:", eq_build(&[], small(1)));
    say_words("eq of half an element:", eq_build(&point[..1], small(1)));
    say_words("eq of [2, 4] from x^127:", eq_build(&point, Element { lo: 0, hi: 1 << 63 }));
    say_words("eq of [2, 4] from 0:", eq_build(&point, small(0)));
    say_words("eq of [2, 4]:", eq_build(&point, small(1)));

    let mut z = smalls(&[1, 3, 5, 7]);
    say_element("[1, 3, 5, 7] at [2, 4]:", eval_mle(&z, &point));
    say_element("[1, 3, 5] at [2, 4]:", eval_mle(&z[..6], &point));
    say_element("logins [5, 7] folded at [2]:", fold_instances(&z[4..], &point[..2]));
    say_element("logins [5, 7] folded at [2, 4]:", fold_instances(&z[4..], &point));

    let bound = bind_var(&mut z, 1, small(2));
    say_words("variable 1 of [1, 3, 5, 7] bound to 2:", bound.map(|()| z));
    say_words("variable 0 of three elements:", bind_var(&mut smalls(&[1, 3, 5]), 0, small(2)).map(|()| vec![]));
    let mut eq = eq_build(&point, small(1)).unwrap();
    let dropped = drop_var(&mut eq, 0);
    say_words("eq of [2, 4] without variable 0:", dropped.map(|()| eq.clone()));
    say_words("without variable 1 of one:", drop_var(&mut eq, 1).map(|()| vec![]));
}

fn rounds() {
    let (point, z) = (smalls(&[2, 4]), smalls(&[1, 3, 5, 7]));
    let (eq, e) = (eq_build(&point, small(1)).unwrap(), eq_build(&point[2..], small(1)).unwrap());
    say_words("outer message:", outer_message(&e, &z, &z, &eq, 0, small(1), small(2)).map(|m| m.to_vec()));
    say_words("of variable 2 of two:", outer_message(&e, &z, &z, &eq, 2, small(1), small(2)).map(|m| m.to_vec()));
    let m = inner_message(&eq, &z, 0).unwrap();
    say_words("inner message:", Ok(m.to_vec()));
    say_words("of tables of two sizes:", inner_message(&eq, &z[..4], 0).map(|m| m.to_vec()));

    let claim = eval_mle(&z, &point).unwrap();
    let wrong = Element { lo: claim.lo ^ 1, ..claim };
    let external = |n, claim| round_external(&m, n, claim, small(9)).map(|r| r.map(|next| vec![next]));
    say_round("round at 9:", external(3, claim));
    say_round("round with a wrong claim:", external(3, wrong));
    say_round("round of four coefficients:", external(4, claim));

    let mut t = Transcript::new(b"example", &[b"one", b"four"]);
    let late = Transcript { squeeze_ctr: 1 << 32, ..t };
    let capturing = |m: &[u64], claim, mut t: Transcript| {
        round_capturing(m, 3, claim, &mut t, b"round").map(|r| r.map(|(next, challenge)| vec![next, challenge]))
    };
    say_round("round that draws:", capturing(&m, claim, t));
    say_round("with a wrong claim:", capturing(&m, wrong, t));
    say_round("of half an element:", capturing(&m[..1], claim, t));
    say_round("with a late counter:", capturing(&m, claim, late));

    // the same challenge
    t.absorb_field(b"round", &m).unwrap();
    say_element("challenge:", t.challenge_field(b"round"));
}

fn hashing() {
    let abc = sha3_256(b"abc");
    println!("SHA3-256 of nothing: {}", digits(sha3_256(b"")));
    println!("SHA3-256 of abc: {}", digits(abc));

    let t = Transcript::new(b"example", &[b"one", b"four"]);
    let late = Transcript { squeeze_ctr: 1 << 32, ..t };
    let words = smalls(&[2, 4]);
    say_next("new transcript:", &t, |_| Ok(()));
    // the safe function gives the lengths of the parts itself
    let refused = unsafe { sys::magnetar_transcript_new(b"example".as_ptr(), 7, b"onefour".as_ptr(), 7, [3, 3].as_ptr(), 2) };
    println!("of parts that don't add up: refused {}", refused.code);
    say_next("bytes absorbed:", &t, |t| t.absorb_bytes(b"hash", &abc.bytes));
    say_next("the same as a hash:", &t, |t| t.absorb_digest(b"hash", abc));
    say_next("a word absorbed:", &t, |t| t.absorb_u64(b"word", 7));
    say_next("elements absorbed:", &t, |t| t.absorb_field(b"words", &words));
    say_next("half an element absorbed:", &t, |t| t.absorb_field(b"words", &words[..3]));

    let mut two = t;
    say_words("two elements drawn:", two.challenge_field_vec(b"next", 2));
    say_next("then:", &two, |_| Ok(()));

    say_element("a draw with a late counter:", late.clone().challenge_field(b"next"));
    say_next("two draws:", &late, |t| t.challenge_field_vec(b"next", 2).map(|_| ()));
    say_next("bytes:", &late, |t| t.absorb_bytes(b"hash", &abc.bytes));
    say_next("a hash:", &late, |t| t.absorb_digest(b"hash", abc));
    say_next("a word:", &late, |t| t.absorb_u64(b"word", 7));
    say_next("elements:", &late, |t| t.absorb_field(b"words", &words));
}

/// The matrix of marked rows 7 and 8, which has a place twice.
fn marked() -> Matrix {
    Matrix::new(2, 4, &[(0, 0, small(1)), (0, 2, small(3)), (1, 1, small(7)), (1, 3, small(2)), (1, 1, small(7))])
}

/// One of values 1 whose columns do not exceed w.
fn binary() -> Matrix {
    Matrix::new(2, 4, &[(0, 0, small(1)), (0, 1, small(1)), (1, 1, small(1)), (1, 2, small(1))])
}

fn matrices() {
    let (marked, binary) = (marked(), binary());
    let outside = Matrix { rows: 1, ..marked.clone() };
    let (x, z, point) = (smalls(&[5]), smalls(&[1, 1, 1, 5]), smalls(&[2, 4]));
    let packed = marked.apply_simd_packed(&[3, 0], &x, 1, 2);
    say_words("packed product:", packed.clone().map(|p| p.0));
    say_flag("of bits:", packed.map(|p| p.1));
    say_flag("without public elements:", marked.apply_simd_packed(&[3, 0], &[], 1, 2).map(|p| p.1));
    say_words("product:", marked.apply(&z));
    say_words("with three elements:", marked.apply(&z[..6]));

    say_words("table at [2]:", marked.eval_mle_table(&point[..2]));
    say_words("table at [2, 4]:", marked.eval_mle_table(&point));
    say_element("at [2] and [2, 4]:", marked.eval_mle_at(&point[..2], &point));
    say_element("at [2] and [2]:", marked.eval_mle_at(&point[..2], &point[..2]));

    say_flag("values of 0 and 1:", marked.is_binary());
    say_flag("of the other matrix:", binary.is_binary());
    say_flag("with an entry outside:", outside.is_binary());

    // logins 0 to 3, with bits past the columns that do not matter
    let logins = [0xf0, 0, 1, 0xff, 2, 0, 3, 0];
    let packed = binary.apply_simd_packed(&logins, &repeat_columns(&x, 4), 4, 2);
    say_words("four logins:", packed.clone().map(|p| p.0));
    say_flag("of bits:", packed.map(|p| p.1));
    say_words("two logins with columns of their own:", marked.apply_simd_packed(&logins[..4], &smalls(&[5, 7]), 2, 2).map(|p| p.0));
    say_flag("with the columns of one:", marked.apply_simd_packed(&logins[..4], &x, 2, 2).map(|p| p.1));
    say_numbers("masks, two logins a word:", binary.apply_simd_bit_masks(&logins, 4, 2, 1));
    say_numbers("four logins a word:", binary.apply_simd_bit_masks(&logins, 4, 2, 2));
    say_numbers("eight logins a word:", binary.apply_simd_bit_masks(&logins, 4, 2, 3));
    say_numbers("of other values:", marked.apply_simd_bit_masks(&logins, 4, 2, 1));
}

/// What the row check finds in two logins with the public element 5 each, whose segments have these lengths.
fn check(what: &str, r: &Relation, lens: &[usize], packed: &[u64]) {
    let r = Relation { q: 2, segments: lens.to_vec(), ..r.clone() };
    let found = row_check(&r, packed, &repeat_columns(&smalls(&[5]), 2));
    let words = found.map(|found| match found {
        RowCheck::Good => " good".to_string(),
        RowCheck::Stray { login, column } => format!(" stray bit, login {login}, column {column}"),
        RowCheck::Bin { login, row } => format!(" bin, login {login}, row {row}"),
        RowCheck::Fld { login, row } => format!(" fld, login {login}, row {row}"),
    });
    say(what, words);
}

fn batch() {
    say_numbers("segments 4, 1, 8 in 16:", layout_build(16, &[4, 1, 8]));
    say_numbers("segments 1, 8, 8 in 16:", layout_build(16, &[1, 8, 8]));
    say_numbers("segment 3 in 16:", layout_build(16, &[3]));

    let (packed, point) = ([1, 0, 3, 0], smalls(&[2, 4]));
    say_words("logins 1 and 3 folded at [2]:", fold_packed_w(&packed, 2, 2, &point[..2]));
    say_words("folded at [2, 4]:", fold_packed_w(&packed, 2, 2, &point));
    say_words("three words:", fold_packed_w(&packed[..3], 2, 2, &point[..2]));

    let alphas = smalls(&[1, 2, 3, 4, 5, 8]);
    let mut r = Relation::new(4, 1, vec![2], &[marked(), binary(), marked()], &[binary(), marked(), binary()]);
    println!("relation: {}", digits(relation_digest(&r).unwrap()));
    say_words("combined table:", build_m_combo(&r, &alphas, &point[..2], &point[2..]));
    say_words("with five alphas:", build_m_combo(&r, &alphas[..10], &point[..2], &point[2..]));
    check("row check, both columns in a segment:", &r, &[2], &packed);
    check("row check, column 0 in a segment:", &r, &[1], &packed);
    check("of the words 1 and 1:", &r, &[1], &[1, 0, 1, 0]);
    check("with a segment of 3:", &r, &[3], &packed);
    check("with segments of 2 and 1:", &r, &[2, 1], &packed);
    r.m = 8;
    say("its digest with other columns:", relation_digest(&r).map(digits));
    say_words("with other columns:", build_m_combo(&r, &alphas, &point[..2], &point[2..]));
}

fn main() {
    tables();
    rounds();
    hashing();
    matrices();
    batch();
}
