//! What ../../vault.c does, through the safe functions: the two write the same, and each verifies what the other proved.
//!
//! Both ends absorb the relation's digest, the public elements and the commitment before the run. The verifier then checks the claims against
//! the commitment. The commitment scheme is outside this library: in its place stands SHA3-256 of the packed words, which is opened by showing
//! the words, so it hides nothing.
use magnetar::*;

fn small(lo: u64) -> Element {
    Element { lo, hi: 0 }
}

fn relation() -> Relation {
    let lines = include_str!("../../vault.rules").lines().filter(|l| !l.starts_with("//"));
    let numbers: Vec<usize> = lines.flat_map(|l| l.split(',')).filter_map(|n| n.trim().parse().ok()).collect();
    let matrix = |k, rows| {
        let entries: Vec<_> = numbers.chunks(4).filter(|e| e[0] == k).map(|e| (e[1], e[2], small(e[3] as u64))).collect();
        Matrix::new(rows, 64, &entries)
    };
    let bin = [matrix(0, 16), matrix(1, 16), matrix(2, 16)];
    let fld = [matrix(3, 4), matrix(4, 4), matrix(5, 4)];
    Relation::new(64, 4, vec![8, 8, 8], &bin, &fld)
}

/// Whether n bits of the secret, from bit `from` on, are all 0.
fn none(secret: u64, from: u64, n: u64) -> u64 {
    (secret >> from & ((1 << n) - 1) == 0) as u64
}

fn login(secret: u64, saved: u64, edition: u64, folder: u64) -> u64 {
    let parity = (secret.count_ones() % 2) as u64;
    let pairs = (0..4).fold(0, |all, i| all | none(secret, 2 * i, 2) << i);
    let helpers = pairs | none(secret, 0, 4) << 4 | none(secret, 4, 4) << 5 | none(secret, 0, 8) << 6;
    secret | saved << 8 | parity << 9 | edition << 10 | folder << 12 | helpers << 16
}

/// Sets the public columns of login u: the edition, and before it the folder.
fn publish(x: &mut [u64], u: usize, edition: u64, folder: u64) {
    x[u * 62] = folder;
    x[u * 62 + 2] = edition;
}

/// In the place of a commitment to the logins: the hash of their words' bytes, the low one first.
fn commit(packed: &[u64]) -> Digest {
    sha3_256(&packed.iter().flat_map(|w| w.to_le_bytes()).collect::<Vec<u8>>())
}

/// What both ends start from: a transcript that holds all that must be fixed before the challenges are drawn.
fn bound(relation: Digest, x: &[u64], commitment: Digest) -> Transcript {
    let mut t = Transcript::new(b"vault", &[b"monday"]);
    t.absorb_digest(b"relation", relation).unwrap();
    t.absorb_field(b"public", x).unwrap();
    t.absorb_digest(b"commitment", commitment).unwrap();
    t
}

/// Whether the claims are true of the logins that the commitment was made to: the commitment is opened, and each segment's value is that of
/// the logins folded at r_inst, at the first elements of r_low.
fn claims_hold(r: &Relation, claims: &Claims, commitment: Digest, packed: &[u64]) -> Result<bool, Refusal> {
    let offsets = layout_build(r.m / 2, &r.segments)?;
    let folded = fold_packed_w(packed, r.q, r.m / 2, &claims.r_inst)?;
    let mut all = commit(packed) == commitment;
    for (i, (&at, &length)) in offsets.iter().zip(&r.segments).enumerate() {
        let r_local = &claims.r_low[..2 * length.ilog2() as usize];
        let value = eval_mle(&folded[2 * at..2 * (at + length)], r_local)?;
        all &= claims.values[2 * i..2 * i + 2] == words(&[value]);
    }
    Ok(all)
}

fn show(what: &str, words: &[u64]) {
    let elements: String = words.chunks(2).map(|e| format!(" {:016x}{:016x}", e[1], e[0])).collect();
    println!("{what}{elements}");
}

fn show_rows(what: &str, answer: Result<RowCheck, Refusal>) {
    let (name, login, place, code) = match answer {
        Ok(RowCheck::Good) => ("good", 0, 0, 0),
        Ok(RowCheck::Stray { login, column }) => ("stray bit", login, column, 0),
        Ok(RowCheck::Bin { login, row }) => ("bin", login, row, 0),
        Ok(RowCheck::Fld { login, row }) => ("fld", login, row, 0),
        Err(e) => ("refused", 0, 0, e.number()),
    };
    println!("{what} row check: {name} {login} {place} {code}");
}

/// What is said about a batch: the row check, then the verifier on its proof.
fn judged(what: &str, r: &Relation, packed: &[u64], x: &[u64]) {
    let t = bound(relation_digest(r).unwrap(), x, commit(packed));
    show_rows(what, row_check(r, packed, x));
    let (words, _) = prove(r, packed, x, &mut t.clone()).unwrap();
    println!("prove: 0 verify: {}", code(verify(r, x, &words, &mut t.clone())));
}

/// The office's template has two segments more, 24 and 28 to 31, so that columns 25 to 27 are padding. Logins 1 and 3 are made from it, and
/// it left their padding set; then it is cleared. The bits past the 32 columns stay set, and never matter.
fn templates(r: &Relation, x: &[u64], good: &[u64]) {
    let r = Relation { segments: vec![8, 8, 8, 1, 4], ..r.clone() };
    let mut packed = good.to_vec();
    for u in [1, 3] {
        packed[2 * u] |= 0xff5f000000; // 24, 25 to 27, 28 and 30, and past the columns
    }
    judged("from a template with its padding set,", &r, &packed, x);
    for u in [1, 3] {
        packed[2 * u] &= !0xe000000;
    }
    judged("with the padding cleared,", &r, &packed, x);
}

fn code<T>(r: Result<T, Refusal>) -> u32 {
    r.map_or_else(|e| e.number(), |_| 0)
}

fn main() {
    let mut r = relation();
    let good = [login(0x4b, 1, 2, 5), 0, login(0xa7, 1, 3, 5), 0, login(0, 0, 1, 9), 0, login(0x80, 1, 1, 9), 0];
    let mut x = vec![0; r.public_words().unwrap()];
    for (u, edition, folder) in [(0, 2, 5), (1, 3, 5), (2, 1, 9), (3, 1, 9)] {
        publish(&mut x, u, edition, folder);
    }
    let rules = relation_digest(&r).unwrap();

    if std::env::args().nth(1).as_deref() == Some("prove") {
        let commitment = commit(&good);
        let (proof, _) = prove(&r, &good, &x, &mut bound(rules, &x, commitment)).unwrap();
        println!("{}", commitment.bytes.iter().map(|b| format!("{b:02x}")).collect::<String>());
        proof.iter().for_each(|w| println!("{w:016x}"));
        return;
    }
    let given = std::io::read_to_string(std::io::stdin()).unwrap();
    let mut lines = given.split_whitespace();
    let digits = lines.next().unwrap();
    let commitment = Digest { bytes: std::array::from_fn(|i| u8::from_str_radix(&digits[2 * i..2 * i + 2], 16).unwrap()) };
    let mut proof: Vec<u64> = lines.map(|w| u64::from_str_radix(w, 16).unwrap()).collect();

    let start = bound(rules, &x, commitment);
    let verdict = verify(&r, &x, &proof, &mut start.clone());
    show_rows("four logins,", row_check(&r, &good, &x));
    println!("verify: {}", code(verdict.clone()));
    let mut claims = verdict.unwrap();
    show("claims:", &[&claims.r_inst[..], &claims.r_low, &claims.values].concat());
    println!("claims of the committed logins: {}", claims_hold(&r, &claims, commitment, &good).unwrap());
    claims.values[4] ^= 1;
    println!("with a bit of a claim changed: {}", claims_hold(&r, &claims, commitment, &good).unwrap());

    print!("with a bit of an element changed:");
    for i in (0..proof.len()).step_by(2) {
        proof[i] ^= 1;
        print!(" {}", code(verify(&r, &x, &proof, &mut start.clone())));
        proof[i] ^= 1;
    }
    println!();

    // what was not bound could be chosen now that the challenges are known: another edition of login 0, another commitment
    let mut y = x.clone();
    publish(&mut y, 0, 3, 5);
    let mut changed = commitment;
    changed.bytes[0] ^= 1;
    print!("with another edition: {}", code(verify(&r, &y, &proof, &mut bound(rules, &y, commitment))));
    println!(", another commitment: {}", code(verify(&r, &x, &proof, &mut bound(rules, &x, changed))));

    for (what, u, bits) in [
        ("saved without a secret,", 2, login(0, 1, 1, 9)),
        ("of the edition of another login,", 1, login(0xa7, 1, 2, 5)),
    ] {
        let mut bad = good;
        bad[2 * u] = bits;
        judged(what, &r, &bad, &x);
    }

    // the columns of logins 0 and 1 exchanged
    publish(&mut y, 1, 2, 5);
    judged("with exchanged columns,", &r, &good, &y);
    templates(&r, &x, &good);

    print!("wrong sizes: {}", code(verify(&r, &x, &proof[2..], &mut start.clone())));
    print!(" {}", code(verify(&r, &x[..62], &proof, &mut start.clone())));
    print!(" {}", code(prove(&r, &good[2..], &x, &mut start.clone())));
    r.q = 3;
    print!(" {}", code(prove(&r, &good, &x, &mut start.clone())));
    print!(" {}", code(relation_digest(&r)));
    r.q = 4;
    r.rules.shapes.fld.c.entries += 1;
    print!(" {}", code(prove(&r, &good, &x, &mut start.clone())));
    println!(" {}", code(relation_digest(&r)));
}
