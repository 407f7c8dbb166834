//! Plain Rust with the same answers, without proofs: what the library is measured beside.

/// The most bytes of an area and of a target, and the greatest alignment.
pub const MOST: usize = 16_777_216;
const GREATEST: u8 = 21;

#[repr(C)]
#[derive(Clone, Copy, Debug, Default, PartialEq, Eq)]
pub struct Checked {
    pub number: u32,
    pub version: u32,
    pub used: u32,
    pub total: u32,
    pub alignment: u32,
    pub live: u32,
    pub voids: u32,
    pub at: u32,
}

fn refused(number: u32) -> Checked {
    Checked { number, ..Checked::default() }
}

fn word(bytes: &[u8], at: usize) -> u32 {
    u32::from_le_bytes(bytes[at..at + 4].try_into().unwrap())
}

fn align8(n: u64) -> u64 {
    (n + 7) & !7
}

fn header_size_wrong(version: u8, own: u8, size: u8) -> bool {
    if version == 1 {
        size != own
    } else {
        size < own
    }
}

/// The check, `editing` for an edit's admission.
#[inline(never)]
pub fn check(area: &[u8], base: u64, editing: bool) -> Checked {
    let summed = |list: &[u8]| if area[16] & 1 == 1 { xor(list) == 0 } else { area[4] == 0 };
    check_edition(area, base, editing, 0x4a0f_b10b, 24, summed)
}

/// The check of a list of edition 0.9, `converting` for a conversion's admission.
#[inline(never)]
pub fn check09(area: &[u8], base: u64, converting: bool) -> Checked {
    check_edition(area, base, converting, 0x006e_d0ff, 16, |list| sum(list).wrapping_sub(area[4]) == area[4])
}

/// The check with an edition's signature, own header size and checksum rule. It becomes a part of each of the two.
#[inline(always)]
fn check_edition(area: &[u8], base: u64, editing: bool, signature: u32, own: u8, summed: impl FnOnce(&[u8]) -> bool) -> Checked {
    if base % 8 != 0 || area.len() > MOST || base > 1 << 48 || base + area.len() as u64 > 1 << 48 {
        return refused(1);
    }
    if area.len() < own as usize {
        return refused(2);
    }
    if word(area, 0) != signature {
        return refused(3);
    }
    let (version, hdr_size, alignment) = (area[5], area[6], area[7]);
    if version == 0 {
        return refused(4);
    }
    if editing && version > 1 {
        return refused(5);
    }
    let (used, total) = (word(area, 8), word(area, 12));
    let first = align8(hdr_size as u64);
    if header_size_wrong(version, own, hdr_size)
        || !(3..=GREATEST).contains(&alignment)
        || used % 8 != 0
        || total % 8 != 0
        || (used as u64) < first
        || used > total
        || total as usize > area.len()
    {
        return refused(6);
    }
    let list = &area[..used as usize];
    if !summed(list) {
        return refused(7);
    }
    let (mut at, mut live, mut voids) = (first as usize, 0, 0);
    while at < list.len() {
        let left = list.len() - at;
        if left < 8 {
            return Checked { at: at as u32, ..refused(8) };
        }
        let head = u64::from_le_bytes(list[at..at + 8].try_into().unwrap());
        let (tag, size) = (head & 0xff_ffff, head >> 32);
        let entry_hdr = (head >> 24) as u8;
        let span = align8(entry_hdr as u64 + size);
        if header_size_wrong(version, 8, entry_hdr) || span > left as u64 || (tag == 0 && size % 8 != 0) {
            return Checked { at: at as u32, ..refused(8) };
        }
        if tag == 0 {
            voids += 1;
        } else {
            live += 1;
        }
        at += span as usize;
    }
    Checked { number: 0, version: version as u32, used, total, alignment: alignment as u32, live, voids, at: 0 }
}

#[repr(C)]
#[derive(Clone, Copy, Debug, Default, PartialEq, Eq)]
pub struct Done {
    pub number: u32,
    pub value: u32,
    pub at: u32,
}

fn refused_edit(number: u32) -> Done {
    Done { number, ..Done::default() }
}

/// An edit of a list whose check refused it.
fn refused_list(c: Checked) -> Done {
    Done { number: c.number, value: 0, at: c.at }
}

#[inline(never)]
pub fn xor(bytes: &[u8]) -> u8 {
    bytes.iter().fold(0, |x, b| x ^ b)
}

#[inline(never)]
fn sum(bytes: &[u8]) -> u8 {
    bytes.iter().fold(0, |sum, b| sum.wrapping_add(*b))
}

/// Places, tags and data sizes of an accepted version 1 list.
fn entries(list: &[u8]) -> impl Iterator<Item = (usize, u32, usize)> + '_ {
    let mut at = 24;
    std::iter::from_fn(move || {
        if at >= list.len() {
            return None;
        }
        let head = u64::from_le_bytes(list[at..at + 8].try_into().unwrap());
        let entry = (at, (head & 0xff_ffff) as u32, (head >> 32) as usize);
        at += align8(8 + entry.2 as u64) as usize;
        Some(entry)
    })
}

fn length_allowed(tag: u32, n: usize) -> bool {
    match tag {
        5 => n >= 4,
        6 => n == 12,
        0x100 => n == 8,
        0x104 => n == 16,
        CERTIFICATE => n == 56,
        _ => true,
    }
}

fn put_header(area: &mut [u8], at: usize, tag: u32, size: usize) {
    area[at..at + 3].copy_from_slice(&tag.to_le_bytes()[..3]);
    area[at + 3] = 8;
    area[at + 4..at + 8].copy_from_slice(&(size as u32).to_le_bytes());
}

/// Writes one stretch and the header fields, and patches the checksum from the old and the new bytes.
fn write(area: &mut [u8], used: usize, new_used: usize, at: usize, len: usize, fill: impl FnOnce(&mut [u8])) {
    let old = xor(&area[at..used.min(at + len).max(at)]) ^ xor(&area[8..12]);
    fill(area);
    area[8..12].copy_from_slice(&(new_used as u32).to_le_bytes());
    if area[16] & 1 == 1 {
        area[4] ^= old ^ xor(&area[8..12]) ^ xor(&area[at..at + len]);
    }
}

#[repr(C)]
#[derive(Clone, Copy, Debug, Default, PartialEq, Eq)]
pub struct Found {
    pub number: u32,
    pub offset: u32,
    pub size: u32,
    pub at: u32,
}

/// Find in a version 1 list, with the same answers as the library's.
#[inline(never)]
pub fn find(area: &[u8], base: u64, tag: u32, n: u64) -> Found {
    let refused = |number| Found { number, ..Found::default() };
    let c = check(area, base, false);
    if c.number != 0 {
        return Found { at: c.at, ..refused(c.number) };
    }
    if tag == 0 || tag > 0xff_ffff {
        return refused(9);
    }
    match entries(&area[..c.used as usize]).filter(|e| e.1 == tag).nth(n as usize) {
        Some((at, _, size)) => Found { number: 0, offset: at as u32 + 8, size: size as u32, at: 0 },
        None => refused(13),
    }
}

/// Add, with the same answers and bytes as the library's.
#[inline(never)]
pub fn add(area: &mut [u8], base: u64, tag: u32, data: &[u8], use_voids: bool) -> Done {
    let c = check(area, base, true);
    if c.number != 0 {
        return refused_list(c);
    }
    if tag == 0 || tag > 0xff_ffff || (0x80_0000..=0xff_efff).contains(&tag) {
        return refused_edit(9);
    }
    let n = data.len();
    if !length_allowed(tag, n) {
        return refused_edit(10);
    }
    let used = c.used as usize;
    let void = if use_voids { entries(&area[..used]).find(|e| e.1 == 0 && e.2 >= n) } else { None };
    let padded = align8(n as u64) as usize;
    let (at, new_used, rest) = match void {
        Some((at, _, size)) => (at, used, size - padded),
        None if (c.total as usize - used) < 8 + padded => return refused_edit(14),
        None => (used, used + 8 + padded, 0),
    };
    let len = 8 + padded + if rest >= 8 { 8 } else { 0 };
    write(area, used, new_used, at, len, |a| {
        put_header(a, at, tag, n);
        a[at + 8..at + 8 + n].copy_from_slice(data);
        a[at + 8 + n..at + 8 + padded].fill(0);
        if rest >= 8 {
            put_header(a, at + 8 + padded, 0, rest - 8);
        }
    });
    Done { number: 0, value: at as u32 + 8, at: 0 }
}

/// Void, with the same answers and bytes as the library's.
#[inline(never)]
pub fn void(area: &mut [u8], base: u64, tag: u32, n: u64) -> Done {
    let c = check(area, base, true);
    if c.number != 0 {
        return refused_list(c);
    }
    if tag == 0 || tag > 0xff_ffff {
        return refused_edit(9);
    }
    let used = c.used as usize;
    let Some((at, _, size)) = entries(&area[..used]).filter(|e| e.1 == tag).nth(n as usize) else {
        return refused_edit(13);
    };
    let padded = align8(size as u64) as usize;
    write(area, used, used, at, 8 + padded, |a| {
        put_header(a, at, 0, padded);
        a[at + 8..at + 8 + padded].fill(0);
    });
    Done { number: 0, value: at as u32, at: 0 }
}

/// Tidy, with the same answers and bytes as the library's.
#[inline(never)]
pub fn tidy(area: &mut [u8], base: u64) -> Done {
    let c = check(area, base, true);
    if c.number != 0 {
        return refused_list(c);
    }
    let list = &mut area[..c.used as usize];
    // the voids from `end`, the end of the last live entry so far, to `at`
    let (mut end, mut at) = (24, 24);
    while at < list.len() {
        let head = u64::from_le_bytes(list[at..at + 8].try_into().unwrap());
        let next = at + align8(8 + (head >> 32)) as usize;
        if head & 0xff_ffff != 0 {
            if end < at {
                put_header(list, end, 0, at - end - 8);
                list[end + 8..at].fill(0);
            }
            end = next;
        }
        at = next;
    }
    list[end..].fill(0);
    list[8..12].copy_from_slice(&(end as u32).to_le_bytes());
    list[4] = 0;
    if list[16] & 1 == 1 {
        list[4] = xor(&list[..end]);
    }
    Done { number: 0, value: end as u32, at: 0 }
}

pub const CERTIFICATE: u32 = 0xff_f010;

#[repr(C)]
#[derive(Clone, Copy, Debug, Default, PartialEq)]
pub struct Certified {
    pub number: u32,
    pub pass: u32,
    pub reading: f64,
    pub at: u32,
}

fn long(bytes: &[u8], at: usize) -> u64 {
    u64::from_le_bytes(bytes[at..at + 8].try_into().unwrap())
}

/// The certificate of a version 1 list, with the same answers as the library's.
#[inline(never)]
pub fn certificate(area: &[u8], base: u64, serial: u64, test: u64) -> Certified {
    let refused = |number| Certified { number, ..Certified::default() };
    let c = check(area, base, false);
    if c.number != 0 {
        return Certified { at: c.at, ..refused(c.number) };
    }
    let mut found = entries(&area[..c.used as usize]).filter(|e| e.1 == CERTIFICATE);
    let (Some((at, _, 56)), None) = (found.next(), found.next()) else {
        return refused(18);
    };
    let data = &area[at + 8..at + 64];
    if long(data, 0) != serial || long(data, 8) != test {
        return refused(19);
    }
    match judge(data) {
        Some((reading, pass)) => Certified { number: 0, pass: pass as u32, reading, at: 0 },
        None => refused(20),
    }
}

/// The reading of a certificate with sound contents, and whether it passes.
fn judge(data: &[u8]) -> Option<(f64, bool)> {
    let (kind, counts) = (word(data, 16), word(data, 20));
    let [gain, offset, low, high] = [24, 32, 40, 48].map(|at| f64::from_bits(long(data, at)));
    let gate = match kind {
        1 => low <= high,
        2 => low.to_bits() == 0,
        3 => high.to_bits() == 0,
        _ => false,
    };
    let reading = gain * counts as f64 + offset;
    let finite = [gain, offset, low, high, reading].iter().all(|x| x.is_finite());
    if !gate || counts > 1 << 24 || !finite || gain <= 0.0 {
        return None;
    }
    Some((reading, (kind == 2 || low <= reading) && (kind == 3 || reading <= high)))
}

/// Conversion from edition 0.9, with the same answers and bytes as the library's.
#[inline(never)]
pub fn convert09(area: &[u8], base: u64, target: &mut [u8], target_base: u64) -> Done {
    let c = check09(area, base, true);
    if c.number != 0 {
        return refused_list(c);
    }
    let len = target.len();
    if len > MOST || target_base > 1 << 48 || target_base + len as u64 > 1 << 48 {
        return refused_edit(12);
    }
    let shift = (base.wrapping_sub(8).wrapping_sub(target_base) & ((1 << c.alignment) - 1)) as usize;
    let (size, used) = (c.used as usize, c.used as usize + 8);
    if shift + used > len {
        return refused_edit(14);
    }
    target[..shift].fill(0);
    target[shift + used..].fill(0);
    let list = &mut target[shift..shift + used];
    list[..4].copy_from_slice(&0x4a0f_b10bu32.to_le_bytes());
    list[4..8].copy_from_slice(&[0, 1, 24, c.alignment as u8]);
    list[8..12].copy_from_slice(&(used as u32).to_le_bytes());
    list[12..16].copy_from_slice(&((len - shift) as u32 & !7).to_le_bytes());
    list[16..24].copy_from_slice(&1u64.to_le_bytes());
    list[24..].copy_from_slice(&area[16..size]);
    list[4] = xor(list);
    Done { number: 0, value: shift as u32, at: 0 }
}
