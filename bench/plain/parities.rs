//! The scrambler and the parities (ITU-T G.707 clauses 6.5 and 9.2).

/// The register of 1 + x^6 + x^7, from all ones: its first 1016 bytes, after which it repeats.
static SEQUENCE: [u8; 1016] = {
    let mut bytes = [0; 1016];
    let mut register = 0x7F_u8;
    let mut i = 0;
    while i < 8 * 1016 {
        let bit = register >> 6 & 1;
        bytes[i / 8] |= bit << (7 - i % 8);
        register = (register << 1 | (bit ^ register >> 5 & 1)) & 0x7F;
        i += 1;
    }
    bytes
};

/// Adds the sequence to bytes, at most as many as it has.
fn add_sequence(part: &mut [u8]) {
    for (byte, key) in part.iter_mut().zip(&SEQUENCE) {
        *byte ^= key;
    }
}

#[inline(never)]
pub fn scramble(n: usize, bytes: &mut [u8]) {
    let (blocks, rest) = bytes[9 * n..].as_chunks_mut::<1016>();
    for block in blocks {
        add_sequence(block);
    }
    add_sequence(rest);
}

#[inline(never)]
pub fn bip8(bytes: &[u8]) -> u8 {
    bytes.iter().fold(0, |parity, byte| parity ^ byte)
}

/// BIP-24N, where `WIDTH` is 3N: the lanes are known when it is compiled, which plain loops need to be fast.
fn bip_lanes<const WIDTH: usize>(bytes: &[u8]) -> [u8; WIDTH] {
    let mut parity = [0; WIDTH];
    for (row, columns) in bytes.chunks_exact(90 * WIDTH).enumerate() {
        let counted = if row < 3 {
            &columns[3 * WIDTH..]
        } else {
            columns
        };
        for group in counted.chunks_exact(WIDTH) {
            for (all, byte) in parity.iter_mut().zip(group) {
                *all ^= byte;
            }
        }
    }
    parity
}

#[inline(never)]
pub fn bip_section(n: usize, bytes: &[u8], out: &mut [u8]) {
    match n {
        4 => out.copy_from_slice(&bip_lanes::<12>(bytes)),
        _ => out.copy_from_slice(&bip_lanes::<48>(bytes)),
    }
}
