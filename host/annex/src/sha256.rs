//! SHA-256, as FIPS 180-4 has it, in plain Rust: the identity of a sequence's
//! letters, which an auditor's own command gives as well.

/// The first 32 bits of the fractional parts of the cube roots of the first 64
/// primes.
const ROUNDS: [u32; 64] = [
    0x428a2f98, 0x71374491, 0xb5c0fbcf, 0xe9b5dba5, 0x3956c25b, 0x59f111f1, 0x923f82a4, 0xab1c5ed5,
    0xd807aa98, 0x12835b01, 0x243185be, 0x550c7dc3, 0x72be5d74, 0x80deb1fe, 0x9bdc06a7, 0xc19bf174,
    0xe49b69c1, 0xefbe4786, 0x0fc19dc6, 0x240ca1cc, 0x2de92c6f, 0x4a7484aa, 0x5cb0a9dc, 0x76f988da,
    0x983e5152, 0xa831c66d, 0xb00327c8, 0xbf597fc7, 0xc6e00bf3, 0xd5a79147, 0x06ca6351, 0x14292967,
    0x27b70a85, 0x2e1b2138, 0x4d2c6dfc, 0x53380d13, 0x650a7354, 0x766a0abb, 0x81c2c92e, 0x92722c85,
    0xa2bfe8a1, 0xa81a664b, 0xc24b8b70, 0xc76c51a3, 0xd192e819, 0xd6990624, 0xf40e3585, 0x106aa070,
    0x19a4c116, 0x1e376c08, 0x2748774c, 0x34b0bcb5, 0x391c0cb3, 0x4ed8aa4a, 0x5b9cca4f, 0x682e6ff3,
    0x748f82ee, 0x78a5636f, 0x84c87814, 0x8cc70208, 0x90befffa, 0xa4506ceb, 0xbef9a3f7, 0xc67178f2,
];

/// Those of the square roots of the first eight.
const BEGIN: [u32; 8] = [
    0x6a09e667, 0xbb67ae85, 0x3c6ef372, 0xa54ff53a, 0x510e527f, 0x9b05688c, 0x1f83d9ab, 0x5be0cd19,
];

/// Bytes of a block.
const BLOCK: usize = 64;

/// The 64 digits of a message's digest.
pub fn hexadecimal(message: &[u8]) -> String {
    let mut state = BEGIN;
    let blocks = message.chunks_exact(BLOCK);
    let last = closed(blocks.remainder(), message.len());
    for block in blocks.chain(last.chunks_exact(BLOCK)) {
        take(&mut state, block);
    }
    state.iter().map(|word| format!("{word:08x}")).collect()
}

/// The end of a message: its last bytes, a bit, zeros up to whole blocks, and in
/// the last eight bytes the number of its bits.
fn closed(rest: &[u8], length: usize) -> Vec<u8> {
    let mut last = [rest, &[0x80]].concat();
    last.resize((rest.len() + 9).next_multiple_of(BLOCK) - 8, 0);
    last.extend((8 * length as u64).to_be_bytes());
    last
}

/// Eight rounds at a time, after which the words of the state are back in their
/// places: before, each round has them one place further on, and none is moved.
fn take(state: &mut [u32; 8], block: &[u8]) {
    let words = schedule(block);
    let mut now = *state;
    for (words, rounds) in words.chunks_exact(8).zip(ROUNDS.chunks_exact(8)) {
        for turn in 0..8 {
            let at = |place: usize| (place + 8 - turn) % 8;
            let [a, b, c, e, f, g] = [0, 1, 2, 4, 5, 6].map(|place| now[at(place)]);
            let sum = e.rotate_right(6) ^ e.rotate_right(11) ^ e.rotate_right(25);
            let choice = g ^ (e & (f ^ g));
            let one = [rounds[turn], words[turn], sum, choice];
            let one = one.into_iter().fold(now[at(7)], u32::wrapping_add);
            let sum = a.rotate_right(2) ^ a.rotate_right(13) ^ a.rotate_right(22);
            let majority = (a & b) | (c & (a | b));
            now[at(3)] = now[at(3)].wrapping_add(one);
            now[at(7)] = one.wrapping_add(sum).wrapping_add(majority);
        }
    }
    for (word, added) in state.iter_mut().zip(now) {
        *word = word.wrapping_add(added);
    }
}

/// A block as sixteen words, and the 48 that follow from them.
fn schedule(block: &[u8]) -> [u32; 64] {
    let mut words = [0; 64];
    for (word, bytes) in words.iter_mut().zip(block.chunks_exact(4)) {
        *word = u32::from_be_bytes([bytes[0], bytes[1], bytes[2], bytes[3]]);
    }
    for at in 16..64 {
        let (near, far) = (words[at - 2], words[at - 15]);
        let near = near.rotate_right(17) ^ near.rotate_right(19) ^ (near >> 10);
        let far = far.rotate_right(7) ^ far.rotate_right(18) ^ (far >> 3);
        let all = [words[at - 16], far, words[at - 7]];
        words[at] = all.into_iter().fold(near, u32::wrapping_add);
    }
    words
}

#[cfg(test)]
mod tests {
    use super::*;
    use std::io::Write;
    use std::process::{Command, Stdio};

    /// The examples that were published with the standard.
    #[test]
    fn the_published_digests() {
        let million = vec![b'a'; 1_000_000];
        let digests: [(&[u8], &str); 5] = [
            (
                b"",
                "e3b0c44298fc1c149afbf4c8996fb92427ae41e4649b934ca495991b7852b855",
            ),
            (
                b"abc",
                "ba7816bf8f01cfea414140de5dae2223b00361a396177a9cb410ff61f20015ad",
            ),
            (
                b"abcdbcdecdefdefgefghfghighijhijkijkljklmklmnlmnomnopnopq",
                "248d6a61d20638b8e5c026930c3e6039a33ce45964ff2167f6ecedd419db06c1",
            ),
            (
                b"abcdefghbcdefghicdefghijdefghijkefghijklfghijklmghijklmnhijklmnoijklmnopjklmnopq\
                  klmnopqrlmnopqrsmnopqrstnopqrstu",
                "cf5b16a778af8380036ce59e7b0492370b249b11e8f07a51afac45037afee9d1",
            ),
            (
                &million,
                "cdc76e5c9914fb9281a1c7e284d73e67f1809a48a497200e046d39ccc7112cd0",
            ),
        ];
        for (message, digest) in digests {
            assert_eq!(hexadecimal(message), digest);
        }
    }

    /// Around the ends of blocks, where a message is closed in one block or two.
    #[test]
    fn the_systems_own_command_agrees() {
        if Command::new("sha256sum").arg("--version").output().is_err() {
            println!("sha256sum is not installed: not compared");
            return;
        }
        for length in (0..=130).chain([1_023, 16_383, 16_384]) {
            let message: Vec<u8> = (0..length).map(|at| b"ACGTN"[at * at % 5]).collect();
            assert_eq!(hexadecimal(&message), by_the_system(&message), "{length}");
        }
    }

    fn by_the_system(message: &[u8]) -> String {
        let mut command = Command::new("sha256sum");
        let piped = command.stdin(Stdio::piped()).stdout(Stdio::piped());
        let mut process = piped.spawn().unwrap();
        process.stdin.take().unwrap().write_all(message).unwrap();
        let output = process.wait_with_output().unwrap().stdout;
        String::from_utf8_lossy(&output[..64]).into_owned()
    }
}
