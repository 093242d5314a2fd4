#!/usr/bin/env python3
"""Prints crates/macs_cipher_tests/src/tests/gcm/vectors.rt: AES-128-GCM and AES-256-GCM by Python's `cryptography`.

The inputs follow rules, which the tests of the crate repeat, so that the tables hold results alone. One table
has keys of 16 octets, the other keys of 32. Of vector n of either
    octet i of the key is                          (13 i +   n) mod 256,
    octet i of the initialisation vector is        (17 i + 2 n + 1) mod 256,
    octet i of the additional data is              (11 i + 5) mod 256,
    octet i of the plaintext is                    ( 7 i + 3) mod 256.
A ciphertext is written in blocks of 16 octets, whose last is filled up with zero octets.

Run:  python3 tools/gcm_vectors.py > crates/macs_cipher_tests/src/tests/gcm/vectors.rt
"""

from cryptography.hazmat.primitives.ciphers.aead import AESGCM

TEXT_LENGTHS = [0, 1, 15, 16, 17, 31, 32, 60, 255, 256, 257, 1500]
EXTRA_LENGTHS = [0, 1, 20, 28, 16, 17]
KEY_LENGTHS = {"SHORT_KEY_VECTORS": 16, "LONG_KEY_VECTORS": 32}


def octets(factor, first, length):
    return bytes((factor * i + first) % 256 for i in range(length))


def lengths():
    """Each text length with three lengths of additional data if it is short, else with fewer."""
    for t, text in enumerate(TEXT_LENGTHS):
        steps = [0, 1, 3] if text < 255 else [0, 3] if text < 1500 else [4]
        for step in steps:
            yield EXTRA_LENGTHS[(t + step) % len(EXTRA_LENGTHS)], text


def blocks(text):
    return [f"0x{text[i:i + 16].ljust(16, bytes(1)).hex()}" for i in range(0, len(text), 16)]


def sealed(key_length, n, extra, text):
    octets_sealed = AESGCM(octets(13, n, key_length)).encrypt(
        octets(17, 2 * n + 1, 12), octets(7, 3, text), octets(11, 5, extra)
    )
    return octets_sealed[:-16], octets_sealed[-16:]


def main():
    tables = {
        name: [(extra, text, *sealed(key_length, n, extra, text)) for n, (extra, text) in enumerate(lengths())]
        for name, key_length in KEY_LENGTHS.items()
    }
    print(
        """//! GCM with AES-128 and AES-256 by Python's `cryptography`, printed by tools/gcm_vectors.py,
//! which has the rules of the inputs.

/// What a plaintext and additional data of these lengths, in octets, are sealed to.
pub struct Vector {
    pub aad_length: usize,
    pub text_length: usize,
    /// The place of the ciphertext's first block in `BLOCKS`.
    pub first_block: usize,
    pub tag: u128,
}
"""
    )
    first = 0
    for name, table in tables.items():
        print(f"pub const {name}: &[Vector] = &[")
        for extra, text, ciphertext, tag in table:
            print("    Vector {")
            print(f"        aad_length: {extra},")
            print(f"        text_length: {text},")
            print(f"        first_block: {first},")
            print(f"        tag: 0x{tag.hex()},")
            print("    },")
            first += len(blocks(ciphertext))
        print("];")
        print()
    print("/// The ciphertexts, each in blocks of 16 octets, the last filled up with zero octets.")
    print("pub const BLOCKS: &[u128] = &[")
    for table in tables.values():
        for _, _, ciphertext, _ in table:
            for block in blocks(ciphertext):
                print(f"    {block},")
    print("];")


main()
