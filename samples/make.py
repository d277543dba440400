#!/usr/bin/env python3
"""Makes the samples of this folder from docs/FORMATS.md alone, with Python's own BLAKE2b.

The key is 32 bytes of 0, so KEY is 64 digits 0. Run it in this folder; it writes over the samples.
"""
import hashlib

KEY = bytes(32)


def u64(number):
    return number.to_bytes(8, "little")


def hash_of(message):
    return hashlib.blake2b(message, digest_size=32).digest()


def leaf(block):
    return len(block), hash_of(b"\0" + u64(len(block)) + block)


def parent(left, right):
    size = left[0] + right[0]
    return size, hash_of(b"\1" + u64(size) + left[1] + right[1])


def tree(blocks, depth, offset):
    if depth == 0:
        return leaf(blocks[offset])
    return parent(tree(blocks, depth - 1, 2 * offset), tree(blocks, depth - 1, 2 * offset + 1))


def full_roots(length):
    found, end = [], 0
    for depth in reversed(range(length.bit_length())):
        if length >> depth & 1:
            found.append((depth, end >> depth))
            end += 1 << depth
    return found


def number(depth, offset):
    return (offset << (depth + 1)) + (1 << depth) - 1


def bundle(blocks, index, fork=0):
    places = full_roots(len(blocks))
    roots = [tree(blocks, *place) for place in places]
    root = hash_of(b"\2" + b"".join(r[1] + u64(number(*p)) + u64(r[0]) for p, r in zip(places, roots)))
    text = hash_of(b"hypercore-store/tree/1") + root + u64(len(blocks)) + u64(fork)
    signature = hashlib.blake2b(text, digest_size=64, key=KEY).digest()
    depth = next(d for d, o in places if index >> d == o)
    trail = [tree(blocks, d, (index >> d) ^ 1) for d in range(depth)]
    head = b"HCPROOF1" + u64(fork) + u64(len(blocks)) + u64(index) + signature
    twigs = b"".join(u64(size) + digest for size, digest in roots + trail)
    return head + twigs + u64(len(blocks[index])) + blocks[index]


def changed(text, at):
    return text[:at] + bytes([text[at] ^ 1]) + text[at + 1:]


def write(name, text):
    with open(name, "wb") as out:
        out.write(text)


seven = [bytes([letter]) for letter in b"abcdefg"]
hello = bundle([b"hello, log\n"], 0)
write("hello.bundle", hello)
write("empty-block.bundle", bundle([b""], 0))
write("seven-6.bundle", bundle(seven, 6))
write("seven-0.bundle", bundle(seven, 0))
write("bad-form.bundle", hello + b"\0")
write("not-proved.bundle", changed(bundle(seven, 0), 224))
write("bad-signature.bundle", changed(bundle(seven, 6), 32))
write("seven.lines", b"".join(block + b"\n" for block in seven))
