#!/usr/bin/env python3
"""The tracks of one group, worked out from the rules of docs/FORMAT.md alone.

Prints, for the group and settings of the test program, a digest of each of the 46 tracks under the plain code and
under a sheet. It shares no code with the library: check bytes are found by solving the linear equations.
"""


def multiply(a, b):
    product = 0
    while b:
        if b & 1:
            product ^= a
        a <<= 1
        if a & 256:
            a ^= 0x11D
        b >>= 1
    return product


def power(x, e):
    result = 1
    for _ in range(e):
        result = multiply(result, x)
    return result


def inverse(a):
    return power(a, 254)


def fill(word, lost, r):
    """Gives the r lost bytes the values with which the word checks to r, by Gauss's elimination."""
    n = len(word)
    rows = []
    for e in range(r):
        total = 0
        for j in range(n):
            if j not in lost:
                total ^= multiply(word[j], power(2, e * (n - 1 - j)))
        rows.append([power(2, e * (n - 1 - j)) for j in lost] + [total])
    for c in range(r):
        pivot = next(i for i in range(c, r) if rows[i][c])
        rows[c], rows[pivot] = rows[pivot], rows[c]
        scale = inverse(rows[c][c])
        rows[c] = [multiply(scale, v) for v in rows[c]]
        for i in range(r):
            if i != c and rows[i][c]:
                factor = rows[i][c]
                rows[i] = [v ^ multiply(factor, w) for v, w in zip(rows[i], rows[c])]
    for i, j in enumerate(lost):
        word[j] = rows[i][r]


def matrix(n, lost, r):
    """The check bytes as sums of products of the other bytes: one row for each lost byte."""
    columns = []
    for j in range(n):
        word = [0] * n
        if j not in lost:
            word[j] = 1
        fill(word, lost, r)
        columns.append([word[k] for k in lost])
    return columns


TABLE = [[multiply(a, b) for b in range(256)] for a in range(256)]


def put_checks(word, columns, lost):
    for i, k in enumerate(lost):
        value = 0
        for j, b in enumerate(word):
            if b and j not in lost:
                value ^= TABLE[columns[j][i]][b]
        word[k] = value


def randomize(sub_group, tap, start):
    register, out = start, []
    for byte in sub_group:
        for bit in range(8):
            byte ^= (register & 1) << bit
            register = register // 2 + (16384 if bin(register & tap).count("1") % 2 else 0)
        out.append(byte)
    return out


def place(i, a, u):
    sign = (a + i) % 2
    block = i % 52 + 75 * (i % 2) + i // 832
    serial = 2 * (u + i // 52) - (i // 52) % 2 - 32 * (i // 832)
    return sign, block, serial


def arrays_of(group, tap, start):
    arrays = [[[0] * 32 for _ in range(128)] for _ in range(46)]
    data_places = set()
    for f in range(1, 24):
        words = [[0, f, 0, f] if f < 23 else [0, 215, 0, 215]]
        data = randomize(group[5756 * (f - 1) : 5756 * f], tap, start) if f < 23 else [0] * 5756
        words += [data[4 * k : 4 * k + 4] for k in range(1439)] + [[0] * 4] * 16
        for i, word in enumerate(words):
            for h, byte in enumerate(word):  # A lower, A upper, B lower, B upper
                sign, block, serial = place(i, h // 2, 1 - h % 2)
                arrays[2 * (f - 1) + sign][block][serial] = byte
                if 1 <= i <= 1439:
                    data_places.add((block, serial))
    c3 = matrix(46, [44, 45], 2)
    for block, serial in data_places:
        word = [arrays[t][block][serial] for t in range(46)]
        put_checks(word, c3, [44, 45])
        arrays[44][block][serial], arrays[45][block][serial] = word[44], word[45]
    c2_lost, c1_lost = list(range(13, 19)), list(range(28, 32))
    c2, c1 = matrix(32, c2_lost, 6), matrix(32, c1_lost, 4)
    for array in arrays:
        for m in range(4):
            for n in range(32 if m % 2 == 0 else 24):
                word = [array[m + 4 * j][n] for j in range(32)]
                put_checks(word, c2, c2_lost)
                for j in range(32):
                    array[m + 4 * j][n] = word[j]
        for k in range(0, 128, 2):
            for l in range(2):
                places = [(k + h, l + 2 * j) for h in range(2) for j in range(16)]
                word = [array[b][s] for b, s in places]
                put_checks(word, c1, c1_lost)
                for (b, s), value in zip(places, word):
                    array[b][s] = value
    return arrays


def track_of(array, group_number, t, encode):
    words, state, f = [], None, t // 2 + 1
    for b in range(128):
        words.append(273 if state in (None, 0) else 785)
        state = 1
        w1 = group_number % 256 if b % 2 == 0 else f + 128 * (t % 2)
        for byte in [w1, b, w1 ^ b] + array[b]:
            word, state = encode(state, byte)
            words.append(word)
    return words


def plain(state, byte):
    return byte, 1


def sheet(state, byte):
    odd = bin(byte).count("1") % 2
    return 300 + 2 * byte + state, (state + odd) % 2


def digest(words):
    value = 0
    for word in words:
        value = (value * 1000003 + word) % 2**64
    return value


def main():
    x, group = 7, []
    for _ in range(126632):
        x = (x * 1664525 + 1013904223) % 2**32
        group.append(x >> 24)
    arrays = arrays_of(group, 3, 12345)
    for name, code in (("plain code", plain), ("sheet", sheet)):
        print(f"tracks of group 257 under the {name}")
        for t in range(46):
            print(f"  {t}: {digest(track_of(arrays[t], 257, t, code))}")


main()
