# The numbers of the stored list: for each of the four radices, mantissas at the ends and beside each power of two, and others from a
# fixed generator, with units and the two bits that nothing reads.
out = [0xffffffff]
x = 12345
def rnd():
    global x
    x = (x * 1103515245 + 12345) % 2 ** 31
    return x // 2 ** 7
for radix in range(4):
    ms = [0, 1, 2, 3, 0xfffffe, 0xffffff, 0x7fffff, 0x800000, 0x800001, 0x555555, 0xaaaaaa, 10000000, 9999999]
    for k in range(2, 24):
        ms += [2 ** k - 1, 2 ** k, 2 ** k + 1]
    ms += [rnd() % 2 ** 24 for _ in range(40)]
    for i, m in enumerate(ms):
        out.append((m % 2 ** 24) * 256 + (i % 4) * 64 + radix * 16 + (i % 16))
for n in out:
    print(n)
