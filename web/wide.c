// What clang's code for WebAssembly calls for numbers of 128 bits: products and shifts, under the names of compiler-rt.
typedef unsigned long long u64;
typedef unsigned __int128 u128;
typedef union { u128 all; struct { u64 low, high; }; } parts;

static u128 of(u64 low, u64 high) { return ((parts){.low = low, .high = high}).all; }

u128 __multi3(u128 one, u128 two) {
    parts a = {one}, b = {two};
    u64 al = a.low & 0xffffffff, ah = a.low >> 32, bl = b.low & 0xffffffff, bh = b.low >> 32;
    u64 low = al * bl, left = ah * bl + (low >> 32), right = al * bh + (left & 0xffffffff);
    return of((right << 32) | (low & 0xffffffff), ah * bh + (left >> 32) + (right >> 32) + a.low * b.high + a.high * b.low);
}

u128 __ashlti3(u128 value, int by) {
    parts a = {value};
    if (by == 0) return value;
    return by >= 64 ? of(0, a.low << (by - 64)) : of(a.low << by, (a.high << by) | (a.low >> (64 - by)));
}

u128 __lshrti3(u128 value, int by) {
    parts a = {value};
    if (by == 0) return value;
    return by >= 64 ? of(a.high >> (by - 64), 0) : of((a.low >> by) | (a.high << (64 - by)), a.high >> by);
}
