// What compiled code calls by name on WebAssembly, where no library stands behind it: products and
// shifts of 128 bits.

typedef unsigned long long u64;
typedef long long i64;
typedef unsigned __int128 u128;
typedef union {
    u128 whole;
    struct {
        u64 low, high;
    };
} Halves;

u128 __multi3(u128 x, u128 y) {
    Halves a = {x}, b = {y}, product;
    u64 a0 = a.low & 0xffffffff, a1 = a.low >> 32, b0 = b.low & 0xffffffff, b1 = b.low >> 32;
    u64 first = a0 * b0, second = a1 * b0 + (first >> 32), third = a0 * b1 + (second & 0xffffffff);
    product.low = third << 32 | (first & 0xffffffff);
    product.high = a1 * b1 + (second >> 32) + (third >> 32) + a.low * b.high + a.high * b.low;
    return product.whole;
}

u128 __ashlti3(u128 x, int n) {
    Halves a = {x}, shifted;
    if (n & 64) {
        shifted.high = a.low << (n & 63);
        shifted.low = 0;
    } else {
        shifted.low = a.low << (n & 63);
        shifted.high = a.high << (n & 63) | a.low >> 1 >> (63 - (n & 63));
    }
    return shifted.whole;
}

u128 __lshrti3(u128 x, int n) {
    Halves a = {x}, shifted;
    if (n & 64) {
        shifted.low = a.high >> (n & 63);
        shifted.high = 0;
    } else {
        shifted.high = a.high >> (n & 63);
        shifted.low = a.low >> (n & 63) | a.high << 1 << (63 - (n & 63));
    }
    return shifted.whole;
}

u128 __ashrti3(u128 x, int n) {
    Halves a = {x}, shifted;
    i64 high = a.high;
    if (n & 64) {
        shifted.low = high >> (n & 63);
        shifted.high = high >> 63;
    } else {
        shifted.high = high >> (n & 63);
        shifted.low = a.low >> (n & 63) | a.high << 1 << (63 - (n & 63));
    }
    return shifted.whole;
}
