// Products and shifts of 128 bits by the calls of tools/page/c/numbers.c, for the test of them:
// numbers come as halves, and the halves of what comes out stand in `answer`.

typedef unsigned long long u64;
typedef unsigned __int128 u128;

u128 __multi3(u128 x, u128 y);
u128 __ashlti3(u128 x, int n);
u128 __lshrti3(u128 x, int n);
u128 __ashrti3(u128 x, int n);

u64 answer[2];

static u128 whole(u64 low, u64 high) {
    u128 number;
    u64 *halves = (u64 *)&number;
    halves[0] = low;
    halves[1] = high;
    return number;
}

static void keep(u128 number) {
    answer[0] = ((u64 *)&number)[0];
    answer[1] = ((u64 *)&number)[1];
}

u64 *place(void) {
    return answer;
}

void multiply(u64 a, u64 b, u64 c, u64 d) {
    keep(__multi3(whole(a, b), whole(c, d)));
}

void left(u64 a, u64 b, u64 n, u64 unused) {
    (void)unused;
    keep(__ashlti3(whole(a, b), (int)n));
}

void right(u64 a, u64 b, u64 n, u64 unused) {
    (void)unused;
    keep(__lshrti3(whole(a, b), (int)n));
}

void right_signed(u64 a, u64 b, u64 n, u64 unused) {
    (void)unused;
    keep(__ashrti3(whole(a, b), (int)n));
}
