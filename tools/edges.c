// Prints crates/bpf_model/proofs/Edges.antt: the result of each operator and condition at edge values, computed in
// plain C on integers of fixed width. So the results don't depend on the definitions in crates/bpf_model/specs.
//     gcc -O0 -o /tmp/edges tools/edges.c && /tmp/edges > crates/bpf_model/proofs/Edges.antt
#include <inttypes.h>
#include <stdio.h>

typedef uint64_t u64;
typedef uint32_t u32;
typedef int64_t s64;
typedef int32_t s32;

static const u64 pairs[][2] = {
    {0, 0}, {1, 0}, {0, 1}, {1, 1}, {5, 3}, {UINT64_MAX - 12, 3}, {13, UINT64_MAX - 2}, {1, 31}, {1, 32}, {1, 63}, {1, 64}, {1, 65},
    {INT32_MAX, 1}, {0x80000000u, 1}, {UINT32_MAX, 1}, {1ull << 32, 1}, {0x80000000u, UINT32_MAX}, {0x80000000u, UINT64_MAX},
    {INT64_MAX, 1}, {1ull << 63, 1}, {1ull << 63, UINT64_MAX}, {UINT64_MAX, UINT64_MAX}, {UINT64_MAX, 63}, {1ull << 63, 63},
    {0x80000000u, 31}, {UINT64_MAX, 1ull << 32}, {0x1122334455667788ull, 0x8899aabbccddeeffull}, {0x80, 0x80}, {0x8000, 0x8000}, {0xff7fff7full, 0xff7fff7full}
};
enum { COUNT = sizeof pairs / sizeof pairs[0] };

static u64 sdiv(s64 a, s64 b) { return b == 0 ? 0 : b == -1 ? -(u64)a : (u64)(a / b); }
static u64 srem(s64 a, s64 b) { return b == 0 ? (u64)a : b == -1 ? 0 : (u64)(a % b); }

static u64 full(int op, u64 a, u64 b) {
    switch (op) {
    case 0: return a + b;
    case 1: return a - b;
    case 2: return a * b;
    case 3: return b ? a / b : 0;
    case 4: return sdiv((s64)a, (s64)b);
    case 5: return a | b;
    case 6: return a & b;
    case 7: return a << (b & 63);
    case 8: return a >> (b & 63);
    case 9: return -a;
    case 10: return b ? a % b : a;
    case 11: return srem((s64)a, (s64)b);
    case 12: return a ^ b;
    case 13: return b;
    case 14: return (u64)(s64)(int8_t)b;
    case 15: return (u64)(s64)(int16_t)b;
    case 16: return (u64)(s64)(s32)b;
    default: return (u64)((s64)a >> (b & 63));
    }
}

static u64 narrow(int op, u64 x, u64 y) {
    u32 a = (u32)x, b = (u32)y;
    switch (op) {
    case 0: return (u32)(a + b);
    case 1: return (u32)(a - b);
    case 2: return (u32)(a * b);
    case 3: return b ? a / b : 0;
    case 4: return (u32)sdiv((s32)a, (s32)b);
    case 5: return a | b;
    case 6: return a & b;
    case 7: return (u32)(a << (b & 31));
    case 8: return a >> (b & 31);
    case 9: return (u32)-a;
    case 10: return b ? a % b : a;
    case 11: return (u32)srem((s32)a, (s32)b);
    case 12: return a ^ b;
    case 13: return b;
    case 14: return (u32)(s32)(int8_t)b;
    case 15: return (u32)(s32)(int16_t)b;
    default: return (u32)((s32)a >> (b & 31));
    }
}

static int holds_full(int c, u64 a, u64 b) {
    s64 s = (s64)a, t = (s64)b;
    switch (c) {
    case 0: return a == b;
    case 1: return a > b;
    case 2: return a >= b;
    case 3: return (a & b) != 0;
    case 4: return a != b;
    case 5: return s > t;
    case 6: return s >= t;
    case 7: return a < b;
    case 8: return a <= b;
    case 9: return s < t;
    default: return s <= t;
    }
}

static int holds_narrow(int c, u64 x, u64 y) {
    u32 a = (u32)x, b = (u32)y;
    return c == 5 || c == 6 || c >= 9 ? holds_full(c, (u64)(s64)(s32)a, (u64)(s64)(s32)b) : holds_full(c, a, b);
}

static u64 swap(int kind, int bits, u64 a) {
    u64 low = bits == 16 ? (uint16_t)a : bits == 32 ? (u32)a : a;
    if (kind == 0) return low;
    return bits == 16 ? __builtin_bswap16(low) : bits == 32 ? __builtin_bswap32(low) : __builtin_bswap64(low);
}

static const char *ops[][3] = {
    {"sum", "Add", "0"}, {"difference", "Sub", "0"}, {"product", "Mul", "0"}, {"quotient", "Div", "0"},
    {"signed_quotient", "Div", "1"}, {"or", "Or", "0"}, {"and", "And", "0"}, {"shift_left", "Lsh", "0"},
    {"shift_right", "Rsh", "0"}, {"negate", "Neg", "0"}, {"remainder", "Mod", "0"},
    {"signed_remainder", "Mod", "1"}, {"xor", "Xor", "0"}, {"move", "Mov", "0"}, {"move_byte", "Mov", "8"},
    {"move_half", "Mov", "16"}, {"move_word", "Mov", "32"}, {"shift_signed", "Arsh", "0"}
};
static const char *conditions[][2] = {
    {"equal", "Jeq"}, {"over", "Jgt"}, {"not_below", "Jge"}, {"shares_bit", "Jset"}, {"differs", "Jne"},
    {"over_signed", "Jsgt"}, {"not_below_signed", "Jsge"}, {"below", "Jlt"}, {"not_over", "Jle"},
    {"below_signed", "Jslt"}, {"not_over_signed", "Jsle"}
};
static const char *widths[] = {"Bits32", "Bits64"};
static const char *names[] = {"narrow", "full"};

int main(void) {
    puts("-- Closed examples: each operator and condition at edge values. The expected values are C's: tools/edges.c wrote this\n-- file.");
    puts("use Rattle.std.specs.Prelude.{◌≡◌, refl, ℕ, ℤ, pos, Bool, true, false, List, [], ◌∷◌, map}");
    puts("use Rattle.bpf_model.specs.declared.instruction.Width.{Width}");
    puts("use Rattle.bpf_model.specs.declared.instruction.Width.TheVariants.{Bits32, Bits64}");
    puts("use Rattle.bpf_model.specs.declared.instruction.Source.TheVariants.{Immediate, Register}");
    puts("use Rattle.bpf_model.specs.declared.instruction.Operator.{Operator}");
    puts("use Rattle.bpf_model.specs.declared.instruction.Operator.TheVariants.{Add, Sub, Mul, Div, Or, And, Lsh, Rsh, Neg, Mod, Xor, Mov, Arsh}");
    puts("use Rattle.bpf_model.specs.declared.instruction.Condition.{Condition}");
    puts("use Rattle.bpf_model.specs.declared.instruction.Condition.TheVariants.{Jeq, Jgt, Jge, Jset, Jne, Jsgt, Jsge, Jlt, Jle, Jslt, Jsle}");
    puts("use Rattle.bpf_model.specs.Arithmetic.{alu, holds, swapped}\n");
    printf("-- the pairs of operands that each operator and condition is tried on, dst first\nabbrev pairs : List (ℕ × ℕ)\npairs =\n    ");
    for (int i = 0; i < COUNT; i++) printf("(%" PRIu64 ", %" PRIu64 ") ∷ ", pairs[i][0], pairs[i][1]);
    puts("[]\n");
    puts("abbrev results : Operator → Width → ℤ → List ℕ\nresults op w offset = map (λ p. alu op w offset p.0 p.1) pairs\n");
    puts("abbrev taken : Condition → Width → List Bool\ntaken c w = map (λ p. holds c w p.0 p.1) pairs");
    for (int w = 0; w < 2; w++)
        for (int op = 0; op < 18; op++) {
            if (w == 0 && op == 16) continue;
            printf("\n%s_%s : results %s %s (pos %s) ≡ ", ops[op][0], names[w], ops[op][1], widths[w], ops[op][2]);
            for (int i = 0; i < COUNT; i++) printf("%" PRIu64 " ∷ ", w ? full(op, pairs[i][0], pairs[i][1]) : narrow(op, pairs[i][0], pairs[i][1]));
            printf("[]\n%s_%s = refl\n", ops[op][0], names[w]);
        }
    for (int w = 0; w < 2; w++)
        for (int c = 0; c < 11; c++) {
            printf("\njumps_where_%s_%s : taken %s %s ≡ ", conditions[c][0], names[w], conditions[c][1], widths[w]);
            for (int i = 0; i < COUNT; i++) printf("%s ∷ ", (w ? holds_full : holds_narrow)(c, pairs[i][0], pairs[i][1]) ? "true" : "false");
            printf("[]\njumps_where_%s_%s = refl\n", conditions[c][0], names[w]);
        }
    static const char *kinds[][2] = {{"kept", "Bits32 Immediate"}, {"big_endian", "Bits32 Register"}, {"swap", "Bits64 Immediate"}};
    for (int k = 0; k < 3; k++)
        for (int bits = 16; bits <= 64; bits *= 2) {
            printf("\n%s_%d : map (λ p. swapped %s %d p.1) pairs ≡ ", kinds[k][0], bits, kinds[k][1], bits);
            for (int i = 0; i < COUNT; i++) printf("%" PRIu64 " ∷ ", swap(k, bits, pairs[i][1]));
            printf("[]\n%s_%d = refl\n", kinds[k][0], bits);
        }
    return 0;
}
