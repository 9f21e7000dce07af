/*
 * Prints the expected values of the arithmetic tests of srmt_base, as rows of two Rattle arrays.
 * What C leaves undefined is found by a test before it is computed, and printed as a trap. That a
 * plain char is signed, that a signed shift to the right copies the sign and that a conversion to a
 * signed type wraps is what gcc does on x86-64.
 *
 *     gcc -std=c11 -O1 -Wall -Wextra arith_table.c -o arith_table && ./arith_table
 */
#include <inttypes.h>
#include <limits.h>
#include <stdbool.h>
#include <stdio.h>

static const char *const OPS[] = {"Add", "Sub", "Mul", "Div", "Rem", "Shl", "Shr", "And",
                                  "Or",  "Xor", "Lt",  "Gt",  "Le",  "Ge",  "Eq",  "Ne"};
static const char *const TYS[] = {"Bool", "Char", "SChar", "UChar", "Short", "UShort", "Int", "UInt"};

enum { ADD, SUB, MUL, DIV, REM, SHL, SHR, AND, OR, XOR, LT, GT, LE, GE, EQ, NE };
enum { BOOL, CHAR, SCHAR, UCHAR, SHORT, USHORT, INT, UINT };

static const uint64_t PAIRS[][2] = {
    {7, 2},
    {4294967289u, 2},
    {7, 4294967294u},
    {2147483647, 1},
    {2147483648u, 4294967295u},
    {1, 31},
    {5, 0},
    {65536, 32768},
    {4294967303u, 4294967298u},
    {17592186044415u, 32},
};

static const uint64_t NUMBERS[] = {0, 200, 256, 40000, 17592186044288u};

static void ok(uint32_t value) { printf("Ok(%" PRIu32 ")", value); }

static void trap(const char *name) { printf("Err(%s)", name); }

static void at_int(int op, int x, int y, uint32_t count) {
    int r = 0;
    switch (op) {
    case ADD: __builtin_add_overflow(x, y, &r) ? trap("Overflow") : ok((uint32_t)r); break;
    case SUB: __builtin_sub_overflow(x, y, &r) ? trap("Overflow") : ok((uint32_t)r); break;
    case MUL: __builtin_mul_overflow(x, y, &r) ? trap("Overflow") : ok((uint32_t)r); break;
    case DIV:
    case REM:
        if (y == 0) trap("DivideByZero");
        else if (x == INT_MIN && y == -1) trap("Overflow");
        else ok((uint32_t)(op == DIV ? x / y : x % y));
        break;
    case SHL:
        if (count >= 32) trap("ShiftRange");
        else if (x < 0 || (long long)x * (1LL << count) > INT_MAX) trap("Overflow");
        else ok((uint32_t)(x << count));
        break;
    case SHR: count >= 32 ? trap("ShiftRange") : ok((uint32_t)(x >> count)); break;
    case AND: ok((uint32_t)(x & y)); break;
    case OR: ok((uint32_t)(x | y)); break;
    case XOR: ok((uint32_t)(x ^ y)); break;
    case LT: ok((uint32_t)(x < y)); break;
    case GT: ok((uint32_t)(x > y)); break;
    case LE: ok((uint32_t)(x <= y)); break;
    case GE: ok((uint32_t)(x >= y)); break;
    case EQ: ok((uint32_t)(x == y)); break;
    case NE: ok((uint32_t)(x != y)); break;
    }
}

static void at_uint(int op, unsigned x, unsigned y) {
    switch (op) {
    case ADD: ok(x + y); break;
    case SUB: ok(x - y); break;
    case MUL: ok(x * y); break;
    case DIV: y == 0 ? trap("DivideByZero") : ok(x / y); break;
    case REM: y == 0 ? trap("DivideByZero") : ok(x % y); break;
    case SHL: y >= 32 ? trap("ShiftRange") : ok(x << y); break;
    case SHR: y >= 32 ? trap("ShiftRange") : ok(x >> y); break;
    case AND: ok(x & y); break;
    case OR: ok(x | y); break;
    case XOR: ok(x ^ y); break;
    case LT: ok((uint32_t)(x < y)); break;
    case GT: ok((uint32_t)(x > y)); break;
    case LE: ok((uint32_t)(x <= y)); break;
    case GE: ok((uint32_t)(x >= y)); break;
    case EQ: ok((uint32_t)(x == y)); break;
    case NE: ok((uint32_t)(x != y)); break;
    }
}

/* A number is read at a type by its low 32 bits, as an int or as an unsigned. */
static uint32_t convert(int from, int to, uint64_t number) {
    bool is_signed = from == CHAR || from == SCHAR || from == SHORT || from == INT;
    long long value = is_signed ? (long long)(int32_t)(uint32_t)number : (long long)(uint32_t)number;
    switch (to) {
    case BOOL: return (_Bool)value;
    case CHAR: return (uint32_t)(char)value;
    case SCHAR: return (uint32_t)(signed char)value;
    case UCHAR: return (uint32_t)(unsigned char)value;
    case SHORT: return (uint32_t)(short)value;
    case USHORT: return (uint32_t)(unsigned short)value;
    case INT: return (uint32_t)(int)value;
    default: return (uint32_t)value;
    }
}

int main(void) {
    size_t pairs = sizeof PAIRS / sizeof PAIRS[0], numbers = sizeof NUMBERS / sizeof NUMBERS[0];
    printf("pub static OPERATIONS: [(Op, Ty, u64, u64, Result<u64, Trap>); %zu] = [\n", 16 * 2 * pairs);
    for (int op = ADD; op <= NE; op++)
        for (int ty = INT; ty <= UINT; ty++)
            for (size_t i = 0; i < pairs; i++) {
                uint64_t a = PAIRS[i][0], b = PAIRS[i][1];
                printf("    (%s, %s, %" PRIu64 ", %" PRIu64 ", ", OPS[op], TYS[ty], a, b);
                if (ty == INT) at_int(op, (int)(uint32_t)a, (int)(uint32_t)b, (uint32_t)b);
                else at_uint(op, (uint32_t)a, (uint32_t)b);
                printf("),\n");
            }
    printf("];\n\npub static CONVERSIONS: [(Ty, Ty, u64, u64); %zu] = [\n", 8 * 8 * numbers);
    for (int from = BOOL; from <= UINT; from++)
        for (int to = BOOL; to <= UINT; to++)
            for (size_t i = 0; i < numbers; i++)
                printf("    (%s, %s, %" PRIu64 ", %" PRIu32 "),\n", TYS[from], TYS[to], NUMBERS[i],
                       convert(from, to, NUMBERS[i]));
    printf("];\n");
    return 0;
}
