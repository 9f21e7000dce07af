/* What mid_switch.c and mid_goto.c share: both programs of mid_speed, what their instructions do to
   values and memory, and how a run is timed. Memory is a row of cells and a table of objects by number. */
#include <inttypes.h>
#include <stdio.h>
#include <stdlib.h>
#include <time.h>

#define INLINE inline __attribute__((always_inline))

enum code { CONST, MOVE, ARITH, PTRADD, LOAD, STORE, OPEN, JUMP, JUMPZ, JUMPN, TURN, EXIT, CODES };
enum op { ADD, SUB, MUL, DIV, REM, SHL, SHR, AND, OR, XOR, LT, GT, LE, GE, EQ, NE, OPS };
enum ty { INT, UINT };

struct mid {
    uint8_t code, op, ty, negated;
    uint16_t target, left, right, scale;
    uint32_t place;
    uint64_t value;
};

enum trap { NONE, OVERFLOW, DIVIDE_BY_ZERO, SHIFT_RANGE, TURNS, NULL_POINTER, DEAD_OBJECT, OUTSIDE_OBJECT, READ_ONLY, CELLS };

struct object {
    uint32_t start;
    uint16_t cells;
    uint8_t lives, read_only;
};

enum { MOST_CELLS = 1048576 };

static struct object objects[1 << 16];
static uint64_t *cells;
static uint32_t used, fresh = 1;

static INLINE enum trap reduce(int64_t value, uint64_t *result) {
    if (value < INT32_MIN || value > INT32_MAX) return OVERFLOW;
    *result = (uint32_t)value;
    return NONE;
}

static INLINE enum trap arith(uint8_t op, uint8_t ty, uint64_t a, uint64_t b, uint64_t *result) {
    uint32_t ua = (uint32_t)a, ub = (uint32_t)b;
    int64_t x = ty == INT ? (int32_t)ua : (int64_t)ua, y = ty == INT ? (int32_t)ub : (int64_t)ub;
    switch (op) {
    case ADD: if (ty == INT) return reduce(x + y, result); *result = (uint32_t)(ua + ub); return NONE;
    case SUB: if (ty == INT) return reduce(x - y, result); *result = (uint32_t)(ua - ub); return NONE;
    case MUL: if (ty == INT) return reduce(x * y, result); *result = (uint32_t)(ua * ub); return NONE;
    case DIV: if (y == 0) return DIVIDE_BY_ZERO; if (ty == INT) return reduce(x / y, result); *result = ua / ub; return NONE;
    case REM: if (y == 0) return DIVIDE_BY_ZERO; if (x == INT32_MIN && y == -1) return OVERFLOW; *result = (uint32_t)(x % y); return NONE;
    case SHL: if (ub >= 32) return SHIFT_RANGE; if (ty == INT) return x < 0 ? OVERFLOW : reduce(x << ub, result); *result = (uint32_t)(ua << ub); return NONE;
    case SHR: if (ub >= 32) return SHIFT_RANGE; *result = (uint32_t)(x >> ub); return NONE;
    case AND: *result = ua & ub; return NONE;
    case OR: *result = ua | ub; return NONE;
    case XOR: *result = ua ^ ub; return NONE;
    case LT: *result = x < y; return NONE;
    case GT: *result = x > y; return NONE;
    case LE: *result = x <= y; return NONE;
    case GE: *result = x >= y; return NONE;
    case EQ: *result = x == y; return NONE;
    default: *result = x != y; return NONE;
    }
}

/* The pointer that lies an index times a scale further. */
static INLINE enum trap move(uint64_t pointer, const struct mid *m, uint64_t index, uint64_t *result) {
    int64_t amount = (m->ty == INT ? (int32_t)(uint32_t)index : (int64_t)(uint32_t)index) * m->scale;
    if (m->negated) amount = -amount;
    if (pointer >> 16 == 0) {
        *result = pointer;
        return amount == 0 ? NONE : NULL_POINTER;
    }
    int64_t offset = (int64_t)(pointer & 65535) + amount;
    if (offset < 0 || offset > 65535) return OUTSIDE_OBJECT;
    *result = (pointer & ~(uint64_t)65535) | (uint64_t)offset;
    return NONE;
}

/* The place of the cell to which a pointer points, with the tests of an access. */
static INLINE enum trap reach(uint64_t pointer, int writes, uint64_t *place) {
    uint64_t number = pointer >> 16, offset = pointer & 65535;
    if (number == 0) return NULL_POINTER;
    if (number >= fresh || !objects[number].lives) return DEAD_OBJECT;
    if (offset >= objects[number].cells) return OUTSIDE_OBJECT;
    if (writes && objects[number].read_only) return READ_ONLY;
    *place = objects[number].start + offset;
    return NONE;
}

/* The address of a new object of zeros. */
static INLINE enum trap open_object(uint64_t count, uint64_t *result) {
    if (fresh == 1 << 16 || MOST_CELLS - used < count) return CELLS;
    objects[fresh] = (struct object){used, (uint16_t)count, 1, 0};
    used += (uint32_t)count;
    *result = (uint64_t)fresh++ << 16;
    return NONE;
}

static int run(const struct mid *code, uint64_t *r, uint64_t turns);

static void timed(const char *name, const struct mid *code, double instructions) {
    uint64_t *registers = calloc(1024, sizeof *registers);
    struct timespec start, end;
    clock_gettime(CLOCK_MONOTONIC, &start);
    int status = run(code, registers, 10000000000);
    clock_gettime(CLOCK_MONOTONIC, &end);
    double seconds = (end.tv_sec - start.tv_sec) + (end.tv_nsec - start.tv_nsec) / 1e9;
    fprintf(stderr, "%s: %.0f instructions a second\n", name, instructions / seconds);
    printf("Some(Exit(%d))\n", status);
    free(registers);
}

int main(int count, char **args) {
    uint64_t rounds = count > 1 ? strtoull(args[1], NULL, 10) : 100000, sweeps = rounds / 1000 + 1;
    const struct mid arithmetic[] = {
        {.code = CONST, .target = 0, .value = rounds},
        {.code = CONST, .target = 1, .value = 1},
        {.code = CONST, .target = 2, .value = 0},
        {.code = TURN},
        {.code = ARITH, .op = ADD, .ty = UINT, .target = 2, .left = 2, .right = 0},
        {.code = ARITH, .op = XOR, .ty = UINT, .target = 3, .left = 2, .right = 0},
        {.code = MOVE, .target = 4, .left = 3},
        {.code = ARITH, .op = AND, .ty = UINT, .target = 5, .left = 0, .right = 1},
        {.code = JUMPZ, .left = 5, .place = 10},
        {.code = ARITH, .op = ADD, .ty = UINT, .target = 2, .left = 4, .right = 1},
        {.code = ARITH, .op = SUB, .ty = UINT, .target = 0, .left = 0, .right = 1},
        {.code = JUMPN, .left = 0, .place = 3},
        {.code = EXIT, .left = 2},
    };
    const struct mid array[] = {
        {.code = CONST, .target = 0, .value = sweeps},
        {.code = CONST, .target = 1, .value = 1},
        {.code = CONST, .target = 3, .value = 1000},
        {.code = OPEN, .target = 6, .value = 1000},
        {.code = TURN},
        {.code = CONST, .target = 2, .value = 0},
        {.code = TURN},
        {.code = PTRADD, .ty = UINT, .target = 7, .left = 6, .right = 2, .scale = 1},
        {.code = LOAD, .target = 4, .left = 7},
        {.code = ARITH, .op = ADD, .ty = UINT, .target = 4, .left = 4, .right = 0},
        {.code = STORE, .left = 7, .right = 4},
        {.code = ARITH, .op = ADD, .ty = UINT, .target = 2, .left = 2, .right = 1},
        {.code = ARITH, .op = LT, .ty = UINT, .target = 5, .left = 2, .right = 3},
        {.code = JUMPN, .left = 5, .place = 6},
        {.code = ARITH, .op = SUB, .ty = UINT, .target = 0, .left = 0, .right = 1},
        {.code = JUMPN, .left = 0, .place = 4},
        {.code = EXIT, .left = 4},
    };
    cells = calloc(MOST_CELLS, sizeof *cells);
    timed("arithmetic", arithmetic, rounds * 8.5);
    timed("array", array, sweeps * 8004.0);
    free(cells);
    return 0;
}
