/* Both loops of mid_speed by computed goto (gcc's labels as values), as the limit of what an interpreter
   reaches: each instruction jumps to the next by itself, and a label is of one operator at one type. */
#include "mid_machine.h"

#define LABEL(m) ((m)->code == ARITH ? CODES + 2 * (m)->op + (m)->ty : (m)->code)
#define DO(TRAP) do { enum trap trap = (TRAP); if (trap != NONE) return -(int)trap; } while (0)
#define GIVE(TRAP) { uint64_t result; DO(TRAP); r[m->target] = result; m++; goto *m->label; }
#define AT(OP, TY) arith_##OP##_##TY: GIVE(arith(OP, TY, r[m->left], r[m->right], &result))
#define BOTH(OP) AT(OP, INT) AT(OP, UINT)
#define NAMES(OP) &&arith_##OP##_INT, &&arith_##OP##_UINT

/* An instruction with its label. */
struct line {
    void *label;
    uint16_t target, left, right, scale;
    const struct line *place;
    uint64_t value;
    const struct mid *mid;
};

static int run(const struct mid *code, uint64_t *r, uint64_t turns) {
    static void *labels[] = {
        &&set, &&copy, NULL, &&sum, &&load, &&store, &&open, &&jump, &&jump_zero, &&jump_not, &&turn, &&leave,
        NAMES(ADD), NAMES(SUB), NAMES(MUL), NAMES(DIV), NAMES(REM), NAMES(SHL), NAMES(SHR), NAMES(AND),
        NAMES(OR), NAMES(XOR), NAMES(LT), NAMES(GT), NAMES(LE), NAMES(GE), NAMES(EQ), NAMES(NE),
    };
    static struct line lines[64];
    for (size_t i = 0; i < 64; i++) {
        const struct mid *m = &code[i];
        lines[i] = (struct line){labels[LABEL(m)], m->target, m->left, m->right, m->scale, &lines[m->place], m->value, m};
        if (m->code == EXIT) break;
    }
    const struct line *m = lines;
    goto *m->label;
    set: r[m->target] = m->value; m++; goto *m->label;
    copy: r[m->target] = r[m->left]; m++; goto *m->label;
    sum: GIVE(move(r[m->left], m->mid, r[m->right], &result))
    load: { uint64_t cell; DO(reach(r[m->left], 0, &cell)); r[m->target] = cells[cell]; m++; goto *m->label; }
    store: { uint64_t cell; DO(reach(r[m->left], 1, &cell)); cells[cell] = r[m->right]; m++; goto *m->label; }
    open: GIVE(open_object(m->value, &result))
    jump: m = m->place; goto *m->label;
    jump_zero: if (r[m->left] == 0) { m = m->place; goto *m->label; } m++; goto *m->label;
    jump_not: if (r[m->left] != 0) { m = m->place; goto *m->label; } m++; goto *m->label;
    turn: if (turns == 0) return -TURNS; turns--; m++; goto *m->label;
    leave: return (int)(r[m->left] % 256);
    BOTH(ADD) BOTH(SUB) BOTH(MUL) BOTH(DIV) BOTH(REM) BOTH(SHL) BOTH(SHR) BOTH(AND)
    BOTH(OR) BOTH(XOR) BOTH(LT) BOTH(GT) BOTH(LE) BOTH(GE) BOTH(EQ) BOTH(NE)
}
