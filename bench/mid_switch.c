/* Both loops of mid_speed, run by a plain switch over the same instructions. */
#include "mid_machine.h"

static int run(const struct mid *code, uint64_t *r, uint64_t turns) {
    uint32_t place = 0;
    for (;;) {
        const struct mid *m = &code[place];
        switch (m->code) {
        case CONST: r[m->target] = m->value; place++; break;
        case MOVE: r[m->target] = r[m->left]; place++; break;
        case ARITH: {
            uint64_t result;
            enum trap trap = arith(m->op, m->ty, r[m->left], r[m->right], &result);
            if (trap != NONE) return -(int)trap;
            r[m->target] = result;
            place++;
            break;
        }
        case PTRADD: {
            uint64_t result;
            enum trap trap = move(r[m->left], m, r[m->right], &result);
            if (trap != NONE) return -(int)trap;
            r[m->target] = result;
            place++;
            break;
        }
        case LOAD: {
            uint64_t cell;
            enum trap trap = reach(r[m->left], 0, &cell);
            if (trap != NONE) return -(int)trap;
            r[m->target] = cells[cell];
            place++;
            break;
        }
        case STORE: {
            uint64_t cell;
            enum trap trap = reach(r[m->left], 1, &cell);
            if (trap != NONE) return -(int)trap;
            cells[cell] = r[m->right];
            place++;
            break;
        }
        case OPEN: {
            uint64_t result;
            enum trap trap = open_object(m->value, &result);
            if (trap != NONE) return -(int)trap;
            r[m->target] = result;
            place++;
            break;
        }
        case JUMP: place = m->place; break;
        case JUMPZ: place = r[m->left] == 0 ? m->place : place + 1; break;
        case JUMPN: place = r[m->left] != 0 ? m->place : place + 1; break;
        case TURN: if (turns == 0) return -TURNS; turns--; place++; break;
        default: return (int)(r[m->left] % 256);
        }
    }
}
