/* A plain front end of the same shape in C: tokens in a row, and a tree of one allocated node for each
   expression, statement and declarator. It reads the subset's ordinary code and refuses with a message.
   Usage: parse_front FILE; prints the times of tokens and tree in microseconds. */
#include <stdint.h>
#include <stdio.h>
#include <stdlib.h>
#include <string.h>
#include <time.h>

enum { NAME = 256, NUMBER, CHARACTER, TEXT, WORD, MARK = 512 };

typedef struct { uint16_t kind; uint32_t value, start, end, line; } Token;

typedef struct Node Node;
struct Node { uint8_t tag, op; uint32_t line, at, value; Node **parts; uint32_t count, room; };

static const char *words[] = {
    "auto", "break", "case", "char", "const", "continue", "default", "do", "double", "else", "enum", "extern",
    "float", "for", "goto", "if", "inline", "int", "long", "register", "restrict", "return", "short", "signed",
    "sizeof", "static", "struct", "switch", "typedef", "union", "unsigned", "void", "volatile", "while"};
enum { BREAK = WORD + 1, CHAR = WORD + 3, CONST = WORD + 4, CONTINUE = WORD + 5, DO = WORD + 7, ELSE = WORD + 9,
       EXTERN = WORD + 11, FOR = WORD + 13, IF = WORD + 15, INT = WORD + 17, RETURN = WORD + 21, SHORT = WORD + 22,
       SIGNED = WORD + 23, SIZEOF = WORD + 24, STATIC = WORD + 25, UNSIGNED = WORD + 30, VOID = WORD + 31,
       VOLATILE = WORD + 32, WHILE = WORD + 33 };

static const char *src;
static Token *tokens, *next;
static size_t count;

static void fail(const char *why) { fprintf(stderr, "%s at %u\n", why, next ? next->start : 0); exit(1); }

static void *take(size_t bytes) { void *p = malloc(bytes); if (!p) fail("no memory"); return p; }

/* ---- tokens */

static int is_name(int c) { return (c >= 'a' && c <= 'z') || (c >= 'A' && c <= 'Z') || c == '_' || (c >= '0' && c <= '9'); }

#define WORDS (sizeof words / sizeof *words)
static size_t lens[WORDS];

static uint16_t word_kind(const char *s, size_t len) {
    for (size_t i = 0; i < WORDS; i++)
        if (lens[i] == len && words[i][0] == *s && !memcmp(words[i], s, len)) return WORD + i;
    return NAME;
}

/* a mark's kind packs its one to three bytes */
static unsigned mark_len(const char *s) {
    static const char *longer[] = {"...", "<<=", ">>=", "->", "++", "--", "<<", ">>", "<=", ">=", "==", "!=",
        "&&", "||", "*=", "/=", "%=", "+=", "-=", "&=", "^=", "|="};
    if (!strchr("=+-<>&|.", s[1]) || !s[1]) return 1;
    for (size_t i = 0; i < sizeof longer / sizeof *longer; i++)
        if (!strncmp(s, longer[i], strlen(longer[i]))) return strlen(longer[i]);
    return 1;
}

static uint16_t mark_kind(const char *s, unsigned len) {
    return MARK + (uint8_t)s[0] + (len > 1 ? (uint8_t)s[1] * 128 : 0) + (len > 2 ? 64 : 0);
}

#define M1(a) (MARK + (a))
#define M2(a, b) (MARK + (a) + (b) * 128)
#define M3(a, b) (MARK + (a) + (b) * 128 + 64)

static void lex(size_t size) {
    size_t room = size / 3 + 1;
    uint32_t line = 1;
    tokens = take(room * sizeof *tokens);
    for (size_t at = 0; at < size;) {
        const char *s = src + at;
        size_t len = 1;
        Token t = {0, 0, at, 0, line};
        if (*s == '\n') { line++; at++; continue; }
        if (*s == ' ' || (*s >= 9 && *s <= 13)) { at++; continue; }
        if (s[0] == '/' && s[1] == '/') { while (at < size && src[at] != '\n') at++; continue; }
        if (s[0] == '/' && s[1] == '*') {
            for (at += 2; at < size && !(src[at] == '*' && src[at + 1] == '/'); at++) line += src[at] == '\n';
            at += 2;
            continue;
        }
        if (*s >= '0' && *s <= '9') {
            while (is_name(s[len])) len++;
            t.kind = NUMBER;
            t.value = strtoul(s, NULL, 0);
        } else if (is_name(*s)) {
            while (is_name(s[len])) len++;
            t.kind = word_kind(s, len);
        } else if (*s == '"' || *s == '\'') {
            while (s[len] != *s) len += s[len] == '\\' ? 2 : 1;
            len++;
            t.kind = *s == '"' ? TEXT : CHARACTER;
            t.value = s[1];
        } else {
            len = mark_len(s);
            t.kind = mark_kind(s, len);
        }
        t.end = at += len;
        if (count + 1 >= room && !(tokens = realloc(tokens, (room *= 2) * sizeof *tokens))) fail("no memory");
        tokens[count++] = t;
    }
    tokens[count] = (Token){0, 0, size, size, line};
}

/* ---- the tree */

static int sees(unsigned kind) { return next->kind == kind; }
static void want(unsigned kind) { if (!sees(kind)) fail("unexpected token"); next++; }

static Node *node(int tag, uint32_t line) {
    Node *n = take(sizeof *n);
    memset(n, 0, sizeof *n);
    n->tag = tag;
    n->line = line;
    return n;
}

static void add(Node *n, Node *part) {
    if (n->count == n->room) {
        n->room = n->room ? n->room * 2 : 2;
        if (!(n->parts = realloc(n->parts, n->room * sizeof *n->parts))) fail("no memory");
    }
    n->parts[n->count++] = part;
}

static Node *leaf(int tag) {
    Node *n = node(tag, next->line);
    size_t len = next->end - next->start;
    n->value = next->value;
    if (tag == NAME % 256 || tag == 3) n->parts = memcpy(take(len), src + next->start, len);
    next++;
    return n;
}

static Node *expr(void), *assign(void), *cast(void), *declarator(void);

static int is_spec(void) {
    switch (next->kind) {
    case STATIC: case EXTERN: case CONST: case VOLATILE: case VOID: case CHAR: case SHORT: case INT: case SIGNED:
    case UNSIGNED: return 1;
    }
    return 0;
}

static Node *specs(void) {
    Node *n = node(10, next->line);
    if (!is_spec()) fail("no specifier");
    while (is_spec()) { Node *w = node(11, next->line); w->value = next++->kind; add(n, w); }
    return n;
}

static Node *primary(void) {
    Node *n;
    switch (next->kind) {
    case NAME: return leaf(0);
    case NUMBER: return leaf(1);
    case CHARACTER: return leaf(2);
    case TEXT: n = leaf(3); while (sees(TEXT)) add(n, leaf(3)); return n;
    }
    n = node(4, next->line);
    want(M1('('));
    add(n, expr());
    want(M1(')'));
    return n;
}

static Node *postfix(void) {
    Node *n = primary();
    for (;;) {
        Node *p = node(5, n->line);
        p->at = next->line;
        if (sees(M1('['))) { next++; add(p, n); add(p, expr()); want(M1(']')); }
        else if (sees(M1('('))) {
            next++; p->tag = 6; add(p, n);
            if (!sees(M1(')'))) { add(p, assign()); while (sees(M1(','))) { next++; add(p, assign()); } }
            want(M1(')'));
        } else if (sees(M2('+', '+')) || sees(M2('-', '-'))) { p->tag = 7; p->value = next++->kind; add(p, n); }
        else { free(p); return n; }
        n = p;
    }
}

static Node *type_name(void) {
    Node *n = node(12, next->line);
    add(n, specs());
    if (sees(M1('*')) || sees(M1('(')) || sees(M1('['))) add(n, declarator());
    return n;
}

static Node *unary(void) {
    Node *n = node(8, next->line);
    n->value = next->kind;
    switch (next->kind) {
    case SIZEOF:
        next++;
        if (sees(M1('(')) && (next++, is_spec())) { add(n, type_name()); want(M1(')')); return n; }
        if (next[-1].kind == M1('(')) next--;
        add(n, unary());
        return n;
    case M2('+', '+'): case M2('-', '-'): next++; add(n, unary()); return n;
    case M1('&'): case M1('*'): case M1('+'): case M1('-'): case M1('~'): case M1('!'): next++; add(n, cast()); return n;
    }
    free(n);
    return postfix();
}

static Node *cast(void) {
    if (!sees(M1('('))) return unary();
    next++;
    int typed = is_spec();
    next--;
    if (!typed) return unary();
    Node *n = node(9, next++->line);
    add(n, type_name());
    want(M1(')'));
    add(n, cast());
    return n;
}

static int level(unsigned kind) {
    switch (kind) {
    case M1('*'): case M1('/'): case M1('%'): return 10;
    case M1('+'): case M1('-'): return 9;
    case M2('<', '<'): case M2('>', '>'): return 8;
    case M1('<'): case M1('>'): case M2('<', '='): case M2('>', '='): return 7;
    case M2('=', '='): case M2('!', '='): return 6;
    case M1('&'): return 5;
    case M1('^'): return 4;
    case M1('|'): return 3;
    case M2('&', '&'): return 2;
    case M2('|', '|'): return 1;
    }
    return 0;
}

static Node *binary(int least) {
    Node *left = cast();
    for (int l; (l = level(next->kind)) >= least && l; ) {
        Node *n = node(13, left->line);
        n->at = next->line;
        n->value = next++->kind;
        add(n, left);
        add(n, binary(l + 1));
        left = n;
    }
    return left;
}

static Node *conditional(void) {
    Node *c = binary(1);
    if (!sees(M1('?'))) return c;
    Node *n = node(14, c->line);
    n->at = next++->line;
    add(n, c);
    add(n, expr());
    want(M1(':'));
    add(n, conditional());
    return n;
}

static Node *assign(void) {
    Node *left = conditional();
    switch (next->kind) {
    case M1('='): case M2('*', '='): case M2('/', '='): case M2('%', '='): case M2('+', '='): case M2('-', '='):
    case M3('<', '<'): case M3('>', '>'): case M2('&', '='): case M2('^', '='): case M2('|', '='): break;
    default: return left;
    }
    Node *n = node(15, left->line);
    n->at = next->line;
    n->value = next++->kind;
    add(n, left);
    add(n, assign());
    return n;
}

static Node *expr(void) {
    Node *first = assign();
    if (!sees(M1(','))) return first;
    Node *n = node(16, first->line);
    add(n, first);
    while (sees(M1(','))) { next++; add(n, assign()); }
    return n;
}

static Node *declarator(void) {
    Node *n = node(20, next->line);
    while (sees(M1('*'))) {
        Node *p = node(21, next++->line);
        while (sees(CONST) || sees(VOLATILE)) next++;
        add(n, p);
    }
    if (sees(NAME)) add(n, leaf(0));
    else if (sees(M1('('))) { next++; add(n, declarator()); want(M1(')')); }
    while (sees(M1('[')) || sees(M1('('))) {
        Node *s = node(22, next->line);
        if (sees(M1('['))) { next++; if (!sees(M1(']'))) add(s, conditional()); want(M1(']')); }
        else {
            next++;
            s->tag = 23;
            while (!sees(M1(')'))) {
                Node *p = node(24, next->line);
                add(p, specs());
                if (!sees(M1(',')) && !sees(M1(')'))) add(p, declarator());
                add(s, p);
                if (!sees(M1(')'))) want(M1(','));
            }
            next++;
        }
        add(n, s);
    }
    return n;
}

static Node *initializer(void) {
    if (!sees(M1('{'))) return assign();
    Node *n = node(25, next++->line);
    add(n, initializer());
    while (sees(M1(','))) { next++; add(n, initializer()); }
    want(M1('}'));
    return n;
}

static Node *items(Node *n, Node *first) {
    for (;;) {
        add(n, first);
        if (sees(M1('='))) { next++; add(n, initializer()); }
        if (!sees(M1(','))) break;
        next++;
        first = declarator();
    }
    want(M1(';'));
    return n;
}

static Node *declaration(void) {
    Node *n = node(26, next->line);
    add(n, specs());
    return items(n, declarator());
}

static Node *stmt(void);

static Node *block(void) {
    Node *n = node(30, next->line);
    want(M1('{'));
    while (!sees(M1('}'))) add(n, is_spec() ? declaration() : stmt());
    n->at = next++->line;
    return n;
}

static Node *in_parens(void) { want(M1('(')); Node *n = expr(); want(M1(')')); return n; }

static Node *stmt(void) {
    if (sees(M1('{'))) return block();
    Node *n = node(31, next->line);
    n->value = next->kind;
    switch (next->kind) {
    case M1(';'): break;
    case IF:
        next++; add(n, in_parens()); add(n, stmt());
        if (sees(ELSE)) { next++; add(n, stmt()); }
        return n;
    case WHILE: next++; add(n, in_parens()); add(n, stmt()); return n;
    case DO: next++; add(n, stmt()); want(WHILE); add(n, in_parens()); break;
    case FOR:
        next++; want(M1('('));
        if (is_spec()) add(n, declaration()); else { if (!sees(M1(';'))) add(n, expr()); want(M1(';')); }
        if (!sees(M1(';'))) add(n, expr());
        want(M1(';'));
        if (!sees(M1(')'))) add(n, expr());
        want(M1(')'));
        add(n, stmt());
        return n;
    case RETURN: next++; if (!sees(M1(';'))) add(n, expr()); break;
    case BREAK: case CONTINUE: next++; break;
    default: add(n, expr());
    }
    want(M1(';'));
    return n;
}

static Node *unit(void) {
    Node *n = node(40, 1);
    while (next->kind) {
        Node *e = node(41, next->line);
        add(e, specs());
        Node *d = declarator();
        if (sees(M1('{'))) { add(e, d); add(e, block()); } else items(e, d);
        add(n, e);
    }
    return n;
}

static double now(void) { struct timespec t; clock_gettime(CLOCK_MONOTONIC, &t); return t.tv_sec * 1e6 + t.tv_nsec / 1e3; }

int main(int argc, char **argv) {
    FILE *f = argc > 1 ? fopen(argv[1], "rb") : NULL;
    if (!f) { fprintf(stderr, "no source\n"); return 1; }
    char *bytes = calloc(1, 1048576 + 8);
    size_t size = fread(bytes, 1, 1048576, f);
    for (size_t i = 0; i < WORDS; i++) lens[i] = strlen(words[i]);
    src = bytes;
    double a = now();
    lex(size);
    double b = now();
    next = tokens;
    Node *u = unit();
    double c = now();
    printf("%zu tokens, %u externals\ntokens: %.0f microseconds, tree: %.0f microseconds (C)\n", count, u->count, b - a, c - b);
    return 0;
}
