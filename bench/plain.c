// A plain checker of proofs, to measure the proved one against: it reads the formula, the circuits and the records, does the same
// resolution in the same way (by going through the literals in order) and prints the same slip. It trusts the texts, and checks of
// the records only what resolution needs. Nothing here is proved.
//
//     plain true FORMULA CIRCUIT PROOF
//     plain false FORMULA PROOF
#include <stdint.h>
#include <stdio.h>
#include <stdlib.h>
#include <string.h>

enum { LONGEST_CLAUSE = 1024, MOST_CLAUSES = 1000000, MOST_ENTRIES = 16000000, MOST_GOALS = 16384 };

typedef struct { uint32_t code; uint64_t values; } Entry;
typedef struct { uint8_t *bytes; size_t length, at; } File;
typedef struct { uint32_t kind, position; uint64_t dependencies; } Variable;

static Variable *variables;
static uint32_t *clause_ends;
static int32_t *literals;
static uint32_t V, C, n, E;
static uint32_t M, I, O, A, *outputs, (*gates)[2];

static Entry *entries;
static uint32_t *ends, filed;
static int truth;

static void fail(const char *what) { fprintf(stderr, "plain: %s\n", what); exit(1); }

static void *room(size_t size) { void *p = malloc(size ? size : 1); if (!p) fail("no memory"); return p; }

static File read_file(const char *name)
{
    FILE *f = fopen(name, "rb");
    if (!f) fail(name);
    fseek(f, 0, SEEK_END);
    File file = { NULL, (size_t)ftell(f), 0 };
    rewind(f);
    file.bytes = room(file.length);
    if (fread(file.bytes, 1, file.length, f) != file.length) fail(name);
    fclose(f);
    return file;
}

static int blank(uint8_t b) { return b == ' ' || b == '\t' || b == '\r' || b == '\n'; }

static int next_word(File *f, const uint8_t **word, size_t *length)
{
    while (f->at < f->length && blank(f->bytes[f->at])) f->at++;
    size_t start = f->at;
    while (f->at < f->length && !blank(f->bytes[f->at])) f->at++;
    *word = f->bytes + start;
    *length = f->at - start;
    return f->at > start;
}

static int32_t number(File *f)
{
    const uint8_t *w;
    size_t l;
    if (!next_word(f, &w, &l)) fail("text ends");
    int minus = w[0] == '-';
    int32_t k = 0;
    for (size_t i = (size_t)minus; i < l; i++) k = k * 10 + (w[i] - '0');
    return minus ? -k : k;
}

static void read_formula(File f)
{
    const uint8_t *w;
    size_t l, at;
    next_word(&f, &w, &l);
    next_word(&f, &w, &l);
    V = (uint32_t)number(&f);
    C = (uint32_t)number(&f);
    variables = calloc(V + 1, sizeof *variables);
    clause_ends = room((C + 1) * sizeof *clause_ends);
    literals = room((f.length / 2 + 1) * sizeof *literals);
    for (;;) {
        at = f.at;
        if (!next_word(&f, &w, &l) || l != 1 || (w[0] != 'a' && w[0] != 'e' && w[0] != 'd')) { f.at = at; break; }
        if (w[0] == 'd') {
            Variable *v = &variables[number(&f)];
            *v = (Variable){ 2, ++E, 0 };
            for (int32_t u; (u = number(&f)) != 0;) v->dependencies |= 1ull << (variables[u].position - 1);
        } else {
            uint8_t quantifier = w[0];
            for (int32_t v; (v = number(&f)) != 0;)
                variables[v] = quantifier == 'a' ? (Variable){ 1, ++n, 0 } : (Variable){ 2, ++E, n == 64 ? ~0ull : (1ull << n) - 1 };
        }
    }
    uint32_t end = 0;
    clause_ends[0] = 0;
    for (uint32_t j = 1; j <= C; j++) {
        for (int32_t x; (x = number(&f)) != 0;) literals[end++] = x;
        clause_ends[j] = end;
    }
}

static void read_circuit(File f)
{
    const uint8_t *w;
    size_t l;
    next_word(&f, &w, &l);
    M = (uint32_t)number(&f);
    I = (uint32_t)number(&f);
    number(&f);
    O = (uint32_t)number(&f);
    A = (uint32_t)number(&f);
    outputs = room(O * sizeof *outputs);
    gates = room(A * sizeof *gates);
    for (uint32_t i = 0; i < I; i++) number(&f);
    for (uint32_t k = 0; k < O; k++) outputs[k] = (uint32_t)number(&f);
    for (uint32_t g = 0; g < A; g++) {
        number(&f);
        gates[g][0] = (uint32_t)number(&f);
        gates[g][1] = (uint32_t)number(&f);
    }
}

static Entry wire(uint32_t code) { return (Entry){ code, 0 }; }

static size_t truth_premise(uint8_t class, uint32_t k, uint8_t part, Entry *row)
{
    if (class == 0) { row[0] = wire(1); return 1; }
    if (class == 1) {
        uint32_t a = 2 * (I + k), r = gates[k - 1][0], s = gates[k - 1][1];
        if (part == 3) { row[0] = wire(a); row[1] = wire(r ^ 1); row[2] = wire(s ^ 1); return 3; }
        row[0] = wire(a ^ 1);
        row[1] = wire(part == 1 ? r : s);
        return 2;
    }
    uint32_t e = 2 * (M + k), o = outputs[k - 1];
    row[0] = wire(part == 1 ? e ^ 1 : e);
    row[1] = wire(part == 1 ? o : o ^ 1);
    return 2;
}

static size_t falsity_premise(uint32_t clause, uint64_t values, Entry *row)
{
    size_t length = 0;
    for (uint32_t i = clause_ends[clause - 1]; i < clause_ends[clause]; i++) {
        int32_t x = literals[i];
        Variable v = variables[x < 0 ? -x : x];
        if (v.kind == 1) {
            if ((x > 0) == (int)(values >> (v.position - 1) & 1)) fail("a universal literal is true");
        } else {
            row[length++] = (Entry){ 2 * v.position + (x < 0), values & v.dependencies };
        }
    }
    return length;
}

static size_t goal(uint32_t number, Entry *row)
{
    if (!truth) return 0;
    size_t length = 0;
    for (uint32_t i = clause_ends[number - 1]; i < clause_ends[number]; i++) {
        int32_t x = literals[i];
        Variable v = variables[x < 0 ? -x : x];
        row[length++] = wire(2 * (v.kind == 1 ? v.position : M + v.position) + (x < 0));
    }
    return length;
}

static int alike(Entry a, Entry b) { return a.code == b.code && a.values == b.values; }

static int contains(const Entry *items, size_t length, Entry x)
{
    for (size_t i = 0; i < length; i++)
        if (alike(items[i], x)) return 1;
    return 0;
}

static Entry complement(Entry x) { x.code ^= 1; return x; }

// Joins more literals to a row, without the one excepted.
static size_t join(Entry *row, size_t length, const Entry *more, size_t count, const Entry *except)
{
    int clash = 0;
    for (size_t i = 0; i < count; i++) {
        Entry y = more[i], not = complement(y);
        if (except && alike(*except, y)) continue;
        size_t k = 0;
        while (k < length && !alike(row[k], y) && !alike(row[k], not)) k++;
        if (k == length) row[length++] = y;
        else if (alike(row[k], not)) clash = 1;
    }
    if (clash) fail("a literal and its complement");
    if (length > LONGEST_CLAUSE) fail("clause too long");
    return length;
}

static void file(const Entry *row, size_t length)
{
    uint32_t end = filed ? ends[filed - 1] : 0;
    if (filed == MOST_CLAUSES || length > MOST_ENTRIES - end) fail("shelf full");
    memcpy(entries + end, row, length * sizeof *row);
    ends[filed++] = end + (uint32_t)length;
}

static const Entry *clause(uint32_t k, size_t *length)
{
    if (k == 0 || k > filed) fail("no such clause");
    uint32_t start = k > 1 ? ends[k - 2] : 0;
    *length = ends[k - 1] - start;
    return entries + start;
}

static uint64_t big(const uint8_t *b, int count) { uint64_t k = 0; while (count--) k = k << 8 | *b++; return k; }

int main(int argc, char **argv)
{
    truth = argc == 5 && strcmp(argv[1], "true") == 0;
    if (!truth && !(argc == 4 && strcmp(argv[1], "false") == 0)) fail("plain true FORMULA CIRCUIT PROOF | plain false FORMULA PROOF");
    read_formula(read_file(argv[2]));
    if (truth) read_circuit(read_file(argv[3]));
    File proof = read_file(argv[truth ? 4 : 3]);
    entries = room(MOST_ENTRIES * sizeof *entries);
    ends = room(MOST_CLAUSES * sizeof *ends);
    static Entry row[2 * LONGEST_CLAUSE], laid[2 * LONGEST_CLAUSE];
    static uint8_t settled[MOST_GOALS];
    uint32_t goals = truth ? C : 1, done = 0;
    for (size_t at = 0; at < proof.length;) {
        const uint8_t *r = proof.bytes + at;
        size_t length = 2 + big(r, 2), a, b;
        if (at + length > proof.length) fail("a record is short");
        const uint8_t *f = r + 4;
        if (r[3] == 1) file(row, join(row, 0, laid, truth_premise(f[0], (uint32_t)big(f + 1, 2), f[3], laid), NULL));
        else if (r[3] == 2) file(row, join(row, 0, laid, falsity_premise((uint32_t)big(f, 2), big(f + 2, 8), laid), NULL));
        else if (r[3] == 3) {
            const Entry *first = clause((uint32_t)big(f, 4), &a), *second = clause((uint32_t)big(f + 4, 4), &b);
            size_t position = big(f + 8, 2);
            if (position == 0 || position > a) fail("no such position");
            Entry pivot = complement(first[position - 1]);
            if (!contains(second, b, pivot)) fail("complement missing");
            memcpy(row, first, (position - 1) * sizeof *row);
            memcpy(row + position - 1, first + position, (a - position) * sizeof *row);
            file(row, join(row, a - 1, second, b, &pivot));
        } else if (r[3] == 4) {
            uint32_t g = (uint32_t)big(f, 2);
            const Entry *c = clause((uint32_t)big(f + 2, 4), &a);
            if (g == 0 || g > goals) fail("no such goal");
            b = goal(g, laid);
            for (size_t i = 0; i < a; i++) if (!contains(laid, b, c[i])) fail("outside the goal");
            done += !settled[g - 1];
            settled[g - 1] = 1;
        } else fail("no such record");
        at += length;
    }
    uint32_t open = 0;
    for (uint32_t g = 0; g < goals && !open; g++) if (!settled[g]) open = g + 1;
    printf("slip 000e01%02x%08x%08x%08x\n", open ? 3 : truth ? 1 : 2, 1u, filed, open);
    return open != 0;
}
