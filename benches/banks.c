// Puts and reads over a packed bank of points: proved code against the same in C, with the same checks.
#include <stdbool.h>
#include <stdint.h>
#include <stdio.h>
#include <stdlib.h>
#include <string.h>
#include <time.h>

enum { CELLS = 32768, BYTES = 9 * CELLS + 4, REPEATS = 60, ROUNDS = 20 };

uint64_t rattle_put_all(uint8_t *bytes, size_t length);
uint64_t rattle_read_all(uint8_t *bytes, size_t length);

typedef struct {
    bool sticky;
    uint16_t address;
} Reference;

typedef struct {
    bool present;
    Reference to;
} Field;

typedef enum { NOWHERE, HAND, CELL_LEFT, CELL_RIGHT } SourceKind;

typedef struct {
    SourceKind kind;
    uint16_t number;
} Source;

typedef struct {
    float load, reading;
} Point;

typedef enum { BLANK, PAIR, LEAF, MOVED } CellKind;

typedef struct {
    CellKind kind;
    union {
        struct {
            Field left, right;
        };
        Point leaf;
        struct {
            Reference forward;
            Source source;
        };
    };
} Cell;

typedef struct {
    uint8_t *bytes;
    size_t length;
} Bank;

static bool pattern_lawful(uint32_t bits) {
    return (bits & 0x7fffffff) < 0x7f800000 && bits != 0x80000000;
}

static bool point_word(Point p, uint64_t *word) {
    uint32_t load, reading;
    memcpy(&load, &p.load, 4);
    memcpy(&reading, &p.reading, 4);
    *word = (uint64_t)load << 32 | reading;
    return pattern_lawful(load) && pattern_lawful(reading);
}

static bool word_point(uint64_t word, Point *p) {
    uint32_t load = word >> 32, reading = (uint32_t)word;
    memcpy(&p->load, &load, 4);
    memcpy(&p->reading, &reading, 4);
    return pattern_lawful(load) && pattern_lawful(reading);
}

static uint32_t pack_reference(Reference r) { return (r.sticky ? 0xC0000000u : 0x80000000u) | r.address; }

static bool unpack_reference(uint32_t word, Reference *r) {
    uint32_t mark = word >> 16;
    *r = (Reference){mark == 0xC000, (uint16_t)word};
    return mark == 0x8000 || mark == 0xC000;
}

static uint32_t pack_field(Field f) { return f.present ? pack_reference(f.to) : 0; }

static bool unpack_field(uint32_t word, Field *f) {
    f->present = word != 0;
    return word == 0 || unpack_reference(word, &f->to);
}

static uint32_t pack_source(Source s) { return (uint32_t)s.kind << 30 | (s.kind == NOWHERE ? 0 : s.number); }

static bool unpack_source(uint32_t word, Source *s) {
    *s = (Source){(SourceKind)(word >> 30), (uint16_t)word};
    return (word >> 16 & 0x3fff) == 0 && (s->kind != NOWHERE || s->number == 0);
}

static size_t bank_size(const Bank *b) { return b->length / 9; }

static bool bank_put(Bank *b, uint16_t at, const Cell *c) {
    uint64_t body;
    uint8_t kind;
    if (at >= bank_size(b))
        return false;
    switch (c->kind) {
    case PAIR:
        kind = 0x40;
        body = (uint64_t)pack_field(c->left) << 32 | pack_field(c->right);
        break;
    case LEAF:
        kind = 0x80;
        if (!point_word(c->leaf, &body))
            return false;
        break;
    case MOVED:
        kind = 0xC0;
        body = (uint64_t)pack_reference(c->forward) << 32 | pack_source(c->source);
        break;
    default:
        return false;
    }
    uint8_t *nine = b->bytes + 9 * (size_t)at;
    uint64_t big = __builtin_bswap64(body);
    nine[0] = kind;
    memcpy(nine + 1, &big, 8);
    return true;
}

static bool bank_read(const Bank *b, uint16_t at, Cell *c) {
    if (at >= bank_size(b))
        return false;
    const uint8_t *nine = b->bytes + 9 * (size_t)at;
    uint64_t big;
    memcpy(&big, nine + 1, 8);
    uint64_t body = __builtin_bswap64(big);
    uint32_t upper = body >> 32, lower = (uint32_t)body;
    bool good = false;
    switch (nine[0]) {
    case 0x40:
        c->kind = PAIR;
        good = unpack_field(upper, &c->left) && unpack_field(lower, &c->right);
        break;
    case 0x80:
        c->kind = LEAF;
        good = word_point(body, &c->leaf);
        break;
    case 0xC0:
        c->kind = MOVED;
        good = unpack_reference(upper, &c->forward) && unpack_source(lower, &c->source);
        break;
    }
    if (!good)
        c->kind = BLANK;
    return true;
}

static uint16_t address(uint16_t turn) { return (uint16_t)(turn * 40503u) % 32768; }

static Cell made_cell(uint16_t turn) {
    Cell c;
    bool odd = (turn & 4) == 4;
    switch (turn % 4) {
    case 0:
        c.kind = PAIR;
        c.left = (Field){true, {odd, turn}};
        c.right = (Field){false, {false, 0}};
        break;
    case 1:
        c.kind = MOVED;
        c.forward = (Reference){odd, turn};
        c.source = (Source){CELL_RIGHT, turn};
        break;
    default:
        c.kind = LEAF;
        c.leaf = (Point){(float)turn, (float)turn * 0.25f};
    }
    return c;
}

static uint64_t reference_sum(Reference r) { return (r.sticky ? 70000 : 2) + (uint64_t)r.address; }

static uint64_t field_sum(Field f) { return f.present ? reference_sum(f.to) : 1; }

static uint64_t source_sum(Source s) {
    switch (s.kind) {
    case NOWHERE:
        return 3;
    case HAND:
        return 4 + (uint64_t)s.number;
    case CELL_LEFT:
        return 80000 + (uint64_t)s.number;
    default:
        return 160000 + (uint64_t)s.number;
    }
}

static uint64_t cell_sum(const Cell *c) {
    uint64_t word;
    switch (c->kind) {
    case PAIR:
        return field_sum(c->left) * 7 ^ field_sum(c->right);
    case LEAF:
        return point_word(c->leaf, &word) ? word : 6;
    case MOVED:
        return reference_sum(c->forward) * 11 ^ source_sum(c->source);
    default:
        return 5;
    }
}

static __attribute__((noinline)) uint64_t c_put_all(uint8_t *bytes, size_t length) {
    Bank b = {bytes, length};
    uint64_t count = 0;
    for (uint32_t turn = 0; turn < CELLS; turn++) {
        Cell c = made_cell(turn);
        count += bank_put(&b, address(turn), &c);
    }
    return count;
}

static __attribute__((noinline)) uint64_t c_read_all(uint8_t *bytes, size_t length) {
    Bank b = {bytes, length};
    uint64_t sum = 0;
    for (uint32_t turn = 0; turn < CELLS; turn++) {
        Cell c;
        if (bank_read(&b, address(turn), &c))
            sum = sum * 31 + cell_sum(&c);
    }
    return sum;
}

static double seconds(void) {
    struct timespec t;
    clock_gettime(CLOCK_MONOTONIC, &t);
    return t.tv_sec + t.tv_nsec * 1e-9;
}

typedef uint64_t Work(uint8_t *, size_t);

// The sum of the rounds' answers, and the time of one round, if it is the best so far.
static uint64_t timed(Work *work, uint8_t *bytes, double *best) {
    uint64_t sum = 0;
    double start = seconds();
    for (int i = 0; i < ROUNDS; i++) {
        __asm__ volatile("" ::: "memory");
        sum = sum * 3 + work(bytes, BYTES);
    }
    double took = (seconds() - start) / ROUNDS;
    if (took < *best)
        *best = took;
    return sum;
}

static void same(const char *what, bool equal) {
    if (!equal) {
        printf("the two sides differ: %s\n", what);
        exit(1);
    }
}

static void row(const char *name, double rattle, double c) {
    printf("%-6s %16.1f %16.1f %8.2f\n", name, CELLS / rattle / 1e6, CELLS / c / 1e6, c / rattle);
}

int main(void) {
    static uint8_t ours[BYTES], theirs[BYTES];
    double put_r = 1e9, put_c = 1e9, read_r = 1e9, read_c = 1e9;
    memset(ours, 0xEE, BYTES);
    memset(theirs, 0xEE, BYTES);
    for (int i = 0; i < REPEATS; i++) {
        same("the answers of put", timed(rattle_put_all, ours, &put_r) == timed(c_put_all, theirs, &put_c));
        same("the bytes", memcmp(ours, theirs, BYTES) == 0);
        same("the sums of read", timed(rattle_read_all, ours, &read_r) == timed(c_read_all, theirs, &read_c));
    }
    printf("packed bank of %d cells, points; millions of cells a second, best of %d\n", CELLS, REPEATS);
    printf("%-6s %16s %16s %8s\n", "", "proved", "C, gcc -O3", "ratio");
    row("put", put_r, put_c);
    row("read", read_r, read_c);
    return 0;
}
