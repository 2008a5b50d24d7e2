// Collections of 32,768 cells and a million calls on packed banks: proved code against the same algorithm in C over the same bytes.
#include <stdbool.h>
#include <stdint.h>
#include <stdio.h>
#include <stdlib.h>
#include <string.h>
#include <time.h>

enum { CELLS = 32768, BYTES = 9 * CELLS, IMAGE = 68 + BYTES, TIMES = 40, ROUNDS = 7, CALLS = 1000000 };

uint64_t rattle_collect(const uint8_t *image, size_t length, uint8_t *first, size_t a, uint8_t *second, size_t b, uint32_t times);
uint64_t rattle_edits(uint8_t *first, size_t a, uint8_t *second, size_t b, uint32_t times);

static uint32_t get(const uint8_t *p) { uint32_t w; memcpy(&w, p, 4); return __builtin_bswap32(w); }
static void set(uint8_t *p, uint32_t w) { w = __builtin_bswap32(w); memcpy(p, &w, 4); }

enum { PAIR = 0x40, LEAF = 0x80, MOVED = 0xC0 };
static const uint32_t UNIQUE = 0x80000000, STICKY = 0xC0000000;

struct store { uint32_t size, mark, hands[16], listed, free[16]; };

static bool is_field(uint32_t w) { uint32_t m = w >> 16; return w == 0 || m == 0x8000 || m == 0xC000; }
static bool is_source(uint32_t w) { uint32_t m = w >> 16; return w == 0 || m == 0x4000 || m == 0x8000 || m == 0xC000; }
static bool plain(uint32_t b) { return (b & 0x7fffffff) < 0x7f800000 && b != 0x80000000; }

// The kind's byte of a cell, 0 where the bytes fit no kind.
static int kind(const uint8_t *c) {
    uint32_t l = get(c + 1), r = get(c + 5);
    switch (c[0]) {
    case PAIR: return is_field(l) && is_field(r) ? PAIR : 0;
    case LEAF: return plain(l) && plain(r) ? LEAF : 0;
    case MOVED: return l >> 30 >= 2 && is_field(l) && is_source(r) ? MOVED : 0;
    default: return 0;
    }
}

// ---- a collection

static bool step(struct store *s, uint8_t *old, uint8_t *new, uint32_t at, uint32_t *copied, uint32_t *marks) {
    uint32_t *hand = at < 16 ? &s->hands[at] : NULL, place;
    uint8_t *field = NULL;
    uint32_t x;
    if (hand) {
        x = *hand;
        place = 0x40000000 | at;
    } else {
        uint32_t j = (at - 16) / 2;
        uint8_t *cell = new + 9 * (size_t)j;
        int k = kind(cell);
        if (k != PAIR && k != LEAF) return false;
        if (k == LEAF) return true;
        field = cell + 1 + 4 * (at & 1);
        place = (at & 1 ? 0xC0000000 : 0x80000000) | j;
        x = get(field);
    }
    if (x == 0) return true;
    uint32_t a = x & 0xffff;
    if (a >= s->mark) return false;
    uint8_t *c = old + 9 * (size_t)a;
    switch (kind(c)) {
    case PAIR:
    case LEAF:
        if (*copied >= s->size) return false;
        memcpy(new + 9 * (size_t)*copied, c, 9);
        if (hand) *hand = UNIQUE | *copied; else set(field, UNIQUE | *copied);
        if (x >> 30 == 3) {
            c[0] = MOVED;
            set(c + 1, UNIQUE | *copied);
            set(c + 5, place);
            ++*marks;
        }
        ++*copied;
        return true;
    case MOVED: {
        uint32_t f = get(c + 1), from = get(c + 5);
        if ((f & 0xffff) >= *copied) return false;
        if (f >> 30 == 2) {
            uint32_t q = from & 0xffff;
            uint8_t *source = NULL;
            switch (from >> 30) {
            case 0: return false;
            case 1: if (q > 15) return false; break;
            default:
                if (q >= *copied || kind(new + 9 * (size_t)q) != PAIR) return false;
                source = new + 9 * (size_t)q + 1 + 4 * (from >> 30 & 1);
            }
            f |= STICKY;
            set(c + 1, f);
            if (source) set(source, f); else s->hands[q] = f;
            ++*marks;
        }
        if (hand) *hand = f; else set(field, f);
        return true;
    }
    default: return false;
    }
}

static uint64_t c_collect(const uint8_t *image, uint8_t *first, uint8_t *second, uint32_t times) {
    struct store s = { .size = CELLS, .mark = image[2] << 8 | image[3] };
    for (int i = 0; i < 16; i++) s.hands[i] = get(image + 4 + 4 * i);
    memcpy(first, image + 68, 9 * (size_t)s.mark);
    uint64_t sum = 0;
    for (uint32_t t = 0; t < times; t++) {
        uint32_t copied = 0, marks = 0;
        for (uint32_t at = 0; at < 16 + 2 * copied; at++)
            if (!step(&s, first, second, at, &copied, &marks)) return 0;
        s.mark = copied;
        s.listed = 0;
        sum += copied + marks;
        uint8_t *m = first;
        first = second;
        second = m;
    }
    return sum;
}

// ---- calls

static void let_go(struct store *s, uint32_t x) {
    if (x >> 30 == 2 && (x & 0xffff) < s->mark && s->listed < 16) s->free[s->listed++] = x & 0xffff;
}

static uint8_t *target(struct store *s, uint8_t *bank, uint32_t g) {
    if (s->hands[g] == 0) return NULL;
    uint32_t a = s->hands[g] & 0xffff;
    if (a >= s->size) return NULL;
    uint8_t *c = bank + 9 * (size_t)a;
    return kind(c) == PAIR && a < s->mark ? c : NULL;
}

static bool call(struct store *s, uint8_t *bank, uint32_t n) {
    uint32_t h = n >> 8 & 15, g = n >> 12 & 15, side = n >> 16 & 1;
    switch (n >> 20 & 7) {
    case 0: case 1: {
        if (s->listed == 0 && s->mark >= s->size && s->hands[h] >> 30 != 2) return false;
        let_go(s, s->hands[h]);
        uint32_t a;
        if (s->listed) {
            a = s->free[--s->listed];
            uint8_t *c = bank + 9 * (size_t)a;
            if (kind(c) == PAIR) {
                uint32_t l = get(c + 1), r = get(c + 5);
                let_go(s, l);
                let_go(s, r);
            }
        } else a = s->mark++;
        uint8_t *c = bank + 9 * (size_t)a;
        memset(c, 0, 9);
        c[0] = PAIR;
        s->hands[h] = UNIQUE | a;
        return true;
    }
    case 2:
        if (h == g) return true;
        if (s->hands[g]) s->hands[g] |= STICKY;
        let_go(s, s->hands[h]);
        s->hands[h] = s->hands[g];
        return true;
    case 3: {
        uint8_t *c = target(s, bank, g);
        if (!c) return false;
        uint8_t *field = c + 1 + 4 * side;
        uint32_t x = get(field);
        if (x && (x & 0xffff) >= s->mark) return false;
        if (x) set(field, x |= STICKY);
        let_go(s, s->hands[h]);
        s->hands[h] = x;
        return true;
    }
    case 4: {
        uint8_t *c = target(s, bank, g);
        if (!c) return false;
        if (s->hands[h]) s->hands[h] |= STICKY;
        let_go(s, get(c + 1 + 4 * side));
        set(c + 1 + 4 * side, s->hands[h]);
        return true;
    }
    case 5: case 6: {
        uint8_t *c = target(s, bank, g);
        if (!c) return false;
        uint8_t *field = c + 1 + 4 * side;
        uint32_t x = get(field);
        if (x && (x & 0xffff) >= s->mark) return false;
        set(field, s->hands[h]);
        s->hands[h] = x;
        return true;
    }
    default:
        let_go(s, s->hands[h]);
        s->hands[h] = 0;
        return true;
    }
}

static uint64_t c_edits(uint8_t *bank, uint32_t times) {
    struct store s = { .size = CELLS };
    uint64_t accepted = 0;
    uint32_t n = 1;
    for (uint32_t i = 0; i < times; i++) {
        n = n * 1664525u + 1013904223u;
        accepted += call(&s, bank, n);
    }
    return accepted;
}

// ---- shapes, as images of CELLS cells

static void head(uint8_t *image, uint32_t hand0) {
    memset(image, 0, IMAGE);
    image[1] = 1;
    image[2] = CELLS >> 8;
    image[3] = CELLS & 255;
    set(image + 4, hand0);
}

static void pair(uint8_t *image, uint32_t j, uint32_t l, uint32_t r) {
    uint8_t *c = image + 68 + 9 * (size_t)j;
    c[0] = PAIR;
    set(c + 1, l);
    set(c + 5, r);
}

static void list(uint8_t *image) {
    head(image, UNIQUE);
    for (uint32_t j = 0; j < CELLS; j++) pair(image, j, 0, j + 1 < CELLS ? UNIQUE | (j + 1) : 0);
}

// A tree in the order of its levels, which is the canonical one.
static void tree(uint8_t *image) {
    head(image, UNIQUE);
    for (uint32_t j = 0; j < CELLS; j++) pair(image, j, 2 * j + 1 < CELLS ? UNIQUE | (2 * j + 1) : 0, 2 * j + 2 < CELLS ? UNIQUE | (2 * j + 2) : 0);
}

// A list in which each cell but the first two is referred to by the two before it.
static void shared(uint8_t *image) {
    head(image, UNIQUE);
    for (uint32_t j = 0; j < CELLS; j++) {
        uint32_t l = j + 1, r = j + 2;
        uint32_t one = l == 1 ? UNIQUE : STICKY;
        pair(image, j, l < CELLS ? one | l : 0, r < CELLS ? STICKY | r : 0);
    }
}

static double seconds(void) {
    struct timespec t;
    clock_gettime(CLOCK_MONOTONIC, &t);
    return t.tv_sec + t.tv_nsec * 1e-9;
}

static uint8_t image[IMAGE], first[BYTES], second[BYTES];

static double time_collect(bool proved, uint32_t times, uint64_t *sum) {
    double best = 1e9;
    for (int i = 0; i < ROUNDS; i++) {
        memset(first, 0, BYTES);
        memset(second, 0, BYTES);
        double start = seconds();
        *sum = proved ? rattle_collect(image, IMAGE, first, BYTES, second, BYTES, times) : c_collect(image, first, second, times);
        double took = seconds() - start;
        if (took < best) best = took;
    }
    return best;
}

// The time of one collection, without that of opening the image.
static double per_collection(bool proved, uint64_t *sum) {
    uint64_t one;
    double once = time_collect(proved, 1, &one);
    return (time_collect(proved, 1 + TIMES, sum) - once) / TIMES;
}

static void report(const char *name, void (*make)(uint8_t *)) {
    make(image);
    uint64_t a, b;
    double proved = per_collection(true, &a), c = per_collection(false, &b);
    if (a != b || a == 0) { printf("collect a %s: the two sides differ: %llu and %llu\n", name, (unsigned long long)a, (unsigned long long)b); exit(1); }
    double start = seconds();
    for (int i = 0; i < 1000; i++) { memcpy(second, first, BYTES); __asm__ volatile("" ::: "memory"); }
    double copy = (seconds() - start) / 1000;
    printf("collect a %s of %d cells: %.1f million cells a second, C %.1f, ratio %.2f; memcpy of the kept bytes takes %.3f of it\n", name, CELLS, CELLS / proved * 1e-6, CELLS / c * 1e-6, c / proved, copy / proved);
}

int main(void) {
    report("list", list);
    report("tree", tree);
    report("shared graph", shared);
    double best[2] = { 1e9, 1e9 };
    uint64_t accepted[2];
    for (int i = 0; i < ROUNDS; i++)
        for (int proved = 0; proved < 2; proved++) {
            memset(first, 0, BYTES);
            double start = seconds();
            accepted[proved] = proved ? rattle_edits(first, BYTES, second, BYTES, CALLS) : c_edits(first, CALLS);
            double took = seconds() - start;
            if (took < best[proved]) best[proved] = took;
        }
    if (accepted[0] != accepted[1]) { printf("calls: the two sides differ\n"); return 1; }
    printf("%d calls: %.1f million a second, C %.1f, ratio %.2f (%llu accepted)\n", CALLS, CALLS / best[1] * 1e-6, CALLS / best[0] * 1e-6, best[0] / best[1], (unsigned long long)accepted[1]);
    return 0;
}
