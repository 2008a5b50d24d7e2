// The check of an image of 32,768 cells: proved code against the same check in C.
#include <stdbool.h>
#include <stdint.h>
#include <stdio.h>
#include <stdlib.h>
#include <string.h>
#include <time.h>

enum { CELLS = 32768, BYTES = 68 + 9 * CELLS, REPEATS = 40, ROUNDS = 9 };

uint64_t rattle_check(const uint8_t *image, size_t length);

static uint32_t word_at(const uint8_t *p) {
    return (uint32_t)p[0] << 24 | (uint32_t)p[1] << 16 | (uint32_t)p[2] << 8 | p[3];
}

static void put_word(uint8_t *p, uint32_t w) {
    p[0] = w >> 24;
    p[1] = w >> 16;
    p[2] = w >> 8;
    p[3] = w;
}

static bool is_field(uint32_t w) {
    uint32_t mark = w >> 16;
    return w == 0 || mark == 0x8000 || mark == 0xC000;
}

static bool is_plain(uint32_t bits) {
    return (bits & 0x7fffffff) < 0x7f800000 && bits != 0x80000000;
}

// The next reference in visiting order: inside, and met before or the lowest unmet.
static bool meet(uint32_t w, uint32_t cells, uint32_t *met, uint8_t *count) {
    if (w == 0) return true;
    uint32_t a = w & 0xffff;
    if (a >= cells || a > *met) return false;
    if (a == *met) ++*met;
    if (count[a] < 2) ++count[a];
    return true;
}

static bool tag_right(uint32_t w, const uint8_t *count) {
    return w == 0 || ((w >> 30 & 1) != 0) == (count[w & 0xffff] >= 2);
}

static uint64_t c_check(const uint8_t *image, size_t length) {
    if (length < 4) return 65535;
    uint32_t kind = image[0] << 8 | image[1], cells = image[2] << 8 | image[3];
    if (kind != 1 || cells > 32768 || length != 68 + 9 * (size_t)cells) return 65535;
    const uint8_t *hands = image + 4, *bodies = image + 68;
    uint8_t count[32768];
    memset(count, 0, sizeof count);
    uint32_t met = 0;
    for (int i = 0; i < 16; i++) {
        uint32_t w = word_at(hands + 4 * i);
        if (!is_field(w) || !meet(w, cells, &met, count)) return 65535;
    }
    for (uint32_t j = 0; j < cells; j++) {
        const uint8_t *p = bodies + 9 * (size_t)j;
        uint32_t left = word_at(p + 1), right = word_at(p + 5);
        if (j >= met) return 65535;
        if (p[0] == 0x40) {
            if (!is_field(left) || !is_field(right)) return 65535;
            if (!meet(left, cells, &met, count) || !meet(right, cells, &met, count)) return 65535;
        } else if (p[0] != 0x80 || !is_plain(left) || !is_plain(right)) {
            return 65535;
        }
    }
    if (met != cells) return 65535;
    for (int i = 0; i < 16; i++)
        if (!tag_right(word_at(hands + 4 * i), count)) return 65535;
    for (uint32_t j = 0; j < cells; j++) {
        const uint8_t *p = bodies + 9 * (size_t)j;
        if (p[0] == 0x40 && (!tag_right(word_at(p + 1), count) || !tag_right(word_at(p + 5), count))) return 65535;
    }
    return cells;
}

// A chain of pairs, each with a leaf of its own; every pair but the last has the next on its right.
static void make_image(uint8_t *image) {
    memset(image, 0, BYTES);
    put_word(image, 1u << 16 | CELLS);
    put_word(image + 4, 0x80000000);
    uint32_t met = 1;
    for (uint32_t j = 0; j < CELLS; j++) {
        uint8_t *p = image + 68 + 9 * (size_t)j;
        bool leaf = j > 0 && j % 2 == 1;
        if (leaf || met >= CELLS) {
            float load = (float)j;
            uint32_t bits;
            memcpy(&bits, &load, 4);
            p[0] = 0x80;
            put_word(p + 1, bits);
            put_word(p + 5, 0x3f800000);
            continue;
        }
        p[0] = 0x40;
        put_word(p + 1, 0x80000000 | met++);
        if (met < CELLS) put_word(p + 5, 0x80000000 | met++);
    }
}

static double now(void) {
    struct timespec t;
    clock_gettime(CLOCK_MONOTONIC, &t);
    return t.tv_sec + 1e-9 * t.tv_nsec;
}

static double best(uint64_t (*check)(const uint8_t *, size_t), const uint8_t *image, double before) {
    double start = now();
    uint64_t sum = 0;
    for (int i = 0; i < REPEATS; i++) sum += check(image, BYTES);
    double took = (now() - start) / REPEATS;
    if (sum != (uint64_t)REPEATS * CELLS) {
        fprintf(stderr, "the image was refused\n");
        exit(1);
    }
    return before == 0 || took < before ? took : before;
}

int main(void) {
    uint8_t *image = malloc(BYTES);
    if (!image) return 1;
    make_image(image);
    double proved = 0, plain = 0;
    for (int i = 0; i < ROUNDS; i++) {
        proved = best(rattle_check, image, proved);
        plain = best(c_check, image, plain);
    }
    for (size_t i = 0; i < 4000; i++) {
        size_t at = (i * 7919) % BYTES;
        image[at] ^= 1 << i % 8;
        if (rattle_check(image, BYTES) != c_check(image, BYTES)) {
            fprintf(stderr, "the two disagree where byte %zu is damaged\n", at);
            return 1;
        }
        image[at] ^= 1 << i % 8;
    }
    printf("check of an image of %d cells: proved %.1f million cells a second, C %.1f, ratio %.2f\n", CELLS, CELLS / proved / 1e6, CELLS / plain / 1e6, plain / proved);
    free(image);
    return 0;
}
