/* The questions of rankbench in plain C: the bar for its costs, and, since it draws the same arguments and prints the
   same sums, a check of its answers by other code.

       questions first|next|nothing pam|grid|whole-table|pair-table POINTS N */
#include <stdint.h>
#include <stdio.h>
#include <stdlib.h>
#include <string.h>

typedef struct { int32_t re, im; } point;

enum { TARGET_LIMIT = 1048576, GAIN_LIMIT = 2047 };

static int side, points;          /* how many points a PAM has, and how many the alphabet has */
static point table[256];

static int outside(int32_t part) { return part < -TARGET_LIMIT || part > TARGET_LIMIT; }

/* Where the target stands, in half steps above the first point, rounded up. */
static uint32_t half_steps(int32_t target, uint32_t gain) {
    int32_t above = target + (side - 1) * (int32_t)gain;
    return gain == 0 || above <= 0 ? 0 : ((uint32_t)above + gain - 1) / gain;
}

static int pam_first(point target, uint32_t gain) {
    if (outside(target.re) || gain > GAIN_LIMIT) return -14;
    uint32_t nearest = half_steps(target.re, gain) / 2;
    return nearest < (uint32_t)side ? (int)nearest : side - 1;
}

/* The size stands for none. */
static int pam_next(point target, uint32_t gain, int index) {
    if (outside(target.re) || gain > GAIN_LIMIT) return -14;
    if (index >= side) return -15;
    int steps = (int)half_steps(target.re, gain);
    if (2 * index < steps) {
        if (steps - index < side) return steps - index;
        return index > 0 ? index - 1 : side;
    }
    if (index < steps) return steps - index - 1;
    return index + 1;
}

static int grid_first(point target, uint32_t gain) {
    int re = pam_first(target, gain), im = pam_first((point){target.im, 0}, gain);
    return re < 0 || im < 0 ? -14 : re * side + im;
}

static int grid_next(point target, uint32_t gain, int index) {
    if (outside(target.re) || outside(target.im) || gain > GAIN_LIMIT) return -14;
    if (index >= side * side) return -15;
    uint64_t re[16], im[16];
    for (int i = 0; i < side; i++) {
        int32_t part = 2 * i - (side - 1);
        int64_t a = target.re - (int32_t)gain * part, b = target.im - (int32_t)gain * part;
        re[i] = a * a;
        im[i] = b * b;
    }
    uint64_t floor = ((re[index / side] + im[index % side]) << 8) + index + 1, least = UINT64_MAX;
    for (int i = 0; i < side; i++)
        for (int j = 0; j < side; j++) {
            uint64_t key = ((re[i] + im[j]) << 8) + (i * side + j);
            if (key >= floor && key < least) least = key;
        }
    return least == UINT64_MAX ? points : (int)(least & 255);
}

static uint64_t table_key(point target, uint32_t gain, int index) {
    int64_t re = target.re - (int32_t)gain * table[index].re, im = target.im - (int32_t)gain * table[index].im;
    return ((uint64_t)(re * re + im * im) << 8) + index;
}

static int table_from(point target, uint32_t gain, uint64_t floor) {
    uint64_t least = UINT64_MAX;
    for (int i = 0; i < points; i++) {
        uint64_t key = table_key(target, gain, i);
        if (key >= floor && key < least) least = key;
    }
    return least == UINT64_MAX ? points : (int)(least & 255);
}

static int table_first(point target, uint32_t gain) {
    if (outside(target.re) || outside(target.im) || gain > GAIN_LIMIT) return -14;
    return table_from(target, gain, 0);
}

static int table_next(point target, uint32_t gain, int index) {
    if (outside(target.re) || outside(target.im) || gain > GAIN_LIMIT) return -14;
    if (index >= points) return -15;
    return table_from(target, gain, table_key(target, gain, index) + 1);
}

static uint32_t state = 1;

static uint32_t number(void) {
    state = state * 1664525u + 1013904223u;
    return state >> 8;
}

static int32_t part(void) { return (int32_t)(number() & 16383) - 8192; }

int main(int argc, char **argv) {
    if (argc != 5) return 2;
    const char *question = argv[1], *name = argv[2];
    int pairs = !strcmp(name, "grid") || !strcmp(name, "pair-table");
    points = atoi(argv[3]);
    for (side = 1; (pairs ? side * side : side) < points; side++) {}
    for (int i = 0; i < points; i++)
        table[i] = pairs ? (point){2 * (i / side) - (side - 1), 2 * (i % side) - (side - 1)} : (point){2 * i - (side - 1), 0};
    int (*first)(point, uint32_t) = strcmp(name, "pam") ? strcmp(name, "grid") ? table_first : grid_first : pam_first;
    int (*next)(point, uint32_t, int) = strcmp(name, "pam") ? strcmp(name, "grid") ? table_next : grid_next : pam_next;
    uint64_t sum = 0;
    for (long i = atol(argv[4]); i > 0; i--) {
        point target = {part(), 0};
        int32_t im = part();
        target.im = pairs ? im : 0;
        uint32_t gain = number() & 2047;
        int index = (int)(number() & (points - 1));
        sum += *question == 'f' ? first(target, gain) : *question == 'n' && question[1] == 'e' ? next(target, gain, index) : index;
    }
    printf("%s %d: sum %llu\n", name, points, (unsigned long long)sum);
}
