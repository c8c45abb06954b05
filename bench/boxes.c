/* Searches short circuits for the S-boxes of DES and writes them as the macros of boxes.h, on standard output. A gate is an and, an
   or, an exclusive or, or one value without another; an output may come out complemented, which its macro's user undoes.
   A circuit grows output by output: a function is a gate that is there, a gate of two that are there, a join of such gates, or,
   by one variable, made of two functions that matter on half of the places. Of a circuit one or two outputs are then made anew,
   again and again, and what isn't longer is kept. boxes SECONDS [BOX]: so many seconds for each box, or for that one, 1 to 8 */
#include <stdio.h>
#include <stdlib.h>
#include <time.h>
#include "tables.h"

enum { INPUTS = 6, OUTPUTS = 4, MOST = 100, KINDS = 5, PAIRS = MOST * MOST / 2 * KINDS, COVERS = 3000, SIZE = 1 << 15 };
enum { AND, OR, XOR, WITHOUT, EXCEPT };

struct gate {
    int kind, a, b;
    uint64_t value;
};

struct circuit {
    int count, out[OUTPUTS];
    struct gate gates[MOST];
};

/* Bit i of a value is what the gate gives where the box has the input i. */
static uint64_t targets[OUTPUTS], variables[INPUTS], seed = 0x9E3779B97F4A7C15u;

/* All gates of two that are there, and their places by value on a mask. */
static struct gate pairs[PAIRS], covers[COVERS];
static int complemented[COVERS], pair_count, heads[SIZE], stamps[SIZE], stamp;

static int below(int limit)
{
    seed ^= seed << 13;
    seed ^= seed >> 7;
    seed ^= seed << 17;
    return (int)((seed >> 20) % (uint64_t)limit);
}

static uint64_t computed(int kind, uint64_t a, uint64_t b)
{
    switch (kind) {
    case AND: return a & b;
    case OR: return a | b;
    case XOR: return a ^ b;
    case WITHOUT: return a & ~b;
    default: return ~a & b;
    }
}

/* The conjunction of two values, of which each may be complemented, or its complement. */
static int joined(int is_a_not, int is_b_not)
{
    return is_a_not ? (is_b_not ? OR : EXCEPT) : (is_b_not ? WITHOUT : AND);
}

static int agrees(uint64_t value, uint64_t wanted, uint64_t mask)
{
    uint64_t other = (value ^ wanted) & mask;
    return other == 0 || other == mask;
}

static int add(struct circuit *c, int kind, int a, int b)
{
    if (a < 0 || b < 0 || c->count == MOST)
        return -1;
    c->gates[c->count] = (struct gate){kind, a, b, computed(kind, c->gates[a].value, c->gates[b].value)};
    return c->count++;
}

static int add_pair(struct circuit *c, const struct gate *pair)
{
    return add(c, pair->kind, pair->a, pair->b);
}

static unsigned slot_of(uint64_t value)
{
    return (unsigned)(value * 0x9E3779B97F4A7C15u >> 49);
}

/* The value on the mask, or its complement: the one without the lowest bit. */
static uint64_t plain(uint64_t value, uint64_t mask)
{
    value &= mask;
    return value & mask & -mask ? ~value & mask : value;
}

static void collect(const struct circuit *c, uint64_t mask)
{
    pair_count = 0;
    stamp++;
    for (int a = 0; a < c->count; a++)
        for (int b = 0; b < a; b++)
            for (int kind = 0; kind < KINDS; kind++) {
                uint64_t value = computed(kind, c->gates[a].value, c->gates[b].value);
                unsigned slot = slot_of(plain(value, mask));
                if (stamps[slot] != stamp) {
                    stamps[slot] = stamp;
                    heads[slot] = pair_count;
                }
                pairs[pair_count++] = (struct gate){kind, a, b, value};
            }
}

static const struct gate *pair_of(uint64_t value, uint64_t mask)
{
    unsigned slot = slot_of(plain(value, mask));
    return stamps[slot] == stamp && agrees(pairs[heads[slot]].value, value, mask) ? &pairs[heads[slot]] : NULL;
}

static int find_gate(const struct circuit *c, uint64_t wanted, uint64_t mask)
{
    for (int i = 0; i < c->count; i++)
        if (agrees(c->gates[i].value, wanted, mask))
            return i;
    return -1;
}

static int find_xor(struct circuit *c, uint64_t wanted, uint64_t mask)
{
    for (int i = 0; i < c->count; i++) {
        const struct gate *pair = pair_of(c->gates[i].value ^ wanted, mask);
        if (pair != NULL)
            return add(c, XOR, add_pair(c, pair), i);
    }
    return -1;
}

static int find_xor_of_pairs(struct circuit *c, uint64_t wanted, uint64_t mask)
{
    int begin = below(pair_count);
    for (int i = 0; i < pair_count; i++) {
        const struct gate *one = &pairs[(i + begin) % pair_count], *other = pair_of(one->value ^ wanted, mask);
        if (other != NULL) {
            int a = add_pair(c, one);
            return add(c, XOR, a, add_pair(c, other));
        }
    }
    return -1;
}

/* The pairs' values, and their complements, that cover what is wanted: the factors that a conjunction may have. */
static int collect_covers(uint64_t wanted, uint64_t mask)
{
    int count = 0, begin = below(pair_count);
    for (int i = 0; i < pair_count; i++)
        for (int is_not = 0; is_not < 2 && count < COVERS; is_not++) {
            struct gate pair = pairs[(i + begin) % pair_count];
            pair.value = is_not ? ~pair.value : pair.value;
            if ((wanted & ~pair.value) == 0 && (pair.value & mask) != mask) {
                complemented[count] = is_not;
                covers[count++] = pair;
            }
        }
    return count;
}

static int find_and(struct circuit *c, uint64_t wanted, uint64_t mask, int count)
{
    for (int i = 0; i < c->count; i++)
        for (int is_not = 0; is_not < 2; is_not++) {
            uint64_t value = is_not ? ~c->gates[i].value : c->gates[i].value;
            if (wanted & ~value)
                continue;
            for (int k = 0; k < count; k++)
                if ((value & covers[k].value & mask) == wanted)
                    return add(c, joined(is_not, complemented[k]), i, add_pair(c, &covers[k]));
        }
    return -1;
}

static int find_and_of_pairs(struct circuit *c, uint64_t wanted, uint64_t mask, int count)
{
    for (int i = 0; i < count; i++)
        for (int k = 0; k < i; k++)
            if ((covers[i].value & covers[k].value & mask) == wanted) {
                int a = add_pair(c, &covers[i]);
                return add(c, joined(complemented[i], complemented[k]), a, add_pair(c, &covers[k]));
            }
    return -1;
}

/* At most so many new gates for the function: joins of what is there. */
static int found(struct circuit *c, uint64_t wanted, uint64_t mask, int room)
{
    int gate = find_gate(c, wanted, mask);
    if (gate >= 0 || room < 1)
        return gate;
    collect(c, mask);
    const struct gate *pair = pair_of(wanted, mask);
    if (pair != NULL)
        return add_pair(c, pair);
    for (int side = 0; side < 2 && room > 1; side++) {
        uint64_t covered = (side ? ~wanted : wanted) & mask;
        int count = collect_covers(covered, mask);
        if ((gate = find_and(c, covered, mask, count)) >= 0)
            return gate;
    }
    if (room > 1 && (gate = find_xor(c, wanted, mask)) >= 0)
        return gate;
    if (room < 3 || below(8) == 0)
        return -1;
    for (int side = 0; side < 2; side++) {
        uint64_t covered = (side ? ~wanted : wanted) & mask;
        int count = collect_covers(covered, mask);
        if ((gate = find_and_of_pairs(c, covered, mask, count)) >= 0)
            return gate;
    }
    return find_xor_of_pairs(c, wanted, mask);
}

static int made(struct circuit *c, uint64_t wanted, uint64_t mask, int most, int used, int depth);

/* By this variable: a function on the places of one side, and what has to be changed on those of the other. */
static int split(struct circuit *c, uint64_t wanted, uint64_t mask, int most, int used, int depth, int bit)
{
    int is_low = below(2), is_whole = below(3) == 0;
    uint64_t side = is_low ? ~variables[bit] : variables[bit];
    int base = made(c, wanted, mask & side, most - 2, used | 1 << bit, depth + 1);
    if (base < 0)
        return -1;
    int base_not = ((c->gates[base].value ^ wanted) & mask & side) != 0;
    uint64_t value = base_not ? ~c->gates[base].value : c->gates[base].value;
    uint64_t left = is_whole ? wanted : wanted ^ value;
    int other = made(c, left, mask & ~side, most - 2 - is_whole, used | 1 << bit, depth + 1);
    if (other < 0)
        return -1;
    int other_not = ((c->gates[other].value ^ left) & mask & ~side) != 0;
    int change = is_whole ? add(c, XOR, base, other) : other;
    int change_not = is_whole ? base_not ^ other_not : other_not;
    return add(c, XOR, base, add(c, joined(!is_low, change_not), bit, change));
}

/* A gate that agrees with what is wanted, or with its complement, on the mask; -1: not found within so many gates. */
static int made(struct circuit *c, uint64_t wanted, uint64_t mask, int most, int used, int depth)
{
    int gate = found(c, wanted, mask, most - c->count);
    if (gate >= 0 || c->count + 4 > most || depth == INPUTS)
        return gate;
    static const int WIDTHS[INPUTS] = {3, 2, 2, 1, 1, 1};
    struct circuit best;
    for (int tries = 0; tries < WIDTHS[depth]; tries++) {
        int bit = below(INPUTS);
        while (used >> bit & 1)
            bit = (bit + 1) % INPUTS;
        struct circuit trial = *c;
        int out = split(&trial, wanted, mask, most, used, depth, bit);
        if (out < 0 || trial.count > most)
            continue;
        best = trial;
        gate = out;
        most = trial.count - 1;
    }
    if (gate >= 0)
        *c = best;
    return gate;
}

/* Without the gates that none of the kept outputs needs. */
static void clean(struct circuit *c, int kept)
{
    int needed[MOST] = {0}, place[MOST], count = 0;
    for (int i = 0; i < OUTPUTS; i++)
        if (kept >> i & 1)
            needed[c->out[i]] = 1;
    for (int i = c->count - 1; i >= INPUTS; i--)
        if (needed[i])
            needed[c->gates[i].a] = needed[c->gates[i].b] = 1;
    for (int i = 0; i < c->count; i++) {
        if (i >= INPUTS && !needed[i])
            continue;
        struct gate gate = c->gates[i];
        if (i >= INPUTS) {
            gate.a = place[gate.a];
            gate.b = place[gate.b];
        }
        place[i] = count;
        c->gates[count++] = gate;
    }
    c->count = count;
    for (int i = 0; i < OUTPUTS; i++)
        if (kept >> i & 1)
            c->out[i] = place[c->out[i]];
}

/* All outputs, beside those that are kept; whether it has at most so many gates. */
static int complete(struct circuit *c, int kept, int most)
{
    while (kept != 15) {
        int output = below(OUTPUTS);
        if (kept >> output & 1)
            continue;
        c->out[output] = made(c, targets[output], ~(uint64_t)0, most, 0, 0);
        if (c->out[output] < 0)
            return 0;
        kept |= 1 << output;
    }
    clean(c, 15);
    return 1;
}

static struct circuit searched(double seconds)
{
    struct circuit empty = {.count = INPUTS}, now = {.count = MOST}, best = now;
    for (int i = 0; i < INPUTS; i++)
        empty.gates[i].value = variables[i];
    int stale = 0;
    for (time_t begin = time(NULL); difftime(time(NULL), begin) < seconds;) {
        int is_new = now.count == MOST, kept = is_new ? 0 : 15 & ~(1 << below(OUTPUTS)) & ~(1 << below(OUTPUTS));
        struct circuit trial = is_new ? empty : now;
        clean(&trial, kept);
        int is_made = complete(&trial, kept, is_new ? MOST : now.count + (below(10) == 0));
        stale = is_made && trial.count < now.count ? 0 : stale + 1;
        if (is_made)
            now = trial;
        if (now.count < best.count)
            best = now;
        if (stale > 200) {
            stale = 0;
            now = below(2) ? best : (struct circuit){.count = MOST};
        }
    }
    return best;
}

static void print(const struct circuit *c, int box)
{
    static const char *const FORMS[] = {"V %s = %s & %s; ", "V %s = %s | %s; ", "V %s = %s ^ %s; ", "V %s = %s & ~%s; ", "V %s = ~%s & %s; "};
    static const char *const INPUT_NAMES[INPUTS] = {"a", "b", "c", "d", "e", "f"};
    char names[MOST][8];
    int flipped = 0, width = 0;
    printf("\n/* %d gates */\n#define BOX_%d(V, A, B, C, D, E, F, W, X, Y, Z) \\\n    do { \\\n", c->count - INPUTS, box + 1);
    printf("        V a = A, b = B, c = C, d = D, e = E, f = F; \\\n        ");
    for (int i = 0; i < INPUTS; i++)
        sprintf(names[i], "%s", INPUT_NAMES[i]);
    for (int i = INPUTS; i < c->count; i++) {
        sprintf(names[i], "g%d", i - INPUTS + 1);
        if (width > 85) {
            printf("\\\n        ");
            width = 0;
        }
        width += printf(FORMS[c->gates[i].kind], names[i], names[c->gates[i].a], names[c->gates[i].b]);
    }
    printf("\\\n        ");
    for (int i = 0; i < OUTPUTS; i++) {
        printf("%c ^= %s; ", 'W' + i, names[c->out[i]]);
        flipped |= c->gates[c->out[i]].value == targets[i] ? 0 : 8 >> i;
    }
    printf("\\\n    } while (0)\nenum { COMPLEMENTED_%d = %d };\n", box + 1, flipped);
}

int main(int count, char **words)
{
    int only = count > 2 ? atoi(words[2]) : 0;
    for (int box = 0; box < 8; box++) {
        if (only != 0 && only != box + 1)
            continue;
        for (int i = 0; i < OUTPUTS; i++)
            targets[i] = 0;
        for (unsigned six = 0; six < 64; six++) {
            unsigned value = BOXES[box][(six >> 5 << 1 | (six & 1)) * 16 + (six >> 1 & 15)];
            for (int i = 0; i < OUTPUTS; i++)
                targets[i] |= (uint64_t)(value >> (3 - i) & 1) << six;
            for (int i = 0; i < INPUTS; i++)
                variables[i] |= (uint64_t)(six >> (5 - i) & 1) << six;
        }
        struct circuit circuit = searched(count > 1 ? atof(words[1]) : 60);
        print(&circuit, box);
    }
    return 0;
}
