// How much more time a node takes as a table of nodes outgrows the caches: a bare table in C, with twelve bytes a node, four bytes an index place, and
// nothing else. Each node stands over two drawn at random (`drawn`), or over the last one and the one half as far (`next`).
// And how much more time a node takes in a bare walk over a chain (`walk`), with a stack of eight bytes a node and four bytes for what is kept.
//
//     cc -O2 -o bare bare.c && ./bare drawn 10000 300 && ./bare drawn 1000000 5
//
// makes so many nodes, or walks over them, so often and prints the least time a node took. With `-DMORE=68` a node takes eighty bytes, as in the table.
#include <stdint.h>
#include <stdio.h>
#include <stdlib.h>
#include <string.h>
#include <sys/resource.h>

#ifndef MORE
#define MORE 0
#endif

struct node {
    uint32_t operator, left, right;
    unsigned char more[MORE];
};

static uint64_t drawn = 88172645463325252u;

static uint32_t draw_below(size_t count) {
    drawn ^= drawn << 13;
    drawn ^= drawn >> 7;
    drawn ^= drawn << 17;
    return (uint32_t)(drawn % count);
}

static double processor_seconds(void) {
    struct rusage used;
    getrusage(RUSAGE_SELF, &used);
    return used.ru_utime.tv_sec + used.ru_stime.tv_sec + 1e-6 * (used.ru_utime.tv_usec + used.ru_stime.tv_usec);
}

static size_t hash_of(struct node node) {
    uint64_t mixed = ((node.operator * 0x9E3779B97F4A7C15u) ^ node.left) * 0xBF58476D1CE4E5B9u ^ node.right;
    mixed *= 0x94D049BB133111EBu;
    return mixed ^ mixed >> 29;
}

static struct node node_at(size_t made, int is_drawn) {
    uint32_t operator = 1 + (made & 1);
    if (is_drawn) {
        return (struct node){operator, draw_below(made), draw_below(made)};
    }
    return (struct node){operator, (uint32_t)made - 1, (uint32_t)made / 2};
}

static double seconds_to_make(size_t count, int is_drawn) {
    double start = processor_seconds();
    size_t places = 1;
    while (places < 2 * count) {
        places *= 2;
    }
    struct node *nodes = malloc(count * sizeof *nodes);
    uint32_t *index = calloc(places, sizeof *index);
    size_t made = 1;
    nodes[0] = (struct node){0, 0, 0};
    while (made < count) {
        struct node node = node_at(made, is_drawn);
        size_t place = hash_of(node) & (places - 1);
        while (index[place] != 0) {
            struct node other = nodes[index[place]];
            if (other.operator == node.operator && other.left == node.left && other.right == node.right) {
                break;
            }
            place = (place + 1) & (places - 1);
        }
        if (index[place] == 0) {
            index[place] = (uint32_t)made;
            nodes[made++] = node;
        }
    }
    free(nodes);
    free(index);
    return processor_seconds() - start;
}

struct frame {
    uint32_t node, operand;
};

// Keeps a number for each node, that of its operands first.
static uint32_t walk(const struct node *nodes, size_t count) {
    uint32_t *kept = calloc(count, sizeof *kept);
    struct frame *stack = malloc(count * sizeof *stack);
    size_t depth = 1;
    kept[0] = 1;
    stack[0] = (struct frame){(uint32_t)count - 1, 0};
    while (depth > 0) {
        struct frame *top = &stack[depth - 1];
        struct node node = nodes[top->node];
        if (top->operand == 2) {
            kept[top->node] = (kept[node.left] + kept[node.right]) | 1;
            depth--;
            continue;
        }
        uint32_t operand = top->operand++ == 0 ? node.left : node.right;
        if (kept[operand] == 0) {
            stack[depth++] = (struct frame){operand, 0};
        }
    }
    uint32_t last = kept[count - 1];
    free(kept);
    free(stack);
    return last;
}

// What a walk kept last, so that none is left out.
static volatile uint32_t kept_last;

// As often as makes a million nodes, for a walk alone is too short for the clock.
static double seconds_to_walk(size_t count) {
    struct node *nodes = malloc(count * sizeof *nodes);
    nodes[0] = (struct node){0, 0, 0};
    for (size_t made = 1; made < count; made++) {
        nodes[made] = (struct node){1, (uint32_t)made - 1, 0};
    }
    size_t times = count < 1000000 ? 1000000 / count : 1;
    double start = processor_seconds();
    for (size_t time = 0; time < times; time++) {
        kept_last = walk(nodes, count);
    }
    double seconds = (processor_seconds() - start) / (double)times;
    free(nodes);
    return seconds;
}

static double seconds_to(const char *what, size_t count) {
    if (strcmp(what, "walk") == 0) {
        return seconds_to_walk(count);
    }
    return seconds_to_make(count, strcmp(what, "drawn") == 0);
}

int main(int count, char **words) {
    if (count != 4) {
        return 1;
    }
    size_t nodes = strtoul(words[2], NULL, 10);
    double least = 1e9;
    for (int run = atoi(words[3]); run > 0; run--) {
        double seconds = seconds_to(words[1], nodes);
        least = seconds < least ? seconds : least;
    }
    printf("%zu nodes: %.1f ns a node\n", nodes, least * 1e9 / (double)nodes);
    return 0;
}
