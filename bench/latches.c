// Negation normal form of latches in plain C, with nothing else to do: no sorts, no levels, no places of faults, no text that it would refuse, and no
// proof. It reads the scripts that `bench/scripts` makes as `flat`, and no others, and writes what `smtrw rewrite --passes nnf` writes. Its nodes have 96
// bytes, as those of the table have with hash and sort, and its index the groups of the kit's; a node is looked for where nodes over late operands made
// at the same time lie. So it tells what a machine takes for the nodes, the index and the texts alone.
//
//     cc -O2 -march=x86-64-v2 -o latches bench/latches.c && ./latches SCRIPT tree
//
// The layout is `tree` or `dag`. With `-DNODE=56` a node has 56 bytes, and with `-DAPART` each is looked for in a place of its own.
#include <fcntl.h>
#include <stdint.h>
#include <stdio.h>
#include <stdlib.h>
#include <string.h>
#include <sys/stat.h>
#include <unistd.h>

#ifndef NODE
#define NODE 96
#endif
#define MOST_OPERANDS 4
#define LANES 12
#define PIECE (1 << 16)

typedef uint32_t id;
enum operator { SYMBOL, NOT, AND, OR, XOR, IMPLIES, EQUAL };

static const char *const written[] = {"", "not", "and", "or", "xor", "=>", "="};

struct node {
    uint8_t operator, count;
    uint64_t symbol, operands[MOST_OPERANDS];
    unsigned char more[NODE - 48];
};

struct group {
    uint8_t tags[LANES];
    uint32_t count;
    id nodes[LANES];
};

struct name {
    const char *text;
    uint32_t length;
    id node;
};

struct token {
    uint32_t start, end, next;
};

struct command {
    uint64_t is_assertion, what;
};

static struct node *nodes;
static id node_count;
static struct group *groups;
static uint64_t group_mask, name_mask;
static struct name *names;
static uint32_t name_count, *name_places;
static struct token *tokens;
static size_t token_count;
static const char *text, *next;
static id *forms[2], *places;
static uint32_t *defined_in, definitions, assertion;
static char *out;
static size_t out_length;

static void stop(const char *why) {
    fprintf(stderr, "%s\n", why);
    exit(1);
}

static void *room(size_t count, size_t size) {
    void *memory = calloc(count, size);
    if (!memory)
        stop("no memory");
    return memory;
}

static uint64_t mix(uint64_t hash, uint64_t number) {
    __uint128_t product = (__uint128_t)(hash ^ number) * 0x9E3779B97F4A7C15u;
    return (uint64_t)product ^ (uint64_t)(product >> 64);
}

static int is_node(id at, enum operator operator, uint64_t symbol, const uint64_t *operands, unsigned count) {
    const struct node *node = &nodes[at];
    return node->operator == operator && node->count == count && node->symbol == symbol && !memcmp(node->operands, operands, count * sizeof *operands);
}

static id make(enum operator operator, uint64_t symbol, const uint64_t *operands, unsigned count) {
    struct node *made = &nodes[node_count];
    *made = (struct node){.operator = operator, .count = count, .symbol = symbol};
    memcpy(made->operands, operands, count * sizeof *operands);
    return node_count++;
}

// the node, made last where there is none
static id intern(enum operator operator, uint64_t symbol, const uint64_t *operands, unsigned count) {
    uint64_t hash = mix(operator, symbol), greatest = 0;
    for (unsigned i = 0; i < count; i++) {
        hash = mix(hash, operands[i]);
        greatest = operands[i] > greatest ? operands[i] : greatest;
    }
    uint64_t home = hash;
#ifndef APART
    if (count)
        home = (mix(7, greatest / 16) & ~(uint64_t)3) + (hash & 3);
#endif
    uint8_t tag = hash >> 56;
    for (;; home++) {
        struct group *group = &groups[home & group_mask];
        for (uint32_t lane = 0; lane < group->count; lane++)
            if (group->tags[lane] == tag && is_node(group->nodes[lane], operator, symbol, operands, count))
                return group->nodes[lane];
        if (group->count < LANES) {
            group->tags[group->count] = tag;
            return group->nodes[group->count++] = make(operator, symbol, operands, count);
        }
    }
}

static uint32_t *name_place(const char *name, uint32_t length) {
    uint64_t hash = length, last = 0;
    uint32_t left = length;
    for (const char *at = name; left >= 8; at += 8, left -= 8) {
        uint64_t part;
        memcpy(&part, at, 8);
        hash = mix(hash, part);
    }
    memcpy(&last, name + length - left, left);
    for (uint64_t place = mix(hash, last);; place++) {
        uint32_t *found = &name_places[place & name_mask];
        if (!*found || (names[*found - 1].length == length && !memcmp(names[*found - 1].text, name, length)))
            return found;
    }
}

static void keep_token(const char *start, const char *end) {
    tokens[token_count++] = (struct token){(uint32_t)(start - text), (uint32_t)(end - text), 0};
}

static void pass(const char *what) {
    while (*next == ' ' || *next == '\n')
        next++;
    size_t length = strlen(what);
    if (strncmp(next, what, length))
        stop("not a script of latches");
    keep_token(next, next + length);
    next += length;
}

static uint32_t pass_word(const char **word) {
    while (*next == ' ' || *next == '\n')
        next++;
    *word = next;
    while (*next > ' ' && *next != '(' && *next != ')')
        next++;
    keep_token(*word, next);
    return (uint32_t)(next - *word);
}

static id read_term(void) {
    while (*next == ' ')
        next++;
    const char *word;
    if (*next != '(') {
        uint32_t length = pass_word(&word), *place = name_place(word, length);
        if (!*place)
            stop("an unknown name");
        return names[*place - 1].node;
    }
    pass("(");
    uint32_t length = pass_word(&word);
    enum operator operator = NOT;
    while (strlen(written[operator]) != length || strncmp(written[operator], word, length))
        if (operator++ == EQUAL)
            stop("an unknown operator");
    uint64_t operands[MOST_OPERANDS];
    unsigned count = 0;
    for (; *next != ')'; count++) {
        if (count == MOST_OPERANDS)
            stop("too many operands");
        operands[count] = read_term();
    }
    pass(")");
    return intern(operator, 0, operands, count);
}

static uint64_t read_declaration(void) {
    const char *word;
    uint32_t length = pass_word(&word);
    *name_place(word, length) = name_count + 1;
    names[name_count] = (struct name){word, length, intern(SYMBOL, name_count, NULL, 0)};
    pass("(");
    pass(")");
    pass("Bool");
    pass(")");
    return name_count++;
}

static size_t read_script(struct command *commands) {
    size_t count = 0;
    const char *word;
    while (*next) {
        pass("(");
        uint64_t is_assertion = pass_word(&word) == strlen("assert");
        commands[count++] = (struct command){is_assertion, is_assertion ? read_term() : read_declaration()};
        if (is_assertion)
            pass(")");
        while (*next == '\n')
            next++;
    }
    return count;
}

static id form(id of, int positive);

// of `=` where they are to be equal, of `xor` where they aren't: each part takes one of the two as it stands, and the other negated
static id form_of_both(const struct node *node, int equal) {
    uint64_t parts[2];
    for (int i = 0; i < 2; i++) {
        int positive = i == equal;
        uint64_t operands[] = {form(node->operands[0], positive), form(node->operands[1], !positive)};
        parts[i] = intern(equal ? OR : AND, 0, operands, 2);
    }
    return intern(equal ? AND : OR, 0, parts, 2);
}

static id form_of_operator(id of, int positive) {
    struct node node = nodes[of];
    uint64_t operands[MOST_OPERANDS] = {of};
    switch (node.operator) {
    case SYMBOL:
        return positive ? of : intern(NOT, 0, operands, 1);
    case NOT:
        return form(node.operands[0], !positive);
    case XOR:
    case EQUAL:
        return form_of_both(&node, (node.operator == EQUAL) == positive);
    default:
        for (unsigned i = 0; i < node.count; i++)
            operands[i] = form(node.operands[i], positive == (node.operator != IMPLIES || i == 1));
        return intern((node.operator == AND) == positive ? AND : OR, 0, operands, node.count);
    }
}

static id form(id of, int positive) {
    id *kept = &forms[positive][of];
    if (!*kept)
        *kept = form_of_operator(of, positive) + 1;
    return *kept - 1;
}

static void put(const char *what, size_t length) {
    memcpy(out + out_length, what, length);
    out_length += length;
}

#define PUT(what) put(what, sizeof(what) - 1)

static void put_number(uint32_t number) {
    char digits[10];
    int at = sizeof digits;
    do {
        digits[--at] = '0' + number % 10;
        number /= 10;
    } while (number);
    put(digits + at, sizeof digits - at);
}

static void put_operator(const struct node *node) {
    put(written[node->operator], strlen(written[node->operator]));
}

static void put_symbol(uint64_t symbol) {
    put(names[symbol].text, names[symbol].length);
}

static void put_tree(id of) {
    const struct node *node = &nodes[of];
    if (node->operator == SYMBOL) {
        put_symbol(node->symbol);
        return;
    }
    PUT("(");
    put_operator(node);
    for (unsigned i = 0; i < node->count; i++) {
        PUT(" ");
        put_tree(node->operands[i]);
    }
    PUT(")");
}

static void put_reference(id of) {
    const struct node *node = &nodes[of];
    if (node->operator == SYMBOL) {
        put_symbol(node->symbol);
        return;
    }
    PUT(".def_");
    put_number(places[of]);
}

static void put_definitions(id of) {
    const struct node *node = &nodes[of];
    if (node->operator == SYMBOL || defined_in[of] == assertion)
        return;
    for (unsigned i = 0; i < node->count; i++)
        put_definitions(node->operands[i]);
    PUT("(let ((.def_");
    put_number(definitions);
    PUT(" (");
    put_operator(node);
    for (unsigned i = 0; i < node->count; i++) {
        PUT(" ");
        put_reference(node->operands[i]);
    }
    PUT("))) ");
    defined_in[of] = assertion;
    places[of] = definitions++;
}

static void put_dag(id of) {
    assertion++;
    definitions = 0;
    put_definitions(of);
    put_reference(of);
    memset(out + out_length, ')', definitions);
    out_length += definitions;
}

static void put_command(struct command command, int as_dag) {
    if (command.is_assertion) {
        PUT("(assert ");
        (as_dag ? put_dag : put_tree)((id)command.what);
        PUT(")\n");
        return;
    }
    PUT("(declare-fun ");
    put_symbol(command.what);
    PUT(" () Bool)\n");
}

static void pass_on(size_t least) {
    if (out_length < least)
        return;
    for (size_t written_bytes = 0; written_bytes < out_length;) {
        ssize_t more = write(1, out + written_bytes, out_length - written_bytes);
        if (more <= 0)
            stop("not written");
        written_bytes += more;
    }
    out_length = 0;
}

static size_t read_file(const char *path) {
    struct stat about;
    int file = open(path, O_RDONLY);
    if (file < 0 || fstat(file, &about))
        stop("not read");
    char *bytes = malloc(about.st_size + 1);
    size_t length = 0;
    for (ssize_t more; (more = read(file, bytes + length, about.st_size - length)) > 0;)
        length += more;
    bytes[length] = 0;
    text = next = bytes;
    return length;
}

int main(int count, char **words) {
    if (count != 3)
        stop("latches SCRIPT tree|dag");
    int as_dag = !strcmp(words[2], "dag");
    size_t length = read_file(words[1]);
    group_mask = name_mask = 15;
    while (group_mask * 9 < length / 6)
        group_mask = 2 * group_mask + 1;
    while (name_mask < length / 16)
        name_mask = 2 * name_mask + 1;
    nodes = malloc((length / 4 + 16) * sizeof *nodes);
    tokens = malloc((length + 1) * sizeof *tokens);
    names = malloc((length / 16 + 1) * sizeof *names);
    struct command *commands = malloc((length / 16 + 1) * sizeof *commands);
    out = malloc(16 * PIECE);
    groups = room(group_mask + 1, sizeof *groups);
    name_places = room(name_mask + 1, sizeof *name_places);
    size_t command_count = read_script(commands);
    forms[0] = room(node_count, sizeof(id));
    forms[1] = room(node_count, sizeof(id));
    for (struct command *command = commands; command < commands + command_count; command++)
        if (command->is_assertion)
            command->what = form((id)command->what, 1);
    places = room(node_count, sizeof *places);
    defined_in = room(node_count, sizeof *defined_in);
    for (struct command *command = commands; command < commands + command_count; command++) {
        put_command(*command, as_dag);
        pass_on(PIECE);
    }
    pass_on(1);
    return 0;
}
