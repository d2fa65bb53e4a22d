// A plain C program that runs a macro's counting loop, {LET A1,A1+1}{BRANCH D1} in D1, over a table of cells: the work of
// a worksheet's macro without its screens, apart from the program's structures.
//   macro text STEPS   the text of the cell is read afresh at each step: the word, its arguments, the formula and its value
//   macro kept STEPS   the words and the formula's tree are read once, and kept
// It prints what A1 then holds.
#include <ctype.h>
#include <stdint.h>
#include <stdio.h>
#include <stdlib.h>
#include <string.h>

#define COLUMNS 256
#define ROWS 8192
#define MOST 999999999999999LL
#define ONE 1000000

enum kind { BLANK, NUMBER, LABEL, ERROR };

struct cell {
    enum kind kind;
    int64_t millionths;
    char *text;
};

static struct cell *cells;

static struct cell *at(int col, int row) { return &cells[row * COLUMNS + col]; }

// ---------------------------------------------------------------- formulas: references, whole numbers, + and -

struct node {
    char kind; // N a number, C a cell, + and -
    int64_t millionths;
    int col, row;
    struct node *left, *right;
};

static struct node nodes[64];
static int used;

static struct node *new_node(char kind, struct node *left, struct node *right) {
    struct node *node = &nodes[used++];
    *node = (struct node){.kind = kind, .left = left, .right = right};
    return node;
}

static int read_address(const char **text, int *col, int *row) {
    const char *p = *text;
    int c = 0, r = 0;
    while (isalpha((unsigned char)*p)) c = c * 26 + toupper((unsigned char)*p++) - 'A' + 1;
    if (c == 0 || c > COLUMNS || !isdigit((unsigned char)*p)) return 0;
    while (isdigit((unsigned char)*p)) r = r * 10 + *p++ - '0';
    if (r == 0 || r > ROWS) return 0;
    *col = c - 1, *row = r - 1, *text = p;
    return 1;
}

static struct node *read_operand(const char **text) {
    struct node *node = new_node('C', 0, 0);
    if (read_address(text, &node->col, &node->row)) return node;
    node->kind = 'N';
    while (isdigit((unsigned char)**text)) node->millionths = node->millionths * 10 + (*(*text)++ - '0');
    node->millionths *= ONE;
    return node;
}

static struct node *read_formula(const char **text) {
    struct node *node = read_operand(text);
    while (**text == '+' || **text == '-') {
        char kind = *(*text)++;
        node = new_node(kind, node, read_operand(text));
    }
    return node;
}

static enum kind value_of(const struct node *node, int64_t *out) {
    int64_t x, y;
    if (node->kind == 'N') {
        *out = node->millionths;
        return NUMBER;
    }
    if (node->kind == 'C') {
        struct cell *cell = at(node->col, node->row);
        *out = cell->kind == NUMBER ? cell->millionths : 0;
        return cell->kind == BLANK ? NUMBER : cell->kind;
    }
    if (value_of(node->left, &x) != NUMBER || value_of(node->right, &y) != NUMBER) return ERROR;
    *out = node->kind == '+' ? x + y : x - y;
    return *out > MOST || *out < -MOST ? ERROR : NUMBER;
}

// ---------------------------------------------------------------- words

struct word {
    int is_let; // LET, and BRANCH otherwise
    int col, row;
    struct node *formula;
    int next;
};

// Reads the word at an offset of a text; 0 where none stands there.
static int read_word(const char *text, int offset, struct word *word) {
    const char *p = text + offset, *close;
    char name[16];
    int size = 0, quoted = 0;
    if (*p++ != '{') return 0;
    for (close = p; *close && (*close != '}' || quoted); close++) quoted ^= *close == '"';
    if (!*close) return 0;
    while (*p != ' ' && *p != '}' && size < 15) name[size++] = (char)toupper((unsigned char)*p++);
    name[size] = 0;
    word->is_let = !strcmp(name, "LET");
    if ((!word->is_let && strcmp(name, "BRANCH")) || *p++ != ' ') return 0;
    if (!read_address(&p, &word->col, &word->row)) return 0;
    if (word->is_let) {
        if (*p++ != ',') return 0;
        used = 0;
        word->formula = read_formula(&p);
    }
    word->next = (int)(close - text) + 1;
    return p == close;
}

int main(int count, char **words) {
    if (count != 3) return 1;
    int kept = !strcmp(words[1], "kept");
    long steps = atol(words[2]);
    cells = calloc((size_t)COLUMNS * ROWS, sizeof *cells);
    *at(3, 0) = (struct cell){LABEL, 0, "{LET A1,A1+1}{BRANCH D1}"};
    struct word known[64];
    int is_known[64] = {0};
    int col = 3, row = 0, offset = 0;
    for (long step = 0; step < steps; step++) {
        struct cell *here = at(col, row);
        if (here->kind != LABEL) break;
        struct word fresh, *word = kept ? &known[offset] : &fresh;
        if (!kept || !is_known[offset]) {
            if (!read_word(here->text, offset, word)) break;
            is_known[offset] = kept;
        }
        if (word->is_let) {
            int64_t millionths = 0;
            enum kind kind = value_of(word->formula, &millionths);
            *at(word->col, word->row) = (struct cell){kind, millionths, 0};
            offset = word->next;
        } else {
            col = word->col, row = word->row, offset = 0;
        }
        __asm__ volatile("" ::: "memory");
    }
    printf("%lld\n", (long long)(at(0, 0)->millionths / ONE));
    return 0;
}
