/*
 * tree SCRIPT: reads a script with dn_read, loads its tree file with dn_load and prints its tree, a line for each
 * node, children indented below their parent; then the errors and losses, each with its sentence by dn_sentence and
 * its line of the script.
 * tree --file FILE: loads a stored tree file and prints the same of it. Without its script there are no sentences
 * and no lines: an error is printed as its numbers.
 * `-` is standard input.
 *
 * Status: 0 read without an error or a loss, 1 read with errors, 2 refused, 3 something else failed.
 *
 * C99 and C++11. A file may be broken, and dn_load refuses it then: what it accepts is not tested here again.
 */
#include <inttypes.h>
#include <stdio.h>
#include <string.h>

#include "delta_null.h"

enum status { CLEAN = 0, ERRORS = 1, REFUSED = 2, FAILED = 3 };

/* One byte more than there may be, so that an input that is too long is refused and not cut. */
static uint8_t script[DN_MAX_SCRIPT_BYTES + 1];
static size_t script_bytes; /* 0 where a stored file is printed */
static uint8_t file[DN_FILE_BUFFER_BYTES + 1];
static size_t file_bytes;
static uint32_t steps[DN_STEP_BUFFER_WORDS];
static size_t step_count;
static uint8_t sentence[DN_SENTENCE_BUFFER_BYTES];

/* ---- what the fields of each tag hold ---- */

/*
 * The parts of a body, a letter for each:
 *     p place    b byte, a number    c count, 2 bytes    s size, 8 bytes    t text
 */
struct layout {
    uint32_t tag;
    const char *name; /* tests/run --example compares it with the definition's */
    const char *body;
    const char *counted; /* what its count is of */
};

static const struct layout LAYOUTS[] = {
    {DN_TAG_NAME, "name", "pt", ""},
    {DN_TAG_VOID, "void", "p", ""},
    {DN_TAG_POINTER, "pointer", "p", ""},
    {DN_TAG_ARRAY, "array", "ps", ""},
    {DN_TAG_STRUCT, "struct", "pc", "field"},
    {DN_TAG_NAMED_TYPE, "named type", "t", ""},
    {DN_TAG_IDENTIFIER, "identifier", "pt", ""},
    {DN_TAG_INTEGER, "integer", "pbt", ""},
    {DN_TAG_BOOLEAN, "boolean", "pb", ""},
    {DN_TAG_STRING, "string", "pt", ""},
    {DN_TAG_CALL, "call", "pc", "argument"},
    {DN_TAG_INDEX, "index", "p", ""},
    {DN_TAG_CAST, "cast", "p", ""},
    {DN_TAG_POINTER_TAKE, "pointer take", "p", ""},
    {DN_TAG_POINTER_DEREFERENCE, "pointer dereference", "p", ""},
    {DN_TAG_FIELD_ACCESS, "field access", "pt", ""},
    {DN_TAG_BITWISE_NOT, "bitwise not", "p", ""},
    {DN_TAG_BOOLEAN_NOT, "boolean not", "p", ""},
    {DN_TAG_BOOLEAN_AND, "boolean and", "p", ""},
    {DN_TAG_ARITHMETIC_BIN_OP, "arithmetic", "pb", ""},
    {DN_TAG_COMPARISON_BIN_OP, "comparison", "pb", ""},
    {DN_TAG_SIZEOF, "sizeof", "p", ""},
    {DN_TAG_COMPOUND_ARRAY, "compound array", "pc", "value"},
    {DN_TAG_COMPOUND_STRUCT, "compound struct", "pc", "field"},
    {DN_TAG_COMPOUND_FIELD, "compound field", "pt", ""},
    {DN_TAG_NO_VALUE, "no value", "", ""},
    {DN_TAG_ASSIGNED_VALUE, "assigned value", "", ""},
    {DN_TAG_COMPOUND_VALUE, "compound value", "", ""},
    {DN_TAG_BLOCK, "block", "pc", "statement"},
    {DN_TAG_EXPRESSION, "expression", "p", ""},
    {DN_TAG_VARIABLE_DECLARATION, "variable declaration", "pt", ""},
    {DN_TAG_ASSIGNMENT, "assignment", "p", ""},
    {DN_TAG_COMPOUND_ASSIGNMENT, "compound assignment", "p", ""},
    {DN_TAG_RETURN, "return", "pb", ""},
    {DN_TAG_LOOP, "loop", "p", ""},
    {DN_TAG_WHILE, "while", "p", ""},
    {DN_TAG_BREAK, "break", "p", ""},
    {DN_TAG_IF, "if", "pb", ""},
    {DN_TAG_INLINE_ASSEMBLY, "inline assembly", "pt", ""},
    {DN_TAG_FUNCTION_DEFINITION, "function definition", "pbct", "parameter"},
    {DN_TAG_TYPE_ALIAS, "type alias", "pbt", ""},
    {DN_TAG_USE, "use", "pt", ""},
    {DN_TAG_TOP_LEVEL_VARIABLE, "top level variable", "pt", ""},
    {DN_TAG_TOP_LEVEL_ASSEMBLY, "top level assembly", "pt", ""},
    {DN_TAG_MODULE, "module", "c", "item"},
};

/* for another tag, which no step of this version has */
static const struct layout UNKNOWN = {0, "unknown node", "", ""};

static const struct layout *layout_of(uint32_t tag)
{
    size_t i;
    for (i = 0; i < sizeof LAYOUTS / sizeof LAYOUTS[0]; i++)
        if (LAYOUTS[i].tag == tag)
            return &LAYOUTS[i];
    return &UNKNOWN;
}

/* ---- words for numbers ---- */

static const char *const REFUSALS[] = {
    "not refused",
    "the script is too long",
    "the script is not UTF-8",
    "the file buffer is too short",
    "a character above 255, not in a string, a comment or assembly or after a minus",
    "a minus ends the script",
    "too many tokens",
    "too many token errors",
    "a bad token record",
    "the script has nothing but white space, comments and errors",
    "nested too deep",
    "the script ends after `type`, `use` or a dot, where a name has to follow",
    "too many errors",
    "the sentence buffer is too short",
    "the file is too long, or a field of it is damaged",
    "the fields of the file are not one tree and its errors",
};

static const char *const ARITHMETIC[] = {"+", "-", "*", "&", "^", "|", "<<", ">>"};
static const char *const COMPARISON[] = {"==", ">", ">=", "<", "<="};

/* The compiler refuses a table that does not end with the last number. */
#define ENDS_WITH(table, last) typedef char table##_ends_with[sizeof table / sizeof table[0] == (last) + 1 ? 1 : -1]
ENDS_WITH(REFUSALS, DN_REFUSED_BAD_TREE);
ENDS_WITH(ARITHMETIC, DN_OP_RIGHT_SHIFT);
ENDS_WITH(COMPARISON, DN_OP_LESS_THAN_OR_EQUALS);

static const char *refusal(uint32_t number)
{
    return number < sizeof REFUSALS / sizeof REFUSALS[0] ? REFUSALS[number] : "unknown number";
}

/* ---- the steps ---- */

static uint32_t word(size_t step, enum dn_step which)
{
    return steps[step * DN_STEP_WORDS + which];
}

static const uint8_t *body_of(size_t step)
{
    return file + word(step, DN_STEP_OFFSET);
}

struct place {
    unsigned line, column; /* 0:0 where there is none, and of an error at the script's end */
};

/* a number of so many bytes, high byte first */
static uint64_t number_at(const uint8_t *bytes, size_t width)
{
    uint64_t n = 0;
    size_t i;
    for (i = 0; i < width; i++)
        n = n << 8 | bytes[i];
    return n;
}

static struct place place_at(const uint8_t *bytes)
{
    struct place p;
    p.line = (unsigned)number_at(bytes, 2);
    p.column = (unsigned)number_at(bytes + 2, 2);
    return p;
}

/* what the body of a node holds */
struct node {
    const struct layout *layout;
    struct place place;
    unsigned byte, count;
    uint64_t size;
    const uint8_t *text;
    size_t text_bytes;
};

static struct node node_of(size_t step)
{
    struct node n;
    const uint8_t *at = body_of(step);
    const uint8_t *end = at + word(step, DN_STEP_LENGTH);
    const char *part;
    memset(&n, 0, sizeof n);
    n.layout = layout_of(word(step, DN_STEP_TAG));
    for (part = n.layout->body; *part != '\0'; part++)
        switch (*part) {
        case 'p':
            n.place = place_at(at);
            at += DN_PLACE_BYTES;
            break;
        case 'b':
            n.byte = *at;
            at += 1;
            break;
        case 'c':
            n.count = (unsigned)number_at(at, 2);
            at += 2;
            break;
        case 's':
            n.size = number_at(at, 8);
            at += 8;
            break;
        case 't': /* to the body's end */
            n.text = at;
            n.text_bytes = (size_t)(end - at);
            break;
        }
    return n;
}

/* ---- printing ---- */

/* text in quotes; quotes, backslashes and control characters as \xHH */
static void print_text(const uint8_t *text, size_t length)
{
    size_t i;
    printf(" \"");
    for (i = 0; i < length; i++)
        if (text[i] < 32 || text[i] == 127 || text[i] == '"' || text[i] == '\\')
            printf("\\x%02X", (unsigned)text[i]);
        else
            putchar(text[i]);
    putchar('"');
}

/* Places have a column of their own, at the left. */
static void print_margin(const char *text)
{
    printf("%-7s ", text);
}

static void print_place(struct place p)
{
    char text[32] = "";
    if (p.line != 0)
        snprintf(text, sizeof text, "%u:%u", p.line, p.column);
    print_margin(text);
}

static void print_node(const struct node *n, size_t depth)
{
    print_place(n->place);
    while (depth-- > 0)
        printf("  ");
    printf("%s", n->layout->name);
    if (strchr(n->layout->body, 't') != NULL)
        print_text(n->text, n->text_bytes);
    if (strchr(n->layout->body, 'c') != NULL)
        printf(", %u %s%s", n->count, n->layout->counted, n->count == 1 ? "" : "s");
    switch (n->layout->tag) {
    case DN_TAG_ARRAY:
        printf(" of %" PRIu64, n->size);
        break;
    case DN_TAG_INTEGER:
        if (n->byte != 10)
            printf(" in base %u", n->byte);
        break;
    case DN_TAG_BOOLEAN:
        printf(n->byte == 1 ? " true" : " false");
        break;
    case DN_TAG_ARITHMETIC_BIN_OP:
        printf(" %s", ARITHMETIC[n->byte]);
        break;
    case DN_TAG_COMPARISON_BIN_OP:
        printf(" %s", COMPARISON[n->byte]);
        break;
    case DN_TAG_FUNCTION_DEFINITION:
        if (n->byte == 1)
            printf(", extern");
        break;
    case DN_TAG_TYPE_ALIAS:
        if (n->byte & DN_ALIAS_DISTINCT)
            printf(", distinct");
        if (n->byte & DN_ALIAS_INTERNAL)
            printf(", internal");
        break;
    }
    putchar('\n');
}

/*
 * Children come before their parent. So the last child of a step is the step before it, and each other child is the
 * step before the next child and all that is below that.
 */
static size_t sizes[DN_MAX_STEPS];   /* of each step: how many steps it is, with all below it */
static size_t depths[DN_MAX_STEPS];  /* and how many are above it */
static size_t waiting[DN_MAX_STEPS]; /* steps that are still to be printed, the next one last */

/* Prints a step, then its children, each with its own. No recursion, so that no depth is too deep. */
static void print_tree(size_t root)
{
    size_t step, below, left, count = 0;
    for (step = 0; step <= root; step++) {
        sizes[step] = 1;
        for (left = word(step, DN_STEP_CHILDREN); left > 0; left--)
            sizes[step] += sizes[step - sizes[step]];
    }
    waiting[count++] = root;
    depths[root] = 0;
    while (count > 0) {
        struct node n;
        step = waiting[--count];
        n = node_of(step);
        print_node(&n, depths[step]);
        below = 1;
        for (left = word(step, DN_STEP_CHILDREN); left > 0; left--) {
            size_t child = step - below;
            below += sizes[child];
            depths[child] = depths[step] + 1;
            waiting[count++] = child;
        }
    }
}

/* ---- errors ---- */

/* The script's line of a place, and below it a mark at the column, which counts characters. */
static void print_line(struct place p)
{
    size_t start = 0, end, i;
    unsigned line = 1, column = 1;
    while (start < script_bytes && line < p.line)
        if (script[start++] == '\n')
            line++;
    if (p.line == 0 || start == script_bytes)
        return;
    for (end = start; end < script_bytes && script[end] != '\n'; end++)
        ;
    print_margin("");
    for (i = start; i < end; i++)
        putchar(script[i] < 32 || script[i] == 127 ? ' ' : script[i]);
    putchar('\n');
    print_margin("");
    for (i = start; i < end && column < p.column; i++)
        if (i + 1 == end || (script[i + 1] & 0xC0) != 0x80) {
            putchar(' ');
            column++;
        }
    printf("^\n");
}

/* Prints the sentence of an error; whether there is one. A control character is printed as \xHH. */
static int print_sentence(uint32_t list, size_t position)
{
    size_t bytes = 0, i;
    uint32_t number = dn_sentence(script, script_bytes, list, position, sentence, sizeof sentence, &bytes);
    if (number != DN_OK || bytes == 0)
        return 0;
    for (i = 0; i < bytes; i++)
        if (sentence[i] < 32 || sentence[i] == 127)
            printf("\\x%02X", (unsigned)sentence[i]);
        else
            putchar(sentence[i]);
    putchar('\n');
    return 1;
}

/* the numbers of an error, where there is no script to ask for its sentence */
static void print_numbers(const uint8_t *body)
{
    printf("error %u", (unsigned)body[0]);
    if (body[5] != DN_KIND_NONE)
        printf(", expected kind %u", (unsigned)body[5]);
    if (body[6] != DN_KIND_NONE)
        printf(", got kind %u", (unsigned)body[6]);
    putchar('\n');
}

/* Prints an error, which is at a position of its list. */
static void print_error(size_t step, size_t position)
{
    struct place p = place_at(body_of(step) + 1);
    print_place(p);
    if (p.line == 0)
        printf("end of script: ");
    if (script_bytes == 0 || !print_sentence(word(step, DN_STEP_TAG), position))
        print_numbers(body_of(step));
    print_line(p);
}

static const char *list_name(uint32_t tag)
{
    switch (tag) {
    case DN_TAG_TOKEN_ERROR:
        return "All errors of the tokenizer";
    case DN_TAG_REPORTED_ERROR:
        return "Errors of the parser that the Rust front end reports";
    default:
        return "All losses and errors of the parser";
    }
}

/* ---- the file ---- */

/* how many bytes of the file have no step: those of fields that the library skips */
static size_t skipped_bytes(void)
{
    size_t step, left = file_bytes;
    for (step = 0; step < step_count; step++)
        left -= DN_FIELD_HEAD_BYTES + word(step, DN_STEP_LENGTH);
    return left;
}

/* Prints the tree, whose last step is the module, then the errors, list by list. */
static enum status print_file(void)
{
    size_t module = 0, step, position = 0, skipped = skipped_bytes();
    while (word(module, DN_STEP_TAG) != DN_TAG_MODULE)
        module++;
    print_tree(module);
    for (step = module + 1; step < step_count; step++) {
        uint32_t tag = word(step, DN_STEP_TAG);
        position++;
        if (tag != word(step - 1, DN_STEP_TAG)) {
            printf("\n%s:\n", list_name(tag));
            position = 0;
        }
        print_error(step, position);
    }
    if (skipped > 0)
        printf("\nSkipped: %lu bytes of fields that this version does not know.\n", (unsigned long)skipped);
    if (module + 1 == step_count) {
        printf("\nRead, no error found.\n");
        return CLEAN;
    }
    printf("\nRead with errors: parts of the script may be missing from the tree.\n");
    return ERRORS;
}

/* ---- the input ---- */

/* Fills a buffer from a file; whether all of it was read, or more than the buffer should hold. */
static int read_input(const char *path, uint8_t *buffer, size_t length, size_t *bytes)
{
    int given = strcmp(path, "-") == 0;
    FILE *in = given ? stdin : fopen(path, "rb");
    int failed;
    if (in == NULL)
        return 0;
    *bytes = fread(buffer, 1, length, in);
    failed = ferror(in);
    if (!given && fclose(in) != 0)
        failed = 1;
    return !failed;
}

int main(int argc, char **argv)
{
    int stored = argc == 3 && strcmp(argv[1], "--file") == 0;
    uint32_t number = DN_OK;
    enum status status = REFUSED;
    if (argc != 2 && !stored) {
        fprintf(stderr, "usage: tree SCRIPT, or tree --file FILE\n");
        return FAILED;
    }
    if (stored ? !read_input(argv[2], file, sizeof file, &file_bytes)
               : !read_input(argv[1], script, sizeof script, &script_bytes)) {
        perror(argv[argc - 1]);
        return FAILED;
    }
    if (!stored)
        number = dn_read(script, script_bytes, file, DN_FILE_BUFFER_BYTES, &file_bytes);
    if (number == DN_OK)
        number = dn_load(file, file_bytes, steps, DN_STEP_BUFFER_WORDS, &step_count);
    if (number == DN_OK)
        status = print_file();
    else
        printf("Refused, no tree: %s (%" PRIu32 ")\n", refusal(number), number);
    if (fflush(stdout) != 0 || ferror(stdout)) {
        perror("standard output");
        return FAILED;
    }
    return (int)status;
}
