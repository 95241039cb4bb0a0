/* Prints the most of a stack that a call of dn_read, of dn_sentence and of dn_load takes, for scripts that nest as
 * deep as they may. */
#include <pthread.h>
#include <stdio.h>
#include <string.h>
#include <sys/mman.h>

#include "delta_null.h"

/* A script: so many openings, the middle, so many closings. */
struct shape {
    const char *name, *before, *opening, *middle, *closing, *after;
    size_t count;
};

/* The deepest that are read, by what nests, and the longest loops. */
static const struct shape SHAPES[] = {
    {"groups", "fn f(){", "(", "a", ")", ";}", 46},
    {"calls", "fn f(){", "g(", "a", ")", ";}", 46},
    {"calls in sums", "fn f(){", "b+g(", "a", ")", ";}", 46},
    {"indices in sums", "fn f(){", "b+a[", "a", "]", ";}", 46},
    {"prefixes", "fn f(){", "*", "a", "", ";}", 93},
    {"blocks", "fn f(){", "{", "", "}", "}", 94},
    {"while", "fn f(){", "while a ", "b;", "", "}", 93},
    {"if", "fn f(){", "if a b; else ", "b;", "", "}", 93},
    {"pointers", "var p: ", "*", "T", "", ";", 95},
    {"struct types", "var p: ", "struct{a: ", "T", "}", ";", 95},
    {"operators", "fn f(){", "a+", "a", "", ";}", 1018},
    {"suffixes", "fn f(){a", ".*", "", "", ";}", 2039},
    {"arguments", "fn f(){g(", "a,", "a", "", ");}", 1015},
    {"statements", "fn f(){", "break;", "", "", "}", 1020},
    {"items", "", "asm {}", "", "", "", 2048},
    {"modifiers", "", "distinct ", "type a = b;", "", "", 1800},
};

#define STACK ((size_t)16 << 20)
#define UNTOUCHED 0xA5

static char script[DN_MAX_SCRIPT_BYTES + 1];
static uint8_t file[DN_FILE_BUFFER_BYTES];
static uint8_t sentence[DN_SENTENCE_BUFFER_BYTES];
static uint32_t steps[DN_STEP_BUFFER_WORDS];
static size_t length, bytes; /* of the script and of its file */
static uint32_t number;      /* what the last call returned */

static void put(const char *text, size_t count)
{
    while (count-- > 0) {
        size_t n = strlen(text);
        if (length + n < sizeof script)
            memcpy(script + length, text, n);
        length += n;
    }
}

static void *call_read(void *unused)
{
    (void)unused;
    number = dn_read((const uint8_t *)script, length, file, sizeof file, &bytes);
    return NULL;
}

static void *call_sentence(void *unused)
{
    size_t count;
    (void)unused;
    number = dn_sentence((const uint8_t *)script, length, DN_TAG_FULL_ERROR, 0, sentence, sizeof sentence, &count);
    return NULL;
}

/* The file is that of call_read. */
static void *call_load(void *unused)
{
    size_t count;
    (void)unused;
    number = dn_load(file, bytes, steps, DN_STEP_BUFFER_WORDS, &count);
    return NULL;
}

/* Calls on a stack of its own, which held one value throughout, and counts what was changed; 0 where that failed or
 * the call refused. */
static size_t stack_taken(void *(*call)(void *))
{
    pthread_attr_t attributes;
    pthread_t thread;
    size_t untouched = 0;
    uint8_t *stack = mmap(NULL, STACK, PROT_READ | PROT_WRITE, MAP_PRIVATE | MAP_ANONYMOUS, -1, 0);
    if (stack == MAP_FAILED)
        return 0;
    memset(stack, UNTOUCHED, STACK);
    pthread_attr_init(&attributes);
    pthread_attr_setstack(&attributes, stack, STACK);
    if (pthread_create(&thread, &attributes, call, NULL) != 0 || pthread_join(thread, NULL) != 0 || number != DN_OK)
        return 0;
    while (untouched < STACK && stack[untouched] == UNTOUCHED)
        untouched++;
    munmap(stack, STACK);
    return STACK - untouched;
}

int main(void)
{
    size_t i, read, said, loaded;
    printf("%-16s %5s %8s %12s %8s\n", "bytes of stack", "times", "dn_read", "dn_sentence", "dn_load");
    for (i = 0; i < sizeof SHAPES / sizeof SHAPES[0]; i++) {
        const struct shape *s = &SHAPES[i];
        length = 0;
        put(s->before, 1);
        put(s->opening, s->count);
        put(s->middle, 1);
        put(s->closing, s->count);
        put(s->after, 1);
        if ((read = stack_taken(call_read)) == 0 || (said = stack_taken(call_sentence)) == 0 ||
            (loaded = stack_taken(call_load)) == 0) {
            printf("%s: not measured, number %u\n", s->name, (unsigned)number);
            return 1;
        }
        printf("%-16s %5zu %8zu %12zu %8zu\n", s->name, s->count, read, said, loaded);
    }
    return 0;
}
