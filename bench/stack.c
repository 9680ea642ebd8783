/* stack FILE..: how many bytes of stack a call needs, the greatest over all files. Each call runs on a stack of 1 MiB of its own that is
 * filled with a pattern first; the bytes that differ from it afterwards are counted from the lowest on. A call that does nothing is
 * measured too, and is taken off: the thread's own frames. */
#include <pthread.h>
#include <stdio.h>
#include <stdlib.h>
#include <string.h>
#include "axml.h"

enum { SIZE = 1 << 20, PATTERN = 0xa5 };

static uint8_t *file;
static size_t bytes, words[3];
static uint32_t *table[3];
static uint8_t text[4096];
static const uint32_t none[1];

static void *nothing(void *p) { return p; }

static void *reads(void *p)
{
    axml_read(file, bytes, none, 0, (const uint8_t *)none, 0, table[0], words[0], table[1], words[1], table[2], words[2], 16, AXML_MODE_MERGED);
    return p;
}

static void *asks(void *p)
{
    axml_text(file, bytes, none, 0, (const uint8_t *)none, 0, text, sizeof text, 0);
    return p;
}

static void *finds(void *p)
{
    axml_first_value(file, bytes, none, 0, (const uint8_t *)none, 0, table[0], words[0], table[1], words[1], text, 1, text, 1, 1, 1);
    return p;
}

/* the two pairs have one tag, and other names */
static void *finds_many(void *p)
{
    static const uint32_t pairs[2 * AXML_PAIR_WORDS] = {0, 1, 0, 1, 0, 1, 1, 1};
    static uint32_t answers[2 * AXML_PAIR_ANSWER_WORDS];
    axml_first_values(file, bytes, none, 0, (const uint8_t *)none, 0, table[0], words[0], table[1], words[1], pairs, 2 * AXML_PAIR_WORDS, text, 2, answers,
                      2 * AXML_PAIR_ANSWER_WORDS, 1, 1);
    return p;
}

static size_t used(void *(*call)(void *))
{
    pthread_attr_t a;
    pthread_t t;
    uint8_t *stack = aligned_alloc(4096, SIZE);
    size_t low = 0;
    memset(stack, PATTERN, SIZE);
    pthread_attr_init(&a);
    if (pthread_attr_setstack(&a, stack, SIZE) || pthread_create(&t, &a, call, 0) || pthread_join(t, 0)) {
        fprintf(stderr, "stack: no thread\n");
        exit(1);
    }
    while (low < SIZE && stack[low] == PATTERN) low++;
    free(stack);
    return SIZE - low;
}

int main(int argc, char **argv)
{
    used(nothing); /* the first thread of a program needs more: the loader's */
    size_t base = used(nothing), most[4] = {0, 0, 0, 0};
    void *(*calls[4])(void *) = {reads, asks, finds, finds_many};
    const char *names[4] = {"axml_read", "axml_text", "axml_first_value", "axml_first_values"};
    for (int i = 1; i < argc; i++) {
        FILE *f = fopen(argv[i], "rb");
        if (!f) { perror(argv[i]); return 1; }
        file = realloc(file, (1 << 24) + 1);
        bytes = fread(file, 1, (1 << 24) + 1, f);
        fclose(f);
        words[0] = AXML_NODE_WORDS * (bytes / 36 + 1), words[1] = AXML_ATTRIBUTE_WORDS * (bytes / 20 + 2), words[2] = 3 * AXML_NOTE_PLACES(16u);
        for (int k = 0; k < 3; k++) table[k] = realloc(table[k], 4 * words[k]);
        for (int k = 0; k < 4; k++) {
            size_t n = used(calls[k]) - base;
            if (n > most[k]) most[k] = n;
        }
    }
    for (int k = 0; k < 4; k++) printf("%s: %zu bytes of stack at most, over %d files\n", names[k], most[k], argc - 1);
    return 0;
}
