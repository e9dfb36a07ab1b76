/* Each function of the header on a thread with so much stack: FALTXIGOR_STACK bytes, or as many as the first argument says.
 * Below the stack lies a page that ends the process if it is touched. Prints `N passed, 0 failed`. */
#include <pthread.h>
#include <stdio.h>
#include <stdlib.h>
#include <string.h>
#include <sys/mman.h>

#include "../include/faltxigor.h"

enum { WORDS = 41031, OBJECTS = 512, LINES = 1024, GUARD = 4096, DEEP = 12288 };

/* A session, and what is to be done on a copy of it. */
typedef struct {
    const uint64_t *words;
    size_t count;
    uint64_t call[6];
} Work;

static uint64_t words[WORDS];
static uint8_t lines[LINES];
static uint8_t deep[DEEP];
static size_t deep_length;
static unsigned passed;

/* A class of two learners, with the sheet given and the one that makes tasks as deep as there are handles, part by part. */
static void report(const Work *work, const uint8_t *sheet, size_t length) {
    static uint8_t file[DEEP + 64];
    uint64_t state[FALTXIGOR_CLASS_WORDS] = {0};
    size_t used, at = 0;
    file[at++] = 2;
    file[at++] = 1;
    file[at++] = 1;
    file[at++] = (uint8_t)length;
    memcpy(file + at, sheet, length);
    at += length;
    file[at++] = 2;
    file[at++] = 1;
    file[at++] = (uint8_t)(deep_length | 128);
    file[at++] = (uint8_t)(deep_length >> 7);
    memcpy(file + at, deep, deep_length);
    at += deep_length;
    while (state[0] != 7 && !faltxigor_class(file, at, state, FALTXIGOR_CLASS_WORDS, words, work->count, lines, 128, &used)) continue;
}

/* Every function, the ones that write on the same copy: the call first, since a fresh session has no depth. */
static void *call_all(void *given) {
    const Work *work = given;
    const uint64_t *c = work->call;
    const uint8_t sheet[] = {2, (uint8_t)c[0], 2, 0, 0, 0, 0, 10, 2, 11, 2, 1, 2, 1, 13, 2, 1, 14};
    uint64_t made, number;
    size_t used = 0, place;
    memcpy(words, work->words, work->count * sizeof *words);
    faltxigor_sound(words, work->count);
    faltxigor_apply(words, work->count, c[0], c[1], c[2], c[3], c[4], c[5], &made);
    memcpy(words, work->words, work->count * sizeof *words);
    faltxigor_run(sheet, sizeof sheet, words, work->count, lines, LINES, &used, &place, &number);
    faltxigor_last_line(words, work->count, lines, LINES, &used);
    faltxigor_fresh(words, work->count);
    report(work, sheet, sizeof sheet);
    passed += 6;
    return NULL;
}

static void fail(const char *what) {
    printf("%s\n%u passed, 1 failed\n", what, passed);
    exit(1);
}

static void on_a_thread(size_t stack, const uint64_t *memory, size_t count, const uint64_t call[6]) {
    Work work = {memory, count, {call[0], call[1], call[2], call[3], call[4], call[5]}};
    pthread_attr_t attributes;
    pthread_t thread;
    char *below = mmap(NULL, GUARD + stack, PROT_READ | PROT_WRITE, MAP_PRIVATE | MAP_ANONYMOUS, -1, 0);
    if (below == MAP_FAILED || mprotect(below, GUARD, PROT_NONE) || pthread_attr_init(&attributes)
        || pthread_attr_setstack(&attributes, below + GUARD, stack)
        || pthread_create(&thread, &attributes, call_all, &work) || pthread_join(thread, NULL))
        fail("no thread with this much stack");
    pthread_attr_destroy(&attributes);
    munmap(below, GUARD + stack);
}

/* Any call on the memory, each on a thread of its own. */
static void try_calls(size_t stack, const uint64_t *memory, size_t count, uint64_t last) {
    for (uint64_t code = 0; code <= 14; code++) {
        uint64_t on[6] = {code, code < 9 ? 2 : last, code < 9 ? last : 0, 0, 0, 1};
        on_a_thread(stack, memory, count, on);
    }
    on_a_thread(stack, memory, count, (uint64_t[6]){2, last, 3, 17, 1, 1});
    on_a_thread(stack, memory, count, (uint64_t[6]){8, last, last - 1, 0, 0, 0});
    on_a_thread(stack, memory, count, (uint64_t[6]){13, last, 16, 0, 0, 0});
}

/* One call that has to be accepted; what it made. */
static uint64_t accepted(uint64_t *memory, uint64_t code, uint64_t f0, uint64_t f1, uint64_t f2, uint64_t f3, uint64_t f4) {
    uint64_t made;
    if (faltxigor_apply(memory, WORDS, code, f0, f1, f2, f3, f4, &made)) fail("a call is refused");
    return made;
}

/* Main makes a task, which makes the next one, and so on as deep as there are handles; all but the last may be ended. */
static uint64_t chain(uint64_t *memory, uint64_t finish, uint64_t output, int ended) {
    uint64_t task = 2;
    if (faltxigor_fresh(memory, WORDS)) fail("no fresh session");
    accepted(memory, 10, 2, 0, 0, 0, 0);
    accepted(memory, 11, 2, 0, 0, 0, 0);
    accepted(memory, 1, 2, 0, 0, 0, 0);
    while (memory[0] + 1 + output <= OBJECTS) {
        uint64_t made = accepted(memory, 2, task, 3, 0, finish, output);
        if (ended) accepted(memory, 12, task, 0, 0, 0, 0);
        task = made;
        accepted(memory, 10, task, 0, 0, 0, 0);
        accepted(memory, 11, task, 0, 0, 0, 0);
    }
    return task;
}

/* A number of a sheet. */
static void put_number(uint64_t number) {
    for (; number > 127; number >>= 7) deep[deep_length++] = (uint8_t)(number | 128);
    deep[deep_length++] = (uint8_t)number;
}

/* The chain of tasks as a sheet, and then their ends, the deepest first. */
static void write_deep(void) {
    uint64_t task = 2;
    deep[deep_length++] = 1;
    memcpy(deep + deep_length, (const uint8_t[]){10, 2, 11, 2, 1, 2, 0}, 7);
    deep_length += 7;
    for (uint64_t made = 4; made <= OBJECTS; made++) {
        const uint64_t record[] = {2, task, 3, 0, 0, 0, 10, made, 11, made};
        for (size_t place = 0; place < sizeof record / sizeof *record; place++) put_number(record[place]);
        task = made;
    }
    for (; task >= 4; task--) put_number(12), put_number(task), put_number(0);
}

int main(int count, char **arguments) {
    static uint64_t memory[WORDS];
    size_t stack = count > 1 ? strtoull(arguments[1], NULL, 10) : FALTXIGOR_STACK;
    write_deep();
    if (faltxigor_fresh(memory, WORDS)) fail("no fresh session");
    try_calls(stack, memory, WORDS, 2);
    try_calls(stack, memory, WORDS - 1, 2);
    try_calls(stack, memory, 0, 2);
    for (int kind = 0; kind < 8; kind++) {
        uint64_t last = chain(memory, kind & 1, kind >> 1 & 1, kind >> 2);
        try_calls(stack, memory, WORDS, last);
        /* A creator that is not lower, and numbers that are no handles. */
        for (size_t word = 5; word < WORDS; word += 1999) {
            uint64_t was = memory[word];
            memory[word] = word % 2 ? UINT64_MAX : last;
            on_a_thread(stack, memory, WORDS, (uint64_t[6]){12, last, 0, 0, 0, 0});
            memory[word] = was;
        }
    }
    memset(memory, 0xff, sizeof memory);
    try_calls(stack, memory, WORDS, 2);
    printf("%u passed, 0 failed\n", passed);
    return 0;
}
