/* How much of the stack petrizolu_events takes for the longest sections: events and descriptors are walked by functions that call each other. */
#define _GNU_SOURCE
#include "../include/petrizolu.h"

#include <pthread.h>
#include <stdio.h>
#include <stdlib.h>
#include <string.h>

enum { STACK = 8 << 20, LONGEST = 3 + 0xFFF, PAINT = 0xA5 };

static uint8_t section[LONGEST];
static size_t length;
static petrizolu_entry list[LONGEST / 2];
static petrizolu_listed listed;
static uint8_t answer;

static void *list_events(void *nothing)
{
    answer = petrizolu_events(section, length, 0, list, PETRIZOLU_LIST_WORDS(LONGEST / 2), &listed);
    return nothing;
}

static void *do_nothing(void *nothing)
{
    return nothing;
}

/* Bytes of a painted stack that a thread wrote over. */
static size_t taken(void *(*work)(void *))
{
    uint8_t *stack = aligned_alloc(4096, STACK);
    pthread_attr_t attributes;
    pthread_t thread;
    if (stack == NULL || pthread_attr_init(&attributes) != 0 || pthread_attr_setstack(&attributes, stack, STACK) != 0)
        exit(2);
    memset(stack, PAINT, STACK);
    if (pthread_create(&thread, &attributes, work, NULL) != 0 || pthread_join(thread, NULL) != 0)
        exit(2);
    size_t free_bytes = 0;
    while (free_bytes < STACK && stack[free_bytes] == PAINT)
        free_bytes++;
    free(stack);
    return STACK - free_bytes;
}

/* An EIT section (EN 300 468, 5.2.4) of so many events, each with so many descriptors of no bytes. */
static void make(size_t events, size_t descriptors)
{
    length = 14 + events * (12 + 2 * descriptors) + 4;
    memset(section, 0, sizeof section);
    section[0] = 0x4E;
    section[1] = 0xF0 | (length - 3) >> 8;
    section[2] = (length - 3) & 0xFF;
    section[5] = 0xC1;
    section[13] = 0x4E;
    for (size_t i = 0; i < events; i++) {
        section[14 + i * (12 + 2 * descriptors) + 10] = 2 * descriptors >> 8;
        section[14 + i * (12 + 2 * descriptors) + 11] = 2 * descriptors & 0xFF;
    }
}

int main(void)
{
    static const size_t kinds[][2] = {{0, 0}, {1, 0}, {339, 0}, {185, 5}, {1, 2033}, {1, 2034}};
    size_t thread = taken(do_nothing);
    puts("\nThe stack of petrizolu_events, over that of a thread that does nothing\n");
    puts("| events | descriptors of each | bytes of the section | entries | bytes of stack | an entry |");
    puts("|---|---|---|---|---|---|");
    for (size_t i = 0; i < sizeof kinds / sizeof kinds[0]; i++) {
        make(kinds[i][0], kinds[i][1]);
        size_t bytes = taken(list_events) - thread;
        if (answer != (kinds[i][0] == 0 ? PETRIZOLU_NO : PETRIZOLU_YES) || listed.count != kinds[i][0] * (1 + kinds[i][1]))
            return 1;
        printf("| %zu | %zu | %zu | %llu | %zu | %zu |\n", kinds[i][0], kinds[i][1], length, (unsigned long long)listed.count, bytes, listed.count == 0 ? 0 : bytes / (size_t)listed.count);
    }
    return 0;
}
