/* A host with one heap object. While gdb has stopped the program in `stop`, it sets move_wanted and lets it run to `moved`: the
 * object is copied to another page, the old one can't be read any more, and the file `moves` says where the object was and where
 * it is. (gdb could call move_heap itself, but gdb 13 can't call functions on a processor with AMX.) */
#define _GNU_SOURCE
#include <stdint.h>
#include <stdio.h>
#include <stdlib.h>
#include <string.h>
#include <sys/mman.h>

enum { PAGE = 4096, WORDS = 8 };

int64_t outer(int64_t *object, int64_t at);

static int64_t *old_page;

volatile int move_wanted;

static int64_t *new_page(void)
{
    void *page = mmap(NULL, PAGE, PROT_READ | PROT_WRITE, MAP_PRIVATE | MAP_ANONYMOUS, -1, 0);
    if (page == MAP_FAILED) {
        perror("mmap");
        exit(1);
    }
    return page;
}

static void move_heap(void)
{
    int64_t *page = new_page() + 32;
    FILE *moves = fopen("moves", "w");
    if (moves == NULL || fprintf(moves, "%p %p\n", (void *)old_page, (void *)page) < 0 || fclose(moves) != 0) {
        perror("moves");
        exit(1);
    }
    memcpy(page, old_page, WORDS * sizeof *page);
    mprotect(old_page, PAGE, PROT_NONE);
}

void moved(void)
{
}

void stop(void)
{
    if (move_wanted) {
        move_heap();
        moved();
    }
}

int main(void)
{
    int64_t i;

    old_page = new_page();
    for (i = 0; i < WORDS; i++) {
        old_page[i] = 10 * i + 1;
    }
    printf("the sum is %ld\n", (long)outer(old_page, 5));
    return 0;
}
