/* Asks for memory by each function of glibc that gives some, and prints the name of each call that was refused, a line each. It
   ends with status 1 if a call that was refused gave a block, said no ENOMEM, or changed the block that it was to make larger.
   Used by: scripts/fail-each-allocation, to see that refuse.c refuses each of them. */
#define _GNU_SOURCE
#include <errno.h>
#include <malloc.h>
#include <stdio.h>
#include <stdlib.h>
#include <string.h>

static char text[] = "the old block";
static char *volatile block;
static char told[4096];
static int is_wrong;

/* What a call gave, of which `errno` was 0 before. */
static void look(const char *name, void *given) {
    int error = errno;
    if (given) {
        free(given);
    } else {
        if (error != ENOMEM || strcmp(block, text) != 0) is_wrong = 1;
        strcat(strcat(told, name), "\n");
    }
    errno = 0;
}

/* What a call gave that was to make the old block larger. */
static void grown(const char *name, char *given) {
    if (given) {
        if (strcmp(given, text) != 0) is_wrong = 1;
        block = given;
    } else {
        look(name, NULL);
    }
    errno = 0;
}

int main(void) {
    void *given = NULL;
    while (!(block = malloc(sizeof text))) strcat(told, "malloc\n");
    strcpy(block, text);
    errno = 0;
    look("calloc", calloc(3, 5));
    look("memalign", memalign(64, 10));
    look("aligned_alloc", aligned_alloc(64, 128));
    errno = posix_memalign(&given, 64, 10);
    look("posix_memalign", given);
    look("valloc", valloc(10));
    look("pvalloc", pvalloc(10));
    grown("realloc", realloc(block, 1000));
    grown("reallocarray", reallocarray(block, 10, 1000));
    fputs(told, stdout);
    return is_wrong;
}
