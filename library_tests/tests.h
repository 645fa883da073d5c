/* For the programs beside it, in C and C++: what holds is counted, and what does not has a line.
 *
 * CHECK(holds, ..) counts one thing that has to hold; the rest are the parts of a line, as printf takes them, that says what
 * it is. `report` prints the counts, and gives the status to end with. All programs run at the top of the repository, or are
 * told where it is, and read its files alone.
 */
#ifndef TESTS_H
#define TESTS_H
#include <stdbool.h>
#include <stdint.h>
#include <stdio.h>
#include <stdlib.h>
#include <string.h>

static long tests_passed, tests_failed;

#define CHECK(holds, ...)                                                                                                        \
    (void)((holds) ? tests_passed++ : (printf("%s:%d: ", __FILE__, __LINE__), printf(__VA_ARGS__), printf("\n"), tests_failed++))

static inline int report(const char *program)
{
    printf("%s: %ld passed, %ld failed\n", program, tests_passed, tests_failed);
    return tests_failed || !tests_passed;
}

/* A file's bytes, with a zero behind them. */
typedef struct {
    uint8_t *at;
    size_t size;
} bytes;

enum { PATH = 1024 };

/* A name below a folder. */
static inline void join(char path[PATH], const char *folder, const char *name)
{
    if (snprintf(path, PATH, "%s/%s", folder, name) >= PATH) {
        printf("%s: too long a name\n", folder);
        exit(2);
    }
}

/* The file of that name in the folder, or below it. The program ends where it cannot be read. */
static inline bytes read_file(const char *folder, const char *name)
{
    char path[PATH];
    join(path, folder, name);
    FILE *file = fopen(path, "rb");
    bytes read = {(uint8_t *)malloc(1 << 20), 0};
    if (!file || !read.at) {
        perror(path);
        exit(2);
    }
    read.size = fread(read.at, 1, (1 << 20) - 1, file);
    read.at[read.size] = 0;
    fclose(file);
    return read;
}

#endif
