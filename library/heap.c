/* What the library takes memory with, in the place of the toolchain's own: three calls over the C library's heap.
 *
 * libnrpdcch.a has them as a member of its own. A program that defines all three itself links its own instead: its pool, or a
 * heap that fails on purpose. Each has to be as the comments here say, and safe to call from several threads where cells are used
 * in several.
 */
#include <stdalign.h>
#include <stdbool.h>
#include <stddef.h>
#include <stdlib.h>

/* An answer: whether there was memory, and where it is. The place is never null. */
struct rattle_memory {
    bool found;
    void *at;
};

struct rattle_memory rattle_alloc(size_t size, size_t alignment);
struct rattle_memory rattle_realloc(void *old, size_t kept, size_t size, size_t alignment);
void rattle_dealloc(void *old);

static char nowhere;

static struct rattle_memory answer(void *at)
{
    return (struct rattle_memory){at != NULL, at ? at : &nowhere};
}

/* The heap aligns what it gives for every plain type; nothing in the library asks for more. */
static bool is_given(size_t alignment)
{
    return alignment <= alignof(max_align_t);
}

/* Memory of the size, at a multiple of the alignment. A size of 0 has a place of its own too. */
struct rattle_memory rattle_alloc(size_t size, size_t alignment)
{
    return answer(is_given(alignment) ? malloc(size ? size : 1) : NULL);
}

/* The same memory with another size; what it held stays, as far as both sizes reach. Where there is none, the old is as it
 * was. */
struct rattle_memory rattle_realloc(void *old, size_t kept, size_t size, size_t alignment)
{
    (void)kept;
    return answer(is_given(alignment) ? realloc(old, size ? size : 1) : NULL);
}

/* Gives memory back that one of the two above gave. */
void rattle_dealloc(void *old)
{
    free(old);
}
