/* Preloaded into a program, this refuses growths of its memory.
 *
 *   cc -shared -fPIC -O1 -o refuse_growth.so refuse_growth.c
 *   REFUSE_AT=3   LD_PRELOAD=./refuse_growth.so PROGRAM     the third growth alone is refused
 *   REFUSE_FROM=3 LD_PRELOAD=./refuse_growth.so PROGRAM     the third growth and all later ones are refused
 *
 * With neither, none is. Where GROWTHS_FD names a descriptor, each growth writes one octet to it as it is asked
 * for: '+' where it is given, '-' where it is refused. So what was written tells how many there were, however
 * the program ends.
 *
 * SPARE is the right answer of a program that makes its answer word by word and leaves out a word that finds no memory. A
 * realloc of octets that begin as a part of SPARE does grows that answer: it is given, isn't counted, and writes nothing.
 * SPARE_SIZES are numbers with commas between. The first malloc of each of these sizes is spared, too: it holds octets of the question.
 *
 * A growth is a call of malloc, calloc, realloc, memalign, aligned_alloc or posix_memalign. The C library's own
 * names for them (glibc) do the work.
 */
#include <errno.h>
#include <malloc.h>
#include <stddef.h>
#include <stdlib.h>
#include <string.h>
#include <unistd.h>

extern void *__libc_malloc(size_t size);
extern void *__libc_calloc(size_t count, size_t size);
extern void *__libc_realloc(void *old, size_t size);
extern void *__libc_memalign(size_t alignment, size_t size);

static unsigned long growths;

/* The number that the environment gives by that name, or 0. */
static unsigned long number(const char *name)
{
    const char *text = getenv(name);
    return text ? strtoul(text, NULL, 10) : 0;
}

/* Counts one more growth, tells of it, and answers whether it is to be refused. */
static int is_refused(void)
{
    unsigned long at = number("REFUSE_AT");
    unsigned long from = number("REFUSE_FROM");
    unsigned long fd = number("GROWTHS_FD");
    int kept = errno;
    growths++;
    int refused = growths == at || (from != 0 && growths >= from);
    if (fd != 0 && write((int)fd, refused ? "-" : "+", 1) != 1)
        abort();
    errno = refused ? ENOMEM : kept;
    return refused;
}


void *calloc(size_t count, size_t size)
{
    return is_refused() ? NULL : __libc_calloc(count, size);
}

/* How many octets of what grows are compared with the answer, and how many the C library gives at least. */
enum { TOLD = 4, LEAST = 24 };

/* Whether the octets there are a part of the answer: four of them, or all of a text that has fewer, behind which the first room of
 * an answer has zeros. */
static int is_answer(void *old)
{
    const char *spare = getenv("SPARE");
    if (old == NULL || spare == NULL || *spare == '\0')
        return 0;
    size_t size = strlen(spare), told = size < TOLD ? size : TOLD;
    if (malloc_usable_size(old) <= LEAST)
        told = strnlen(old, told);
    if (told == 0)
        return 0;
    for (size_t at = 0; at + told <= size; at++)
        if (memcmp(old, spare + at, told) == 0)
            return 1;
    return 0;
}

/* The sizes whose first malloc is still to be spared. */
static size_t sizes[64];
static size_t count = (size_t)-1;

static int is_question(size_t size)
{
    if (count == (size_t)-1) {
        const char *text = getenv("SPARE_SIZES");
        for (count = 0; text != NULL && *text != '\0' && count < 64; count++) {
            char *end;
            sizes[count] = strtoul(text, &end, 10);
            text = *end == ',' ? end + 1 : end;
        }
    }
    for (size_t at = 0; at < count; at++)
        if (sizes[at] == size) {
            sizes[at] = 0;
            return size != 0;
        }
    return 0;
}

void *malloc(size_t size)
{
    if (!is_question(size) && is_refused())
        return NULL;
    return size <= LEAST ? __libc_calloc(1, size) : __libc_malloc(size);
}

void *realloc(void *old, size_t size)
{
    return !is_answer(old) && is_refused() ? NULL : __libc_realloc(old, size);
}

void *memalign(size_t alignment, size_t size)
{
    return is_refused() ? NULL : __libc_memalign(alignment, size);
}

void *aligned_alloc(size_t alignment, size_t size)
{
    return memalign(alignment, size);
}

int posix_memalign(void **place, size_t alignment, size_t size)
{
    void *found = memalign(alignment, size);
    if (found == NULL)
        return ENOMEM;
    *place = found;
    return 0;
}
