// bench/run links with --wrap, so that every block of the program passes through these functions.
#include "heap.h"

#include <cstdlib>
#include <malloc.h>
#include <new>

static bool counting;
static HeapBytes bytes;

void start_counting()
{
    bytes = { 0, 0 };
    counting = true;
}

HeapBytes stop_counting()
{
    counting = false;
    return bytes;
}

static size_t weight(void *block)
{
    return block ? malloc_usable_size(block) + sizeof(size_t) : 0;
}

static void taken(void *block)
{
    if (!counting) return;
    bytes.in_use += weight(block);
    if (bytes.in_use > bytes.peak) bytes.peak = bytes.in_use;
}

static void given_back(void *block)
{
    if (counting) bytes.in_use -= weight(block);
}

extern "C" {
void *__real_malloc(size_t);
void *__real_realloc(void *, size_t);
void __real_free(void *);

void *__wrap_malloc(size_t n)
{
    void *block = __real_malloc(n);
    taken(block);
    return block;
}

void *__wrap_realloc(void *old, size_t n)
{
    given_back(old);
    void *block = __real_realloc(old, n);
    taken(block);
    return block;
}

void __wrap_free(void *block)
{
    given_back(block);
    __real_free(block);
}
}

void *operator new(size_t n)
{
    void *block = malloc(n);
    if (!block) throw std::bad_alloc();
    return block;
}

void operator delete(void *block) noexcept
{
    free(block);
}

void operator delete(void *block, size_t) noexcept
{
    free(block);
}
