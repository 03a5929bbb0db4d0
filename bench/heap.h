// Counts the heap bytes that a structure takes.
#ifndef HEAP_H
#define HEAP_H

#include <cstddef>

// Bytes of the blocks that were taken since counting started, malloc's own word included.
struct HeapBytes {
    size_t in_use, peak;
};

void start_counting();
HeapBytes stop_counting();

#endif
