/* The heap of a WebAssembly module: the three functions of the kit, and two for JavaScript.
 *
 * There is no C library here. Small blocks have sizes of a few classes, and wait in a list of their class.
 * Large ones are whole pages: those that are free stand in a list by their addresses, and join with their
 * neighbours. The memory grows where none of them is long enough. Nothing of this file is proved. */
typedef unsigned long size_t;
typedef struct { size_t ok; char *bytes; } answer;
_Static_assert(sizeof(size_t) == 8, "the module is compiled for 64-bit addresses");

enum { PAGE = 1 << 16, LEAST = 32, LARGEST_SMALL = PAGE / 2, CHUNK = 4 * PAGE, CLASSES = 32 };
#define MOST ((size_t)1 << 32)

/* What stands before the bytes of a block. `next` is that of a free block. */
typedef struct block { size_t size; struct block *next; } block;

static block *small_ones[CLASSES];
static block *large_ones;
/* What is left of the chunk of pages that small blocks are cut from. */
static char *front, *end;
/* A block of no bytes points here where there is no memory. */
static char nothing[16] __attribute__((aligned(16)));

static size_t whole_pages(size_t size) {
    return (size + PAGE - 1) & ~(size_t)(PAGE - 1);
}

static char *behind(block *b) {
    return (char *)b + b->size;
}

static char *memory_end(void) {
    return (char *)(__builtin_wasm_memory_size(0) * PAGE);
}

/* Whether the memory grew. One that was lowered to 32 bits answers -1 as 2^32 - 1. */
static int grow(size_t size) {
    return (unsigned)__builtin_wasm_memory_grow(0, size / PAGE) != (unsigned)-1;
}

/* ---- Large blocks. Their sizes are whole pages. */

static void give_large(block *b) {
    block **place = &large_ones;
    block *before = 0;
    while (*place && *place < b) {
        before = *place;
        place = &before->next;
    }
    b->next = *place;
    *place = b;
    if (b->next && behind(b) == (char *)b->next) {
        b->size += b->next->size;
        b->next = b->next->next;
    }
    if (before && behind(before) == (char *)b) {
        before->size += b->size;
        before->next = b->next;
    }
}

/* Takes so many bytes from the front of the free block at a place of the list. */
static block *cut(block **place, size_t size) {
    block *b = *place;
    if (b->size == size) {
        *place = b->next;
    } else {
        block *rest = (block *)((char *)b + size);
        rest->size = b->size - size;
        rest->next = b->next;
        *place = rest;
        b->size = size;
    }
    return b;
}

static block *take_large(size_t size) {
    block **place = &large_ones, **last = 0;
    while (*place) {
        if ((*place)->size >= size)
            return cut(place, size);
        last = place;
        place = &(*place)->next;
    }
    char *top = memory_end();
    int reaches = last && behind(*last) == top;
    if (!grow(reaches ? size - (*last)->size : size))
        return 0;
    if (!reaches) {
        block *b = (block *)top;
        b->size = size;
        return b;
    }
    (*last)->size = size;
    return cut(last, size);
}

/* Whether a large block has so many bytes now. It gives away what is too much; else it takes what is free behind
 * it, or what the memory grows. */
static int resize(block *b, size_t size) {
    if (b->size > size) {
        block *rest = (block *)((char *)b + size);
        rest->size = b->size - size;
        b->size = size;
        give_large(rest);
    }
    if (b->size == size)
        return 1;
    size_t more = size - b->size;
    block **place = &large_ones;
    while (*place && (char *)*place < behind(b))
        place = &(*place)->next;
    if (*place && (char *)*place == behind(b) && (*place)->size >= more)
        cut(place, more);
    else if (behind(b) != memory_end() || !grow(more))
        return 0;
    b->size = size;
    return 1;
}

/* ---- Small blocks. Their sizes are powers of two, and three quarters of these. */

static size_t size_of(unsigned class) {
    size_t power = (size_t)LEAST << (class / 2);
    return class % 2 ? power + power / 2 : power;
}

static unsigned class_of(size_t size) {
    unsigned class = 0;
    while (size_of(class) < size)
        class++;
    return class;
}

static block *take_small(size_t wanted) {
    unsigned class = class_of(wanted);
    size_t size = size_of(class);
    block *b = small_ones[class];
    if (b) {
        small_ones[class] = b->next;
        return b;
    }
    if ((size_t)(end - front) < size) {
        front = (char *)take_large(CHUNK);
        end = front ? front + CHUNK : 0;
        if (!front)
            return 0;
    }
    b = (block *)front;
    front += size;
    b->size = size;
    return b;
}

/* ---- Both */

static void *take(size_t length) {
    if (length > MOST)
        return 0;
    size_t size = length + sizeof(block);
    block *b = size <= LARGEST_SMALL ? take_small(size) : take_large(whole_pages(size));
    return b ? b + 1 : 0;
}

static void give(void *bytes) {
    block *b = (block *)bytes - 1;
    if (b->size >= PAGE) {
        give_large(b);
    } else {
        unsigned class = class_of(b->size);
        b->next = small_ones[class];
        small_ones[class] = b;
    }
}

static answer told(void *bytes) {
    return (answer){bytes != 0, bytes ? bytes : nothing};
}

/* Where a size is 0, the second number is taken in its place. */
answer rattle_alloc(size_t length, size_t least) {
    return told(take(length ? length : least));
}

answer rattle_realloc(void *old, size_t kept, size_t length, size_t least) {
    block *b = (block *)old - 1;
    size_t wanted = length ? length : least, size = wanted + sizeof(block);
    if (wanted > MOST)
        return told(0);
    if (b->size >= PAGE ? resize(b, whole_pages(size)) : size <= b->size)
        return told(old);
    void *bytes = take(wanted);
    if (bytes) {
        __builtin_memcpy(bytes, old, kept < wanted ? kept : wanted);
        give(old);
    }
    return told(bytes);
}

void rattle_dealloc(void *bytes) {
    if (bytes)
        give(bytes);
}

/* For JavaScript: memory that it fills with files and reads answers from; 0 where there is none. */
void *heap_take(size_t length) { return take(length); }
void heap_give(void *bytes) { give(bytes); }

/* A product of 128 bits, which compiled code calls by this name. */
__int128 __multi3(__int128 a, __int128 b) {
    size_t x = (size_t)a, y = (size_t)b, x_low = (unsigned)x, x_high = x >> 32, y_low = (unsigned)y, y_high = y >> 32;
    size_t low = x_low * y_low, middle = x_high * y_low + (low >> 32), other = x_low * y_high + (unsigned)middle;
    size_t high = x_high * y_high + (middle >> 32) + (other >> 32);
    high += x * (size_t)(b >> 64) + (size_t)(a >> 64) * y;
    return (__int128)(((unsigned __int128)high << 64) | (other << 32) | (unsigned)low);
}
