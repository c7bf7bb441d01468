/* What the library asks of C, on WebAssembly with addresses of 64 bits: a heap of size classes over memory.grow, and shifts of 128 bits.
 * A block has its size in front of it; freed blocks of a class wait in a list. Nothing is given back to the host. */
typedef unsigned long size;
typedef unsigned char byte;

extern byte __heap_base;

struct head {
    size room;
    struct head *next;
};

static byte *top, *end;
static struct head *lists[256];
static byte nothing[16] __attribute__((aligned(16)));

/* The class of a block of so many bytes, at least one, and the room that it gets: steps of 16 bytes up to 512, then quarters of powers of
 * two. */
static unsigned class_of(size bytes, size *room) {
    if (bytes <= 512) {
        unsigned steps = (unsigned)((bytes + 15) / 16);
        *room = steps * 16ul;
        return steps;
    }
    unsigned power = 63 - (unsigned)__builtin_clzl(bytes - 1);
    size quarter = 1ul << (power - 2), quarters = (bytes - 1) / quarter + 1; /* 5 to 8 */
    *room = quarters * quarter;
    return 33 + (power - 9) * 4 + (unsigned)(quarters - 5);
}

/* A block that no list has; the memory grows by an eighth at least. */
static void *fresh(size room) {
    if (!top) {
        top = (byte *)(((size)&__heap_base + 15) & ~15ul);
        end = (byte *)(__builtin_wasm_memory_size(0) << 16);
    }
    size wanted = room + sizeof(struct head);
    if ((size)(end - top) < wanted) {
        size pages = (wanted - (size)(end - top) + 65535) >> 16, more = __builtin_wasm_memory_size(0) >> 3;
        if (pages < more && __builtin_wasm_memory_grow(0, more) != (size)-1) pages = more;
        else if (__builtin_wasm_memory_grow(0, pages) == (size)-1) return 0;
        end += pages << 16;
    }
    struct head *block = (struct head *)top;
    top += wanted;
    block->room = room;
    return block + 1;
}

__attribute__((export_name("fig_alloc"))) void *malloc(size bytes) {
    if (bytes == 0) bytes = 1;
    if (bytes > 1ul << 40) return 0;
    size room;
    unsigned class = class_of(bytes, &room);
    struct head *block = lists[class];
    if (!block) return fresh(room);
    lists[class] = block->next;
    return block + 1;
}

__attribute__((export_name("fig_free"))) void free(void *place) {
    if (!place) return;
    struct head *block = (struct head *)place - 1;
    size room;
    unsigned class = class_of(block->room, &room);
    block->next = lists[class];
    lists[class] = block;
}

/* THE CALLS OF THE LIBRARY */

struct tried {
    unsigned long done;
    void *place;
};

static struct tried answer(void *place) {
    struct tried it = {place != 0, place ? place : nothing};
    return it;
}

struct tried rattle_alloc(size bytes, size alignment) { return answer(malloc(bytes ? bytes : alignment)); }

struct tried rattle_realloc(void *place, size kept, size bytes, size alignment) {
    struct head *block = (struct head *)place - 1;
    size wanted = bytes ? bytes : alignment;
    if (wanted <= block->room && wanted * 2 >= block->room) return answer(place);
    void *other = malloc(wanted);
    if (!other) return answer(0);
    __builtin_memcpy(other, place, kept < wanted ? kept : wanted);
    free(place);
    return answer(other);
}

void rattle_dealloc(void *place) { free(place); }

int rattle_errno(void) { return 0; }

/* SHIFTS OF 128 BITS, which clang calls */

typedef union {
    unsigned __int128 all;
    struct {
        unsigned long low, high;
    } half;
} wide;

__int128 __lshrti3(__int128 number, int by) {
    wide it = {(unsigned __int128)number}, made;
    if (by == 0) return number;
    if (by & 64) {
        made.half.high = 0;
        made.half.low = it.half.high >> (by & 63);
    } else {
        made.half.high = it.half.high >> by;
        made.half.low = it.half.high << (64 - by) | it.half.low >> by;
    }
    return (__int128)made.all;
}

__int128 __ashlti3(__int128 number, int by) {
    wide it = {(unsigned __int128)number}, made;
    if (by == 0) return number;
    if (by & 64) {
        made.half.low = 0;
        made.half.high = it.half.low << (by & 63);
    } else {
        made.half.low = it.half.low << by;
        made.half.high = it.half.low >> (64 - by) | it.half.high << by;
    }
    return (__int128)made.all;
}
