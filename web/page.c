/* What a session in a web page needs beside the code of c8_engine: memory, and the calls of a journal's file, which go to
 * JavaScript. The toolchain's clang compiles it for wasm64, without a C library. tools/page links it; c8.mjs is the other side. */
typedef unsigned char u8;
typedef __SIZE_TYPE__ size_t;
typedef __INT64_TYPE__ i64;

/* ---- Memory. The free blocks are in a list, in the order of their addresses, and free neighbours are joined. Only an opening
 * takes memory, about ten blocks. */

typedef struct block {
    size_t size;        /* with this head, a multiple of 16 */
    struct block *next; /* of a free block */
} block;

enum { HEAD = 16, PAGE = 65536 };
extern u8 __heap_base[];
static block list;
static size_t top, taken;

static void put(block *it) {
    block *last = &list;
    while (last->next && last->next < it) last = last->next;
    it->next = last->next;
    last->next = it;
    if (it->next && (u8 *)it + it->size == (u8 *)it->next) it->size += it->next->size, it->next = it->next->next;
    if (last != &list && (u8 *)last + last->size == (u8 *)it) last->size += it->size, last->next = it->next;
}

/* Grows the memory by at least this much, and puts it into the list. */
static _Bool grow(size_t size) {
    if (!top) top = ((size_t)__heap_base + 15) & ~(size_t)15;
    size_t end = __builtin_wasm_memory_size(0) * (size_t)PAGE;
    size_t pages = end - top >= size ? 0 : (size - (end - top) + PAGE - 1) / PAGE;
    if (pages && __builtin_wasm_memory_grow(0, pages) == (size_t)-1) return 0;
    block *fresh = (block *)top;
    fresh->size = (end + pages * PAGE - top) & ~(size_t)15;
    top += fresh->size;
    put(fresh);
    return 1;
}

/* The first free block that is large enough. Its rest stays in the list. */
static void *find(size_t size) {
    for (block *last = &list, *it; (it = last->next); last = it) {
        if (it->size < size) continue;
        if (it->size - size >= 2 * HEAD) {
            block *rest = (block *)((u8 *)it + size);
            rest->size = it->size - size, rest->next = it->next;
            it->size = size, last->next = rest;
        } else {
            last->next = it->next;
        }
        taken++;
        return (u8 *)it + HEAD;
    }
    return 0;
}

static void *take(size_t wanted) {
    if (wanted > (size_t)1 << 40) return 0;
    size_t size = (wanted + HEAD + 15) & ~(size_t)15;
    if (size < 2 * HEAD) size = 2 * HEAD;
    void *found = find(size);
    return found ? found : grow(size) ? find(size) : 0;
}

static void give(void *at) { taken--, put((block *)((u8 *)at - HEAD)); }

/* What the toolchain's code asks for. A refused request still wants an address. */
typedef struct {
    _Bool ok;
    void *at;
} tried;

static u8 nothing[16] __attribute__((aligned(16)));

static tried answer(void *at) { return (tried){at != 0, at ? at : nothing}; }

/* of embed/native/memory.c, over the three below */
void *c8os_take(size_t size);
void *c8os_again(void *at, size_t size);
void c8os_give(void *at);

tried rattle_alloc(size_t size, size_t align) { return answer(c8os_take(size ? size : align)); }

void rattle_dealloc(void *at) { c8os_give(at); }

tried rattle_realloc(void *at, size_t kept, size_t size, size_t align) { return (void)kept, answer(c8os_again(at, size ? size : align)); }

void *malloc(size_t size) { return take(size); }

void free(void *at) { give(at); }

void *realloc(void *at, size_t size) {
    size_t kept = ((block *)((u8 *)at - HEAD))->size - HEAD;
    u8 *to = take(size);
    if (!to) return 0;
    for (size_t i = 0; i < kept && i < size; i++) to[i] = ((u8 *)at)[i];
    give(at);
    return to;
}

#define EXPORT(name) __attribute__((export_name(#name)))
/* Room for bytes that JavaScript hands in and takes out, and how many blocks are taken. */
EXPORT(page_take) void *page_take(size_t size) { return take(size); }
EXPORT(page_give) void page_give(void *at) { give(at); }
EXPORT(page_blocks) size_t page_blocks(void) { return taken; }

/* ---- What the compiler calls by name. */

int memcmp(const void *a, const void *b, size_t size) {
    const u8 *x = a, *y = b;
    for (; size; size--, x++, y++)
        if (*x != *y) return *x < *y ? -1 : 1;
    return 0;
}

/* The low 128 bits of a product, without a multiplication of 128 bits, which would call this function. */
typedef unsigned __int128 u128;
typedef unsigned long long u64;
u128 __multi3(u128 x, u128 y) {
    u64 a = (u64)x, b = (u64)y, low = a & 0xffffffff, high = a >> 32, first = low * (b & 0xffffffff);
    u64 second = high * (b & 0xffffffff) + (first >> 32), third = low * (b >> 32) + (second & 0xffffffff);
    u64 upper = high * (b >> 32) + (second >> 32) + (third >> 32) + a * (u64)(y >> 64) + (u64)(x >> 64) * b;
    return (u128)upper << 64 | (third << 32 | (first & 0xffffffff));
}

/* ---- The file of a journal. JavaScript gives each a number; it answers a count, a size or 0, and -1 if the file failed.
 * Only one program can have such a file open, so a lock is held from the beginning. A folder has nothing to sync. */

#define IMPORT(name) __attribute__((import_module("c8"), import_name(#name)))
IMPORT(file_read) i64 file_read(int file, void *to, size_t size, i64 at);
IMPORT(file_write) i64 file_write(int file, const void *from, size_t size, i64 at);
IMPORT(file_size) i64 file_size(int file);
IMPORT(file_flush) int file_flush(int file);
IMPORT(file_close) int file_close(int file);

enum { EIO = 5, SEEK_END = 2 };

int rattle_errno(void) { return EIO; }
i64 pread(int file, void *to, size_t size, i64 at) { return file_read(file, to, size, at); }
i64 pwrite(int file, const void *from, size_t size, i64 at) { return file_write(file, from, size, at); }
i64 lseek(int file, i64 at, int whence) { return whence == SEEK_END && !at ? file_size(file) : -1; }
int flock(int file, int what) { return (void)what, file_size(file) < 0 ? -1 : 0; }
int fsync(int file) { return file_flush(file); }
int fdatasync(int file) { return file_flush(file); }
int posix_fadvise(int file, i64 at, i64 size, int what) { return (void)file, (void)at, (void)size, (void)what, 0; }
int close(int file) { return file_close(file); }
