/* What stands for the C library in the module: a heap, files, arguments, and threads that can't be made. The page, or node, gives the
   eleven functions below, named `codes.*`; each of those that can fail gives an errno with its sign changed. Sizes and offsets are
   numbers of 32 bits there, since no memory of the module is larger. */

typedef unsigned char u8;
typedef unsigned int u32;
typedef int i32;
typedef long long i64;
typedef unsigned long long u64;

#define FROM(name) __attribute__((import_module("codes"), import_name(name)))
FROM("read") i32 host_read(i32 file, void *to, u32 most);
FROM("write") i32 host_write(i32 file, const void *from, u32 count);
FROM("open") i32 host_open(const char *path, u32 length, i32 flags);
FROM("close") i32 host_close(i32 file);
FROM("rename") i32 host_rename(const char *from, u32 from_length, const char *to, u32 to_length);
FROM("unlink") i32 host_unlink(const char *path, u32 length);
FROM("truncate") i32 host_truncate(i32 file, u32 size);
FROM("sync") i32 host_sync(i32 file);
FROM("size") i32 host_size(i32 file);
FROM("arg") i32 host_arg(u32 index, void *to, u32 most);
FROM("exit") _Noreturn void host_exit(i32 status);

enum { EBADF = 9, EAGAIN = 11, ENOSYS = 38 };

/* --- errors */

static i32 error;

i32 rattle_errno(void) { return error; }
void rattle_set_errno(i32 number) { error = number; }

/* what C gives for what the page gave */
static i32 told(i32 answer) {
    if (answer >= 0) return answer;
    error = -answer;
    return -1;
}

/* --- the heap: blocks beside each other, each with its size and that of the block before it. Free blocks are in lists by the highest bit of
   their size. No two free blocks are neighbours. The last block is an empty one that is never free. */

enum { HEADER = 16, LISTS = 32, TRIED = 24, PAGE = 65536, STEP = 16 };

struct block {
    u32 size;   /* with this header; a multiple of 16 */
    u32 before; /* the size of the block before it; 0 for the first */
    u32 is_free;
    u32 unused;
    struct block *next, *last; /* in the list, of free blocks */
};

extern u8 __heap_base;
static struct block *lists[LISTS], *end;
static u8 nothing[16] __attribute__((aligned(16)));

static u32 list_of(u32 size) { return 31 - __builtin_clz(size); }
static struct block *after(struct block *it) { return (struct block *)((u8 *)it + it->size); }
static struct block *before(struct block *it) { return (struct block *)((u8 *)it - it->before); }

static void set_size(struct block *it, u32 size) {
    it->size = size;
    after(it)->before = size;
}

static void put(struct block *it) {
    struct block **list = &lists[list_of(it->size)];
    it->is_free = 1;
    it->last = 0;
    it->next = *list;
    if (*list) (*list)->last = it;
    *list = it;
}

static void take(struct block *it) {
    if (it->last) it->last->next = it->next;
    else lists[list_of(it->size)] = it->next;
    if (it->next) it->next->last = it->last;
    it->is_free = 0;
}

/* the block is free from now on; its neighbours that are free are joined with it */
static void give_back(struct block *it) {
    if (after(it)->is_free) {
        struct block *other = after(it);
        take(other);
        set_size(it, it->size + other->size);
    }
    if (it->before && before(it)->is_free) {
        struct block *other = before(it);
        take(other);
        set_size(other, other->size + it->size);
        it = other;
    }
    put(it);
}

/* keeps `size` bytes of a block that is used, and gives back the rest if it is a block */
static void cut(struct block *it, u32 size) {
    u32 rest = it->size - size;
    if (rest < 2 * HEADER) return;
    struct block *other = (struct block *)((u8 *)it + size);
    other->is_free = 0;
    other->size = rest;
    after(other)->before = rest;
    set_size(it, size);
    give_back(other);
}

/* the memory grows, so that a block of that size is free at its end; 0 if it can't */
static i32 grow(u32 size) {
    if (!end) {
        end = (struct block *)(((u32)&__heap_base + 15) & ~15u);
        if ((u64)(u32)end + HEADER > (u64)__builtin_wasm_memory_size(0) * PAGE && __builtin_wasm_memory_grow(0, 1) == (__SIZE_TYPE__)-1) {
            end = 0;
            return 0;
        }
        end->size = HEADER;
        end->before = 0;
        end->is_free = 0;
    }
    u64 has = (u64)__builtin_wasm_memory_size(0) * PAGE, wanted = (u64)(u32)end + size + HEADER;
    if (wanted > 0xffff0000u) return 0;
    if (wanted > has) {
        u32 least = (u32)((wanted - has + PAGE - 1) / PAGE), pages = least < STEP ? STEP : least;
        if (__builtin_wasm_memory_grow(0, pages) == (__SIZE_TYPE__)-1) {
            if (pages == least || __builtin_wasm_memory_grow(0, least) == (__SIZE_TYPE__)-1) return 0;
            pages = least;
        }
        has += (u64)pages * PAGE;
    }
    if (has > 0xffff0000u) has = 0xffff0000u;
    struct block *it = end;
    u32 size_of_new = (u32)(has - HEADER - (u32)it) & ~15u;
    end = (struct block *)((u8 *)it + size_of_new);
    end->size = HEADER;
    end->is_free = 0;
    set_size(it, size_of_new);
    give_back(it);
    return 1;
}

static struct block *found(u32 size) {
    for (u32 i = list_of(size); i < LISTS; i++) {
        u32 tried = 0;
        for (struct block *it = lists[i]; it && tried < TRIED; it = it->next, tried++)
            if (it->size >= size) return it;
    }
    return 0;
}

static void *allocated(u64 bytes) {
    if (bytes > 0xf0000000u) return 0;
    u32 size = ((u32)bytes + HEADER + 15) & ~15u;
    if (size < 2 * HEADER) size = 2 * HEADER;
    struct block *it = found(size);
    if (!it) {
        if (!grow(size)) return 0;
        it = found(size);
        if (!it) return 0;
    }
    take(it);
    cut(it, size);
    return (u8 *)it + HEADER;
}

static void freed(void *at) {
    if (at && at != nothing) give_back((struct block *)((u8 *)at - HEADER));
}

static void *moved(void *at, u64 bytes) {
    if (!at || at == nothing) return allocated(bytes);
    if (bytes > 0xf0000000u) return 0;
    struct block *it = (struct block *)((u8 *)at - HEADER);
    u32 size = ((u32)bytes + HEADER + 15) & ~15u;
    if (size < 2 * HEADER) size = 2 * HEADER;
    if (it->size < size && after(it)->is_free && it->size + after(it)->size >= size) {
        struct block *other = after(it);
        take(other);
        set_size(it, it->size + other->size);
    }
    if (it->size >= size) {
        cut(it, size);
        return at;
    }
    void *to = allocated(bytes);
    if (!to) return 0;
    __builtin_memcpy(to, at, it->size - HEADER);
    freed(at);
    return to;
}

void *malloc(u64 bytes) { return allocated(bytes); }
void free(void *at) { freed(at); }

/* whether there was memory, and where: of nothing where there was none */
struct tried {
    u64 is_there, at;
};

static struct tried tried(void *at) { return at ? (struct tried){1, (u32)at} : (struct tried){0, (u32)nothing}; }

struct tried rattle_alloc(u64 bytes, u64 alignment) { return tried(allocated(bytes ? bytes : alignment)); }
struct tried rattle_realloc(void *at, u64 kept, u64 bytes, u64 alignment) { return tried(moved(at, bytes ? bytes : alignment)); }
void rattle_dealloc(void *at) { freed(at); }

/* --- arguments and files */

static u32 length_of(const char *text) {
    u32 length = 0;
    while (text[length]) length++;
    return length;
}

static u32 at_most(u64 count) { return count > 0x40000000 ? 0x40000000 : (u32)count; }

/* -1: there is none; -2: it doesn't fit */
i64 rattle_arg(u64 index, u8 *to, u64 most) { return index > 0xffff ? -1 : host_arg((u32)index, to, at_most(most)); }
i64 rattle_env(const char *name, u8 *to, u64 most) { return -1; }
i64 rattle_env_at(u64 index, u8 *to, u64 most) { return -1; }

i64 read(i32 file, void *to, u64 most) { return told(host_read(file, to, at_most(most))); }
i64 write(i32 file, const void *from, u64 count) { return told(host_write(file, from, at_most(count))); }
i32 open(const char *path, i32 flags, ...) { return told(host_open(path, length_of(path), flags)); }
i32 close(i32 file) { return told(host_close(file)); }
i32 rename(const char *from, const char *to) { return told(host_rename(from, length_of(from), to, length_of(to))); }
i32 unlink(const char *path) { return told(host_unlink(path, length_of(path))); }
i32 ftruncate(i32 file, i64 size) { return told(size < 0 || size > 0x7fffffff ? -ENOSYS : host_truncate(file, (u32)size)); }
i32 fsync(i32 file) { return told(host_sync(file)); }
i32 fdatasync(i32 file) { return told(host_sync(file)); }
i32 fchmod(i32 file, u32 mode) { return told(host_size(file) < 0 ? -EBADF : 0); }
i32 flock(i32 file, i32 operation) { return told(host_size(file) < 0 ? -EBADF : 0); }

/* what the kernel of Linux says of a file: here its kind and its size */
struct status {
    u32 mask, block_size;
    u64 attributes;
    u32 links, user, group;
    unsigned short mode, unused;
    u64 number, size, blocks, known_attributes, times[8];
    u32 devices[4];
    u64 mount;
    u32 alignments[2];
    u64 more[12];
};
_Static_assert(sizeof(struct status) == 256, "the size that Linux gives it");

enum { OPENS_A_FOLDER = 0x10000, OF_THE_FILE_ITSELF = 0x1000, REGULAR = 0100644, FOLDER = 040755, KIND_AND_SIZE = 0x203 };

i32 statx(i32 folder, const char *path, i32 flags, u32 mask, struct status *to) {
    i32 file = folder;
    i32 own = path[0] || !(flags & OF_THE_FILE_ITSELF);
    if (own) file = host_open(path, length_of(path), 0);
    if (file < 0) return told(file);
    i32 size = host_size(file);
    if (own) host_close(file);
    if (size < 0) return told(size);
    __builtin_memset(to, 0, sizeof *to);
    to->mask = KIND_AND_SIZE;
    to->block_size = 4096;
    to->links = 1;
    to->mode = path[0] == '.' && !path[1] ? FOLDER : REGULAR;
    to->size = (u64)size;
    return 0;
}

/* --- threads: none can be made, so what two threads would do is done in turn */

i32 pthread_create(void *thread, void *attributes, void *function, void *argument) { return EAGAIN; }
i32 pthread_join(u64 thread, void *result) { __builtin_trap(); }
i32 pthread_detach(u64 thread) { __builtin_trap(); }
u64 pthread_self(void) { return 1; }
i32 pthread_attr_init(void *attributes) { return 0; }
i32 pthread_attr_destroy(void *attributes) { return 0; }
i32 pthread_attr_setguardsize(void *attributes, u64 size) { return 0; }
i32 pthread_attr_setstacksize(void *attributes, u64 size) { return 0; }
i32 sched_yield(void) { return 0; }
i64 __sysv_signal(i32 signal, i64 handler) { return 0; }

/* --- the end, and the beginning */

_Noreturn void _exit(i32 status) { host_exit(status); }
_Noreturn void abort(void) { __builtin_trap(); }

i32 codes_main(void);
__attribute__((export_name("run"))) void run(void) { host_exit(codes_main()); }

/* --- products and shifts of 128 bits, which LLVM calls by these names */

typedef __int128 i128;
typedef unsigned __int128 u128;
union halves {
    u128 whole;
    struct {
        u64 low, high;
    } part;
};

static u128 of_halves(u64 low, u64 high) { return (union halves){.part = {low, high}}.whole; }
static u64 low_of(u128 a) { return (union halves){.whole = a}.part.low; }
static u64 high_of(u128 a) { return (union halves){.whole = a}.part.high; }

i128 __multi3(i128 a, i128 b) {
    u64 x = low_of(a), y = low_of(b), x0 = (u32)x, x1 = x >> 32, y0 = (u32)y, y1 = y >> 32;
    u64 middle = x1 * y0 + (x0 * y0 >> 32), other = x0 * y1 + (u32)middle;
    return of_halves((other << 32) | (u32)(x0 * y0), x1 * y1 + (middle >> 32) + (other >> 32) + high_of(a) * y + x * high_of(b));
}

i128 __ashlti3(i128 a, i32 by) {
    u64 low = low_of(a), high = high_of(a);
    return by == 0 ? a : by >= 64 ? of_halves(0, low << (by - 64)) : of_halves(low << by, (high << by) | (low >> (64 - by)));
}

i128 __lshrti3(i128 a, i32 by) {
    u64 low = low_of(a), high = high_of(a);
    return by == 0 ? a : by >= 64 ? of_halves(high >> (by - 64), 0) : of_halves((low >> by) | (high << (64 - by)), high >> by);
}

/* the quotient, bit by bit from the highest */
u128 __udivti3(u128 a, u128 b) {
    if (!high_of(a) && !high_of(b)) return low_of(a) / low_of(b);
    u128 quotient = 0, rest = 0;
    for (i32 i = 127; i >= 0; i--) {
        u64 bit = (i >= 64 ? high_of(a) >> (i - 64) : low_of(a) >> i) & 1;
        rest = of_halves(low_of(rest) << 1 | bit, high_of(rest) << 1 | low_of(rest) >> 63);
        quotient = of_halves(low_of(quotient) << 1, high_of(quotient) << 1 | low_of(quotient) >> 63);
        if (rest >= b) {
            rest -= b;
            quotient |= 1;
        }
    }
    return quotient;
}
