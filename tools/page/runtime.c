// What the program's module calls of C, for a WebAssembly host: a heap, the system's calls as imports, bytes in memory, and
// products and shifts of 128 bits.
typedef unsigned long u64;
typedef long i64;
typedef unsigned __int128 u128;
typedef union { u128 whole; struct { u64 low, high; } half; } Wide;

#define HOST(name) __attribute__((import_module("host"), import_name(name)))
HOST("arg") i64 host_arg(u64 index, void *to, u64 room);
HOST("open") int host_open(const char *path, int flags);
HOST("read") i64 host_read(int file, void *to, u64 count);
HOST("write") i64 host_write(int file, const void *from, u64 count);
HOST("close") int host_close(int file);

// ---- The heap. A block has its room before it; free blocks are in a list for each room, four rooms a doubling. ----

enum { HEAD = 16, LEAST = 32 };
#define PAGE 65536ul
#define MOST (1ul << 40)
typedef struct Head { u64 room; struct Head *next; } Head;
typedef struct { u64 ok; void *block; } Tried;
extern unsigned char __heap_base;
static u64 top, end;
static Head *lists[256];
static u64 nothing[2];

// The list of the least room that is count or more.
static int list_of(u64 count) {
    int log = 63 - __builtin_clzl(count);
    u64 low = 1ul << log, step = low / 4;
    return log * 4 + (int)((count - low + step - 1) / step);
}

static u64 room_of(int list) {
    u64 low = 1ul << (list / 4);
    return low + (u64)(list % 4) * (low / 4);
}

static int grow(u64 pages) {
    if (__builtin_wasm_memory_grow(0, pages) == (u64)-1) return 0;
    end += pages * PAGE;
    return 1;
}

static int reach(u64 to) {
    if (to <= end) return 1;
    u64 pages = (to - end + PAGE - 1) / PAGE;
    return (pages < 64 && grow(64)) || grow(pages);
}

static void *new_block(u64 room) {
    if (!reach(top + HEAD + room)) return 0;
    Head *head = (Head *)top;
    top += HEAD + room;
    head->room = room;
    return (char *)head + HEAD;
}

static void *get(u64 count) {
    if (!top) {
        top = ((u64)&__heap_base + HEAD - 1) / HEAD * HEAD;
        end = __builtin_wasm_memory_size(0) * PAGE;
    }
    if (count >= MOST) return 0;
    // (a multiple of 16, so that each block begins at one)
    int list = list_of(count < LEAST ? LEAST : (count + HEAD - 1) / HEAD * HEAD);
    Head *head = lists[list];
    if (!head) return new_block(room_of(list));
    lists[list] = head->next;
    return (char *)head + HEAD;
}

static Head *head_of(void *block) { return (Head *)((char *)block - HEAD); }

static Tried tried(void *block) { return (Tried){block != 0, block ? block : (void *)nothing}; }

// (blocks begin at multiples of 16: the program asks for no more, and one that did would stop here)
static u64 wanted(u64 count, u64 align) {
    if (align > HEAD) __builtin_trap();
    return count ? count : align;
}

Tried rattle_alloc(u64 count, u64 align) { return tried(get(wanted(count, align))); }

void rattle_dealloc(void *block) {
    Head *head = head_of(block);
    int list = list_of(head->room);
    head->next = lists[list];
    lists[list] = head;
}

Tried rattle_realloc(void *block, u64 kept, u64 count, u64 align) {
    u64 room = head_of(block)->room, needed = wanted(count, align);
    if (needed <= room) return tried(block);
    void *wider = get(needed);
    if (!wider) return tried(0);
    __builtin_memcpy(wider, block, room);
    rattle_dealloc(block);
    return tried(wider);
}

// ---- The system ----

static int error;
int rattle_errno(void) { return error; }
void rattle_set_errno(int number) { error = number; }
i64 rattle_arg(u64 index, void *to, u64 room) { return host_arg(index, to, room); }
i64 rattle_env(void *name, void *to, u64 room) { return -1; }
i64 rattle_env_at(u64 index, void *to, u64 room) { return -1; }
i64 __sysv_signal(int signal, i64 handler) { return 0; }
// No file of the page, and no standard input of node, is taken for a terminal.
int isatty(int file) { return 0; }

int open(const char *path, int flags, ...) {
    int file = host_open(path, flags);
    if (file < 0) error = -file;
    return file;
}

static i64 transferred(i64 count) {
    if (count < 0) error = (int)-count;
    return count;
}

int close(int file) { return host_close(file); }
i64 read(int file, void *to, u64 count) { return transferred(host_read(file, to, count)); }
i64 write(int file, const void *from, u64 count) { return transferred(host_write(file, from, count)); }
i64 __write(int file, const void *from, u64 count) { return write(file, from, count); }

// A program for x86-64-v2 asks first whether the processor has what its code needs. The answer is yes: none of that code is here.
static unsigned yes[16] = {-1u, -1u, -1u, -1u, -1u, -1u, -1u, -1u, -1u, -1u, -1u, -1u, -1u, -1u, -1u, -1u};
void *__x86_get_cpuid_feature_leaf(int leaf) { return yes; }

int c25_main(void);
__attribute__((export_name("start"))) int start(void) { return c25_main(); }

// ---- Bytes in memory, each by one instruction of WebAssembly where there is one ----

void *memcpy(void *to, const void *from, u64 count) {
    __asm__ volatile("local.get %0\nlocal.get %1\nlocal.get %2\nmemory.copy 0, 0" :: "r"(to), "r"(from), "r"(count) : "memory");
    return to;
}

void *memmove(void *to, const void *from, u64 count) { return memcpy(to, from, count); }    // (memory.copy lets them overlap)

void *memset(void *to, int byte, u64 count) {
    __asm__ volatile("local.get %0\nlocal.get %1\nlocal.get %2\nmemory.fill 0" :: "r"(to), "r"(byte), "r"(count) : "memory");
    return to;
}

int memcmp(const void *left, const void *right, u64 count) {
    const unsigned char *one = left, *other = right;
    for (; count; count--, one++, other++)
        if (*one != *other) return *one - *other;
    return 0;
}

int bcmp(const void *left, const void *right, u64 count) { return memcmp(left, right, count); }

u64 strlen(const char *text) {
    u64 count = 0;
    while (text[count]) count++;
    return count;
}

// ---- 128 bits, by halves ----

static u128 product(u64 x, u64 y) {
    u64 a = x >> 32, b = (unsigned)x, c = y >> 32, d = (unsigned)y;
    u64 low = b * d, first = a * d + (low >> 32), second = b * c + (unsigned)first;
    Wide it = {.half = {second << 32 | (unsigned)low, a * c + (first >> 32) + (second >> 32)}};
    return it.whole;
}

u128 __multi3(u128 x, u128 y) {
    Wide left = {x}, right = {y}, it = {product(left.half.low, right.half.low)};
    it.half.high += left.half.low * right.half.high + left.half.high * right.half.low;
    return it.whole;
}

u128 __ashlti3(u128 x, int count) {
    Wide it = {x};
    if (count >= 64) it.half.high = it.half.low << (count - 64), it.half.low = 0;
    else if (count) it.half.high = it.half.high << count | it.half.low >> (64 - count), it.half.low <<= count;
    return it.whole;
}

u128 __lshrti3(u128 x, int count) {
    Wide it = {x};
    if (count >= 64) it.half.low = it.half.high >> (count - 64), it.half.high = 0;
    else if (count) it.half.low = it.half.low >> count | it.half.high << (64 - count), it.half.high >>= count;
    return it.whole;
}

u128 __ashrti3(u128 x, int count) {
    Wide it = {x};
    i64 high = (i64)it.half.high;
    if (count >= 64) it.half.low = (u64)(high >> (count - 64)), it.half.high = (u64)(high >> 63);
    else if (count) it.half.low = it.half.low >> count | it.half.high << (64 - count), it.half.high = (u64)(high >> count);
    return it.whole;
}
