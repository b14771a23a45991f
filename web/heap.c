// The heap of the WebAssembly module, in place of the C library's. A block is a power of two bytes; its first 16 say which, and the caller
// gets what is after them. rattle_alloc, rattle_realloc and rattle_dealloc are what the kit's code calls. The host calls heap_take
// for its own buffers, and heap_reset between calls, when no block is in use.
typedef unsigned char u8;
typedef __UINTPTR_TYPE__ word;
typedef unsigned long long u64;

struct tried { u64 ok, at; }; // as the kit's code reads it

#define PAGE 65536ull
#define KINDS 40
extern u8 __heap_base;
static u64 end, most = 1ull << 32; // where the next new block begins, and how many bytes of memory may be taken
static u64 lists[KINDS]; // the first free block of each kind; each block holds the next

static u8 *at_address(u64 address) { return (u8 *)(word)address; }

__attribute__((export_name("heap_reset"))) void heap_reset(u64 bytes) {
    end = ((word)&__heap_base + 15) & ~15ull;
    most = bytes;
    for (int kind = 0; kind < KINDS; kind++) lists[kind] = 0;
}

__attribute__((export_name("heap_take"))) u64 heap_take(u64 size) {
    if (end == 0) heap_reset(most);
    if (size > most) return 0;
    int kind = size <= 16 ? 5 : 64 - __builtin_clzll(size + 15);
    u64 found = lists[kind];
    if (found != 0) {
        lists[kind] = *(u64 *)at_address(found);
        return found;
    }
    u64 from = end, to = end + (1ull << kind);
    if (to > most) return 0;
    u64 have = (u64)__builtin_wasm_memory_size(0) * PAGE;
    if (to > have) {
        u64 more = (to - have + PAGE - 1) / PAGE;
        if (__builtin_wasm_memory_grow(0, more) == (word)-1) return 0;
    }
    end = to;
    *at_address(from) = kind;
    return from + 16;
}

static void give_back(u64 at) {
    int kind = *at_address(at - 16);
    *(u64 *)at_address(at) = lists[kind];
    lists[kind] = at;
}

static struct tried answer(u64 at) { return (struct tried){at != 0, at ? at : 16}; }

struct tried rattle_alloc(u64 size, u64 align) { return answer(heap_take(size ? size : align)); }

struct tried rattle_realloc(u8 *old, u64 kept, u64 size, u64 align) {
    u64 at = (word)old;
    if (size == 0) size = align;
    if (size <= (1ull << *at_address(at - 16)) - 16) return answer(at);
    u64 to = heap_take(size);
    if (to == 0) return answer(0);
    __builtin_memcpy(at_address(to), old, kept);
    give_back(at);
    return answer(to);
}

void rattle_dealloc(u8 *at) { give_back((word)at); }
