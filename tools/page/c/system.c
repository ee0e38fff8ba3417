// What the program asks of the system, over the memory of a WebAssembly module and five calls of
// its host. Nothing here is proved: it stands where the C library and the system stand under the
// program of the command line.

typedef unsigned char u8;
typedef unsigned int u32;
typedef unsigned long long u64;
typedef long long i64;
typedef __SIZE_TYPE__ size; // 32 or 64 bits, as the memory is

#define HOST(name) __attribute__((import_module("host"), import_name(#name)))

HOST(word_count) u32 host_word_count(void);
HOST(word_bytes) size host_word_bytes(void);
HOST(words) void host_words(u8 *into);
HOST(take) size host_take(u8 *into, size length);
HOST(put) size host_put(const u8 *from, size length);

// Memory

extern u8 __heap_base;

#define PAGE 65536ULL
#define HEAD 16ULL
// The most that is asked of the host: a page less than 4 GiB in all.
#define MOST ((1ULL << 32) - PAGE)

static u64 place_of(const void *at) {
    return (size)at;
}

static void *at_place(u64 place) {
    return (void *)(size)place;
}

typedef struct Block {
    u64 room;
    struct Block *next;
} Block;

static Block *freed[256];
static u64 top, end;

// Blocks are as large as one of these: 16, 32 .. 1024, and above four sizes between each power of
// two and the next.
static u64 class_of(u64 length, u64 *room) {
    if (length <= 1024) {
        u64 count = length ? (length + 15) / 16 : 1;
        *room = count * 16;
        return count;
    }
    u64 power = 63 - __builtin_clzll(length - 1);
    u64 quarter = 1ULL << (power - 2);
    u64 steps = (length - (1ULL << power) + quarter - 1) / quarter;
    *room = (1ULL << power) + steps * quarter;
    return 64 + (power - 10) * 4 + steps;
}

static int reach(u64 wanted) {
    if (wanted <= end) {
        return 1;
    }
    if (wanted > MOST) {
        return 0;
    }
    // a sixteenth more, so that a program that grows asks seldom
    u64 least = (wanted - end + PAGE - 1) / PAGE, pages = least + wanted / PAGE / 16;
    if (__builtin_wasm_memory_grow(0, pages) == (size)-1) {
        pages = least;
        if (__builtin_wasm_memory_grow(0, pages) == (size)-1) {
            return 0;
        }
    }
    end += pages * PAGE;
    return 1;
}

static void start_heap(void) {
    top = (place_of(&__heap_base) + 15) / 16 * 16;
    end = __builtin_wasm_memory_size(0) * PAGE;
}

static void *take_block(u64 length) {
    if (length > MOST) {
        return 0;
    }
    u64 room, kind = class_of(length, &room);
    Block *block = freed[kind];
    if (block) {
        freed[kind] = block->next;
    } else {
        if (!reach(top + HEAD + room)) {
            return 0;
        }
        block = at_place(top);
        block->room = room;
        top += HEAD + room;
    }
    return (u8 *)block + HEAD;
}

static void give_block(void *at) {
    Block *block = (Block *)((u8 *)at - HEAD);
    u64 room, kind = class_of(block->room, &room);
    block->next = freed[kind];
    freed[kind] = block;
}

static void *change_block(void *at, u64 length) {
    Block *block = (Block *)((u8 *)at - HEAD);
    if (length <= block->room) {
        return at;
    }
    if (length > MOST) {
        return 0;
    }
    u64 room;
    class_of(length, &room);
    if (place_of(at) + block->room == top && reach(place_of(at) + room)) {
        top = place_of(at) + room;
        block->room = room;
        return at;
    }
    void *to = take_block(length);
    if (to) {
        __builtin_memcpy(to, at, block->room);
        give_block(at);
    }
    return to;
}

// The heap as the program asks for it: each answers whether it was had, and where.

typedef struct {
    u64 ok; // as wide as the program reads it
    u64 at;
} Tried;

static u8 nothing[16] __attribute__((aligned(16)));

static Tried tried(void *at) {
    return (Tried){at != 0, place_of(at ? at : nothing)};
}

Tried rattle_alloc(u64 length, u64 align) {
    return tried(take_block(length ? length : align));
}

Tried rattle_realloc(void *at, u64 kept, u64 length, u64 align) {
    (void)kept;
    return tried(change_block(at, length ? length : align));
}

void rattle_dealloc(void *at) {
    give_block(at);
}

// The words, of which the first is the program's name

static u8 *words;
static u64 words_end;
static u64 word_total;

static void start_words(void) {
    words_end = host_word_bytes();
    word_total = 1 + host_word_count();
    words = take_block(words_end + 1);
    if (words) {
        host_words(words);
    }
}

i64 rattle_arg(u64 number, u8 *into, u64 room) {
    static const u8 name[] = "geost";
    if (number >= word_total) {
        return -1;
    }
    const u8 *word = name;
    if (number > 0) {
        word = words;
        for (u64 left = number - 1; left > 0; left--) {
            while (*word++) {
            }
        }
    }
    u64 length = 0;
    for (; word[length]; length++) {
        if (length == room) {
            return -2;
        }
        into[length] = word[length];
    }
    return length;
}

// Input, output and errors

static int error;

int rattle_errno(void) {
    return error;
}

void rattle_set_errno(int number) {
    error = number;
}

i64 read(int from, u8 *into, u64 length) {
    (void)from;
    return host_take(into, (size)length);
}

i64 write(int to, const u8 *from, u64 length) {
    (void)to;
    return host_put(from, (size)length);
}

// The program's entry, behind the test of the processor that stands in x86-64's `main`.
int geost_main(void) __asm__("geost_cli::main+start");

// Runs the program once over a memory that nothing has used before, and answers its status.
__attribute__((export_name("run"))) int run(void) {
    start_heap();
    start_words();
    return words ? geost_main() : 8;
}
