/* What the proved code asks of the heap, in a module for a browser: in the module's own memory, from its end on. Each block has the size
 * of its class, a power of two, with its head. Blocks that were given back lie in a list by their class; what no list holds comes from
 * the end of the memory, which grows. A pointer that goes with `no` is never used. Blocks are aligned to 16 bytes, which is enough:
 * nothing here asks for more. */
typedef unsigned long size_type;
typedef unsigned char byte;

struct given {
    size_type is_given;
    size_type at;
};

/* The first word of a block: its class while it is in use, the next block of its list while it is not. */
union head {
    size_type class;
    union head *next;
};

extern byte __heap_base; /* where the linker ends what is in the memory from the start */
enum { HEAD = 16, LEAST_CLASS = 5, CLASSES = 40, PAGE = 1 << 16, STEP = 16 };
static union head *lists[CLASSES];
static size_type end; /* up to here blocks were made; 0 before the first */
static byte nothing;

/* The class of a block with room for so many bytes behind its head; CLASSES if there is none. */
static size_type class_for(size_type size) {
    size_type class = LEAST_CLASS;
    while (class < CLASSES && ((size_type)1 << class) - HEAD < size) class++;
    return class;
}

/* Whether the memory reaches so far, or can be made to. It grows by a megabyte, or by what is missing. */
static int reaches(size_type to) {
    size_type held = __builtin_wasm_memory_size(0);
    size_type wanted = (to + PAGE - 1) / PAGE;
    if (wanted <= held) return 1;
    if (wanted - held < STEP && __builtin_wasm_memory_grow(0, STEP) != (size_type)-1) return 1;
    return __builtin_wasm_memory_grow(0, wanted - held) != (size_type)-1;
}

/* A block with room for so many bytes, from the list of its class or else from the end; 0 if there is none. */
static byte *take(size_type size) {
    size_type class = class_for(size);
    if (class == CLASSES) return 0;
    union head *head = lists[class];
    if (head != 0) {
        lists[class] = head->next;
    } else {
        if (end == 0) end = ((size_type)&__heap_base + HEAD - 1) & ~(size_type)(HEAD - 1);
        if (!reaches(end + ((size_type)1 << class))) return 0;
        head = (union head *)end;
        end += (size_type)1 << class;
    }
    head->class = class;
    return (byte *)head + HEAD;
}

/* Puts a block into the list of its class. */
static void give_back(byte *at) {
    union head *head = (union head *)(at - HEAD);
    size_type class = head->class;
    head->next = lists[class];
    lists[class] = head;
}

/* The pointer, or `no` if it is 0. */
static struct given answer(byte *at) {
    struct given it = {at != 0, (size_type)(at != 0 ? at : &nothing)};
    return it;
}

struct given rattle_alloc(size_type size, size_type align) { return answer(take(size != 0 ? size : align)); }

struct given rattle_realloc(byte *at, size_type kept, size_type size, size_type align) {
    size_type wanted = size != 0 ? size : align;
    if (wanted <= ((size_type)1 << ((union head *)(at - HEAD))->class) - HEAD) return answer(at);
    byte *found = take(wanted);
    if (found == 0) return answer(0);
    __builtin_memcpy(found, at, kept < size ? kept : size);
    give_back(at);
    return answer(found);
}

void rattle_dealloc(byte *at) { give_back(at); }

/* Room for a text of the page; 0 if there is none. */
__attribute__((export_name("room"))) byte *room(size_type size) { return take(size != 0 ? size : 1); }
