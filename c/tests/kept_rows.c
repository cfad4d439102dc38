/* Tests walks with kept rows: dwcheck_rows_fill, dwcheck_rows_forget and dwcheck_walk, with sections, rows and stacks
   that are made by hand. Prints a line with counts.
   usage: kept_rows [ROUNDS]
   Random rows are walked with in ROUNDS rounds. */
#include "kept_rows.h"
#include <sys/mman.h>
#include <unistd.h>

static long requests; /* for memory: the tests are linked with --wrap */
void *__real_malloc(size_t bytes);
void *__real_realloc(void *old, size_t bytes);
void *__wrap_malloc(size_t bytes);
void *__wrap_realloc(void *old, size_t bytes);
void *__wrap_malloc(size_t bytes) { return requests++, __real_malloc(bytes); }
void *__wrap_realloc(void *old, size_t bytes) { return requests++, __real_realloc(old, bytes); }

static const uint64_t UNREADABLE = ~UINT64_C(0);

/* ---- sections that are made for a test --------------------------------------------------------------------------- */

enum { SECTION = 0x200000, LOAD = 0x10000 };

/* An .eh_frame section, which is at 0x200000 as linked, and where its last CIE begins. */
struct section { uint8_t bytes[2000]; size_t length, cie; };

static void put(struct section *to, const char *hex) {
    for (; *hex; hex += 2) {
        const char digits[] = {hex[0], hex[1], 0};
        to->bytes[to->length++] = (uint8_t)strtoul(digits, NULL, 16);
    }
}

static void put_word(struct section *to, uint64_t value) {
    for (int i = 0; i < 4; i++) to->bytes[to->length++] = (uint8_t)(value >> 8 * i);
}

/* Ends the record that began at `at`, with instructions that do nothing up to a multiple of 4 bytes. */
static void end_record(struct section *to, size_t at) {
    while (to->length % 4) put(to, "00");
    uint32_t length = (uint32_t)(to->length - at - 4);
    memcpy(to->bytes + at, &length, 4);
}

/* Adds a CIE of version 1 with this augmentation string, data alignment factor, column of the return address and
   instructions. The pointers of its FDEs are relative, in 4 bytes. */
static void add_cie_with(struct section *to, const char *string, const char *align_and_column, const char *program) {
    size_t at = to->cie = to->length;
    put_word(to, 0);
    put_word(to, 0);
    put(to, "01");
    put(to, string);
    put(to, "01");
    put(to, align_and_column);
    put(to, "011b");
    put(to, program);
    end_record(to, at);
}

/* Adds a CIE as compilers write it: the CFA is rsp + 8, and the return address is saved at CFA - 8. */
static void add_cie(struct section *to) { add_cie_with(to, "7a5200", "7810", "0c07089001"); }

/* Adds the FDE of `size` addresses from `start`, as linked, whose only row is made by these instructions. */
static void add_fde(struct section *to, uint64_t start, uint64_t size, const char *program) {
    size_t at = to->length;
    put_word(to, 0);
    put_word(to, at + 4 - to->cie);
    put_word(to, start - (SECTION + at + 8));
    put_word(to, size);
    put(to, "00");
    put(to, program);
    end_record(to, at);
}

static dwcheck_module module_of(const struct section *section) {
    return (dwcheck_module){.frame = section->bytes, .frame_length = section->length, .load_address = LOAD,
                            .address_size = 8, .kind = DWCHECK_EH_FRAME, .section_address = SECTION};
}

/* The functions of most tests, as linked; as loaded they are 0x10000 further. Only a frame of 24 bytes has rsp as its
   CFA's register, the next saves rbp at CFA - 16 and has rbp, and the third begins a stack. */
enum { PLAIN = 0x1000, FRAMED = 0x1100, FIRST = 0x1200 };

static struct section functions(void) {
    struct section made = {.length = 0};
    add_cie(&made);
    add_fde(&made, PLAIN, 0x100, "0e20");         /* the CFA is rsp + 32 */
    add_fde(&made, FRAMED, 0x100, "0e1086020d06"); /* the CFA is rbp + 16, and rbp is saved at CFA - 16 */
    add_fde(&made, FIRST, 0x100, "0710");         /* the return address is undefined */
    return made;
}

static const dwcheck_header no_header = {NULL, 0, 0}; /* then the section's records are gone through */

/* Fills in a compact row alone: either the answer and the rows are those of dwcheck_rows_fill, or there is no room, and
   then nothing changes. */
static uint32_t fill_compact(uint32_t slot, const dwcheck_module *module, const dwcheck_header *header, uint64_t address) {
    static dwcheck_rows compact, any;
    const dwcheck_fault untouched = {9, 9, 9, 9};
    dwcheck_fault fault = untouched, refused;
    compact = any = rows;
    uint32_t status = dwcheck_rows_fill_compact(&compact, slot, module, header, address, &fault);
    IS(memcmp(&fault, &untouched, sizeof fault), 0);
    if (status == DWCHECK_NO_ROOM) {
        IS(memcmp(&compact, &rows, sizeof rows), 0);
    } else {
        IS(dwcheck_rows_fill(&any, slot, module, header, address, &refused), status);
        IS(memcmp(&compact, &any, sizeof rows), 0);
    }
    return status;
}

/* Looks the address up and keeps its row. Nothing is allocated, and a fill that keeps nothing changes nothing. */
static uint32_t fill(uint32_t slot, const struct section *section, uint64_t address) {
    static dwcheck_rows before;
    const dwcheck_module module = module_of(section);
    dwcheck_fault fault;
    long old = requests;
    before = rows;
    fill_compact(slot, &module, &no_header, address);
    uint32_t status = dwcheck_rows_fill(&rows, slot, &module, &no_header, address, &fault);
    IS(requests, old);
    if (status != DWCHECK_DONE && status != DWCHECK_NO_PLACE) IS(memcmp(&rows, &before, sizeof rows), 0);
    return status;
}

static uint64_t addresses[ROOM];
static size_t count;
static uint32_t stop;

static void walk(dwcheck_place *place, uint64_t confirmed, const dwcheck_block *blocks, size_t length, size_t room) {
    long old = requests;
    count = 99, stop = 99;
    memset(addresses, 0x55, sizeof addresses);
    dwcheck_walk(&rows, confirmed, place, blocks, length, addresses, room, &count, &stop);
    IS(requests, old);
    IS(count <= room, 1);
    for (size_t i = count; i < ROOM; i++) IS(addresses[i], 0x5555555555555555);
}

/* A stack of these functions: PLAIN was called by FRAMED, FRAMED by PLAIN, and that one by FIRST. It is at 0x7000. */
static const uint64_t stack_words[] = {
    1, 2, 3, LOAD + FRAMED + 9,          /* of PLAIN: 24 bytes and the return address */
    4, 5, 0x7777, LOAD + PLAIN + 7,      /* of FRAMED: two words, rbp, and the return address */
    6, 7, 8, LOAD + FIRST + 5, 9};
static const dwcheck_block stack = {0x7000, (const uint8_t *)stack_words, sizeof stack_words};
static const dwcheck_place at_plain = {.address = LOAD + PLAIN, .key = LOAD + PLAIN + 1, .stack_pointer = 0x7000,
                                       .frame_pointer = 0x7030};

/* The place of the caller with this return address. */
static int is_caller(const dwcheck_place *place, uint64_t address, uint64_t rsp, uint64_t rbp, uint32_t saved) {
    return place->address == address && place->key == address && place->stack_pointer == rsp &&
           place->frame_pointer == rbp && !place->is_saved == !saved;
}

/* Keeps the rows of these functions, of which the second has a slot of its own. */
static void fill_all(void) {
    const struct section made = functions();
    memset(&rows, 0, sizeof rows);
    IS(fill(3, &made, LOAD + PLAIN), DWCHECK_DONE);
    IS(fill(3, &made, LOAD + PLAIN + 6), DWCHECK_DONE);
    IS(fill(4, &made, LOAD + FRAMED + 8), DWCHECK_DONE);
    IS(fill(3, &made, LOAD + FIRST + 4), DWCHECK_DONE);
}

static void a_missing_row_is_asked_for(void) {
    const struct section made = functions();
    dwcheck_place place = at_plain;
    memset(&rows, 0, sizeof rows);
    walk(&place, ALL, &stack, 1, ROOM);
    IS(stop, DWCHECK_STOP_MISSING); IS(count, 0); IS(memcmp(&place, &at_plain, sizeof place), 0);
    IS(fill(0, &made, place.key - 1), DWCHECK_DONE);
    walk(&place, ALL, &stack, 1, ROOM);
    IS(stop, DWCHECK_STOP_MISSING); IS(count, 1); IS(addresses[0], LOAD + PLAIN);
    IS(is_caller(&place, LOAD + FRAMED + 9, 0x7020, 0x7030, 0), 1);
    IS(fill(0, &made, place.key - 1), DWCHECK_DONE);
    walk(&place, ALL, &stack, 1, ROOM);
    IS(stop, DWCHECK_STOP_MISSING); IS(count, 1); IS(addresses[0], LOAD + FRAMED + 9);
    IS(is_caller(&place, LOAD + PLAIN + 7, 0x7040, 0x7030, 1), 1);
    IS(fill(0, &made, place.key - 1), DWCHECK_DONE);
    walk(&place, ALL, &stack, 1, ROOM);
    IS(stop, DWCHECK_STOP_MISSING); IS(count, 1);
    IS(is_caller(&place, LOAD + FIRST + 5, 0x7060, 0x7030, 1), 1);
    IS(fill(0, &made, place.key - 1), DWCHECK_DONE);
    walk(&place, ALL, &stack, 1, ROOM);
    IS(stop, DWCHECK_STOP_RETURN_UNDEFINED); IS(count, 1); IS(addresses[0], LOAD + FIRST + 5);
    place = at_plain;
    walk(&place, ALL, &stack, 1, ROOM); /* now with all rows */
    IS(stop, DWCHECK_STOP_RETURN_UNDEFINED); IS(count, 4); IS(addresses[0], LOAD + PLAIN);
    IS(addresses[1], LOAD + FRAMED + 9);
    IS(addresses[2], LOAD + PLAIN + 7); IS(addresses[3], LOAD + FIRST + 5);
}

/* How many frames are found with the slots of this mask; the row of the next one must be missing. */
static size_t found_with(uint64_t confirmed) {
    dwcheck_place place = at_plain;
    walk(&place, confirmed, &stack, 1, ROOM);
    IS(stop, count == 4 ? DWCHECK_STOP_RETURN_UNDEFINED : DWCHECK_STOP_MISSING);
    if (!count) IS(memcmp(&place, &at_plain, sizeof place), 0);
    return count;
}

static void only_confirmed_slots_are_used(void) {
    fill_all();
    IS(found_with(1 << 3 | 1 << 4), 4);
    IS(found_with(ALL), 4);
    IS(found_with(0), 0);
    IS(found_with(~(UINT64_C(1) << 3)), 0);
    IS(found_with(~(UINT64_C(1) << 4)), 1);
    IS(found_with(1 << 3 | 1 << 4), 4); /* a walk with other slots takes nothing away */
}

static void a_slot_is_forgotten_and_others_stay(void) {
    const struct section made = functions();
    fill_all();
    dwcheck_rows_forget(&rows, 5);
    IS(found_with(ALL), 4);
    dwcheck_rows_forget(&rows, 4);
    IS(found_with(ALL), 1);
    IS(fill(63, &made, LOAD + FRAMED + 8), DWCHECK_DONE);
    IS(found_with(ALL), 4); IS(found_with(ALL >> 1), 1);
    dwcheck_rows_forget(&rows, 3);
    IS(found_with(ALL), 0);
    IS(fill(67, &made, LOAD + PLAIN), DWCHECK_DONE); /* 67 is the slot 3 */
    IS(found_with(1 << 3), 1); IS(found_with(ALL), 2);
    dwcheck_rows_forget(&rows, 64 + 3);
    IS(found_with(ALL), 0);
}

/* A new row of the same address counts, be it of the same slot or of another one. */
static void a_row_is_replaced(void) {
    struct section made = functions(), other = {.length = 0};
    add_cie(&other);
    add_fde(&other, PLAIN, 0x100, "0e40"); /* the CFA is rsp + 64 */
    for (uint32_t slot = 3; slot < 5; slot++) {
        dwcheck_place place = at_plain;
        memset(&rows, 0, sizeof rows);
        IS(fill(3, &made, LOAD + PLAIN), DWCHECK_DONE);
        IS(fill(slot, &other, LOAD + PLAIN), DWCHECK_DONE);
        walk(&place, UINT64_C(1) << slot, &stack, 1, 1);
        IS(stop, DWCHECK_STOP_LIMIT);
        IS(is_caller(&place, LOAD + PLAIN + 7, 0x7040, 0x7030, 0), 1);
    }
}

static void there_is_room_for_some_addresses(void) {
    fill_all();
    for (size_t room = 0; room < 4; room++) {
        dwcheck_place place = at_plain;
        walk(&place, ALL, &stack, 1, room);
        IS(stop, DWCHECK_STOP_LIMIT); IS(count, room);
        IS(place.address, room ? stack_words[4 * room - 1] : LOAD + PLAIN);
        walk(&place, ALL, &stack, 1, ROOM); /* the walk goes on */
        IS(stop, DWCHECK_STOP_RETURN_UNDEFINED); IS(count, 4 - room);
        IS(addresses[3 - room], LOAD + FIRST + 5);
    }
    dwcheck_place place = at_plain;
    dwcheck_walk(&rows, ALL, &place, &stack, 1, NULL, 0, &count, &stop);
    IS(stop, DWCHECK_STOP_LIMIT); IS(count, 0); IS(memcmp(&place, &at_plain, sizeof place), 0);
    dwcheck_walk(&rows, ALL, &place, NULL, 0, NULL, 0, &count, &stop);
    IS(stop, DWCHECK_STOP_LIMIT); IS(count, 0);
}

static void what_cannot_be_read_ends_a_walk(void) {
    const uint8_t *bytes = stack.bytes;
    fill_all();
    for (size_t length = 0; length < 0x40; length++) { /* where the stack is cut; without bytes there is no block */
        const dwcheck_block cut = {0x7000, bytes, length};
        dwcheck_place place = at_plain;
        walk(&place, ALL, length ? &cut : NULL, length != 0, ROOM);
        IS(stop, DWCHECK_STOP_RETURN_UNREADABLE); IS(count, length < 0x20 ? 1 : 2);
    }
    /* A word may lie in two blocks, and of bytes that are in both, those of the first one count. */
    const uint8_t zeros[8] = {0};
    dwcheck_block blocks[] = {{0x7000, bytes, 0x1b}, {0x701b, bytes + 0x1b, 0x4d}, {0x7018, zeros, 8}};
    dwcheck_place place = at_plain;
    walk(&place, ALL, blocks, 3, ROOM);
    IS(stop, DWCHECK_STOP_RETURN_UNDEFINED); IS(count, 4);
    blocks[1] = blocks[2], blocks[2] = stack, place = at_plain;
    walk(&place, ALL, blocks, 3, 1);
    IS(place.address, (LOAD + FRAMED + 9) & 0xffffff);
    /* A word that goes on past the last address can't be read, also if address 0 can. */
    for (uint64_t at = ALL - 16; at != 8; at++) {
        const dwcheck_block both[] = {{ALL - 7, (const uint8_t *)&stack_words[3], 8}, {0, zeros, 8}};
        place = at_plain, place.stack_pointer = at - 24;
        walk(&place, ALL, both, 2, 1);
        const int is_read = at == ALL - 7 || at == 0;
        IS(count, 1); IS(stop, is_read ? DWCHECK_STOP_LIMIT : DWCHECK_STOP_RETURN_UNREADABLE);
        if (is_read) IS(place.address, at ? LOAD + FRAMED + 9 : 0);
        if (is_read) IS(place.stack_pointer, at + 8);
    }
}

/* That rbp can't be read matters only where a CFA needs it. */
static void rbp_is_read_where_it_is_needed(void) {
    dwcheck_place place = at_plain, before;
    fill_all();
    place.frame_pointer = UNREADABLE, place.is_saved = 1;
    walk(&place, ALL, &stack, 1, ROOM);
    IS(stop, DWCHECK_STOP_OTHER); IS(count, 1);
    IS(is_caller(&place, LOAD + FRAMED + 9, 0x7020, UNREADABLE, 1), 1);
    before = place;
    walk(&place, ALL, &stack, 1, ROOM);
    IS(stop, DWCHECK_STOP_OTHER); IS(count, 0); IS(memcmp(&place, &before, sizeof place), 0);
    const uint64_t saved = 0x7030;
    const dwcheck_block blocks[] = {stack, {UNREADABLE - 7, (const uint8_t *)&saved, 8}};
    place.frame_pointer = UNREADABLE - 7;
    walk(&place, ALL, blocks, 2, ROOM);
    IS(stop, DWCHECK_STOP_RETURN_UNDEFINED); IS(count, 3);
}

/* ---- rows of other forms ----------------------------------------------------------------------------------------- */

static struct section plain_with(const char *program) {
    struct section made = {.length = 0};
    add_cie(&made);
    add_fde(&made, PLAIN, 0x100, program);
    return made;
}

/* Keeps the row of PLAIN, which must return `status`, and walks over its frame, with a word at `cfa` - 8 alone. */
static dwcheck_place walk_by(const struct section *made, uint32_t status, uint64_t cfa) {
    static const uint64_t word = LOAD + FIRST + 5;
    const dwcheck_block at_cfa = {cfa - 8, (const uint8_t *)&word, 8};
    dwcheck_place place = at_plain;
    memset(&rows, 0, sizeof rows);
    IS(fill(1, made, LOAD + PLAIN), status);
    walk(&place, 1 << 1, &at_cfa, 1, 1);
    return place;
}

/* The row is kept, and leads to this CFA, and to this content of rbp or address where it is saved. */
static void leads_to(const struct section *made, uint64_t cfa, uint64_t rbp, uint32_t saved) {
    const dwcheck_place place = walk_by(made, DWCHECK_DONE, cfa);
    IS(stop, DWCHECK_STOP_LIMIT); IS(count, 1); IS(addresses[0], LOAD + PLAIN);
    IS(is_caller(&place, LOAD + FIRST + 5, cfa, rbp, saved), 1);
}

static void rows_lead_to_a_cfa_and_rbp(void) {
    static const struct { const char *program; uint64_t cfa, rbp; uint32_t saved; } cases[] = {
        {"", 0x7008, 0x7030, 0},
        {"0e808001", 0xb000, 0x7030, 0},                   /* rsp + 0x4000 */
        {"0effffffff07", 0x80006fff, 0x7030, 0},           /* rsp + 2^31 - 1, the greatest offset that fits */
        {"120701", 0x6ff8, 0x7030, 0},                     /* rsp - 8 */
        {"12078080808001", 0xffffffff80007000, 0x7030, 0}, /* rsp - 2^31, the least offset that fits */
        {"0c0610", 0x7040, 0x7030, 0},                     /* rbp + 16 */
        {"0c06108602", 0x7040, 0x7030, 1},                 /* the same, and rbp is saved at CFA - 16 */
        {"0e2083028c038d048e058f06", 0x7020, 0x7030, 0},   /* rbx and r12 to r15 are saved */
        {"0e2083028603", 0x7020, 0x7008, 1},               /* rbx and rbp are */
        {"05068001", 0x7008, 0x6c08, 1},                   /* rbp at CFA - 1024, the furthest that fits */
        {"11067f", 0x7008, 0x7010, 1},                     /* at CFA + 8 */
        {"1106817f", 0x7008, 0x7400, 1}};                  /* at CFA + 1016 */
    for (size_t i = 0; i < sizeof cases / sizeof *cases; i++) {
        const struct section made = plain_with(cases[i].program);
        leads_to(&made, cases[i].cfa, cases[i].rbp, cases[i].saved);
    }
    struct section made = {.length = 0}; /* the factor of offsets is 1, so they may be no multiples of 8 */
    add_cie_with(&made, "7a5200", "0110", "0c0708111078");
    add_fde(&made, PLAIN, 0x100, "110670");
    leads_to(&made, 0x7008, 0x6ff8, 1);
}

/* The row isn't kept, but a walk knows that it stops there; of a slot that isn't confirmed it knows nothing. */
static void has_no_place(const struct section *made) {
    dwcheck_place place = walk_by(made, DWCHECK_NO_PLACE, 0x7020);
    IS(stop, DWCHECK_STOP_OTHER); IS(count, 0); IS(memcmp(&place, &at_plain, sizeof place), 0);
    walk(&place, ~(UINT64_C(1) << 1), &stack, 1, 1);
    IS(stop, DWCHECK_STOP_MISSING); IS(count, 0);
    dwcheck_rows_forget(&rows, 1);
    walk(&place, ALL, &stack, 1, 1);
    IS(stop, DWCHECK_STOP_MISSING); IS(count, 0);
}

static void rows_that_have_no_place(void) {
    static const char *const programs[] = {
        "0f027708",       /* the CFA is what an expression says */
        "1003027708",     /* rbx is saved where an expression says */
        "1603027708",     /* rbx is what an expression says */
        "140602",         /* rbp is CFA - 16 itself */
        "09060c",         /* rbp is in r12 */
        "0706",           /* rbp isn't known */
        "0806",           /* rbp is what it was */
        "8002", "9102",   /* rax or xmm0 is saved */
        "8702",           /* rsp is saved */
        "9002", "09100c", /* the return address is at CFA - 16, or in r12 */
        "83020710",       /* the return address isn't known, and rbx is saved */
        "110600",         /* rbp is saved at the CFA */
        "05068101",       /* at CFA - 1032 */
        "1106807f",       /* at CFA + 1024 */
        "0e8080808008",   /* the CFA is rsp + 2^31 */
        "12078180808001"  /* rsp - 2^31 - 8 */
    };
    for (size_t i = 0; i < sizeof programs / sizeof *programs; i++) {
        const struct section made = plain_with(programs[i]);
        has_no_place(&made);
    }
    struct section signal = {.length = 0}, column = signal, near = signal;
    add_cie_with(&signal, "7a525300", "7810", "0c07089001"); /* of a signal frame */
    add_fde(&signal, PLAIN, 0x100, "0e20");
    has_no_place(&signal);
    add_cie_with(&column, "7a5200", "780f", "0c07089001"); /* the return address is r15's */
    add_fde(&column, PLAIN, 0x100, "0e20");
    has_no_place(&column);
    add_cie_with(&near, "7a5200", "0110", "0c0708111078"); /* rbp is saved at CFA - 15 */
    add_fde(&near, PLAIN, 0x100, "110671");
    has_no_place(&near);
}

/* In an entry of a procedure linkage table the CFA is rsp + 8, and rsp + 16 once the entry has pushed a number. Its row
   is kept by address, where it is the same if the next address is in rip, as in a caller. */
static void rows_of_linkage_tables_are_kept(void) {
    static const struct { const char *program; uint64_t limit; } tables[] = {
        {"0f0b770880003f1a3b2a332422", 11}, {"0f0b770880003f1a392a332422", 9}, {"0f0b770880003f1a352a332422", 5}};
    static const uint64_t word = LOAD + FIRST + 5;
    for (size_t i = 0; i < sizeof tables / sizeof *tables; i++) {
        const struct section made = plain_with(tables[i].program);
        for (uint64_t at = LOAD + PLAIN; at < LOAD + PLAIN + 32; at++) {
            const uint64_t in_entry = at % 16, cfa = 0x7008 + (in_entry >= tables[i].limit ? 8 : 0);
            const dwcheck_block at_cfa = {cfa - 8, (const uint8_t *)&word, 8};
            const int is_kept = in_entry + 1 != tables[i].limit && in_entry != 15;
            memset(&rows, 0, sizeof rows);
            IS(fill(1, &made, at), is_kept ? DWCHECK_DONE : DWCHECK_NO_PLACE);
            for (uint64_t address = at; address <= at + 1; address++) { /* a frame that is looked up itself, and a caller */
                dwcheck_place place = at_plain;
                place.address = address, place.key = at + 1;
                walk(&place, 1 << 1, &at_cfa, 1, 1);
                IS(stop, is_kept ? DWCHECK_STOP_LIMIT : DWCHECK_STOP_OTHER);
                IS(count, is_kept);
                if (is_kept) IS(is_caller(&place, word, cfa, 0x7030, 0), 1);
            }
        }
    }
    static const char *const others[] = {
        "0f0b770880003f1a372a332422",  /* with another number */
        "0f0b771080003f1a3b2a332422",  /* with another offset */
        "0f0a770880003f1a3b2a3324",    /* without the sum */
        "0f0c770880003f1a3b2a33242296" /* with DW_OP_nop */};
    for (size_t i = 0; i < sizeof others / sizeof *others; i++) {
        const struct section made = plain_with(others[i]);
        has_no_place(&made);
    }
}

/* Where gcc realigns a stack, the CFA is in memory at rbp - 8, rbp is saved at rbp, and rbx at rbp - 16. */
static void rows_of_realigned_stacks_are_kept(void) {
    const struct section made = plain_with("0f03767806" "1006027600" "1003027670");
    static const uint64_t saved[] = {0x1234, 0x7100, 0x5678}, back = LOAD + FIRST + 5;
    const dwcheck_block blocks[] = {{0x7020, (const uint8_t *)saved, 24}, {0x70f8, (const uint8_t *)&back, 8}};
    dwcheck_place place = at_plain;
    memset(&rows, 0, sizeof rows);
    IS(fill(1, &made, LOAD + PLAIN), DWCHECK_DONE);
    walk(&place, 1 << 1, blocks, 2, 1);
    IS(stop, DWCHECK_STOP_LIMIT); IS(count, 1);
    IS(is_caller(&place, back, 0x7100, 0x7030, 1), 1);
    dwcheck_register_place with = {.address = LOAD + PLAIN, .key = LOAD + PLAIN + 1, .stack_pointer = 0x7000,
                                   .rbx = 3, .rbp = 0x7030, .r12 = 12, .r13 = 13, .r14 = 14, .r15 = 15};
    dwcheck_register_frame frame;
    dwcheck_walk_frames(&rows, 1 << 1, &with, blocks, 2, &frame, 1, &count, &stop);
    IS(stop, DWCHECK_STOP_LIMIT); IS(count, 1); IS(frame.cfa, 0x7100);
    IS(with.address, back); IS(with.stack_pointer, 0x7100);
    IS(with.rbx, 0x1234); IS(with.rbp, 0x5678); IS(with.r12, 12); IS(with.r15, 15);
    place = at_plain; /* without the return address, and without the word that has the CFA */
    walk(&place, 1 << 1, blocks, 1, 1);
    IS(stop, DWCHECK_STOP_RETURN_UNREADABLE); IS(count, 1);
    place = at_plain;
    walk(&place, 1 << 1, blocks + 1, 1, 1);
    IS(stop, DWCHECK_STOP_OTHER); IS(count, 0);
    static const char *const others[] = {
        "0f027678",             /* the CFA is rbp - 8 itself */
        "0f03767806" "110602",  /* rbp is saved from the CFA on */
        "0f03767806" "1000027600", /* rax is saved */
        "0f03777806",           /* the CFA is in memory at rsp - 8 */
        "0f03767906",           /* at rbp - 7 */
        "0f0476b87f06"          /* at rbp - 72 */};
    for (size_t i = 0; i < sizeof others / sizeof *others; i++) {
        const struct section other = plain_with(others[i]);
        has_no_place(&other);
    }
}

/* A compact row is filled in with little stack, unless something else is in the FDE or its CIE. */
static void compact_rows_are_filled_in(void) {
    static const struct { const char *program; uint32_t status; } cases[] = {
        {"", DWCHECK_DONE},
        {"0e2083028603", DWCHECK_DONE},          /* rbx and rbp are saved */
        {"0e20410a0e300b", DWCHECK_DONE},        /* a later row is remembered and restored */
        {"8702", DWCHECK_NO_PLACE},              /* rsp is saved, so the row is compact, but can't be kept */
        {"0f027708", DWCHECK_NO_ROOM},           /* the CFA is what an expression says */
        {"0e20411003027708", DWCHECK_NO_ROOM},   /* rbx is saved where an expression says, but later */
        {"3f", DWCHECK_NO_ROOM}};                /* no instruction */
    for (size_t i = 0; i < sizeof cases / sizeof *cases; i++) {
        const struct section made = plain_with(cases[i].program);
        const dwcheck_module module = module_of(&made);
        IS(fill_compact(1, &module, &no_header, LOAD + PLAIN), cases[i].status);
        IS(fill_compact(1, &module, &no_header, LOAD + PLAIN - 1), DWCHECK_NONE);
    }
}

/* Walks have only rsp and rbp. */
static void a_cfa_by_another_register_takes_a_cursor(void) {
    const struct section made = plain_with("0c0a00"); /* the CFA is r10 */
    dwcheck_place place = walk_by(&made, DWCHECK_DONE, 0x7020);
    IS(stop, DWCHECK_STOP_OTHER); IS(count, 0); IS(memcmp(&place, &at_plain, sizeof place), 0);
}

/* ---- addresses and keys ------------------------------------------------------------------------------------------ */

/* No row is found for the key 0, which is that of entries without a row, and of a return address of 0. */
static void key_0_is_never_found(void) {
    const struct section made = functions();
    dwcheck_place place = at_plain;
    memset(&rows, 0, sizeof rows);
    place.key = 0;
    walk(&place, ALL, &stack, 1, ROOM);
    IS(stop, DWCHECK_STOP_MISSING); IS(count, 0);
    IS(fill(0, &made, place.key - 1), DWCHECK_NONE);
    fill_all();
    for (size_t i = 0; i < sizeof rows.words / 8; i++) /* the rows that were filled in now have the key 0 */
        if (rows.words[i] - LOAD < 0x10000) rows.words[i] = 0;
    walk(&place, ALL, &stack, 1, ROOM);
    IS(stop, DWCHECK_STOP_MISSING); IS(count, 0);
    memset(&rows, 0x07, sizeof rows);
    for (size_t i = 0; i < sizeof rows.words / 8; i += 3) rows.words[i] = 0;
    walk(&place, ALL, &stack, 1, ROOM);
    IS(stop, DWCHECK_STOP_MISSING); IS(count, 0);
}

/* A section with a function of 2^20 addresses, each frame of which has only its return address. */
enum { LEAF = 0x100000 };
static struct section with_leaf(void) {
    struct section made = functions();
    add_fde(&made, LEAF, 0x100000, "");
    return made;
}

/* Walks this stack of 8 bytes a frame from the frame at `address`, and keeps the rows that are missing. Returns how
   many these were. All addresses must be found, and the last one begins the stack. */
static int fills_of(const struct section *made, uint64_t address, const uint64_t *words, size_t length) {
    const dwcheck_block block = {0x7000, (const uint8_t *)words, length * 8};
    dwcheck_place place = {.address = address, .key = address + 1, .stack_pointer = 0x7000};
    size_t found = 0;
    int fills = 0;
    do {
        walk(&place, ALL, &block, 1, ROOM);
        for (size_t i = 0; i < count; i++, found++) IS(addresses[i], found ? words[found - 1] : address);
    } while (stop == DWCHECK_STOP_MISSING && fill(0, made, place.key - 1) == DWCHECK_DONE && ++fills < ROOM);
    IS(stop, DWCHECK_STOP_RETURN_UNDEFINED); IS(found, length + 1);
    return fills;
}

/* The set in which the row of a key is searched for, as in crates/dw_cached_rows/src/cached_rows.rt. */
static uint64_t set_of(uint64_t key) { return (key * UINT64_C(0x9e3779b97f4a7c15)) >> 56; }

/* A set has room for four rows; a fifth one takes the place of one that will be missing later. */
static void five_addresses_of_one_set(void) {
    const struct section made = with_leaf();
    uint64_t keys[5], words[101];
    int n = 0;
    for (uint64_t key = LOAD + LEAF + 1; n < 5; key++)
        if (set_of(key) == 77) keys[n++] = key;
    for (int used = 1; used <= 5; used++) {
        for (int i = 0; i < 100; i++) words[i] = keys[i % used];
        words[100] = LOAD + FIRST + 5;
        memset(&rows, 0, sizeof rows);
        int fills = fills_of(&made, keys[used - 1] - 1, words, 101);
        if (used < 5) IS(fills, used + 1); /* and that of FIRST */
        if (used < 5) IS(fills_of(&made, keys[used - 1] - 1, words, 101), 0);
        if (used == 5) IS(fills > 5, 1);
    }
}

/* Many more rows than there is room for. */
static void more_rows_than_fit(void) {
    const struct section made = with_leaf();
    static uint64_t words[300];
    memset(&rows, 0, sizeof rows);
    for (int round = 0; round < 40; round++) {
        for (int i = 0; i < 299; i++) words[i] = LOAD + LEAF + 1 + (uint64_t)(i * 211 + round % 20 * 40009);
        words[299] = LOAD + FIRST + 5;
        fills_of(&made, LOAD + LEAF, words, 300);
    }
}

/* What dwcheck_row_in returns, and nothing else changes. */
static void fills_that_fail(void) {
    struct section made = functions(), bad = plain_with("3f"); /* no instruction */
    dwcheck_rows before;
    dwcheck_fault fault;
    fill_all();
    before = rows;
    IS(fill(0, &made, LOAD + PLAIN - 1), DWCHECK_NONE);
    IS(fill(0, &made, ALL), DWCHECK_NONE);
    IS(fill(0, &bad, LOAD + PLAIN), DWCHECK_REFUSED);
    dwcheck_module module = module_of(&made);
    const dwcheck_header header = {(const uint8_t *)"\2", 1, 0};
    IS(dwcheck_rows_fill(&rows, 0, &module, &header, LOAD + PLAIN, &fault), DWCHECK_NO_TABLE);
    module.order = 2;
    IS(dwcheck_rows_fill(&rows, 0, &module, &no_header, LOAD + PLAIN, &fault), DWCHECK_BAD_TARGET);
    module.kind = DWCHECK_DEBUG_FRAME;
    IS(dwcheck_rows_fill(&rows, 0, &module, &no_header, LOAD + PLAIN, &fault), DWCHECK_BAD_KIND);
    module = module_of(&made), module.frame_length = (size_t)1 << 32;
    IS(dwcheck_rows_fill(&rows, 0, &module, &no_header, LOAD + PLAIN, &fault), DWCHECK_TOO_LONG);
    module.frame = NULL, module.frame_length = 0;
    IS(dwcheck_rows_fill(&rows, 0, &module, &no_header, LOAD + PLAIN, &fault), DWCHECK_NONE);
    IS(memcmp(&rows, &before, sizeof rows), 0);
}

/* ---- rows of any bytes ------------------------------------------------------------------------------------------- */

/* Pages between two that can't be read. */
static uint8_t *guarded(size_t pages) {
    size_t page = (size_t)getpagesize();
    uint8_t *all = mmap(NULL, (pages + 2) * page, PROT_NONE, MAP_PRIVATE | MAP_ANONYMOUS, -1, 0);
    if (all == MAP_FAILED || mprotect(all + page, pages * page, PROT_READ | PROT_WRITE)) abort();
    return all + page;
}

static uint64_t any_key(void) { return LOAD + LEAF + any() % 64 * 4093; }

/* Walks over a block with kept rows in which bytes were changed, or with random bytes, and all slots confirmed. It
   reads nothing outside of the block and of the rows, and ends as the header says. Returns how many frames there
   were. */
static long walks_with_any_rows(long rounds) {
    const struct section made = with_leaf();
    const size_t page = (size_t)getpagesize(), pages = sizeof rows / page + 1;
    uint8_t *at_rows = guarded(pages), *bytes = guarded(1);
    uint64_t *words = (uint64_t *)bytes;
    dwcheck_rows filled;
    long frames = 0;
    memset(&rows, 0, sizeof rows);
    for (uint64_t i = 0; i < 64; i++) IS(fill((uint32_t)i, &made, LOAD + LEAF + i * 4093 - (i > 0)), DWCHECK_DONE);
    filled = rows;
    for (long round = 0; round < rounds; round++) {
        dwcheck_rows *tried = (dwcheck_rows *)(any() % 2 ? at_rows : at_rows + pages * page - sizeof rows);
        uint8_t *row_bytes = (uint8_t *)tried;
        const size_t length = any() % 4 ? page : 1 + any() % page;
        const uint64_t bases[] = {(uint64_t)bytes, 0, 0 - (uint64_t)length, any()};
        const dwcheck_block block = {bases[any() % 4], any() % 2 ? bytes : bytes + page - length, length};
        uint64_t near = block.base - 32 + any() % (length + 64);
        *tried = filled;
        if (round % 16 == 0) for (size_t i = 0; i < sizeof rows.words / 8; i++) tried->words[i] = any();
        else for (uint64_t n = any() % 800; n > 0; n--) row_bytes[any() % sizeof rows] = (uint8_t)any();
        if (any() % 8) near -= (near - block.base - (uint64_t)(bytes - block.bytes)) % 8; /* where a word begins */
        for (size_t i = 0; i < page / 8; i++)
            words[i] = any() % 8 ? any_key() : any() % 2 ? block.base + any() % length : any();
        dwcheck_place place = {any(), any() % 8 ? any_key() : any() % 2 ? 0 : any(), near, any() % 2 ? near : any(),
                               (uint32_t)(any() % 2), 0};
        size_t room = any() % ROOM;
        count = 99, stop = 99;
        memset(addresses, 0x55, sizeof addresses);
        dwcheck_walk(tried, any() % 4 ? ALL : any(), &place, &block, 1, addresses, room, &count, &stop);
        IS(stop == DWCHECK_STOP_LIMIT || stop == DWCHECK_STOP_RETURN_UNDEFINED ||
           stop == DWCHECK_STOP_RETURN_UNREADABLE || stop == DWCHECK_STOP_MISSING || stop == DWCHECK_STOP_OTHER, 1);
        IS(count <= room, 1);
        if (stop == DWCHECK_STOP_LIMIT) IS(count, room);
        for (size_t i = count; i < ROOM; i++) IS(addresses[i], 0x5555555555555555);
        if (any() % 8 == 0) dwcheck_rows_forget(tried, (uint32_t)any());
        frames += (long)count;
    }
    return frames;
}

int main(int argc, char **argv) {
    a_missing_row_is_asked_for();
    only_confirmed_slots_are_used();
    a_slot_is_forgotten_and_others_stay();
    a_row_is_replaced();
    there_is_room_for_some_addresses();
    what_cannot_be_read_ends_a_walk();
    rbp_is_read_where_it_is_needed();
    rows_lead_to_a_cfa_and_rbp();
    rows_that_have_no_place();
    rows_of_linkage_tables_are_kept();
    rows_of_realigned_stacks_are_kept();
    a_cfa_by_another_register_takes_a_cursor();
    key_0_is_never_found();
    five_addresses_of_one_set();
    more_rows_than_fit();
    fills_that_fail();
    compact_rows_are_filled_in();
    long rounds = argc > 1 ? atol(argv[1]) : 100000, frames = walks_with_any_rows(rounds);
    IS(frames > rounds, 1);
    printf("%ld rounds and %ld frames with any rows: %d wrong\n", rounds, frames, wrong);
    return wrong != 0;
}
