/* Random walks with kept rows, beside steps of a cursor from the same registers, frame by frame: the addresses, the
   reasons and the registers must be the same. Half of them are over the C library of this process, and half over
   sections of random rows.
   usage: random WALKS [SEED] */
#define _GNU_SOURCE
#include <dwcheck.h>
#include <link.h>
#include <stdbool.h>
#include <stdio.h>
#include <stdlib.h>
#include <string.h>

enum { WORDS = 512, ROOM = 64, POOL = 3000, FUNCTIONS = 120 };

static uint64_t random_state;
static uint64_t any(void)
{
    random_state ^= random_state >> 12, random_state ^= random_state << 25, random_state ^= random_state >> 27;
    return random_state * UINT64_C(0x2545f4914f6cdd1d);
}
static uint64_t below(uint64_t n) { return any() % n; }

/* What is walked over: a module with a header or without one, the same in a process, and addresses in it. */
typedef struct { dwcheck_module module; dwcheck_header header; dwcheck_process process; uint64_t pool[POOL]; } Code;
static Code libc, made;

static int find_libc(struct dl_phdr_info *info, size_t size, void *data)
{
    (void)size, (void)data;
    if (!strstr(info->dlpi_name, "libc.so")) return 0;
    for (int i = 0; i < info->dlpi_phnum; i++) {
        const ElfW(Phdr) *part = &info->dlpi_phdr[i];
        uint64_t at = info->dlpi_addr + part->p_vaddr;
        if (part->p_type == PT_GNU_EH_FRAME) libc.header = (dwcheck_header){(const uint8_t *)at, part->p_memsz, at};
    }
    int32_t to_frame;
    memcpy(&to_frame, libc.header.bytes + 4, sizeof to_frame);
    const uint8_t *frame = libc.header.bytes + 4 + to_frame;
    libc.module = (dwcheck_module){.frame = frame, .address_size = 8, .kind = DWCHECK_EH_FRAME, .section_address = (uint64_t)frame, .room = SIZE_MAX};
    /* The section ends with a record of length 0. */
    const uint8_t *end = frame;
    for (uint32_t length = 1; length; end += length + 4) memcpy(&length, end, 4);
    libc.module.frame_length = (size_t)(end - frame);
    return 1;
}

static void add(Code *code)
{
    uint64_t id;
    dwcheck_fault fault;
    if (dwcheck_process_add(&code->process, &code->module, &id, &fault) != DWCHECK_DONE) abort();
}

static void choose_libc(void)
{
    static uint64_t starts[100000], ends[100000];
    size_t n = 0;
    dwcheck_record record;
    dwcheck_fault fault;
    dl_iterate_phdr(find_libc, NULL);
    for (uint64_t at = 0; n < 100000 && dwcheck_record_at(&libc.module, at, &record, &fault) == DWCHECK_DONE; at = record.next)
        if (record.kind == DWCHECK_RECORD_FDE && record.end > record.start) starts[n] = record.start, ends[n++] = record.end;
    for (int i = 0; i < POOL; i++) {
        size_t k = below(n);
        libc.pool[i] = starts[k] + below(ends[k] - starts[k] + 1);
    }
    add(&libc);
}

/* ---- sections of random rows */
static uint8_t bytes[1 << 16];
static size_t length;
static void put(uint8_t byte) { bytes[length++] = byte; }
static void put_word(uint32_t word) { memcpy(bytes + length, &word, 4), length += 4; }
static void put_uleb(uint64_t n) { for (; n > 127; n >>= 7) put((uint8_t)(n | 128)); put((uint8_t)n); }
static void put_sleb(int64_t n)
{
    for (; n < -64 || n > 63; n >>= 7) put((uint8_t)(n | 128));
    put((uint8_t)(n & 127));
}
static void end_record(size_t at)
{
    while (length % 4) put(0);
    uint32_t n = (uint32_t)(length - at - 4);
    memcpy(bytes + at, &n, 4);
}

static uint64_t any_register(void)
{
    static const uint8_t usual[] = {3, 6, 6, 12, 13, 14, 15, 16, 7};
    return below(12) ? usual[below(9)] : below(20);
}

/* An offset, most often one of a few words; now and then at the ends of what fits in 32 bits or in a byte of words. */
static uint64_t any_offset(void)
{
    switch (below(24)) {
    case 0: return 0x7fffffff - 3 + below(8);
    case 1: return 0xffffffff - 3 + below(8);
    case 2: return below(1 << 20);
    case 3: return 0;
    default: return 8 * below(40);
    }
}

static void put_expression(void)
{
    put(3);
    put(0x77); /* DW_OP_breg7, of one byte, and DW_OP_deref or a sum */
    put((uint8_t)(8 * below(6)));
    put(below(2) ? 0x06 : 0x1f);
}

static void put_instruction(void)
{
    switch (below(26)) {
    case 0: case 1: case 2: put(0x0e); put_uleb(any_offset()); break;
    case 3: case 4: put(0x0c); put_uleb(below(8) ? 6 + below(2) : below(17)); put_uleb(any_offset()); break;
    case 5: put(0x12); put_uleb(6 + below(2)); put_sleb((int64_t)below(64) - 56); break;
    case 6: put(0x13); put_sleb((int64_t)below(64) - 56); break;
    case 7: case 8: case 9: case 10: put((uint8_t)(0x80 | any_register())); put_uleb(below(30) ? 1 + below(9) : below(300)); break;
    case 11: put(0x05); put_uleb(any_register()); put_uleb(below(140)); break;
    case 12: put(0x11); put_uleb(any_register()); put_sleb((int64_t)below(300) - 150); break;
    case 13: put((uint8_t)(0xc0 | any_register())); break;
    case 14: put(0x06); put_uleb(any_register()); break;
    case 15: if (!below(3)) put(0x07), put_uleb(any_register()); break;
    case 16: if (!below(3)) put(0x08), put_uleb(any_register()); break;
    case 17: if (!below(4)) put(0x09), put_uleb(any_register()), put_uleb(any_register()); break;
    case 18: if (!below(4)) put(0x14), put_uleb(any_register()), put_uleb(below(20)); break;
    case 19: if (!below(6)) put(0x0f), put_expression(); break;
    case 20: if (!below(6)) put(0x10), put_uleb(any_register()), put_expression(); break;
    case 21: if (!below(6)) put(0x16), put_uleb(any_register()), put_expression(); break;
    case 22: if (!below(9)) put(0x07), put(16); break;
    default: put((uint8_t)(0x40 | (1 + below(15)))); break; /* on to the next row */
    }
}

/* Makes a section that can be added: functions of 256 addresses each, from 0x10000 on. */
static void make(void)
{
    static const char *const augmentations[] = {"zR", "zR", "zR", "zR", "zR", "zR", "zRS"};
    dwcheck_process_close(&made.process);
    made.process = (dwcheck_process)DWCHECK_CLOSED;
    length = 0;
    for (int i = 0; i < FUNCTIONS; i++) {
        /* Each function has a CIE of its own. One that is refused is taken back. */
        for (;;) {
            size_t cie = length, fde;
            const char *augmentation = augmentations[below(7)];
            put_word(0), put_word(0), put(1);
            for (const char *c = augmentation; *c; c++) put((uint8_t)*c);
            put(0), put(1), put_sleb(below(16) ? -8 : (int64_t)below(20) - 10), put(below(60) ? 16 : (uint8_t)below(17)), put(1), put(0x1b);
            put(0x0c), put(7), put(8), put(0x90), put(1);
            while (!below(5)) put_instruction();
            end_record(cie);
            fde = length;
            put_word(0), put_word((uint32_t)(fde + 4 - cie)), put_word((uint32_t)(0x10000 + 256 * i - (0x400000 + (int)fde + 8))), put_word(256), put(0);
            for (uint64_t n = below(14); n; n--) put_instruction();
            end_record(fde);
            made.module = (dwcheck_module){.frame = bytes, .frame_length = length, .address_size = 8, .kind = DWCHECK_EH_FRAME, .section_address = 0x400000, .room = SIZE_MAX};
            dwcheck_row row;
            dwcheck_fault fault;
            uint32_t is_signal;
            const dwcheck_module one = {.frame = bytes + cie, .frame_length = length - cie, .address_size = 8, .kind = DWCHECK_EH_FRAME, .section_address = 0x400000 + cie};
            if (dwcheck_row_in(&one, &made.header, (uint64_t)(0x10000 + 256 * i), &row, NULL, 0, &is_signal, &fault) == DWCHECK_DONE) break;
            length = cie;
        }
    }
    for (int i = 0; i < POOL; i++) made.pool[i] = 0x10000 + below(256 * (FUNCTIONS + 1));
    add(&made);
}

static dwcheck_rows rows;
static uint64_t stops[8], frames, fills, wrong, kept_rows, left_rows, walks_done;

static void differs(const char *what, uint64_t have, uint64_t want)
{
    if (wrong++ < 10) printf("walk %lu: %s is %#lx, not %#lx\n", (unsigned long)walks_done, what, (unsigned long)have, (unsigned long)want);
}
static void same(const char *what, uint64_t have, uint64_t want) { if (have != want) differs(what, have, want); }

static uint64_t word_of(const dwcheck_block *block, uint64_t address, bool *is_known)
{
    uint64_t word = 0, from = address - block->base;
    *is_known = address <= UINT64_MAX - 7 && from < block->length && block->length - from >= 8;
    if (*is_known) memcpy(&word, block->bytes + from, 8);
    return word;
}

/* The place has the registers of the cursor. */
static void same_place(const dwcheck_place *place, const dwcheck_cursor *cursor, const dwcheck_block *block)
{
    bool is_known = true;
    uint64_t rbp = place->is_saved ? word_of(block, place->frame_pointer, &is_known) : place->frame_pointer;
    same("the address", place->address, cursor->address);
    same("the key", place->key, cursor->address + (cursor->stage == DWCHECK_CURSOR_EXACT));
    same("whether rsp is known", 1, cursor->known[7] != 0);
    same("rsp", place->stack_pointer, cursor->contents[7]);
    same("whether rbp is known", is_known, cursor->known[6] != 0);
    if (is_known) same("rbp", rbp, cursor->contents[6]);
}

static void walk(Code *code, uint32_t slot)
{
    static const uint16_t kept[] = {3, 6, 12, 13, 14, 15};
    static uint64_t words[WORDS];
    uint64_t found[ROOM], base = below(16) ? 0x7ffc00000000 : below(2) ? 0 : -(uint64_t)sizeof words;
    size_t count = 0, more, room = below(8) ? ROOM : below(ROOM);
    uint32_t stop;
    dwcheck_fault fault;
    dwcheck_frame frame;
    const dwcheck_block block = {base, (const uint8_t *)words, sizeof words - (below(8) ? 0 : below(64))};
    for (int i = 0; i < WORDS; i++) {
        uint64_t of = any();
        words[i] = of % 16 < 13 ? code->pool[(of >> 4) % POOL] : of % 16 < 15 ? base + (of >> 4) % WORDS * 8 : of % 32 < 16 ? 0 : any();
    }
    dwcheck_place place = {.address = code->pool[below(POOL)], .stack_pointer = base + 8 * below(WORDS / 2), .frame_pointer = base + 8 * below(WORDS)};
    if (!below(64)) place.stack_pointer = any();
    if (!below(64)) place.frame_pointer = any();
    if (!below(64)) place.address = any();
    place.key = place.address + (any() % 2);
    uint64_t contents[17] = {[6] = place.frame_pointer, [7] = place.stack_pointer, [16] = place.address};
    const uint8_t known[3] = {1 << 6 | 1 << 7, 0, 0};
    const dwcheck_state state = {.contents = contents, .contents_length = 17, .known = known, .known_length = 3, .blocks = &block, .blocks_length = 1,
                                 .kept = kept, .kept_length = 6, .stack_pointer = 7, .has_stack_pointer = 1};
    dwcheck_cursor cursor;
    if (dwcheck_cursor_init(&cursor, place.address, &state, place.key != place.address, &fault) != DWCHECK_DONE) abort();
    const bool in_place = below(16) == 0;
    if (below(8) == 0) { /* rbp is in memory */
        bool is_known;
        place.is_saved = 1;
        cursor.contents[6] = word_of(&block, place.frame_pointer, &is_known);
        cursor.known[6] = is_known;
    }
    for (;;) {
        dwcheck_walk(&rows, 1ull << slot | any() << (slot + 1) % 64, &place, &block, 1, found + count, room - count, &more, &stop);
        /* The cursor takes as many steps. */
        for (size_t i = count; i < count + more; i++) {
            same("an address", found[i], cursor.address);
            uint32_t status = in_place ? dwcheck_step_in(&code->module, &code->header, &cursor, &state, &frame, &fault)
                                       : dwcheck_cursor_step(&code->process, &cursor, &state, &frame);
            same("the status of a step", status, DWCHECK_DONE);
            same("its address", frame.address, found[i]);
        }
        count += more, frames += more;
        stops[stop]++;
        if (stop == DWCHECK_STOP_RETURN_UNDEFINED || stop == DWCHECK_STOP_RETURN_UNREADABLE) {
            same("the reason", stop, cursor.stage - 1);
            return;
        }
        if (cursor.stage > DWCHECK_CURSOR_CALLER) {
            differs("the reason", stop, cursor.stage - 1);
            return;
        }
        same_place(&place, &cursor, &block);
        if (stop == DWCHECK_STOP_LIMIT) {
            same("the room", count, room);
            return;
        }
        if (stop == DWCHECK_STOP_MISSING) {
            uint32_t status = dwcheck_rows_fill(&rows, slot, &code->module, &code->header, place.key - 1, &fault);
            fills++, kept_rows += status == DWCHECK_DONE, left_rows += status == DWCHECK_NO_PLACE;
            if (status == DWCHECK_DONE || status == DWCHECK_NO_PLACE) continue;
            same("the status of a fill", status, DWCHECK_NONE);
            if (dwcheck_cursor_step(&code->process, &cursor, &state, &frame) != DWCHECK_DONE || cursor.stage != DWCHECK_STOP_NOT_COVERED + 1)
                differs("the stage where nothing covers", cursor.stage, DWCHECK_STOP_NOT_COVERED + 1);
            return;
        }
        /* OTHER: a step of the cursor, and the walk goes on from there, if rsp is known. */
        if (dwcheck_cursor_step(&code->process, &cursor, &state, &frame) != DWCHECK_DONE || cursor.stage > DWCHECK_CURSOR_CALLER || !cursor.known[7]) return;
        found[count++] = frame.address, frames++;
        bool is_known = cursor.known[6];
        place = (dwcheck_place){.address = cursor.address, .key = cursor.address + (cursor.stage == DWCHECK_CURSOR_EXACT), .stack_pointer = cursor.contents[7],
                                .frame_pointer = is_known ? cursor.contents[6] : UINT64_MAX, .is_saved = !is_known};
    }
}

int main(int argc, char **argv)
{
    if (argc < 2) return 2;
    uint64_t walks = strtoull(argv[1], NULL, 10), seed = argc > 2 ? strtoull(argv[2], NULL, 10) : 1;
    random_state = seed * UINT64_C(0x9e3779b97f4a7c15) + 1;
    choose_libc();
    for (walks_done = 0; walks_done < walks; walks_done++) {
        /* The libc has the slot 5, and each made section the slot 9, whose rows are forgotten before. */
        if (walks_done % 4000 == 0) {
            dwcheck_rows_forget(&rows, 9);
            make();
        }
        if (walks_done % 2) walk(&libc, 5);
        else walk(&made, 9);
    }
    printf("random: %lu walks, %lu frames, %lu fills (%lu kept, %lu not); stops: limit %lu, undefined %lu, unreadable %lu, missing %lu, other %lu: %lu wrong\n",
           (unsigned long)walks, (unsigned long)frames, (unsigned long)fills, (unsigned long)kept_rows, (unsigned long)left_rows, (unsigned long)stops[0],
           (unsigned long)stops[2], (unsigned long)stops[3], (unsigned long)stops[5], (unsigned long)stops[6], (unsigned long)wrong);
    return wrong != 0;
}
