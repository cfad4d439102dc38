/* Hostile use of walks with kept rows: places, blocks and rows of any numbers, beside a model of memory; the rows of
   another process; and fills from damaged sections and headers, beside dwcheck_row_in. Sections, headers, rows and
   blocks end at pages that can't be read.
   usage: hostile ROUNDS [SEED]
   Prints counts; the exit status is 1 if something differs. */
#define _GNU_SOURCE
#include <dwcheck.h>
#include <link.h>
#include <signal.h>
#include <stdbool.h>
#include <stdio.h>
#include <stdlib.h>
#include <string.h>
#include <sys/mman.h>
#include <unistd.h>

enum { PAGE = 4096, ROOM = 300, KEYS = 64, BLOCKS = 6 };

static uint64_t random_state;
static uint64_t any(void)
{
    random_state ^= random_state >> 12, random_state ^= random_state << 25, random_state ^= random_state >> 27;
    return random_state * UINT64_C(0x2545f4914f6cdd1d);
}
static uint64_t below(uint64_t n) { return any() % n; }

static uint64_t wrong, rounds_done;
static void differs(const char *what, uint64_t have, uint64_t want)
{
    if (wrong++ < 10) printf("round %lu: %s is %#lx, not %#lx\n", (unsigned long)rounds_done, what, (unsigned long)have, (unsigned long)want);
}
static void same(const char *what, uint64_t have, uint64_t want) { if (have != want) differs(what, have, want); }

/* Bytes after which, and before which, a page can't be read. */
static uint8_t *guarded(size_t length, bool at_end)
{
    size_t pages = (length + PAGE - 1) / PAGE + (length == 0);
    uint8_t *all = mmap(NULL, (pages + 2) * PAGE, PROT_NONE, MAP_PRIVATE | MAP_ANONYMOUS, -1, 0);
    if (all == MAP_FAILED || mprotect(all + PAGE, pages * PAGE, PROT_READ | PROT_WRITE)) abort();
    return all + PAGE + (at_end ? pages * PAGE - length : 0);
}

/* ---- the C library's sections, copied so that they may be damaged */
static dwcheck_module library;
static dwcheck_header table;
static uint8_t *frame, *header;
static uint64_t records[20000], cies[20000], starts[20000];
static size_t record_count;

static int find_library(struct dl_phdr_info *info, size_t size, void *data)
{
    (void)size, (void)data;
    if (!strstr(info->dlpi_name, "libc.so")) return 0;
    uint64_t at = 0;
    size_t table_length = 0;
    for (int i = 0; i < info->dlpi_phnum; i++)
        if (info->dlpi_phdr[i].p_type == PT_GNU_EH_FRAME) at = info->dlpi_addr + info->dlpi_phdr[i].p_vaddr, table_length = info->dlpi_phdr[i].p_memsz;
    int32_t to_frame;
    uint32_t n = 1;
    memcpy(&to_frame, (uint8_t *)at + 4, sizeof to_frame);
    const uint8_t *from = (uint8_t *)at + 4 + to_frame, *end = from;
    for (; n; end += n + 4) memcpy(&n, end, 4);
    size_t frame_length = (size_t)(end - from);
    frame = guarded(frame_length, true), header = guarded(table_length, true);
    memcpy(frame, from, frame_length), memcpy(header, (void *)at, table_length);
    library = (dwcheck_module){.frame = frame, .frame_length = frame_length, .address_size = 8, .kind = DWCHECK_EH_FRAME, .section_address = (uint64_t)from};
    table = (dwcheck_header){header, table_length, at};
    return 1;
}

static void read_library(void)
{
    dwcheck_record record;
    dwcheck_fault fault;
    dl_iterate_phdr(find_library, NULL);
    for (uint64_t at = 0; record_count < 20000 && dwcheck_record_at(&library, at, &record, &fault) == DWCHECK_DONE; at = record.next) {
        if (record.kind != DWCHECK_RECORD_FDE || record.start == record.end) continue;
        int32_t to_cie;
        memcpy(&to_cie, frame + at + 4, 4);
        starts[record_count] = record.start, cies[record_count] = at + 4 - (uint64_t)to_cie, records[record_count++] = at;
    }
}

static dwcheck_rows filled, before;

/* ---- damaged sections and headers */
static uint64_t damaged[16];

/* Whether the CFA is a word of memory by rbp: then one word isn't enough for a step. */
static bool is_realigned(const dwcheck_module *module, const dwcheck_row *row)
{
    return row->cfa.kind == DWCHECK_RULE_VAL_EXPRESSION && row->cfa.length == 3 && module->frame[row->cfa.offset] == 0x76;
}

/* The number in the CFA's expression of an entry of a PLT. */
static uint64_t plt_limit(const dwcheck_module *module, const dwcheck_row *row)
{
    const uint8_t *bytes = module->frame + row->cfa.offset;
    if (row->cfa.length != 11 || bytes[0] != 0x77 || bytes[10] != 0x22) differs("the length of an expression that is kept", row->cfa.length, 11);
    return bytes[6] - (uint64_t)0x30;
}

/* A fill returns what dwcheck_row_in returns, or NO_PLACE in place of DONE; and a walk with the row that is kept has the
   CFA, the return address and rbp of that row. */
static void fill_damaged(dwcheck_rows *rows)
{
    struct { uint8_t *at, byte; } saved[12];
    int changes = 1 + (int)below(8), n = 0;
    size_t k = below(record_count);
    dwcheck_module module = library;
    dwcheck_header with = table;
    for (; n < changes; n++) {
        uint8_t *at;
        switch (below(8)) {
        case 0: at = header + (below(8) ? 12 + below(table.length - 12) : below(12)); break;
        case 1: at = header + 12 + below(table.length - 12); break;
        case 2: at = frame + below(library.frame_length); break;
        case 3: case 4: at = frame + cies[k] + below(24); break;
        default: at = frame + records[k] + below(40); if (at >= frame + library.frame_length) at = frame; break;
        }
        saved[n].at = at, saved[n].byte = *at;
        *at = below(2) ? (uint8_t)any() : (uint8_t)(*at ^ 1 << below(8));
    }
    switch (below(32)) { /* cut, moved, or of another kind */
    case 0: module.frame_length = below(library.frame_length + 1), module.frame += library.frame_length - module.frame_length; break;
    case 1: with.length = below(table.length + 1), with.bytes += table.length - with.length; break;
    case 2: with.length = 0; if (below(8)) module.frame_length = below(4096), module.frame += library.frame_length - module.frame_length; break;
    case 3: module.load_address = any(); break;
    case 4: module.section_address = any(); break;
    case 5: with.address = any(); break;
    case 6: module.kind = (uint32_t)below(4); break;
    case 7: module.order = (uint32_t)below(3); break;
    case 8: module.address_size = (uint32_t)below(10); break;
    case 9: module.frame = NULL, module.frame_length = 0; break;
    case 10: with.bytes = NULL, with.length = 0, module.frame_length = 0; break;
    }
    uint64_t address = starts[k] + below(64) + (below(4) ? 0 : module.load_address);
    if (!below(32)) address = below(2) ? any() : UINT64_MAX - below(3);
    uint32_t slot = (uint32_t)any();
    static dwcheck_row row;
    static dwcheck_rule rules[DWCHECK_MAX_RULES];
    dwcheck_fault fault, other;
    uint32_t is_signal;
    memset(&fault, 0x55, sizeof fault), memset(&other, 0x55, sizeof other);
    before = *rows;
    uint32_t want = dwcheck_row_in(&module, &with, address, &row, rules, DWCHECK_MAX_RULES, &is_signal, &fault);
    uint32_t have = dwcheck_rows_fill(rows, slot, &module, &with, address, &other);
    damaged[have < 15 ? have : 15]++;
    if (want == DWCHECK_DONE) {
        if (have != DWCHECK_DONE && have != DWCHECK_NO_PLACE) differs("the status of a fill", have, want);
    } else {
        same("the status of a fill", have, want);
        if (memcmp(&fault, &other, sizeof fault)) differs("a fault", other.number, fault.number);
        if (memcmp(rows, &before, sizeof *rows)) differs("rows that should stay", 1, 0);
    }
    if (have == DWCHECK_DONE && is_realigned(&module, &row)) {
        while (n--) *saved[n].at = saved[n].byte;
        return;
    }
    /* One step by the row. */
    dwcheck_place place = {.address = address, .key = address + 1, .stack_pointer = any(), .frame_pointer = any()};
    const dwcheck_place from = place;
    uint64_t found[1], word = any();
    size_t count;
    uint32_t stop;
    uint64_t cfa = (row.cfa.reg == 6 ? place.frame_pointer : place.stack_pointer) + (uint64_t)row.cfa.offset;
    if (have == DWCHECK_DONE && row.cfa.kind == DWCHECK_RULE_VAL_EXPRESSION) { /* that of an entry of a PLT */
        row.cfa.reg = 7;
        cfa = place.stack_pointer + 8 + (address % 16 >= plt_limit(&module, &row) ? 8 : 0);
    }
    const dwcheck_block block = {cfa - 8, (const uint8_t *)&word, 8};
    if (have == DWCHECK_DONE) {
        bool is_last = row.count == 1 && rules[0].reg == 16 && rules[0].kind == DWCHECK_RULE_UNDEFINED;
        dwcheck_walk(rows, 1ull << slot % 64, &place, &block, 1, found, 1, &count, &stop);
        if (row.cfa.reg != 6 && row.cfa.reg != 7) {
            same("the stop of another CFA", stop, DWCHECK_STOP_OTHER);
        } else if (is_last) {
            if (stop != DWCHECK_STOP_RETURN_UNDEFINED && stop != DWCHECK_STOP_OTHER) differs("the stop of the last frame", stop, DWCHECK_STOP_RETURN_UNDEFINED);
        } else if (cfa - 8 <= UINT64_MAX - 7) {
            same("the stop", stop, DWCHECK_STOP_LIMIT);
            same("the CFA", place.stack_pointer, cfa);
            same("the return address", place.address, word);
            uint64_t saved_at = 0;
            for (uint32_t i = 0; i < row.count; i++) {
                if (rules[i].reg == 6) saved_at = cfa + (uint64_t)rules[i].offset;
                if (rules[i].kind != DWCHECK_RULE_OFFSET) differs("the kind of a rule that is kept", rules[i].kind, DWCHECK_RULE_OFFSET);
                if (rules[i].reg == 16) same("where the return address is", (uint64_t)rules[i].offset, (uint64_t)-8);
                static const uint8_t may_be_kept[17] = {[3] = 1, [6] = 1, [12] = 1, 1, 1, 1, 1};
                if (rules[i].reg > 16 || !may_be_kept[rules[i].reg]) differs("a register that is kept", rules[i].reg, 6);
            }
            same("whether rbp is saved", place.is_saved != 0, saved_at != 0);
            same("where rbp is", place.frame_pointer, saved_at ? saved_at : from.frame_pointer);
        } else {
            same("the stop", stop, DWCHECK_STOP_RETURN_UNREADABLE);
        }
        if (is_signal) differs("a signal frame's row that is kept", 1, 0);
        same("the column of a row that is kept", row.return_reg, 16);
    } else if (have == DWCHECK_NO_PLACE && module.order == DWCHECK_LITTLE && module.address_size == 8) {
        dwcheck_walk(rows, 1ull << slot % 64, &place, &block, 1, found, 1, &count, &stop);
        same("the stop where no row is kept", stop, DWCHECK_STOP_OTHER);
        if (memcmp(&place, &from, sizeof place)) differs("a place where no row is kept", 1, 0);
    }
    while (n--) *saved[n].at = saved[n].byte;
}

/* ---- any places and blocks, beside a model */

/* The word at an address: of bytes that several blocks have, those of the first one count; none if a byte is in no
   block, or the word goes on past the last address. */
static bool word_at(const dwcheck_block *blocks, size_t n, uint64_t address, uint64_t *word)
{
    *word = 0;
    if (address > UINT64_MAX - 7) return false;
    for (int i = 0; i < 8; i++) {
        size_t b = 0;
        while (b < n && (address + (uint64_t)i < blocks[b].base || address + (uint64_t)i - blocks[b].base >= blocks[b].length)) b++;
        if (b == n) return false;
        *word |= (uint64_t)blocks[b].bytes[address + (uint64_t)i - blocks[b].base] << 8 * i;
    }
    return true;
}

/* The rows of the model: for each key what an entry may say. */
static uint64_t keys[KEYS];
static struct { int cfa_register; int64_t cfa_offset, rbp; bool is_last; } model[KEYS];
static uint8_t section[8192];

/* The set in which the row of a key is searched for (crates/dw_cached_rows/src/cached_rows.rt). */
static uint64_t set_of(uint64_t key) { return (key * UINT64_C(0x9e3779b97f4a7c15)) >> 56; }

/* A section with a function for each key: its CFA, and where rbp is saved. */
static void make_rows(void)
{
    size_t length = 0;
    static const uint8_t cie[24] = {20, 0, 0, 0, 0, 0, 0, 0, 1, 'z', 'R', 0, 1, 0x78, 16, 1, 0x1b, 0x0c, 7, 8, 0x90, 1};
    const uint64_t address = 0x40000000;
    memcpy(section, cie, 24), length = 24;
    uint8_t in_set[256] = {0};
    memset(&filled, 0, sizeof filled);
    for (int i = 0; i < KEYS; i++) {
        do keys[i] = 0x40100001 + 4096 * (uint64_t)i + below(1000);
        while (in_set[set_of(keys[i])] == 4); /* a fifth one would take the place of another */
        in_set[set_of(keys[i])]++;
        uint32_t fde[4] = {24, (uint32_t)length + 4, (uint32_t)(keys[i] - 1 - (address + length + 8)), 100};
        uint8_t *program = section + length + 16;
        memcpy(section + length, fde, 16), memset(program, 0, 12), length += 28;
        model[i].cfa_register = below(3) ? 7 : 6, model[i].is_last = below(40) == 0, model[i].cfa_offset = 8 * (1 + (int64_t)below(12)), model[i].rbp = 0;
        if (model[i].is_last) {
            memcpy(program, "\0\x07\x10", 3);
            model[i].cfa_register = 7;
        } else {
            program[1] = 0x0c, program[2] = (uint8_t)model[i].cfa_register, program[3] = (uint8_t)model[i].cfa_offset;
            if (below(2)) program[4] = 0x86, program[5] = (uint8_t)(2 + below(9)), model[i].rbp = -8 * program[5];
        }
    }
    const dwcheck_module module = {.frame = section, .frame_length = length, .address_size = 8, .kind = DWCHECK_EH_FRAME, .section_address = address};
    const dwcheck_header none = {NULL, 0, 0};
    dwcheck_fault fault;
    for (uint32_t i = 0; i < KEYS; i++) same("the fill of a row", dwcheck_rows_fill(&filled, i, &module, &none, keys[i] - 1, &fault), DWCHECK_DONE);
}

static uint64_t walked, walk_stops[8];

static void walk_anywhere(dwcheck_rows *rows, uint8_t *memory[BLOCKS])
{
    dwcheck_block blocks[BLOCKS];
    size_t n = below(BLOCKS + 1);
    const uint64_t centers[] = {0, 0 - (uint64_t)PAGE, 0 - below(2 * PAGE), (uint64_t)memory[0], 0x7fffffffffff0000, any()};
    const uint64_t center = centers[below(6)];
    for (size_t i = 0; i < n; i++) {
        size_t length = below(8) ? PAGE : below(PAGE + 1);
        blocks[i] = (dwcheck_block){center + below(3) * (below(2) ? 8 * below(512) : below(PAGE)), memory[i] + PAGE - length, length};
        for (int j = 0; j < 40; j++) {
            uint64_t word = below(6) ? keys[below(KEYS)] : below(2) ? center + 8 * below(1024) : any();
            uint64_t at = below(PAGE - 7);
            memcpy(memory[i] + (below(8) ? at / 8 * 8 : at), &word, 8);
        }
    }
    dwcheck_place place = {.address = any(), .key = below(20) ? keys[below(KEYS)] : below(2) ? 0 : any(), .stack_pointer = center + 8 * below(1024) + (below(8) ? 0 : below(8)),
                           .frame_pointer = below(8) ? center + 8 * below(1024) : any(), .is_saved = below(4) ? 0 : (uint32_t)any(), .reserved = (uint32_t)any()};
    uint64_t found[ROOM], want[ROOM], confirmed = below(4) ? UINT64_MAX : any() | any(), rbp, word;
    size_t room = below(4) ? ROOM : below(ROOM), count, steps = 0;
    uint32_t stop, reason;
    dwcheck_place at = place;
    for (;;) { /* the model's walk */
        if (steps == room) { reason = DWCHECK_STOP_LIMIT; break; }
        int i = 0;
        while (i < KEYS && keys[i] != at.key) i++;
        if (i == KEYS || !(confirmed >> i & 1)) { reason = DWCHECK_STOP_MISSING; break; }
        if (model[i].is_last) { want[steps++] = at.address, reason = DWCHECK_STOP_RETURN_UNDEFINED; break; }
        rbp = at.frame_pointer;
        if (model[i].cfa_register == 6 && at.is_saved && !word_at(blocks, n, at.frame_pointer, &rbp)) { reason = DWCHECK_STOP_OTHER; break; }
        uint64_t cfa = (model[i].cfa_register == 6 ? rbp : at.stack_pointer) + (uint64_t)model[i].cfa_offset;
        want[steps++] = at.address;
        if (!word_at(blocks, n, cfa - 8, &word)) { reason = DWCHECK_STOP_RETURN_UNREADABLE; break; }
        at.address = at.key = word, at.stack_pointer = cfa;
        if (model[i].rbp) at.frame_pointer = cfa + (uint64_t)model[i].rbp, at.is_saved = 1;
    }
    memset(found, 0x55, sizeof found);
    dwcheck_walk(rows, confirmed, &place, n ? blocks : NULL, n, found, room, &count, &stop);
    walked += count, walk_stops[stop & 7]++;
    same("the stop", stop, reason);
    same("the number of frames", count, steps);
    for (size_t i = 0; i < count && i < steps; i++) same("an address", found[i], want[i]);
    for (size_t i = count; i < ROOM; i++) same("an address that isn't written", found[i], 0x5555555555555555);
    if (stop == DWCHECK_STOP_LIMIT || stop == DWCHECK_STOP_MISSING || stop == DWCHECK_STOP_OTHER) {
        same("the address of the place", place.address, at.address), same("its key", place.key, at.key);
        same("its rsp", place.stack_pointer, at.stack_pointer), same("its rbp", place.frame_pointer, at.frame_pointer);
        same("whether rbp is saved", place.is_saved != 0, at.is_saved != 0);
    }
}

/* ---- lengths that no array has: the walk ends before it comes to their ends */
static void claim_lengths(void)
{
    uint64_t words[4] = {keys[0], keys[0], keys[0], 0}, found[8];
    size_t count;
    uint32_t stop;
    for (int shift = 40; shift < 64; shift++) {
        const dwcheck_block block = {0x7000, (const uint8_t *)words, (size_t)1 << shift};
        dwcheck_place place = {.address = 1, .key = keys[0], .stack_pointer = 0x7000};
        model[0].cfa_offset = 8; /* as make_claimed has it */
        dwcheck_walk(&filled, UINT64_MAX, &place, &block, 1, found, (size_t)1 << shift, &count, &stop);
        same("the stop of claimed lengths", stop, DWCHECK_STOP_MISSING);
        same("their frames", count, 4);
    }
}

static void make_claimed(void)
{
    static uint8_t bytes[52] = {20, 0, 0, 0, 0, 0, 0, 0, 1, 'z', 'R', 0, 1, 0x78, 16, 1, 0x1b, 0x0c, 7, 8, 0x90, 1, 0, 0, 16, 0, 0, 0, 28, 0, 0, 0, 0, 0, 0, 0, 9};
    const dwcheck_module module = {.frame = bytes, .frame_length = 44, .address_size = 8, .kind = DWCHECK_EH_FRAME, .section_address = keys[0] - 1 - 32};
    const dwcheck_header none = {NULL, 0, 0};
    dwcheck_fault fault;
    same("the fill of a claimed row", dwcheck_rows_fill(&filled, 0, &module, &none, keys[0] - 1, &fault), DWCHECK_DONE);
}

/* ---- rows of another process: this program's, which was loaded elsewhere */
static void other_process(const char *program, dwcheck_rows *rows, uint8_t *memory[BLOCKS])
{
    char command[4096];
    snprintf(command, sizeof command, "'%s' --rows", program);
    FILE *from = popen(command, "r");
    if (!from || fread(rows, 1, sizeof *rows, from) != sizeof *rows) differs("the rows of another process", 0, sizeof *rows);
    if (from) pclose(from);
    for (int i = 0; i < 20000; i++) {
        uint64_t *words = (uint64_t *)memory[0];
        uint64_t found[ROOM];
        size_t count, room = below(ROOM);
        uint32_t stop;
        for (int j = 0; j < PAGE / 8; j++) { /* any of the words in the rows are keys, and many others aren't */
            uint64_t key = rows->words[below(sizeof rows->words / 8)];
            words[j] = key > 1 << 20 && below(8) ? key : (uint64_t)words + 8 * below(512);
        }
        const dwcheck_block block = {(uint64_t)words, memory[0], PAGE};
        dwcheck_place place = {words[1], words[2], (uint64_t)words + 8 * below(512), (uint64_t)words + 8 * below(512), (uint32_t)below(2), 0};
        dwcheck_walk(rows, UINT64_MAX, &place, &block, 1, found, room, &count, &stop);
        if (count > room) differs("a count", count, room);
        walked += count;
    }
}

int main(int argc, char **argv)
{
    if (argc < 2) return 2;
    random_state = (argc > 2 ? strtoull(argv[2], NULL, 10) : 1) * UINT64_C(0x9e3779b97f4a7c15) + 1;
    read_library();
    uint8_t *memory[BLOCKS];
    for (int i = 0; i < BLOCKS; i++) memory[i] = guarded(PAGE, true);
    dwcheck_rows *rows = (dwcheck_rows *)guarded(sizeof *rows, true);
    if (!strcmp(argv[1], "--rows")) {
        dwcheck_fault fault;
        for (int i = 0; i < 2000; i++) {
            size_t k = below(record_count);
            dwcheck_rows_fill(rows, 1, &library, &table, starts[k] + below(20), &fault);
        }
        return fwrite(rows, 1, sizeof *rows, stdout) != sizeof *rows;
    }
    uint64_t rounds = strtoull(argv[1], NULL, 10);
    other_process(argv[0], rows, memory);
    for (rounds_done = 0; rounds_done < rounds; rounds_done++) fill_damaged(rows);
    for (rounds_done = 0; rounds_done < rounds; rounds_done++) {
        if (rounds_done % 1000 == 0) make_rows();
        *rows = filled;
        if (below(2)) /* the guesses at the end may be any */
            for (int i = 0; i < 100; i++) rows->words[3072 + below(257)] = any();
        walk_anywhere(rows, memory);
    }
    make_rows();
    make_claimed();
    claim_lengths();
    printf("hostile: %lu fills of damaged sections: done %lu, refused %lu, no room %lu, bad target %lu, too long %lu, bad kind %lu, none %lu, no place %lu, no table %lu\n",
           (unsigned long)rounds, (unsigned long)damaged[0], (unsigned long)damaged[1], (unsigned long)damaged[3], (unsigned long)damaged[4], (unsigned long)damaged[5],
           (unsigned long)damaged[6], (unsigned long)damaged[7], (unsigned long)damaged[10], (unsigned long)damaged[11]);
    printf("hostile: %lu walks, %lu frames; stops: limit %lu, undefined %lu, unreadable %lu, missing %lu, other %lu: %lu wrong\n", (unsigned long)rounds, (unsigned long)walked,
           (unsigned long)walk_stops[0], (unsigned long)walk_stops[2], (unsigned long)walk_stops[3], (unsigned long)walk_stops[5], (unsigned long)walk_stops[6], (unsigned long)wrong);
    return wrong != 0;
}
