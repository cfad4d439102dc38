/* Tests look-ups in place, dwcheck_row_in and dwcheck_step_in: rows that readelf prints; rows and steps beside
   those of an added module, for each FDE of the C library and for sections with one changed byte; each status;
   headers that lie; and sections and headers cut at memory that can't be read. Prints a line with counts.
   usage: in_place LIBRARY [STEP]
   LIBRARY is the path of the C library. Of the 256 values of a byte, each STEPth is tried. */
#include "in_place.h"

static long requests; /* for memory: the tests are linked with --wrap */
void *__real_malloc(size_t bytes);
void *__real_realloc(void *old, size_t bytes);
void *__wrap_malloc(size_t bytes);
void *__wrap_realloc(void *old, size_t bytes);
void *__wrap_malloc(size_t bytes) { return requests++, __real_malloc(bytes); }
void *__wrap_realloc(void *old, size_t bytes) { return requests++, __real_realloc(old, bytes); }

static int wrong;
#define IS(what, want)                                                                                 \
    do {                                                                                               \
        long long is_ = (long long)(what), want_ = (long long)(want);                                  \
        if (is_ != want_) { wrong++; printf("%d: %s is %lld, not %lld\n", __LINE__, #what, is_, want_); } \
    } while (0)

static const uint64_t LOAD = 0x10000;

/* The sections of tests/library/eh_frame.cases, made by GNU as and ld, with rows that readelf prints. They are
   at 0x2000. The first one has an FDE of 0x1000 to 0x1009 at 32, a record of length 0 at 72, and an FDE of a
   signal frame at 100; each of the others has one FDE of 0x1000 on. */
static const char X86[] =
    "1c00000000000000017a504c5200017810079bed0f00001b1b0c0708900100002400000024000000d8efffff0900000004cf1f0000410e108602430d06412e10"
    "410a410c0708410b000000001400000000000000017a525300017810011b0c07089001001c0000001c0000009defffff03000000000f03770806160302230842"
    "08030000";
static const char AARCH64[] =
    "1400000000000000017a52420004781e011b0c1f00000000200000001c000000e0efffff1800000000412d410e109d029e0142dedd0e00412d000000";
static const char S390X[] =
    "0000001400000000017a520001780e011b0c0fa001000000000000180000001cffffefe00000000c00468e068f05440ec0020000";
static const char I386[] = "1400000000000000017a5200017c08011b0c040488010000140000001c000000e0efffff0200000000410e0885020000";

/* What is looked up in, with a table that leads to all its FDEs, and what the last look-up gave. */
struct lookup {
    struct section section;
    struct table table;
    dwcheck_row row;
    dwcheck_rule rules[DWCHECK_MAX_RULES];
    uint32_t is_signal_frame;
    dwcheck_fault fault;
};

static struct lookup lookup_in(struct section section) {
    struct lookup l = {.section = section, .is_signal_frame = 9};
    const dwcheck_module module = module_at(&section);
    l.table = table_of(&module, HEADER_ADDRESS);
    return l;
}

static uint32_t look_up(struct lookup *l, uint64_t address) {
    const dwcheck_module module = module_at(&l->section);
    const dwcheck_header header = header_at(&l->table);
    long before = requests;
    uint32_t status = dwcheck_row_in(&module, &header, address, &l->row, l->rules, DWCHECK_MAX_RULES, &l->is_signal_frame, &l->fault);
    IS(requests, before);
    return status;
}

/* Whether a look-up gives this row, as text. */
static int has_row(struct lookup *l, uint64_t address, const char *want) {
    char text[400];
    if (look_up(l, LOAD + address) != DWCHECK_DONE) return 0;
    write_row(text, sizeof text, &l->row, l->rules);
    if (strcmp(text, want)) printf("%#llx: %s, not %s\n", (unsigned long long)address, text, want);
    return !strcmp(text, want) && l->row.id == 0 && l->row.cookie == 77 && l->row.load_address == LOAD;
}

static void rows_are_those_of_readelf(void) {
    struct lookup l = lookup_in(section_of(X86, DWCHECK_LITTLE, 8, DWCHECK_EH_FRAME, LOAD));
    IS(has_row(&l, 0x1000, "0x1000..0x1001 cfa=r7+8 r16=[c-8]"), 1); IS(l.row.return_reg, 16); IS(l.is_signal_frame, 0);
    IS(has_row(&l, 0x1003, "0x1001..0x1004 cfa=r7+16 r6=[c-16] r16=[c-8]"), 1);
    IS(has_row(&l, 0x1004, "0x1004..0x1005 cfa=r6+16 r6=[c-16] r16=[c-8]"), 1);
    IS(has_row(&l, 0x1007, "0x1007..0x1008 cfa=r7+8 r6=[c-16] r16=[c-8]"), 1);
    IS(has_row(&l, 0x1008, "0x1008..0x1009 cfa=r6+16 r6=[c-16] r16=[c-8]"), 1); IS(l.is_signal_frame, 0);
    IS(has_row(&l, 0x1009, "0x1009..0x100b cfa=expr(3) r3=expr(2) r16=[c-8]"), 1); IS(l.is_signal_frame, 1);
    IS(memcmp(l.section.bytes + l.row.cfa.offset, "\x77\x08\x06", 3), 0);
    IS(memcmp(l.section.bytes + l.rules[0].offset, "\x23\x08", 2), 0);
    IS(has_row(&l, 0x100b, "0x100b..0x100c cfa=expr(3) r3=s r16=[c-8]"), 1);
    l = lookup_in(section_of(S390X, DWCHECK_BIG, 8, DWCHECK_EH_FRAME, LOAD));
    IS(has_row(&l, 0x1009, "0x1006..0x100a cfa=r15+160 r14=[c-48] r15=[c-40]"), 1); IS(l.row.return_reg, 14);
    l = lookup_in(section_of(I386, DWCHECK_LITTLE, 4, DWCHECK_EH_FRAME, LOAD));
    IS(has_row(&l, 0x1001, "0x1001..0x1002 cfa=r4+8 r5=[c-8] r8=[c-4]"), 1);
    l = lookup_in(section_of(AARCH64, DWCHECK_LITTLE, 8, DWCHECK_EH_FRAME_AARCH64, LOAD));
    IS(has_row(&l, 0x100f, "0x1008..0x1010 cfa=r31+16 r29=[c-16] r30=[c-8]"), 1);
    l.section.bytes[42] = 0x2c; /* negate_ra_state_with_pc, which other processors don't have */
    IS(has_row(&l, 0x1004, "0x1004..0x1008 cfa=r31+0"), 1);
    l.section.module.kind = DWCHECK_EH_FRAME;
    IS(look_up(&l, LOAD + 0x1004), DWCHECK_REFUSED); IS(l.fault.number, 12); IS(l.fault.offset, 42); IS(l.fault.within, DWCHECK_IN_FRAME);
}

/* Only the rules that fit are written, and NULL may be passed for empty arrays. */
static void arrays_may_be_short(void) {
    struct lookup l = lookup_in(section_of(X86, DWCHECK_LITTLE, 8, DWCHECK_EH_FRAME, LOAD));
    const dwcheck_header header = header_at(&l.table), none = {NULL, 0, HEADER_ADDRESS};
    dwcheck_module module = module_at(&l.section);
    l.rules[1].kind = 99;
    IS(dwcheck_row_in(&module, &header, LOAD + 0x1003, &l.row, l.rules, 1, &l.is_signal_frame, &l.fault), DWCHECK_DONE);
    IS(l.row.count, 2); IS(l.rules[0].reg, 6); IS(l.rules[1].kind, 99);
    IS(dwcheck_row_in(&module, &header, LOAD + 0x1003, &l.row, NULL, 0, &l.is_signal_frame, &l.fault), DWCHECK_DONE); IS(l.row.count, 2);
    IS(dwcheck_row_in(&module, &none, LOAD + 0x1003, &l.row, NULL, 0, &l.is_signal_frame, &l.fault), DWCHECK_DONE); IS(l.row.count, 2);
    module.frame = NULL, module.frame_length = 0; /* the table leads past its end */
    IS(dwcheck_row_in(&module, &header, LOAD + 0x1003, &l.row, NULL, 0, &l.is_signal_frame, &l.fault), DWCHECK_NONE);
    IS(dwcheck_row_in(&module, &none, LOAD + 0x1003, &l.row, NULL, 0, &l.is_signal_frame, &l.fault), DWCHECK_NONE);
}

/* Looks up where nothing is written: the status must be `status`. */
static void fails(struct lookup *l, uint64_t address, uint32_t status) {
    memset(&l->row, 0x55, sizeof l->row); memset(l->rules, 0x55, sizeof l->rules);
    memset(&l->fault, 0x55, sizeof l->fault);
    l->is_signal_frame = 9;
    struct lookup before = *l;
    IS(look_up(l, address), status);
    if (status == DWCHECK_REFUSED) before.fault = l->fault;
    IS(memcmp(l, &before, sizeof before), 0);
}

static void statuses_come_in_order(void) {
    struct lookup l = lookup_in(section_of(X86, DWCHECK_LITTLE, 8, DWCHECK_EH_FRAME, LOAD));
    size_t length = l.section.module.frame_length;
    fails(&l, LOAD + 0xfff, DWCHECK_NONE); fails(&l, LOAD + 0x100c, DWCHECK_NONE); fails(&l, 0x1000, DWCHECK_NONE);
    l.table.length--;
    fails(&l, LOAD + 0x1000, DWCHECK_NO_TABLE);
    l.section.module.address_size = 5; fails(&l, LOAD + 0x1000, DWCHECK_BAD_TARGET);
    l.section.module.address_size = 8; l.section.module.order = 2; fails(&l, LOAD + 0x1000, DWCHECK_BAD_TARGET);
    l.section.module.kind = DWCHECK_DEBUG_FRAME; fails(&l, LOAD + 0x1000, DWCHECK_BAD_KIND);
    l.section.module.kind = 3; fails(&l, LOAD + 0x1000, DWCHECK_BAD_KIND);
    l.section.module.frame_length = (size_t)1 << 32; fails(&l, LOAD + 0x1000, DWCHECK_TOO_LONG);
    l = lookup_in(section_of(X86, DWCHECK_LITTLE, 8, DWCHECK_EH_FRAME, LOAD));
    l.section.bytes[length - 1] = 0x3f; /* no instruction: in the program of the second FDE alone */
    fails(&l, LOAD + 0x1009, DWCHECK_REFUSED); IS(l.fault.number, 12); IS(l.fault.offset, length - 1);
    IS(look_up(&l, LOAD + 0x1008), DWCHECK_DONE);
    l.section.bytes[25] = 0x3f; /* in the program of the first FDE's CIE */
    fails(&l, LOAD + 0x1008, DWCHECK_REFUSED); IS(l.fault.number, 12); IS(l.fault.offset, 25);
    l.section.bytes[8] = 2; /* no version: then the FDE has no CIE that can be read */
    fails(&l, LOAD + 0x1008, DWCHECK_REFUSED); IS(l.fault.number, 9); IS(l.fault.offset, 36);
}

/* An FDE of 0x1234 to 0x128a at 24, after a CIE whose CFA is r7+8. Its program, at 41, is `program`. */
static struct lookup lookup_with(const char *program) {
    char hex[1400];
    size_t used = 13 + strlen(program) / 2, length = (used + 3) / 4 * 4;
    snprintf(hex, sizeof hex, "1400000000000000017a5200017810011b0c070890010000%02zx%02zx00001c00000014f2ffff5600000000%s",
             length & 0xff, length >> 8, program);
    for (; used < length; used++) strcat(hex, "00");
    return lookup_in(section_of(hex, DWCHECK_LITTLE, 8, DWCHECK_EH_FRAME, LOAD));
}

/* The rows of such FDEs fit an added module: rules of register 6, with an expression of as many bytes each. */
static void expressions_have_room_up_to_a_bound(void) {
    static const struct { int count, bytes; uint32_t status; } cases[] = {
        {1, 16, DWCHECK_DONE}, {1, 17, DWCHECK_NO_ROOM}, {32, 1, DWCHECK_DONE}, {33, 1, DWCHECK_NO_ROOM}};
    for (size_t i = 0; i < sizeof cases / sizeof *cases; i++) {
        char program[600] = "", one[60];
        uint64_t id;
        dwcheck_fault fault;
        dwcheck_process p = DWCHECK_CLOSED;
        snprintf(one, sizeof one, "1606%02x%.*s", cases[i].bytes, 2 * cases[i].bytes, "3196969696969696969696969696969696");
        for (int n = 0; n < cases[i].count; n++) strcat(program, one);
        struct lookup l = lookup_with(program);
        const dwcheck_module module = module_at(&l.section);
        IS(dwcheck_process_add(&p, &module, &id, &fault), DWCHECK_DONE);
        IS(look_up(&l, LOAD + 0x1234), cases[i].status);
        if (cases[i].status == DWCHECK_NO_ROOM) fails(&l, LOAD + 0x1234, DWCHECK_NO_ROOM);
        dwcheck_process_close(&p);
    }
}

/* A header that isn't as linkers write it has no table; one that says something else leads to no row, or to the
   record that it names. */
static void headers_that_lie(void) {
    struct lookup l = lookup_in(section_of(X86, DWCHECK_LITTLE, 8, DWCHECK_EH_FRAME, LOAD)), other = l;
    for (int i = 0; i < 4; i++)
        for (int byte = 0; byte < 256; byte++) {
            other.table.bytes[i] = (uint8_t)byte;
            IS(look_up(&other, LOAD + 0x1000), byte == l.table.bytes[i] ? DWCHECK_DONE : DWCHECK_NO_TABLE);
            other.table.bytes[i] = l.table.bytes[i];
        }
    memset(other.table.bytes + 8, 0xff, 4); /* 2^32 - 1 entries */
    fails(&other, LOAD + 0x1000, DWCHECK_NO_TABLE);
    memset(other.table.bytes + 8, 0, 4); /* none */
    fails(&other, LOAD + 0x1000, DWCHECK_NONE);
    static const struct { uint64_t first, first_record, second, second_record; uint32_t low, high; } cases[] = {
        {0x1000, 32, 0x1009, 100, DWCHECK_DONE, DWCHECK_DONE},    /* right */
        {0x1008, 100, 0x1000, 32, DWCHECK_DONE, DWCHECK_NONE},    /* out of order: no entry but the last is before its next */
        {0x1000, 100, 0x1009, 32, DWCHECK_NONE, DWCHECK_NONE},    /* the other FDE */
        {0x1000, 32, 0x1009, 32, DWCHECK_DONE, DWCHECK_NONE},     /* no entry leads to the second FDE */
        {0x1000, 0, 0x1009, 72, DWCHECK_NONE, DWCHECK_NONE},      /* a CIE, and a record of length 0 */
        {0x1000, 36, 0x1009, 100, DWCHECK_REFUSED, DWCHECK_DONE}, /* into a record: its length is that of a CIE */
        {0x1000, 131, 0x1009, 129, DWCHECK_REFUSED, DWCHECK_REFUSED},  /* the section's last bytes */
        {0x1000, 132, 0x1009, 1 << 20, DWCHECK_NONE, DWCHECK_NONE},    /* past its end */
        {0x1000, (uint64_t)-4, 0x1009, (uint64_t)-0x2000, DWCHECK_NONE, DWCHECK_NONE}}; /* before it begins */
    for (size_t i = 0; i < sizeof cases / sizeof *cases; i++) {
        const struct entry entries[] = {{cases[i].first, cases[i].first_record}, {cases[i].second, cases[i].second_record}};
        other.table = table_with(&other.section.module, HEADER_ADDRESS, entries, 2);
        IS(look_up(&other, LOAD + 0x1000), cases[i].low);
        IS(look_up(&other, LOAD + 0x1009), cases[i].high);
    }
}

/* The status of a look-up in the first bytes of X86, by the first bytes of its header; or by going through the
   records, which begin at 0, 32, 72, 76 and 100, if there is no header. */
static uint32_t status_in(size_t length, size_t header_length, size_t table_length, uint64_t address) {
    size_t at = address < 0x1009 ? 32 : 100, end = address < 0x1009 ? 72 : 132; /* the record of the FDE */
    if (header_length > 0 && header_length < table_length) return DWCHECK_NO_TABLE;
    if (length >= end) return DWCHECK_DONE;
    if (header_length > 0) return length > at ? DWCHECK_REFUSED : DWCHECK_NONE;
    return length == 0 || length == 32 || length == 72 || length == 76 || length == 100 ? DWCHECK_NONE : DWCHECK_REFUSED;
}

/* Looks up addresses in a section and by a header of each length, whose ends are followed by memory that can't
   be read. */
static void nothing_is_read_past_the_ends(void) {
    struct lookup whole = lookup_in(section_of(X86, DWCHECK_LITTLE, 8, DWCHECK_EH_FRAME, LOAD));
    uint8_t *ends[2];
    for (int i = 0; i < 2; i++) {
        uint8_t *pages = mmap(NULL, 8192, PROT_READ | PROT_WRITE, MAP_PRIVATE | MAP_ANONYMOUS, -1, 0);
        if (pages == MAP_FAILED || mprotect(pages + 4096, 4096, PROT_NONE)) abort();
        ends[i] = pages + 4096;
    }
    for (size_t length = 0; length <= whole.section.module.frame_length; length++)
        for (size_t header_length = 0; header_length <= whole.table.length; header_length++) {
            dwcheck_module module = module_at(&whole.section);
            dwcheck_header header = {ends[1] - header_length, header_length, HEADER_ADDRESS};
            module.frame = ends[0] - length, module.frame_length = length;
            memcpy(ends[0] - length, whole.section.bytes, length);
            memcpy(ends[1] - header_length, whole.table.bytes, header_length);
            for (uint64_t address = 0x1000; address < 0x100c; address++)
                IS(dwcheck_row_in(&module, &header, LOAD + address, &whole.row, whole.rules, 4, &whole.is_signal_frame, &whole.fault),
                   status_in(length, header_length, whole.table.length, address));
        }
}

/* Compares the look-up of an address with what an added module gives. Returns whether there is a row. */
static int compare_at(const dwcheck_process *process, struct lookup *l, uint64_t address, const dwcheck_module *module,
                       const dwcheck_header *header) {
    dwcheck_row row;
    dwcheck_rule rules[DWCHECK_MAX_RULES];
    uint32_t is_signal_frame = 9, status = dwcheck_row_at(process, address, &row, rules, DWCHECK_MAX_RULES);
    IS(dwcheck_row_in(module, header, address, &l->row, l->rules, DWCHECK_MAX_RULES, &l->is_signal_frame, &l->fault), status);
    if (status != DWCHECK_DONE) return 0;
    IS(dwcheck_is_signal_frame(process, address, &is_signal_frame), DWCHECK_DONE); IS(l->is_signal_frame, is_signal_frame);
    row.id = 0;
    IS(memcmp(&row, &l->row, sizeof row), 0);
    IS(memcmp(rules, l->rules, row.count * sizeof *rules), 0);
    return 1;
}

/* Compares each row of each FDE, and the addresses around it; and some without the header. Returns the number of
   rows, or -1 if the section is refused. */
static long compare_all(const dwcheck_module *module, const dwcheck_header *header) {
    static struct lookup l;
    dwcheck_process process = DWCHECK_CLOSED;
    dwcheck_record record;
    uint64_t id;
    long rows = 0, fdes = 0;
    const dwcheck_header none = {NULL, 0, 0};
    if (dwcheck_process_add(&process, module, &id, &l.fault) != DWCHECK_DONE) return -1;
    for (uint64_t at = 0; dwcheck_record_at(module, at, &record, &l.fault) == DWCHECK_DONE; at = record.next) {
        if (record.kind != DWCHECK_RECORD_FDE) continue;
        uint64_t address = module->load_address + record.start, end = module->load_address + record.end;
        compare_at(&process, &l, address - 1, module, header);
        while (address < end && compare_at(&process, &l, address, module, header)) {
            uint64_t next = module->load_address + l.row.end;
            compare_at(&process, &l, next - 1, module, header);
            address = next, rows++;
        }
        compare_at(&process, &l, end, module, header);
        if (fdes++ % 16) continue; /* to go through the records takes long */
        compare_at(&process, &l, module->load_address + record.start, module, &none);
        compare_at(&process, &l, end, module, &none);
    }
    dwcheck_process_close(&process);
    return rows;
}

/* The rows of a library, whose section is used where its file has it. */
static long rows_of_the_library(const char *path) {
    struct file file = file_at(path);
    dwcheck_module module = {.load_address = LOAD, .cookie = 77, .room = SIZE_MAX, .address_size = 8, .kind = DWCHECK_EH_FRAME};
    const Elf64_Shdr *frame = section_named(&file, ".eh_frame"), *table = section_named(&file, ".eh_frame_hdr");
    const dwcheck_header header = {file.bytes + table->sh_offset, table->sh_size, table->sh_addr};
    module.frame = file.bytes + frame->sh_offset, module.frame_length = frame->sh_size, module.section_address = frame->sh_addr;
    return compare_all(&module, &header);
}

/* A section with one changed byte that can be added has the rows of the added module, by a table that leads to
   all its FDEs. Each `step`th value of the byte is tried. Returns how many such sections there are. */
static long rows_of_changed_sections(int step) {
    long accepted = 0;
    struct section section = section_of(X86, DWCHECK_LITTLE, 8, DWCHECK_EH_FRAME, LOAD);
    for (size_t i = 0; i < section.module.frame_length; i++)
        for (int byte = 0; byte < 256; byte += step) {
            struct section changed = section;
            changed.bytes[i] = (uint8_t)byte;
            const dwcheck_module module = module_at(&changed);
            const struct table table = table_of(&module, HEADER_ADDRESS);
            const dwcheck_header header = header_at(&table);
            if (!table.leads_to_all) continue;
            accepted += compare_all(&module, &header) >= 0;
        }
    return accepted;
}

/* A function of 0x1234 to 0x128a, whose rows are `program` after CFA r7+8; its module is loaded at 0x20000. */
static struct lookup function_with(const char *program) {
    struct lookup l = lookup_with(program);
    l.section.module.load_address = 2 * LOAD;
    return l;
}

/* A stack of such a function: it is called by a signal frame of X86, which interrupted it at its first address. */
static const uint64_t words[] = {LOAD + 0x100a, 0, 0x7f20, 2 * LOAD + 0x1234, 2 * LOAD + 0x1239};
static const dwcheck_block stack = {0x7f00, (const uint8_t *)words, sizeof words};
static const uint64_t contents[8] = {[7] = 0x7f00};
static const uint8_t known[] = {0x80};
static const dwcheck_state state = {.contents = contents, .contents_length = 8, .known = known, .known_length = 1, .blocks = &stack,
                                    .blocks_length = 1, .stack_pointer = 7, .has_stack_pointer = 1};

static uint32_t step(struct lookup *l, dwcheck_cursor *cursor, dwcheck_frame *frame) {
    const dwcheck_module module = module_at(&l->section);
    const dwcheck_header header = header_at(&l->table);
    long before = requests;
    uint32_t status = dwcheck_step_in(&module, &header, cursor, &state, frame, &l->fault);
    IS(requests, before);
    return status;
}

static int is_same(const dwcheck_cursor *a, const dwcheck_cursor *b) {
    for (int i = 0; i < 96; i++)
        if (!a->known[i] != !b->known[i] || (a->known[i] && a->contents[i] != b->contents[i])) return 0;
    return a->address == b->address && a->stage == b->stage;
}

/* Steps over the stack give what those of a process with both modules give: four frames, of which the third one is
   looked up at its own address, and the last one's return address isn't known. */
static void steps_are_those_of_a_process(void) {
    static const struct { uint64_t address, cfa; uint32_t stage; } want[] = {
        {2 * LOAD + 0x1240, 0x7f08, DWCHECK_CURSOR_CALLER}, {LOAD + 0x100a, 0x7f20, DWCHECK_CURSOR_EXACT},
        {2 * LOAD + 0x1234, 0x7f28, DWCHECK_CURSOR_CALLER}, {2 * LOAD + 0x1239, 0x7f30, DWCHECK_STOP_RETURN_UNREADABLE + 1}};
    struct lookup signal = lookup_in(section_of(X86, DWCHECK_LITTLE, 8, DWCHECK_EH_FRAME, LOAD)), function = function_with("");
    const dwcheck_module modules[] = {module_at(&signal.section), module_at(&function.section)};
    dwcheck_process process = DWCHECK_CLOSED;
    dwcheck_cursor cursor, added;
    dwcheck_frame frame, other;
    dwcheck_fault fault;
    uint64_t id;
    for (int i = 0; i < 2; i++) IS(dwcheck_process_add(&process, &modules[i], &id, &fault), DWCHECK_DONE);
    IS(dwcheck_cursor_init(&cursor, 2 * LOAD + 0x1240, &state, 1, &fault), DWCHECK_DONE);
    added = cursor;
    for (int i = 0; i < 4; i++) {
        IS(cursor.address, want[i].address);
        IS(step(cursor.address < 2 * LOAD ? &signal : &function, &cursor, &frame), DWCHECK_DONE);
        IS(dwcheck_cursor_step(&process, &added, &state, &other), DWCHECK_DONE);
        IS(frame.cfa.value, want[i].cfa); IS(cursor.stage, want[i].stage);
        IS(memcmp(&frame, &other, sizeof frame), 0); IS(is_same(&cursor, &added), 1);
    }
    IS(step(&function, &cursor, &frame), DWCHECK_NONE);
    dwcheck_process_close(&process);
}

/* Where no FDE covers the frame, its walk ends, as in a closed process. */
static void walks_end_where_nothing_is_found(void) {
    struct lookup function = function_with("");
    const dwcheck_process closed = DWCHECK_CLOSED;
    dwcheck_cursor cursor, other;
    dwcheck_frame frame, last;
    IS(dwcheck_cursor_init(&cursor, 2 * LOAD + 0x1234, &state, 0, &function.fault), DWCHECK_DONE);
    other = cursor; /* it is looked up at the address before, where no function is */
    IS(step(&function, &cursor, &frame), DWCHECK_DONE); IS(frame.cfa.kind, DWCHECK_ANSWER_NOT_COVERED);
    IS(cursor.stage, DWCHECK_STOP_NOT_COVERED + 1); IS(cursor.address, 2 * LOAD + 0x1234); IS(cursor.contents[7], 0x7f00);
    IS(dwcheck_cursor_step(&closed, &other, &state, &last), DWCHECK_DONE);
    IS(memcmp(&frame, &last, sizeof frame), 0); IS(memcmp(&cursor, &other, sizeof cursor), 0);
    IS(step(&function, &cursor, &frame), DWCHECK_NONE);
    IS(dwcheck_cursor_init(&cursor, 0, &state, 0, &function.fault), DWCHECK_DONE); /* there is no address before 0 */
    IS(step(&function, &cursor, &frame), DWCHECK_DONE); IS(cursor.stage, DWCHECK_STOP_NOT_COVERED + 1);
}

/* A step that returns this status leaves the cursor and the frame as they were. */
static void does_not_step(struct lookup *l, uint32_t status) {
    dwcheck_cursor cursor, before;
    dwcheck_frame frame, same;
    memset(&frame, 0x55, sizeof frame); memset(&same, 0x55, sizeof same);
    memset(&cursor, 0x55, sizeof cursor);
    IS(dwcheck_cursor_init(&cursor, 2 * LOAD + 0x1240, &state, 1, &l->fault), DWCHECK_DONE);
    before = cursor;
    IS(step(l, &cursor, &frame), status);
    IS(memcmp(&cursor, &before, sizeof cursor), 0); IS(memcmp(&frame, &same, sizeof frame), 0);
}

static void steps_that_fail_change_nothing(void) {
    struct lookup l = function_with("3f"); /* no instruction */
    does_not_step(&l, DWCHECK_REFUSED); IS(l.fault.number, 12); IS(l.fault.offset, 41);
    l = function_with("16061131" "96969696969696969696969696969696"); /* an expression of 17 bytes */
    does_not_step(&l, DWCHECK_NO_ROOM);
    l = function_with("056001"); /* register 96 is saved at CFA - 8, which is known */
    does_not_step(&l, DWCHECK_NO_PLACE);
    l = function_with("");
    l.table.bytes[0] = 2;
    does_not_step(&l, DWCHECK_NO_TABLE);
    l.section.module.order = 2; does_not_step(&l, DWCHECK_BAD_TARGET);
    l.section.module.kind = DWCHECK_DEBUG_FRAME; does_not_step(&l, DWCHECK_BAD_KIND);
    l.section.module.frame_length = (size_t)1 << 32; does_not_step(&l, DWCHECK_TOO_LONG);
}

int main(int argc, char **argv) {
    if (argc < 2) return 2;
    rows_are_those_of_readelf();
    arrays_may_be_short();
    statuses_come_in_order();
    expressions_have_room_up_to_a_bound();
    headers_that_lie();
    nothing_is_read_past_the_ends();
    steps_are_those_of_a_process();
    walks_end_where_nothing_is_found();
    steps_that_fail_change_nothing();
    long rows = rows_of_the_library(argv[1]), changed = rows_of_changed_sections(argc > 2 ? atoi(argv[2]) : 1);
    IS(rows > 10000, 1); IS(changed > 100, 1);
    printf("%ld rows of the C library, %ld changed sections: %d wrong\n", rows, changed, wrong);
    return wrong != 0;
}
