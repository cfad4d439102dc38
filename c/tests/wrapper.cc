// Tests dwcheck.hpp beside dwcheck.h, and that the frames are a range as the standard library knows it. With
// AS_MODULE, both headers come as the module dwcheck.
#ifndef AS_MODULE
#include <dwcheck.hpp>
#endif

#include <cstdio>
#include <cstring>
#include <string>
#include <type_traits>
#include <vector>
#ifdef AS_MODULE
import dwcheck;
#endif
#if __cplusplus >= 202002L
#include <ranges>
static_assert(std::ranges::input_range<dwcheck::walk>);
#endif

static_assert(!std::is_copy_constructible_v<dwcheck::process> && std::is_nothrow_move_constructible_v<dwcheck::process>);
static_assert(std::is_nothrow_move_assignable_v<dwcheck::process>);

static int wrong;
#define CHECK(what) ((what) ? (void)0 : (void)(wrong++, std::printf("%d: %s\n", __LINE__, #what)))

static const std::uint64_t LOAD = 0x100000, STACK = 0x7ffc0000;

// One CIE, and one FDE for the addresses 0x1000 to 0x103f: the CFA is register 7 plus 16, the return
// address is at CFA - 8, and register 6 at CFA - 16.
static std::vector<std::uint8_t> section() {
    return {0x14, 0, 0, 0, 0xff, 0xff, 0xff, 0xff, 4, 0, 8, 0, 1, 0x78, 16, 0x0c, 7, 16, 0x90, 1, 0x86, 2, 0, 0,
            0x14, 0, 0, 0, 0, 0, 0, 0, 0, 0x10, 0, 0, 0, 0, 0, 0, 0x40, 0, 0, 0, 0, 0, 0, 0};
}

struct thread {
    std::vector<std::uint64_t> stack;
    std::vector<std::uint64_t> contents = std::vector<std::uint64_t>(17);
    std::vector<std::uint8_t> known = {0xff, 0xff, 1};
    std::vector<std::uint16_t> kept = {3, 6, 12};
    dwcheck_block block = {};
    dwcheck_state state = {};

    explicit thread(std::size_t depth) {
        for (std::size_t i = 0; i < depth; i++) {
            stack.push_back(i);
            stack.push_back(i + 1 < depth ? LOAD + 0x1010 + i % 32 : 5);
        }
        contents[7] = STACK;
        block = {STACK, reinterpret_cast<const std::uint8_t *>(stack.data()), stack.size() * 8};
        state.contents = contents.data(), state.contents_length = contents.size();
        state.known = known.data(), state.known_length = known.size();
        state.blocks = &block, state.blocks_length = 1;
        state.kept = kept.data(), state.kept_length = kept.size();
        state.stack_pointer = 7, state.has_stack_pointer = 1;
    }
    thread(const thread &) = delete;
};

static bool same(const dwcheck_frame &a, const dwcheck_frame &b) { return std::memcmp(&a, &b, sizeof a) == 0; }

static void check_frames(const dwcheck::process &process) {
    thread stopped(20);
    std::vector<dwcheck_frame> walked(40);
    std::size_t count = 0, n = 0;
    std::uint32_t stop = 0;
    dwcheck_fault fault;
    CHECK(dwcheck_backtrace(process.get(), LOAD + 0x1020, &stopped.state, walked.data(), walked.size(), &count, &stop, &fault) ==
          DWCHECK_DONE);
    CHECK(count == 21 && stop == DWCHECK_STOP_NOT_COVERED);
    auto frames = process.frames(LOAD + 0x1020, stopped.state);
    for (const dwcheck_frame &frame : frames) {
        CHECK(same(frame, walked[n++]));
        if (n == 7) break;
    }
    CHECK(frames.stop() == DWCHECK_STOP_LIMIT && frames.cursor().address == walked[7].address);
    for (const dwcheck_frame &frame : frames) CHECK(same(frame, walked[n++]));
    CHECK(n == count && frames.stop() == stop && !frames.why());
    CHECK(frames.begin() == frames.end());

    stopped.kept = {3, 3};
    stopped.state.kept = stopped.kept.data(), stopped.state.kept_length = 2;
    auto refused = process.frames(LOAD + 0x1020, stopped.state);
    CHECK(refused.begin() == refused.end());
    CHECK(refused.why() && refused.why()->status == DWCHECK_REFUSED && refused.why()->fault.within == DWCHECK_IN_ABI);
}

static void check_rows(const dwcheck::process &process) {
    dwcheck::row row;
    std::vector<std::uint16_t> registers;
    CHECK(process.row_at(LOAD + 0x1000, row) && row.start == 0x1000 && row.end == 0x1040 && row.cfa.offset == 16);
    for (const dwcheck_rule &rule : row.rules()) registers.push_back(rule.reg);
    CHECK(registers == std::vector<std::uint16_t>({6, 16}));
    CHECK(!process.row_at(LOAD + 0x1040, row));
    thread stopped(2);
    dwcheck::caller caller;
    CHECK(process.unwind(LOAD + 0x1000, stopped.state, caller));
    CHECK(caller.cfa.value == STACK + 16 && caller.return_address.value == LOAD + 0x1010);
    CHECK(caller.registers().size() == caller.count && caller.registers()[0].number == 3);
    CHECK(process.unwind(LOAD, stopped.state, caller).why().status == DWCHECK_NONE);
}

// The section `eh`, and its .eh_frame_hdr at 0x3000, which leads to its FDE at 24.
static void check_in_place(const std::uint8_t *eh, std::size_t length) {
    const std::uint8_t table[] = {1, 0x1b, 3, 0x3b, 0xfc, 0xef, 0xff, 0xff, 1, 0, 0, 0, 9, 0xe0, 0xff, 0xff, 0x18, 0xf0, 0xff, 0xff};
    dwcheck_header header = {table, sizeof table, 0x3000};
    const dwcheck::in_place section(dwcheck::eh_module_of(eh, length, 0x2000, LOAD), header);
    dwcheck::row row;
    const auto found = section.row_at(LOAD + 0x100b, row);
    CHECK(found && !*found && row.start == 0x1009 && row.end == 0x100c && row.rules()[0].reg == 16);
    CHECK(section.row_at(LOAD + 0x100c, row).why().status == DWCHECK_NONE);
    thread stopped(2);
    dwcheck_cursor cursor = {};
    dwcheck_fault fault;
    CHECK(dwcheck_cursor_init(&cursor, LOAD + 0x1009, &stopped.state, 1, &fault) == DWCHECK_DONE);
    const auto frame = section.step(cursor, stopped.state);
    CHECK(frame && frame->address == LOAD + 0x1009 && frame->cfa.value == STACK + 8 && cursor.stage == DWCHECK_CURSOR_CALLER);
    CHECK(dwcheck_cursor_init(&cursor, LOAD + 0x1009, &stopped.state, 1, &fault) == DWCHECK_DONE);
    header.length--;
    CHECK(dwcheck::in_place(dwcheck::eh_module_of(eh, length, 0x2000, LOAD), header).step(cursor, stopped.state).why().status ==
          DWCHECK_NO_TABLE);
}

int main() {
    auto bytes = section();
    CHECK(dwcheck::check(bytes.data(), bytes.size()) && dwcheck::check(nullptr, 0));
    bytes[28] = 1; // the FDE's CIE pointer
    auto refused = dwcheck::check(bytes.data(), bytes.size());
    CHECK(!refused && refused.why().status == DWCHECK_REFUSED && refused.why().fault.offset == 28);
    CHECK(std::string_view(dwcheck::fault_name(refused.why().fault.number)) == "NoSuchCie");
    CHECK(std::string_view(dwcheck::fault_name(0xffff)).empty());
    bytes[28] = 0;

    dwcheck::process process;
    auto added = process.add(dwcheck::module_of(bytes.data(), bytes.size(), LOAD));
    CHECK(added && *added == 1);
    auto again = process.add(dwcheck::module_of(bytes.data(), bytes.size(), LOAD + 1));
    CHECK(!again && again.why().status == DWCHECK_OVERLAPS && again.why().overlapped == 1);
    CHECK(process.module_at(LOAD + 0x1000)->id == 1 && !process.module_at(0));
    check_frames(process);
    check_rows(process);

    // an .eh_frame section at 0x2000, of one function at 0x1009
    const std::uint8_t eh[] = {0x14, 0, 0, 0, 0, 0, 0, 0, 1, 'z', 'R', 0, 1, 0x78, 16, 1, 0x1b, 0x0c, 7, 8, 0x90, 1, 0, 0,
                               0x10, 0, 0, 0, 0x1c, 0, 0, 0, 0xe9, 0xef, 0xff, 0xff, 3, 0, 0, 0, 0, 0, 0, 0, 0, 0, 0, 0};
    auto second = process.add(dwcheck::eh_module_of(eh, 44, 0x2000, 2 * LOAD));
    CHECK(second && process.module_at(2 * LOAD + 0x100b)->id == *second && process.remove(*second));

    check_in_place(eh, 44);

    auto other = process.share();
    CHECK(other && process.remove(1) && !process.remove(1) && !process.module_at(LOAD + 0x1000));
    dwcheck::process moved = std::move(*other);
    process = std::move(moved);
    check_frames(process);
    std::printf("dwcheck.hpp: %d wrong\n", wrong);
    return wrong != 0;
}
