// libdwcheck for C++17 and later: a process that closes itself, results in place of statuses, the frames
// of a stack as a range, and look-ups in place. All of it is inline and calls dwcheck.h, which says what each call
// returns, what it costs, and what the caller ensures. Nothing here throws or allocates.
//
//     dwcheck::process process;
//     auto added = process.add(dwcheck::module_of(section, length, load_address));
//     if (!added) return std::fprintf(stderr, "refused: %u\n", added.why().fault.number);
//     for (const dwcheck_frame &frame : process.frames(address, state)) show(frame.address);
//
// The calls without a class here, such as dwcheck_evaluate and dwcheck_locations, are called as in C.
#ifndef DWCHECK_HPP
#define DWCHECK_HPP

#include <array>
#include <cstddef>
#include <cstdint>
#include <iterator>
#include <optional>
#include <string_view>
#include <utility>
#include <variant>

#include "dwcheck.h"

namespace dwcheck {

// Why a call has no result.
struct failure {
    std::uint32_t status = DWCHECK_NONE; // anything but DWCHECK_DONE
    dwcheck_fault fault = {};            // if `status` is DWCHECK_REFUSED
    std::uint64_t overlapped = 0;        // if it is DWCHECK_OVERLAPS: the id of the module in the way
};

// What a call returns: a value, or why there is none. To read the value of a failure is undefined.
template <class T> class [[nodiscard]] result {
    std::variant<T, failure> either;

public:
    result(T value) noexcept : either(std::in_place_index<0>, std::move(value)) {}
    result(const failure &why) noexcept : either(std::in_place_index<1>, why) {}

    explicit operator bool() const noexcept { return either.index() == 0; }
    T &operator*() noexcept { return *std::get_if<0>(&either); }
    const T &operator*() const noexcept { return *std::get_if<0>(&either); }
    T *operator->() noexcept { return std::get_if<0>(&either); }
    const T *operator->() const noexcept { return std::get_if<0>(&either); }
    const failure &why() const noexcept { return *std::get_if<1>(&either); }
};

// The name of a fault, such as "NoSuchCie"; empty if no fault has the number.
class fault_name {
    std::array<std::uint8_t, 24> text = {};
    std::size_t size = 0;

public:
    explicit fault_name(std::uint32_t number) noexcept { dwcheck_fault_name(number, text.data(), text.size(), &size); }
    operator std::string_view() const noexcept { return {reinterpret_cast<const char *>(text.data()), size}; }
};

// The first fault of two sections, either of which may be empty (dwcheck_check).
inline result<std::monostate> check(const std::uint8_t *frame, std::size_t frame_length, const std::uint8_t *lists = nullptr,
                                    std::size_t lists_length = 0, std::uint32_t order = DWCHECK_LITTLE,
                                    std::uint32_t address_size = 8) noexcept {
    failure why;
    why.status = dwcheck_check(frame, frame_length, lists, lists_length, order, address_size, &why.fault);
    if (why.status == DWCHECK_DONE) return std::monostate();
    return why;
}

// A module whose table has no bound, and which answers for the addresses that its section covers.
inline dwcheck_module module_of(const std::uint8_t *frame, std::size_t frame_length, std::uint64_t load_address,
                                std::uint32_t order = DWCHECK_LITTLE, std::uint32_t address_size = 8) noexcept {
    dwcheck_module module = {};
    module.frame = frame;
    module.frame_length = frame_length;
    module.load_address = load_address;
    module.room = SIZE_MAX;
    module.order = order;
    module.address_size = address_size;
    return module;
}

// The same with an .eh_frame section, whose first byte is at this address as linked. Set DWCHECK_LEAVE_OUT in its kind to
// leave bad records out.
inline dwcheck_module eh_module_of(const std::uint8_t *frame, std::size_t frame_length, std::uint64_t section_address,
                                   std::uint64_t load_address, std::uint32_t order = DWCHECK_LITTLE,
                                   std::uint32_t address_size = 8) noexcept {
    dwcheck_module module = module_of(frame, frame_length, load_address, order, address_size);
    module.kind = DWCHECK_EH_FRAME;
    module.section_address = section_address;
    return module;
}

// Elements that lie one after another, as std::span is in C++20.
template <class T> class elements {
    const T *first;
    std::size_t length;

public:
    elements(const T *data, std::size_t size) noexcept : first(data), length(size) {}
    const T *begin() const noexcept { return first; }
    const T *end() const noexcept { return first + length; }
    std::size_t size() const noexcept { return length; }
    const T &operator[](std::size_t i) const noexcept { return first[i]; }
};

// A row with its rules, in ascending order of registers.
struct row : dwcheck_row {
    std::array<dwcheck_rule, DWCHECK_MAX_RULES> room;

    elements<dwcheck_rule> rules() const noexcept { return {room.data(), count}; }
};

// A caller with its registers, in ascending order.
struct caller : dwcheck_caller {
    std::array<dwcheck_register, DWCHECK_MAX_REGISTERS> room;

    elements<dwcheck_register> registers() const noexcept { return {room.data(), static_cast<std::size_t>(count)}; }
};

// The frames of a stack, innermost first, each found by a step of a cursor. A loop over them can be left
// and continued by another one, which begins at the next frame. The process, the state and what the
// state points to must outlive the walk, and the walk its iterators.
class walk {
    const dwcheck_process *process = nullptr;
    const dwcheck_state *state = nullptr;
    dwcheck_cursor place = {};
    dwcheck_frame frame = {};
    failure ended;

    bool step() noexcept {
        if (ended.status == DWCHECK_DONE) ended.status = dwcheck_cursor_step(process, &place, state, &frame);
        return ended.status == DWCHECK_DONE;
    }

public:
    struct end_of_walk {};

    class iterator {
        walk *of = nullptr;

        friend class walk;
        explicit iterator(walk *frames) noexcept : of(frames) { ++*this; }

    public:
        using iterator_category = std::input_iterator_tag;
        using value_type = dwcheck_frame;
        using difference_type = std::ptrdiff_t;
        using pointer = const dwcheck_frame *;
        using reference = const dwcheck_frame &;

        iterator() noexcept = default;
        reference operator*() const noexcept { return of->frame; }
        pointer operator->() const noexcept { return &of->frame; }
        iterator &operator++() noexcept {
            if (!of->step()) of = nullptr;
            return *this;
        }
        void operator++(int) noexcept { ++*this; }
        friend bool operator==(const iterator &i, end_of_walk) noexcept { return !i.of; }
        friend bool operator!=(const iterator &i, end_of_walk) noexcept { return i.of; }
    };

    // The frames from the one at `address` on. `exact` is as for dwcheck_cursor_init.
    walk(const dwcheck_process *of, std::uint64_t address, const dwcheck_state &registers, bool exact = true) noexcept
        : process(of), state(&registers) {
        ended.status = dwcheck_cursor_init(&place, address, state, exact, &ended.fault);
    }
    walk(const dwcheck_process *, std::uint64_t, const dwcheck_state &&, bool = true) = delete;

    iterator begin() noexcept { return iterator(this); }
    end_of_walk end() const noexcept { return {}; }

    // Where the walk is: after a frame, at its caller.
    const dwcheck_cursor &cursor() const noexcept { return place; }

    // Why the walk has ended: one of the DWCHECK_STOP_ numbers. DWCHECK_STOP_LIMIT if it goes on, or has
    // failed, and then `why` says why.
    std::uint32_t stop() const noexcept {
        return place.stage > DWCHECK_CURSOR_CALLER ? place.stage - 1 : std::uint32_t(DWCHECK_STOP_LIMIT);
    }

    // DWCHECK_REFUSED with the ABI's fault; or DWCHECK_NO_PLACE; or none if the walk hasn't failed.
    std::optional<failure> why() const noexcept {
        if (ended.status == DWCHECK_DONE || ended.status == DWCHECK_NONE) return std::nullopt;
        return ended;
    }
};

// A process: its modules with compiled tables. It is closed when it goes out of scope. Calls that are
// const may read a process at once, in any threads.
class process {
    dwcheck_process handle = DWCHECK_CLOSED;

public:
    process() noexcept = default;
    process(process &&other) noexcept : handle(other.handle) { other.handle = DWCHECK_CLOSED; }
    process &operator=(process &&other) noexcept {
        std::swap(handle, other.handle);
        return *this;
    }
    ~process() { dwcheck_process_close(&handle); }

    // For calls of dwcheck.h.
    const dwcheck_process *get() const noexcept { return &handle; }
    dwcheck_process *get() noexcept { return &handle; }

    // Adds a module, and returns its id (dwcheck_process_add).
    result<std::uint64_t> add(const dwcheck_module &module) noexcept {
        failure why;
        std::uint64_t id = 0;
        why.status = dwcheck_process_add(&handle, &module, &id, &why.fault);
        if (why.status == DWCHECK_DONE) return id;
        why.overlapped = id;
        return why;
    }

    // Adds a module with both sections, and returns its id (dwcheck_process_add_both).
    result<std::uint64_t> add_both(const dwcheck_module &module, const dwcheck_module &eh_frame) noexcept {
        failure why;
        std::uint64_t id = 0;
        why.status = dwcheck_process_add_both(&handle, &module, &eh_frame, &id, &why.fault);
        if (why.status == DWCHECK_DONE) return id;
        why.overlapped = id;
        return why;
    }

    // Removes the module with this id, and returns whether there was one.
    bool remove(std::uint64_t id) noexcept { return dwcheck_process_remove(&handle, id) == DWCHECK_DONE; }

    // A process of its own with the same modules and tables (dwcheck_process_share).
    result<process> share() const noexcept {
        process other;
        failure why;
        why.status = dwcheck_process_share(&handle, &other.handle);
        if (why.status == DWCHECK_DONE) return result<process>(std::move(other));
        return why;
    }

    // The module that answers for an address as loaded.
    std::optional<dwcheck_loaded> module_at(std::uint64_t address) const noexcept {
        dwcheck_loaded module;
        if (dwcheck_module_at(&handle, address, &module) != DWCHECK_DONE) return std::nullopt;
        return module;
    }

    // Writes the row that covers an address as loaded, and returns whether there is one.
    bool row_at(std::uint64_t address, row &found) const noexcept {
        return dwcheck_row_at(&handle, address, &found, found.room.data(), found.room.size()) == DWCHECK_DONE;
    }

    // Writes the caller of the frame at an address (dwcheck_unwind), or says why there is none.
    result<std::monostate> unwind(std::uint64_t address, const dwcheck_state &state, caller &found) const noexcept {
        failure why;
        why.status = dwcheck_unwind(&handle, address, &state, &found, found.room.data(), found.room.size(), &why.fault);
        if (why.status == DWCHECK_DONE) return std::monostate();
        return why;
    }

    // The frames from the one at `address` on (dwcheck_cursor_step).
    walk frames(std::uint64_t address, const dwcheck_state &state, bool exact = true) const & noexcept {
        return walk(&handle, address, state, exact);
    }
    walk frames(std::uint64_t, const dwcheck_state &&, bool = true) const & = delete;
    walk frames(std::uint64_t, const dwcheck_state &, bool = true) const && = delete;
};

// An .eh_frame section where it lies, with its .eh_frame_hdr: rows and steps without a process. Both outlive it.
class in_place {
    dwcheck_module section;
    dwcheck_header header;

public:
    in_place(const dwcheck_module &eh_frame, const dwcheck_header &eh_frame_hdr) noexcept : section(eh_frame), header(eh_frame_hdr) {}

    // Writes the row that covers an address as loaded, and returns whether its frames are those of signals; or says
    // why there is none (dwcheck_row_in).
    result<bool> row_at(std::uint64_t address, row &found) const noexcept {
        failure why;
        std::uint32_t is_signal_frame = 0;
        why.status = dwcheck_row_in(&section, &header, address, &found, found.room.data(), found.room.size(), &is_signal_frame,
                                    &why.fault);
        if (why.status == DWCHECK_DONE) return is_signal_frame != 0;
        return why;
    }

    // The frame that a cursor is at, and moves the cursor to its caller (dwcheck_step_in).
    result<dwcheck_frame> step(dwcheck_cursor &cursor, const dwcheck_state &state) const noexcept {
        failure why;
        dwcheck_frame frame = {};
        why.status = dwcheck_step_in(&section, &header, &cursor, &state, &frame, &why.fault);
        if (why.status == DWCHECK_DONE) return frame;
        return why;
    }
};

} // namespace dwcheck
#endif
