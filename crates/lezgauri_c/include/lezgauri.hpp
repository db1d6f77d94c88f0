// Lezgauri for C++17 and later, in one header over lezgauri.h. That header specifies each call: what it tests, what the caller
// promises, and how much stack it touches. This one adds owners of handles, views of memory, names of statuses, and errors.
//
// Values. A `value` is a place with its segment: it reads a number, a text, items and keys where they are, and changes them. A value of a
// `reader`, which is a segment that is open only for reading, is a `const_value`: it has the same functions, without those that change
// something. Both are as valid as their place, and the segment isn't moved or closed while they are used. Ranges (`items`, `keys`,
// `entries`, `names`) go through a container once, and the container isn't changed meanwhile.
//
// Refused calls. A call is refused if its status is neither `ok` nor `output_full`. In namespace `lezgauri` a refused call throws
// `error`. In namespace `lezgauri::results` the same calls are noexcept and return an `expected`: std::expected if the compiler has
// it, and `result` otherwise. Both are the same templates, with the policy `throwing` or `returning`. With -fno-exceptions only the
// second exists. `output_full` isn't a refusal, nor is `too_small` of `assemble` and `print`: the caller reads `is_full` in what the
// call returns.
//
// Memory. `const_bytes`, `mutable_bytes` and `items` refer to the caller's memory and own nothing. No function here copies an image,
// a client, an input or an output, or allocates memory; the calls of lezgauri.h copy and allocate what their comments say. Where a call
// of lezgauri.h takes the length of its room for granted (the saved image and the reports of `run`), `run` checks it.
//
// Threads. Different segments and clients are independent. One call at a time uses a segment, and one runs a client: another is
// refused with `busy` at once, and has done nothing. This includes the const functions other than `size`. Threads that run one
// client on different segments at the same time prepare it once each. Moving, assigning, closing and destroying a segment or a client
// isn't tested: do it when no other thread uses the object.
#ifndef LEZGAURI_HPP
#define LEZGAURI_HPP

#include "lezgauri.h"

#include <cstddef>
#include <cstdint>
#include <cstdio>
#include <cstdlib>
#include <exception>
#include <initializer_list>
#include <iterator>
#include <memory>
#include <optional>
#include <string_view>
#include <system_error>
#include <type_traits>
#include <utility>
#include <variant>

#if __has_include(<version>)
#include <version>
#endif
#ifdef __cpp_lib_expected
#include <expected>
#endif
#ifdef __cpp_lib_span
#include <span>
#endif

namespace lezgauri {

// ---- statuses, reasons and faults

// What a call returns. lezgauri.h describes each number, and docs/FORMATS.md the faults, which are below 100.
enum class status : std::uint32_t {
    ok = LEZGAURI_OK,
    memory = LEZGAURI_MEMORY,
    misplaced = LEZGAURI_MISPLACED,
    bad_type = LEZGAURI_BAD_TYPE,
    type_mismatch = LEZGAURI_TYPE_MISMATCH,
    bad_size = LEZGAURI_BAD_SIZE,
    no_host_room = LEZGAURI_NO_HOST_ROOM,
    bad_header = LEZGAURI_BAD_HEADER,
    bad_block = LEZGAURI_BAD_BLOCK,
    bad_free = LEZGAURI_BAD_FREE,
    bad_index = LEZGAURI_BAD_INDEX,
    bad_pointer = LEZGAURI_BAD_POINTER,
    double_owner = LEZGAURI_DOUBLE_OWNER,
    unowned = LEZGAURI_UNOWNED,
    bad_value = LEZGAURI_BAD_VALUE,
    bad_code = LEZGAURI_BAD_CODE,
    bad_line = LEZGAURI_BAD_LINE,
    rejected = LEZGAURI_REJECTED,
    too_long = LEZGAURI_TOO_LONG,
    bad_argument = LEZGAURI_BAD_ARGUMENT,
    output_full = LEZGAURI_OUTPUT_FULL,
    too_small = LEZGAURI_TOO_SMALL,
    busy = LEZGAURI_BUSY,
    read_only = LEZGAURI_READ_ONLY,
    already_exists = LEZGAURI_ALREADY_EXISTS,
    bad_alloc = LEZGAURI_BAD_ALLOC,
    absent = LEZGAURI_ABSENT,
    other_type = LEZGAURI_OTHER_TYPE,
    out_of_range = LEZGAURI_OUT_OF_RANGE,
    no_value = LEZGAURI_NO_VALUE,
    numbers_used_up = LEZGAURI_NUMBERS_USED_UP
};

// Why the verifier rejects an instruction: the reason of `rejected`. docs/FORMATS.md has the rules.
enum class reason : std::uint32_t {
    none = 0,            // the fault has no reason
    wrong_operand = 1,   // register b or c doesn't contain what the instruction needs, or there is no such field
    owner_lost = 2,      // an object that a register owns would be lost
    put_into_itself = 3, // an object would be put into itself
    changed_in_loop = 4  // a register has another state at the end of a loop's body than before the loop
};

// The name of a status. Faults have their names of docs/FORMATS.md. Empty if there is no such status.
constexpr std::string_view name(status of) noexcept
{
    switch (of) {
    case status::ok: return "Ok";
    case status::memory: return "Memory";
    case status::misplaced: return "Misplaced";
    case status::bad_type: return "BadType";
    case status::type_mismatch: return "TypeMismatch";
    case status::bad_size: return "BadSize";
    case status::no_host_room: return "NoHostRoom";
    case status::bad_header: return "BadHeader";
    case status::bad_block: return "BadBlock";
    case status::bad_free: return "BadFree";
    case status::bad_index: return "BadIndex";
    case status::bad_pointer: return "BadPointer";
    case status::double_owner: return "DoubleOwner";
    case status::unowned: return "Unowned";
    case status::bad_value: return "BadValue";
    case status::bad_code: return "BadCode";
    case status::bad_line: return "BadLine";
    case status::rejected: return "Rejected";
    case status::too_long: return "TooLong";
    case status::bad_argument: return "BadArgument";
    case status::output_full: return "OutputFull";
    case status::too_small: return "TooSmall";
    case status::busy: return "Busy";
    case status::read_only: return "ReadOnly";
    case status::already_exists: return "AlreadyExists";
    case status::bad_alloc: return "BadAlloc";
    case status::absent: return "Absent";
    case status::other_type: return "OtherType";
    case status::out_of_range: return "OutOfRange";
    case status::no_value: return "NoValue";
    case status::numbers_used_up: return "NumbersUsedUp";
    }
    return {};
}

// The name of a reason. Empty if there is no such reason.
constexpr std::string_view name(reason of) noexcept
{
    switch (of) {
    case reason::none: return "None";
    case reason::wrong_operand: return "WrongOperand";
    case reason::owner_lost: return "OwnerLost";
    case reason::put_into_itself: return "PutIntoItself";
    case reason::changed_in_loop: return "ChangedInLoop";
    }
    return {};
}

// lezgauri_status_text, lezgauri_reason_text: a status or a reason in words, which last until the program ends.
inline const char *text(status of) noexcept
{
    return lezgauri_status_text(static_cast<std::uint32_t>(of));
}

inline const char *text(reason of) noexcept
{
    return lezgauri_reason_text(static_cast<std::uint32_t>(of));
}

// lezgauri_version: the version of the library. LEZGAURI_VERSION is the version of the header.
inline const char *version() noexcept
{
    return lezgauri_version();
}

// Whether the position in a fault with this number means something. lezgauri.h describes what, beside the number.
constexpr bool has_position(status of) noexcept
{
    switch (of) {
    case status::bad_type:
    case status::type_mismatch:
    case status::bad_block:
    case status::bad_free:
    case status::bad_index:
    case status::bad_pointer:
    case status::double_owner:
    case status::unowned:
    case status::bad_value:
    case status::bad_code:
    case status::bad_line:
    case status::rejected: return true;
    default: return false;
    }
}

// Why a call was refused.
struct fault {
    status number = status::ok;
    std::optional<std::uint64_t> client; // the client that has the fault, from 0; none if it isn't a client's
    std::uint32_t position = 0;          // 0 if the number has no position
    lezgauri::reason reason = lezgauri::reason::none;
};

constexpr bool operator==(const fault &a, const fault &b) noexcept
{
    return a.number == b.number && a.client == b.client && a.position == b.position && a.reason == b.reason;
}

constexpr bool operator!=(const fault &a, const fault &b) noexcept
{
    return !(a == b);
}

// A fault in words, such as "lezgauri: Rejected (22), client 0, position 3, reason 2 (OwnerLost)". It takes no memory.
class fault_text {
public:
    explicit fault_text(const fault &of) noexcept
    {
        const std::string_view number = name(of.number);
        add("lezgauri: %.*s (%lu)", static_cast<int>(number.size()), number.data(), static_cast<unsigned long>(of.number));
        if (of.client) {
            add(", client %llu", static_cast<unsigned long long>(*of.client));
        }
        if (has_position(of.number)) {
            add(", position %lu", static_cast<unsigned long>(of.position));
        }
        if (of.reason != reason::none) {
            const std::string_view why = name(of.reason);
            add(", reason %lu (%.*s)", static_cast<unsigned long>(of.reason), static_cast<int>(why.size()), why.data());
        }
    }

    const char *c_str() const noexcept { return text_; }
    std::string_view view() const noexcept { return {text_, len_}; }

private:
    template <class... Arguments>
    void add(const char *format, Arguments... arguments) noexcept
    {
        const int added = std::snprintf(text_ + len_, sizeof text_ - len_, format, arguments...);
        if (added > 0) {
            const std::size_t room = sizeof text_ - 1 - len_;
            len_ += static_cast<std::size_t>(added) < room ? static_cast<std::size_t>(added) : room;
        }
    }

    char text_[128] = {};
    std::size_t len_ = 0;
};

#ifdef __cpp_exceptions
// What a refused call throws in namespace `lezgauri`.
class error : public std::exception {
public:
    explicit error(const fault &why) noexcept : why_(why), text_(why) {}

    const fault &why() const noexcept { return why_; }
    const char *what() const noexcept override { return text_.c_str(); }

private:
    fault why_;
    fault_text text_;
};
#endif

// ---- views of memory

namespace detail {

template <class T>
inline constexpr bool is_byte = std::is_same_v<T, char> || std::is_same_v<T, signed char> || std::is_same_v<T, unsigned char> ||
                                std::is_same_v<T, std::byte>;

// The type of the items that `Memory` has one after the other, const if they can't be written. `Memory` may be a reference.
template <class Memory>
using item_of = std::remove_pointer_t<decltype(std::data(std::declval<Memory>()))>;

template <class Memory, class = void>
struct has_items : std::false_type {};
template <class Memory>
struct has_items<Memory, std::void_t<item_of<Memory>, decltype(std::size(std::declval<Memory>()))>> : std::true_type {};

// Whether the memory is there as long as the caller's: an object with a name, or another view.
template <class Memory>
constexpr bool is_kept() noexcept
{
    if constexpr (std::is_lvalue_reference_v<Memory>) {
        return true;
    } else {
        return std::is_same_v<item_of<Memory &>, item_of<const Memory &>>;
    }
}

template <class Memory>
constexpr bool has_bytes_to_read() noexcept
{
    if constexpr (has_items<const Memory &>::value) {
        // a literal has a byte too many at its end: pass a std::string_view of it
        return is_byte<std::remove_cv_t<item_of<const Memory &>>> && !std::is_same_v<std::remove_extent_t<Memory>, char>;
    }
    return false;
}

template <class Memory>
constexpr bool has_bytes_to_write() noexcept
{
    if constexpr (has_items<Memory &>::value) {
        return is_byte<item_of<Memory &>> && is_kept<Memory>();
    }
    return false;
}

template <class T, class Memory>
constexpr bool has_items_of() noexcept
{
    if constexpr (has_items<Memory &>::value) {
        return std::is_convertible_v<item_of<Memory &> (*)[], T (*)[]> && (std::is_const_v<T> || is_kept<Memory>());
    }
    return false;
}

} // namespace detail

// Bytes that a call reads: {pointer, length}, or anything with data() and size() and items of one byte, such as std::span, std::vector,
// std::array, std::string and std::string_view, or an array other than of char. It doesn't own them.
class const_bytes {
public:
    constexpr const_bytes() noexcept = default;
    const_bytes(const void *at, std::size_t len) noexcept : at_(static_cast<const std::byte *>(at)), len_(len) {}

    template <class Memory, std::enable_if_t<!std::is_same_v<Memory, const_bytes> && detail::has_bytes_to_read<Memory>(), int> = 0>
    const_bytes(const Memory &memory) noexcept : const_bytes(std::data(memory), std::size(memory))
    {
    }

    constexpr const std::byte *data() const noexcept { return at_; }
    constexpr std::size_t size() const noexcept { return len_; }
    constexpr const std::byte *begin() const noexcept { return at_; }
    constexpr const std::byte *end() const noexcept { return at_ + len_; }
    std::string_view text() const noexcept { return {reinterpret_cast<const char *>(at_), len_}; }

    // As an item of the list of clients that `run` takes.
    operator lezgauri_bytes() const noexcept { return {reinterpret_cast<const std::uint8_t *>(at_), len_}; }

private:
    const std::byte *at_ = nullptr;
    std::size_t len_ = 0;
};

// Room for bytes that a call writes: {pointer, length}, or an object with a name whose items are bytes that may be written, or a view of
// such bytes, for example std::span. It doesn't own them.
class mutable_bytes {
public:
    constexpr mutable_bytes() noexcept = default;
    mutable_bytes(void *at, std::size_t len) noexcept : at_(static_cast<std::byte *>(at)), len_(len) {}

    template <class Memory, std::enable_if_t<!std::is_same_v<std::decay_t<Memory>, mutable_bytes> &&
                                                 detail::has_bytes_to_write<Memory>(),
                                             int> = 0>
    mutable_bytes(Memory &&memory) noexcept : mutable_bytes(std::data(memory), std::size(memory))
    {
    }

    constexpr std::byte *data() const noexcept { return at_; }
    constexpr std::size_t size() const noexcept { return len_; }
    constexpr std::byte *begin() const noexcept { return at_; }
    constexpr std::byte *end() const noexcept { return at_ + len_; }

private:
    std::byte *at_ = nullptr;
    std::size_t len_ = 0;
};

// The items of T one after the other: {pointer, count}, an array, or anything with data() and size(). It doesn't own them.
template <class T>
class items {
public:
    constexpr items() noexcept = default;
    constexpr items(T *at, std::size_t count) noexcept : at_(at), count_(count) {}

    template <class Memory,
              std::enable_if_t<!std::is_same_v<std::decay_t<Memory>, items> && detail::has_items_of<T, Memory>(), int> = 0>
    constexpr items(Memory &&memory) noexcept : items(std::data(memory), std::size(memory))
    {
    }

    constexpr T *data() const noexcept { return at_; }
    constexpr std::size_t size() const noexcept { return count_; }

private:
    T *at_ = nullptr;
    std::size_t count_ = 0;
};

// ---- kinds of segments

// The allocators of a segment: the first free block that is large enough, or the smallest one.
enum class allocator_kind : std::uint32_t {
    seq_fit = LEZGAURI_SEQ_FIT,
    best_fit = LEZGAURI_BEST_FIT
};

// The indexes of a segment, which find objects by name.
enum class index_kind : std::uint32_t {
    flat = LEZGAURI_FLAT_INDEX,
    tree = LEZGAURI_TREE_INDEX
};

// ---- what calls return

using report = lezgauri_report;

// What `run` did.
struct [[nodiscard]] ran_all {
    std::size_t written = 0; // the bytes that the clients printed to the output
    bool is_full = false;    // the output had no room, and a client stopped there
};

// What a run of one client in place did.
struct [[nodiscard]] ran {
    std::size_t written = 0; // the bytes that the client printed to the output
    bool is_full = false;    // the output had no room: the client stopped there, and the segment stays as it was then
    lezgauri::report report{};
};

// The free memory of a segment in bytes, with 16 for the header of each free block.
struct [[nodiscard]] free_bytes {
    std::size_t all = 0;
    std::size_t largest = 0; // of the largest free block
};

// What `run_whole` did.
struct [[nodiscard]] ran_whole {
    std::size_t needed = 0;    // the length of the whole output
    bool is_full = false;      // the output has less room: the segment is unchanged, and the output's contents are unspecified
    lezgauri::report report{}; // all 0 if `is_full`
};

// What `assemble` and `print` did.
struct [[nodiscard]] converted {
    std::size_t needed = 0; // the length of the file or of the text
    bool is_full = false;   // the buffer has less room: nothing is written to it
};

// The kind of a type. docs/FORMATS.md describes each.
enum class kind : std::uint8_t {
    i64 = LEZGAURI_KIND_I64,
    str = LEZGAURI_KIND_STR,
    vec = LEZGAURI_KIND_VEC,
    list = LEZGAURI_KIND_LIST,
    flat_map = LEZGAURI_KIND_FLAT_MAP,
    map = LEZGAURI_KIND_MAP,
    own = LEZGAURI_KIND_OWN,
    structure = LEZGAURI_KIND_STRUCT,
    shared = LEZGAURI_KIND_SHARED
};

using type = lezgauri_type;

constexpr kind kind_of(const type &of) noexcept
{
    return kind(of.kind);
}

// The types of a segment, in the order of their numbers.
struct [[nodiscard]] type_table {
    type entries[LEZGAURI_MOST_TYPES] = {};
    std::size_t count = 0;

    std::size_t size() const noexcept { return count; }
    const type *data() const noexcept { return entries; }
    const type *begin() const noexcept { return entries; }
    const type *end() const noexcept { return entries + count; }
    const type &operator[](std::size_t number) const noexcept { return entries[number]; }
};

// ---- refusals

namespace detail {

#ifdef __cpp_exceptions
[[noreturn]] inline void raise(const fault &why)
{
    throw error(why);
}

[[noreturn]] inline void raise(const std::error_code &why)
{
    throw std::system_error(why);
}
#endif

// result::value() without a value. Without exceptions the program ends.
template <class E>
[[noreturn]] void fail(const E &why)
{
#ifdef __cpp_exceptions
    raise(why);
#else
    static_cast<void>(why);
    std::abort();
#endif
}

} // namespace detail

// A value, or why there is none: a part of std::expected, for compilers that don't have it. value() throws `error`, or std::system_error
// for a file. The others require that there is a value, or for error() that there is none.
template <class T, class E>
class [[nodiscard]] result {
public:
    result(T value) noexcept(std::is_nothrow_move_constructible_v<T>) : is_(std::in_place_index<0>, std::move(value)) {}
    static result failure(const E &why) noexcept { return result(std::in_place_index<1>, why); }

    bool has_value() const noexcept { return is_.index() == 0; }
    explicit operator bool() const noexcept { return has_value(); }
    T &operator*() &noexcept { return *std::get_if<0>(&is_); }
    const T &operator*() const &noexcept { return *std::get_if<0>(&is_); }
    T &&operator*() &&noexcept { return std::move(*std::get_if<0>(&is_)); }
    T *operator->() noexcept { return std::get_if<0>(&is_); }
    const T *operator->() const noexcept { return std::get_if<0>(&is_); }
    const E &error() const noexcept { return *std::get_if<1>(&is_); }
    T &value() & { return test(), **this; }
    const T &value() const & { return test(), **this; }
    T &&value() && { return test(), std::move(**this); }

private:
    result(std::in_place_index_t<1> at, const E &why) noexcept : is_(at, why) {}

    void test() const
    {
        if (!has_value()) {
            detail::fail(error());
        }
    }

    std::variant<T, E> is_;
};

template <class E>
class [[nodiscard]] result<void, E> {
public:
    result() noexcept = default;
    static result failure(const E &why) noexcept { return result(why); }

    bool has_value() const noexcept { return !why_; }
    explicit operator bool() const noexcept { return has_value(); }
    void operator*() const noexcept {}
    const E &error() const noexcept { return *why_; }

    void value() const
    {
        if (!has_value()) {
            detail::fail(error());
        }
    }

private:
    explicit result(const E &why) noexcept : why_(why) {}

    std::optional<E> why_;
};

#ifdef __cpp_exceptions
// The policy of namespace `lezgauri`: a call returns its value, or throws.
struct throwing {
    static constexpr bool is_noexcept = false;

    template <class T, class E = fault>
    using result = T;

    template <class T, class E>
    [[noreturn]] static T refuse(const E &why)
    {
        detail::raise(why);
    }
};
#endif

// The policy of namespace `lezgauri::results`: a call returns its value or why there is none. It has another name with each type that it
// returns, so files that are compiled for different standards may be linked.
#ifdef __cpp_lib_expected
struct returning_expected {
    static constexpr bool is_noexcept = true;

    template <class T, class E = fault>
    using result = std::expected<T, E>;

    template <class T, class E>
    static result<T, E> refuse(const E &why) noexcept
    {
        return std::unexpected<E>(why);
    }
};
using returning = returning_expected;
#else
struct returning_result {
    static constexpr bool is_noexcept = true;

    template <class T, class E = fault>
    using result = lezgauri::result<T, E>;

    template <class T, class E>
    static result<T, E> refuse(const E &why) noexcept
    {
        return result<T, E>::failure(why);
    }
};
using returning = returning_result;
#endif

// What a call returns in namespace `lezgauri::results`.
template <class T, class E = fault>
using expected = returning::result<T, E>;

#ifdef __cpp_exceptions
using default_policy = throwing;
#else
using default_policy = returning;
#endif

namespace detail {

template <class Policy, class T, class E = fault>
using result_of = typename Policy::template result<T, E>;

inline fault fault_of(std::uint32_t number, const lezgauri_fault &told) noexcept
{
    fault made{status(number), {}, told.position, reason(told.reason)};
    if (told.client != LEZGAURI_NO_CLIENT) {
        made.client = told.client;
    }
    return made;
}

// A refusal without a client, a position or a reason.
inline fault fault_of(std::uint32_t number) noexcept
{
    return fault{status(number), {}, 0, reason::none};
}

// Returns what a run did, or why there was none.
template <class Policy, class Ran>
result_of<Policy, Ran> after_run(std::uint32_t number, const lezgauri_fault &told, Ran did) noexcept(Policy::is_noexcept)
{
    if (number != LEZGAURI_OK && number != LEZGAURI_OUTPUT_FULL) {
        return Policy::template refuse<Ran>(fault_of(number, told));
    }
    did.is_full = number == LEZGAURI_OUTPUT_FULL;
    return did;
}

// Returns a value, or why there is none, for a call that reports no fault.
template <class Policy, class T>
result_of<Policy, T> if_ok(std::uint32_t number, T value) noexcept(Policy::is_noexcept)
{
    if (number != LEZGAURI_OK) {
        return Policy::template refuse<T>(fault_of(number));
    }
    return value;
}

struct close_segment {
    void operator()(lezgauri_handle *handle) const noexcept { lezgauri_close(handle); }
};

struct close_client {
    void operator()(lezgauri_client *prepared) const noexcept { lezgauri_client_close(prepared); }
};

} // namespace detail

// ---- values in place

using place = lezgauri_place;
using pair = lezgauri_pair;

// The types of a table for `add_types`: type_of(kind::i64), type_of(kind::vec, {0}), type_of(kind::structure, {0, 1}).
inline type type_of(kind of, std::initializer_list<std::uint8_t> components = {}) noexcept
{
    type made{};
    made.kind = static_cast<std::uint8_t>(of);
    made.count = static_cast<std::uint8_t>(components.size());
    std::size_t next = 0;
    for (const std::uint8_t component : components) {
        if (next < sizeof made.components) {
            made.components[next++] = component;
        }
    }
    return made;
}

// A named object: its name, the number of its type, and the number of its values.
struct named : lezgauri_named {
    std::string_view view() const noexcept { return {name}; }
};

namespace detail {

// The bytes of a number.
constexpr int number_size = 8;

// compilers make this one load
inline std::int64_t number_at(const std::uint8_t *at) noexcept
{
    std::uint64_t number = 0;
    for (int i = 0; i < number_size; i++) {
        number |= std::uint64_t(at[i]) << (8 * i);
    }
    return static_cast<std::int64_t>(number);
}

// The items of the views below: the type, the bytes, and how an item is read.
struct number_item {
    using type = std::int64_t;
    static constexpr int size = number_size;
    static type at(const std::uint8_t *at) noexcept { return number_at(at); }
};

struct pair_item {
    using type = std::pair<std::int64_t, std::int64_t>;
    static constexpr int size = 2 * number_size;
    static type at(const std::uint8_t *at) noexcept { return {number_at(at), number_at(at + number_size)}; }
};

// Items in a row, where they are. It is like a std::span of them, but their bytes may have any address and the host any byte order.
template <class Item>
class items_view {
public:
    using value_type = typename Item::type;

    class iterator {
    public:
        using iterator_category = std::random_access_iterator_tag;
        using value_type = typename Item::type;
        using difference_type = std::ptrdiff_t;
        using pointer = const value_type *;
        using reference = value_type;

        constexpr iterator() noexcept = default;
        explicit iterator(const std::uint8_t *at) noexcept : at_(at) {}

        value_type operator*() const noexcept { return Item::at(at_); }
        value_type operator[](difference_type n) const noexcept { return *(*this + n); }
        iterator &operator++() noexcept { return *this += 1; }
        iterator operator++(int) noexcept { return std::exchange(*this, *this + 1); }
        iterator &operator--() noexcept { return *this -= 1; }
        iterator operator--(int) noexcept { return std::exchange(*this, *this - 1); }
        iterator &operator+=(difference_type n) noexcept { return at_ += n * Item::size, *this; }
        iterator &operator-=(difference_type n) noexcept { return at_ -= n * Item::size, *this; }
        friend iterator operator+(iterator it, difference_type n) noexcept { return it += n; }
        friend iterator operator+(difference_type n, iterator it) noexcept { return it += n; }
        friend iterator operator-(iterator it, difference_type n) noexcept { return it -= n; }
        friend difference_type operator-(iterator a, iterator b) noexcept { return (a.at_ - b.at_) / Item::size; }
        friend bool operator==(iterator a, iterator b) noexcept { return a.at_ == b.at_; }
        friend bool operator!=(iterator a, iterator b) noexcept { return a.at_ != b.at_; }
        friend bool operator<(iterator a, iterator b) noexcept { return a.at_ < b.at_; }
        friend bool operator>(iterator a, iterator b) noexcept { return b < a; }
        friend bool operator<=(iterator a, iterator b) noexcept { return !(b < a); }
        friend bool operator>=(iterator a, iterator b) noexcept { return !(a < b); }

    private:
        const std::uint8_t *at_ = nullptr;
    };

    constexpr items_view() noexcept = default;
    explicit items_view(const lezgauri_bytes &bytes) noexcept : at_(bytes.bytes), count_(bytes.len / Item::size) {}

    std::size_t size() const noexcept { return count_; }
    bool empty() const noexcept { return count_ == 0; }
    value_type operator[](std::size_t index) const noexcept { return Item::at(at_ + index * Item::size); }
    iterator begin() const noexcept { return iterator(at_); }
    iterator end() const noexcept { return iterator(at_ + count_ * Item::size); }
    const_bytes bytes() const noexcept { return {at_, count_ * Item::size}; }

private:
    const std::uint8_t *at_ = nullptr;
    std::size_t count_ = 0;
};

} // namespace detail

// The numbers of a vector, where they are.
using numbers_view = detail::items_view<detail::number_item>;

// The keys of a flat map in ascending order, each with its number, where they are: for (const auto &[key, number] : map.pairs()) ..
using pairs_view = detail::items_view<detail::pair_item>;

namespace detail {

// Returns nothing, or why the call was refused.
template <class Policy>
result_of<Policy, void> done(std::uint32_t number) noexcept(Policy::is_noexcept)
{
    if (number != LEZGAURI_OK) {
        return Policy::template refuse<void>(fault_of(number));
    }
    return result_of<Policy, void>();
}

// Returns whether there was something. `none` is the status if there wasn't.
template <class Policy>
result_of<Policy, bool> was_there(std::uint32_t number, std::uint32_t none) noexcept(Policy::is_noexcept)
{
    return if_ok<Policy>(number == none ? std::uint32_t(LEZGAURI_OK) : number, number != none);
}

// Returns a value, or nothing if the status is `none`.
template <class Policy, class T>
result_of<Policy, std::optional<T>> if_there(std::uint32_t number, std::uint32_t none, const T &value) noexcept(Policy::is_noexcept)
{
    if (number == none) {
        return std::optional<T>();
    }
    return if_ok<Policy>(number, std::optional<T>(value));
}

// A range that is gone through once. `Source` has `Item`, and `next(item)`, the status of finding the first or the next item:
// LEZGAURI_NO_VALUE at the end. If a call is refused, the range throws `error`, or without exceptions ends, and `why` is the fault.
template <class Policy, class Source>
class once {
public:
    class iterator {
    public:
        using iterator_category = std::input_iterator_tag;
        using value_type = typename Source::Item;
        using difference_type = std::ptrdiff_t;
        using pointer = const value_type *;
        using reference = const value_type &;

        iterator() noexcept = default;
        explicit iterator(once *range) noexcept(Policy::is_noexcept) : range_(range) { advance(); }

        reference operator*() const noexcept { return range_->item_; }
        pointer operator->() const noexcept { return &range_->item_; }
        iterator &operator++() noexcept(Policy::is_noexcept) { return advance(), *this; }
        void operator++(int) noexcept(Policy::is_noexcept) { advance(); }
        friend bool operator==(const iterator &a, const iterator &b) noexcept { return a.range_ == b.range_; }
        friend bool operator!=(const iterator &a, const iterator &b) noexcept { return a.range_ != b.range_; }

    private:
        void advance() noexcept(Policy::is_noexcept)
        {
            const std::uint32_t number = range_->source_.next(range_->item_);
            if (number == LEZGAURI_OK) {
                return;
            }
            if (number != LEZGAURI_NO_VALUE) {
                range_->why_ = fault_of(number);
                static_cast<void>(Policy::template refuse<std::size_t>(range_->why_));
            }
            range_ = nullptr;
        }

        once *range_ = nullptr;
    };

    explicit once(Source source) noexcept : source_(source) {}

    iterator begin() noexcept(Policy::is_noexcept) { return iterator(this); }
    iterator end() noexcept { return iterator(); }

    // After the range ended: `ok`, or the fault that ended it.
    const fault &why() const noexcept { return why_; }

private:
    Source source_;
    typename Source::Item item_{};
    fault why_;
};

// The named objects of a segment, in order of the names.
struct name_source {
    using Item = named;

    const lezgauri_handle *handle;
    bool is_first = true;

    std::uint32_t next(named &item) noexcept
    {
        return lezgauri_next_name(handle, std::exchange(is_first, false) ? nullptr : item.name, &item);
    }
};

// The items of a vector or a list in order. Those of a vector are found by their index, those of a list step by step.
template <class Value, class Handle>
struct item_source {
    using Item = Value;

    Handle *handle;
    place sequence;
    std::uint32_t index = 0;
    bool is_list = false;

    std::uint32_t next(Value &item) noexcept
    {
        place found{};
        std::uint32_t number = is_list ? lezgauri_next_item(handle, sequence, item.at(), &found)
                                       : lezgauri_item(handle, sequence, index, &found);
        if (number == LEZGAURI_OUT_OF_RANGE) {
            return LEZGAURI_NO_VALUE;
        }
        if (number == LEZGAURI_OK) {
            item = Value(handle, found);
            if (index++ == 0) {
                place second{};
                is_list = lezgauri_next_item(handle, sequence, found, &second) != LEZGAURI_OTHER_TYPE;
            }
        }
        return number;
    }
};

// The keys of a map in ascending order.
struct key_source {
    using Item = std::int64_t;

    const lezgauri_handle *handle;
    place map;
    bool is_first = true;

    std::uint32_t next(std::int64_t &key) noexcept
    {
        return lezgauri_next_key(handle, map, std::exchange(is_first, false) ? nullptr : &key, &key);
    }
};

// The keys of a map in ascending order, each with its value. With a const handle a call finds many entries. Any other handle may change the
// map between two steps, so a call finds one.
template <class Value, class Handle>
struct entry_source {
    struct Item {
        std::int64_t key = 0;
        Value value;
    };

    static constexpr std::size_t room = std::is_const_v<Handle> ? 32 : 1;

    Handle *handle;
    place map;
    bool is_first = true;
    std::size_t used = room; // of the entries
    std::size_t count = room;
    lezgauri_entry entries[room] = {};

    std::uint32_t find(const std::int64_t *after) noexcept
    {
        if constexpr (room == 1) {
            return lezgauri_next_entry(handle, map, after, &entries->key, &entries->value);
        } else {
            return lezgauri_next_entries(handle, map, after, entries, room, &count);
        }
    }

    std::uint32_t next(Item &entry) noexcept
    {
        if (used == room) {
            const std::uint32_t number = find(std::exchange(is_first, false) ? nullptr : &entry.key);
            if (number != LEZGAURI_OK) {
                return number;
            }
            used = 0;
        }
        if (used == count) {
            return LEZGAURI_NO_VALUE;
        }
        const lezgauri_entry &found = entries[used++];
        entry.key = found.key;
        entry.value = Value(handle, found.value);
        return LEZGAURI_OK;
    }
};

} // namespace detail

// A value of an open segment: its place, and the segment. `Handle` is `const lezgauri_handle` if the segment is open only for reading; then
// the functions that change something don't compile. A call on a value of another type is refused with `other_type`.
template <class Policy, class Handle>
class basic_value {
    template <class T>
    using result = detail::result_of<Policy, T>;

public:
    using items_range = detail::once<Policy, detail::item_source<basic_value, Handle>>;
    using keys_range = detail::once<Policy, detail::key_source>;
    using entries_range = detail::once<Policy, detail::entry_source<basic_value, Handle>>;

    basic_value() noexcept = default;
    basic_value(Handle *segment, place at) noexcept : handle_(segment), at_(at) {}

    // A value that may be changed is also a value that is read.
    template <class Other, std::enable_if_t<std::is_same_v<const Other, Handle>, int> = 0>
    basic_value(const basic_value<Policy, Other> &other) noexcept : handle_(other.segment()), at_(other.at())
    {
    }

    Handle *segment() const noexcept { return handle_; }
    place at() const noexcept { return at_; }

    // Whether both are the same place of the same segment.
    friend bool operator==(const basic_value &a, const basic_value &b) noexcept
    {
        return a.handle_ == b.handle_ && a.at_.at == b.at_.at && a.at_.type == b.at_.type;
    }
    friend bool operator!=(const basic_value &a, const basic_value &b) noexcept { return !(a == b); }

    // ---- reading

    // The value as an std::int64_t, an std::string_view, a numbers_view or a pairs_view: `load`, `text`, `numbers` or `pairs`.
    template <class T>
    [[nodiscard]] result<T> as() const noexcept(Policy::is_noexcept)
    {
        static_assert(std::is_same_v<T, std::int64_t> || std::is_same_v<T, std::string_view> || std::is_same_v<T, numbers_view> ||
                          std::is_same_v<T, pairs_view>,
                      "a value is a std::int64_t, a std::string_view, a numbers_view or a pairs_view");
        if constexpr (std::is_same_v<T, std::int64_t>) {
            return load();
        } else if constexpr (std::is_same_v<T, std::string_view>) {
            return text();
        } else if constexpr (std::is_same_v<T, numbers_view>) {
            return numbers();
        } else {
            return pairs();
        }
    }

    // lezgauri_load: the number of an i64.
    [[nodiscard]] result<std::int64_t> load() const noexcept(Policy::is_noexcept)
    {
        std::int64_t found = 0;
        const std::uint32_t number = lezgauri_load(handle_, at_, &found);
        return detail::if_ok<Policy>(number, found);
    }

    // lezgauri_text: the bytes of a string where they are, until the next call that changes the segment.
    [[nodiscard]] result<std::string_view> text() const noexcept(Policy::is_noexcept)
    {
        lezgauri_bytes bytes{};
        const std::uint32_t number = lezgauri_text(handle_, at_, &bytes);
        return detail::if_ok<Policy>(number, std::string_view(reinterpret_cast<const char *>(bytes.bytes), bytes.len));
    }

    // lezgauri_numbers: the numbers of a vector of i64 where they are, until the next call that changes the segment.
    [[nodiscard]] result<numbers_view> numbers() const noexcept(Policy::is_noexcept)
    {
        lezgauri_bytes bytes{};
        const std::uint32_t number = lezgauri_numbers(handle_, at_, &bytes);
        return detail::if_ok<Policy>(number, numbers_view(bytes));
    }

    // lezgauri_pairs: the keys of a flat map of i64 with their numbers where they are, until the next call that changes the segment.
    [[nodiscard]] result<pairs_view> pairs() const noexcept(Policy::is_noexcept)
    {
        lezgauri_bytes bytes{};
        const std::uint32_t number = lezgauri_pairs(handle_, at_, &bytes);
        return detail::if_ok<Policy>(number, pairs_view(bytes));
    }

    // lezgauri_len: the number of bytes, items, keys or objects.
    [[nodiscard]] result<std::uint32_t> size() const noexcept(Policy::is_noexcept)
    {
        std::uint32_t len = 0;
        const std::uint32_t number = lezgauri_len(handle_, at_, &len);
        return detail::if_ok<Policy>(number, len);
    }

    // lezgauri_field: a field of a struct, by its index from 0.
    [[nodiscard]] result<basic_value> field(std::uint32_t index) const noexcept(Policy::is_noexcept)
    {
        place found{};
        const std::uint32_t number = lezgauri_field(handle_, at_, index, &found);
        return detail::if_ok<Policy>(number, basic_value(handle_, found));
    }

    // lezgauri_item: an item of a vector or a list, by its index from 0.
    [[nodiscard]] result<basic_value> item(std::uint32_t index) const noexcept(Policy::is_noexcept)
    {
        place found{};
        const std::uint32_t number = lezgauri_item(handle_, at_, index, &found);
        return detail::if_ok<Policy>(number, basic_value(handle_, found));
    }

    // lezgauri_get: the value of a key of a map. Refused with `absent` if the map doesn't have the key.
    [[nodiscard]] result<basic_value> get(std::int64_t key) const noexcept(Policy::is_noexcept)
    {
        place found{};
        const std::uint32_t number = lezgauri_get(handle_, at_, key, &found);
        return detail::if_ok<Policy>(number, basic_value(handle_, found));
    }

    // The same, or nothing if the map doesn't have the key.
    [[nodiscard]] result<std::optional<basic_value>> get_if(std::int64_t key) const noexcept(Policy::is_noexcept)
    {
        place found{};
        const std::uint32_t number = lezgauri_get(handle_, at_, key, &found);
        return detail::if_there<Policy>(number, LEZGAURI_ABSENT, basic_value(handle_, found));
    }

    // lezgauri_content: the object of an own, or the frozen object of a shared. Refused with `no_value` if it is null.
    [[nodiscard]] result<basic_value> content() const noexcept(Policy::is_noexcept)
    {
        place found{};
        const std::uint32_t number = lezgauri_content(handle_, at_, &found);
        return detail::if_ok<Policy>(number, basic_value(handle_, found));
    }

    // The same, or nothing if it is null.
    [[nodiscard]] result<std::optional<basic_value>> content_if() const noexcept(Policy::is_noexcept)
    {
        place found{};
        const std::uint32_t number = lezgauri_content(handle_, at_, &found);
        return detail::if_there<Policy>(number, LEZGAURI_NO_VALUE, basic_value(handle_, found));
    }

    // The items of a vector or a list in order: for (const lezgauri::value &item : list.items()) ..
    [[nodiscard]] items_range items() const noexcept { return items_range({handle_, at_}); }

    // The keys of a map in ascending order, and with their values: for (const auto &[key, value] : map.entries()) ..
    [[nodiscard]] keys_range keys() const noexcept { return keys_range({handle_, at_}); }
    [[nodiscard]] entries_range entries() const noexcept { return entries_range({handle_, at_}); }

    // ---- changing

    // lezgauri_store: stores a number in an i64.
    result<void> store(std::int64_t number) const noexcept(Policy::is_noexcept)
    {
        return detail::done<Policy>(lezgauri_store(handle_, at_, number));
    }

    // lezgauri_assign: replaces the bytes of a string. They aren't in the segment.
    result<void> assign(const_bytes bytes) const noexcept(Policy::is_noexcept)
    {
        return detail::done<Policy>(lezgauri_assign(handle_, at_, bytes.data(), bytes.size()));
    }

    // lezgauri_append: adds bytes at the end of a string.
    result<void> append(const_bytes bytes) const noexcept(Policy::is_noexcept)
    {
        return detail::done<Policy>(lezgauri_append(handle_, at_, bytes.data(), bytes.size()));
    }

    // lezgauri_push_back: adds a default item at the end of a vector or a list, and returns it.
    result<basic_value> push_back() const noexcept(Policy::is_noexcept)
    {
        place made{};
        const std::uint32_t number = lezgauri_push_back(handle_, at_, &made);
        return detail::if_ok<Policy>(number, basic_value(handle_, made));
    }

    // lezgauri_push_numbers: adds numbers at the end of a vector of i64, one after another. They aren't in the segment. If there is no room
    // for one of them, those before it stay, and the call is refused with `bad_alloc`. *pushed is how many were added, also if the call is
    // refused.
    result<void> push_numbers(lezgauri::items<const std::int64_t> numbers, std::size_t *pushed = nullptr) const noexcept(Policy::is_noexcept)
    {
        return detail::done<Policy>(lezgauri_push_numbers(handle_, at_, numbers.data(), numbers.size(), pushed));
    }

    // lezgauri_push_front: adds a default item at the front of a list, and returns it.
    result<basic_value> push_front() const noexcept(Policy::is_noexcept)
    {
        place made{};
        const std::uint32_t number = lezgauri_push_front(handle_, at_, &made);
        return detail::if_ok<Policy>(number, basic_value(handle_, made));
    }

    // lezgauri_pop_back, lezgauri_pop_front. Refused with `no_value` if it is empty.
    result<void> pop_back() const noexcept(Policy::is_noexcept) { return detail::done<Policy>(lezgauri_pop_back(handle_, at_)); }
    result<void> pop_front() const noexcept(Policy::is_noexcept) { return detail::done<Policy>(lezgauri_pop_front(handle_, at_)); }

    // lezgauri_put: the value of a key of a map, which is added if it is missing.
    result<basic_value> put(std::int64_t key) const noexcept(Policy::is_noexcept)
    {
        place found{};
        const std::uint32_t number = lezgauri_put(handle_, at_, key, &found);
        return detail::if_ok<Policy>(number, basic_value(handle_, found));
    }

    // lezgauri_put_numbers: puts keys with their numbers into a map of i64, one after another. They aren't in the segment. If there is no room
    // for one of them, those before it stay, and the call is refused with `bad_alloc`. *put is how many were put, also if the call is
    // refused.
    result<void> put_numbers(lezgauri::items<const pair> pairs, std::size_t *put = nullptr) const noexcept(Policy::is_noexcept)
    {
        return detail::done<Policy>(lezgauri_put_numbers(handle_, at_, pairs.data(), pairs.size(), put));
    }

    // lezgauri_remove. Returns whether the map had the key.
    result<bool> remove(std::int64_t key) const noexcept(Policy::is_noexcept)
    {
        return detail::was_there<Policy>(lezgauri_remove(handle_, at_, key), LEZGAURI_ABSENT);
    }

    // lezgauri_put_content: makes a new object for an own, and returns it.
    result<basic_value> put_content() const noexcept(Policy::is_noexcept)
    {
        place made{};
        const std::uint32_t number = lezgauri_put_content(handle_, at_, &made);
        return detail::if_ok<Policy>(number, basic_value(handle_, made));
    }

    // lezgauri_clear, lezgauri_shrink_to_fit.
    result<void> clear() const noexcept(Policy::is_noexcept) { return detail::done<Policy>(lezgauri_clear(handle_, at_)); }
    result<void> shrink_to_fit() const noexcept(Policy::is_noexcept)
    {
        return detail::done<Policy>(lezgauri_shrink_to_fit(handle_, at_));
    }

    // lezgauri_freeze: freezes the object of this own, and makes a shared value point to it.
    result<void> freeze(const basic_value &shared) const noexcept(Policy::is_noexcept)
    {
        return detail::done<Policy>(lezgauri_freeze(handle_, at_, shared.at_));
    }

    // lezgauri_share: makes this shared value point to the frozen object of another one.
    result<void> share(const basic_value &from) const noexcept(Policy::is_noexcept)
    {
        return detail::done<Policy>(lezgauri_share(handle_, at_, from.at_));
    }

private:
    Handle *handle_ = nullptr;
    place at_{};
};

namespace detail {

// What segments and readers have in common: finding objects.
template <class Segment, class Policy, class Handle>
class objects {
    using value = basic_value<Policy, Handle>;

public:
    using names_range = once<Policy, name_source>;

    // lezgauri_find: the first value of the object with this name and type. Refused with `absent` if there is none.
    [[nodiscard]] result_of<Policy, value> find(const char *name, std::uint32_t type_id) const noexcept(Policy::is_noexcept)
    {
        return find(name, type_id, 0);
    }

    // lezgauri_find_item: the value with this index, counted from 0.
    [[nodiscard]] result_of<Policy, value> find(const char *name, std::uint32_t type_id,
                                                std::uint32_t index) const noexcept(Policy::is_noexcept)
    {
        place found{};
        const std::uint32_t number = lezgauri_find_item(handle(), name, type_id, index, &found);
        return if_ok<Policy>(number, value(handle(), found));
    }

    // lezgauri_find, or nothing if no object has the name.
    [[nodiscard]] result_of<Policy, std::optional<value>> find_if(const char *name,
                                                                  std::uint32_t type_id) const noexcept(Policy::is_noexcept)
    {
        place found{};
        const std::uint32_t number = lezgauri_find(handle(), name, type_id, &found);
        return if_there<Policy>(number, LEZGAURI_ABSENT, value(handle(), found));
    }

    // lezgauri_named_object: the object with this name, of any type.
    [[nodiscard]] result_of<Policy, named> named_object(const char *name) const noexcept(Policy::is_noexcept)
    {
        named found{};
        const std::uint32_t number = lezgauri_named_object(handle(), name, &found);
        return if_ok<Policy>(number, found);
    }

    // The named objects in order of their names: for (const lezgauri::named &object : segment.names()) ..
    [[nodiscard]] names_range names() const noexcept { return names_range({handle()}); }

    // lezgauri_find_unique: the unique object of a type. Refused with `absent` if there is none.
    [[nodiscard]] result_of<Policy, value> find_unique(std::uint32_t type_id) const noexcept(Policy::is_noexcept)
    {
        place found{};
        const std::uint32_t number = lezgauri_find_unique(handle(), type_id, &found);
        return if_ok<Policy>(number, value(handle(), found));
    }

    // The same, or nothing if there is none.
    [[nodiscard]] result_of<Policy, std::optional<value>> find_unique_if(std::uint32_t type_id) const noexcept(Policy::is_noexcept)
    {
        place found{};
        const std::uint32_t number = lezgauri_find_unique(handle(), type_id, &found);
        return if_there<Policy>(number, LEZGAURI_ABSENT, value(handle(), found));
    }

private:
    Handle *handle() const noexcept { return static_cast<const Segment *>(this)->get(); }
};

} // namespace detail

// ---- segments and clients

template <class Policy>
class basic_segment;

// Owns a prepared client, which runs on each open segment whose types agree with its own. It is empty if it was made without one, moved
// from or closed; then its runs are refused with `bad_argument`.
template <class Policy>
class basic_client {
public:
    basic_client() noexcept = default;
    explicit basic_client(lezgauri_client *owned) noexcept : prepared_(owned) {}

    // The same client with the other policy.
    template <class Other>
    explicit basic_client(basic_client<Other> &&other) noexcept : prepared_(other.release())
    {
    }

    explicit operator bool() const noexcept { return prepared_ != nullptr; }
    lezgauri_client *get() const noexcept { return prepared_.get(); }
    [[nodiscard]] lezgauri_client *release() noexcept { return prepared_.release(); }
    void close() noexcept { prepared_.reset(); }

    // lezgauri_run_client: runs the client in place on an open segment. It takes no memory, unless it is the first call on values or
    // clients of this segment. Refused with `type_mismatch` if the segment's types and the client's differ.
    template <class Other>
    [[nodiscard]] detail::result_of<Policy, ran> operator()(basic_segment<Other> &segment, const_bytes input = {},
                                                            mutable_bytes output = {}) noexcept(Policy::is_noexcept)
    {
        ran did;
        lezgauri_fault told;
        const std::uint32_t number = lezgauri_run_client(segment.get(), get(), input.data(), input.size(), output.data(), output.size(),
                                                         &did.written, &did.report, &told);
        return detail::after_run<Policy>(number, told, did);
    }

private:
    std::unique_ptr<lezgauri_client, detail::close_client> prepared_;
};

// Owns an open segment: its memory, or if that was lent by the caller only the right to use it. It is empty if it was made without one,
// moved from or closed; then its calls are refused with `bad_argument`.
template <class Policy>
class basic_segment : public detail::objects<basic_segment<Policy>, Policy, lezgauri_handle> {
public:
    using value = basic_value<Policy, lezgauri_handle>;

    basic_segment() noexcept = default;
    explicit basic_segment(lezgauri_handle *owned) noexcept : handle_(owned) {}

    // The same segment with the other policy.
    template <class Other>
    explicit basic_segment(basic_segment<Other> &&other) noexcept : handle_(other.release())
    {
    }

    explicit operator bool() const noexcept { return handle_ != nullptr; }
    lezgauri_handle *get() const noexcept { return handle_.get(); }
    [[nodiscard]] lezgauri_handle *release() noexcept { return handle_.release(); }
    void close() noexcept { handle_.reset(); }

    // lezgauri_prepare: verifies a client against the segment's types, copies it and decodes it.
    [[nodiscard]] detail::result_of<Policy, basic_client<Policy>> prepare(const_bytes client) const noexcept(Policy::is_noexcept)
    {
        lezgauri_client *prepared = nullptr;
        lezgauri_fault told;
        const std::uint32_t number = lezgauri_prepare(get(), client.data(), client.size(), &prepared, &told);
        if (number != LEZGAURI_OK) {
            return Policy::template refuse<basic_client<Policy>>(detail::fault_of(number, told));
        }
        return basic_client<Policy>(prepared);
    }

    // lezgauri_run_on: verifies a client and runs it in place.
    [[nodiscard]] detail::result_of<Policy, ran> run_on(const_bytes client, const_bytes input = {},
                                                        mutable_bytes output = {}) noexcept(Policy::is_noexcept)
    {
        ran did;
        lezgauri_fault told;
        const std::uint32_t number = lezgauri_run_on(get(), client.data(), client.size(), input.data(), input.size(), output.data(),
                                                     output.size(), &did.written, &did.report, &told);
        return detail::after_run<Policy>(number, told, did);
    }

    // lezgauri_run_whole: verifies a client and runs it on a copy, all or nothing.
    [[nodiscard]] detail::result_of<Policy, ran_whole> run_whole(const_bytes client, const_bytes input = {},
                                                                 mutable_bytes output = {}) noexcept(Policy::is_noexcept)
    {
        ran_whole did;
        lezgauri_fault told;
        const std::uint32_t number = lezgauri_run_whole(get(), client.data(), client.size(), input.data(), input.size(), output.data(),
                                                        output.size(), &did.needed, &did.report, &told);
        return detail::after_run<Policy>(number, told, did);
    }

    // lezgauri_size: the length of the segment's image, also while another call uses the segment.
    [[nodiscard]] detail::result_of<Policy, std::size_t> size() const noexcept(Policy::is_noexcept)
    {
        std::size_t len = 0;
        const std::uint32_t number = lezgauri_size(get(), &len);
        return detail::if_ok<Policy>(number, len);
    }

    // lezgauri_grow: adds free memory at the end, and returns the new length of the image. Refused with `bad_size`, `no_host_room` or
    // `memory`; then the segment is unchanged.
    detail::result_of<Policy, std::size_t> grow(std::size_t extra) noexcept(Policy::is_noexcept)
    {
        std::size_t len = 0;
        const std::uint32_t number = lezgauri_grow(get(), extra, &len);
        return detail::if_ok<Policy>(number, len);
    }

    // lezgauri_shrink: cuts the free block at the end, and returns the new length of the image.
    detail::result_of<Policy, std::size_t> shrink() noexcept(Policy::is_noexcept)
    {
        std::size_t len = 0;
        const std::uint32_t number = lezgauri_shrink(get(), &len);
        return detail::if_ok<Policy>(number, len);
    }

    // lezgauri_free_memory.
    [[nodiscard]] detail::result_of<Policy, free_bytes> free_memory() const noexcept(Policy::is_noexcept)
    {
        free_bytes counted;
        const std::uint32_t number = lezgauri_free_memory(get(), &counted.all, &counted.largest);
        return detail::if_ok<Policy>(number, counted);
    }

    // lezgauri_image: the image where it is, to be read until the next call that may change the segment.
    [[nodiscard]] detail::result_of<Policy, const_bytes> image() const noexcept(Policy::is_noexcept)
    {
        lezgauri_bytes bytes{};
        const std::uint32_t number = lezgauri_image(get(), &bytes);
        return detail::if_ok<Policy>(number, const_bytes(bytes.bytes, bytes.len));
    }

    // lezgauri_save: copies the image to the start of a buffer, and returns its length. Refused with `too_small` if the buffer is
    // shorter.
    detail::result_of<Policy, std::size_t> save(mutable_bytes buffer) const noexcept(Policy::is_noexcept)
    {
        std::size_t needed = 0;
        const std::uint32_t number = lezgauri_save(get(), buffer.data(), buffer.size(), &needed);
        return detail::if_ok<Policy>(number, needed);
    }

    // lezgauri_types: copies the segment's types.
    [[nodiscard]] detail::result_of<Policy, type_table> types() const noexcept(Policy::is_noexcept)
    {
        type_table found;
        const std::uint32_t number = lezgauri_types(get(), found.entries, LEZGAURI_MOST_TYPES, &found.count);
        if (number != LEZGAURI_OK) {
            return Policy::template refuse<type_table>(detail::fault_of(number));
        }
        return found;
    }

    // lezgauri_add_types: adds types after those of the segment, which come first in `table`.
    detail::result_of<Policy, void> add_types(items<const type> table) noexcept(Policy::is_noexcept)
    {
        lezgauri_fault told;
        const std::uint32_t number = lezgauri_add_types(get(), table.data(), table.size(), &told);
        if (number != LEZGAURI_OK) {
            return Policy::template refuse<void>(detail::fault_of(number, told));
        }
        return detail::result_of<Policy, void>();
    }

    // lezgauri_upgrade.
    detail::result_of<Policy, void> upgrade() noexcept(Policy::is_noexcept) { return detail::done<Policy>(lezgauri_upgrade(get())); }

    // lezgauri_construct: makes an object of `count` default values, and returns the first one.
    detail::result_of<Policy, value> construct(const char *name, std::uint32_t type_id,
                                               std::uint32_t count = 1) noexcept(Policy::is_noexcept)
    {
        place made{};
        const std::uint32_t number = lezgauri_construct(get(), name, type_id, count, &made);
        return detail::if_ok<Policy>(number, value(get(), made));
    }

    // lezgauri_find_or_construct.
    detail::result_of<Policy, value> find_or_construct(const char *name, std::uint32_t type_id) noexcept(Policy::is_noexcept)
    {
        place found{};
        const std::uint32_t number = lezgauri_find_or_construct(get(), name, type_id, &found);
        return detail::if_ok<Policy>(number, value(get(), found));
    }

    // lezgauri_destroy. Returns whether there was such an object.
    detail::result_of<Policy, bool> destroy(const char *name, std::uint32_t type_id) noexcept(Policy::is_noexcept)
    {
        return detail::was_there<Policy>(lezgauri_destroy(get(), name, type_id), LEZGAURI_ABSENT);
    }

    // lezgauri_construct_unique.
    detail::result_of<Policy, value> construct_unique(std::uint32_t type_id) noexcept(Policy::is_noexcept)
    {
        place made{};
        const std::uint32_t number = lezgauri_construct_unique(get(), type_id, &made);
        return detail::if_ok<Policy>(number, value(get(), made));
    }

    // lezgauri_find_or_construct_unique.
    detail::result_of<Policy, value> find_or_construct_unique(std::uint32_t type_id) noexcept(Policy::is_noexcept)
    {
        place found{};
        const std::uint32_t number = lezgauri_find_or_construct_unique(get(), type_id, &found);
        return detail::if_ok<Policy>(number, value(get(), found));
    }

    // lezgauri_destroy_unique. Returns whether there was such an object.
    detail::result_of<Policy, bool> destroy_unique(std::uint32_t type_id) noexcept(Policy::is_noexcept)
    {
        return detail::was_there<Policy>(lezgauri_destroy_unique(get(), type_id), LEZGAURI_ABSENT);
    }

    // lezgauri_construct_anonymous: the image isn't sound until destroy_anonymous.
    [[nodiscard]] detail::result_of<Policy, value> construct_anonymous(std::uint32_t type_id) noexcept(Policy::is_noexcept)
    {
        place made{};
        const std::uint32_t number = lezgauri_construct_anonymous(get(), type_id, &made);
        return detail::if_ok<Policy>(number, value(get(), made));
    }

    // lezgauri_destroy_anonymous.
    detail::result_of<Policy, void> destroy_anonymous(place object) noexcept(Policy::is_noexcept)
    {
        return detail::done<Policy>(lezgauri_destroy_anonymous(get(), object));
    }

private:
    std::unique_ptr<lezgauri_handle, detail::close_segment> handle_;
};

// Owns a handle on a segment that is open only for reading. Its memory is the caller's, and outlives it. It is empty if it was made
// without one, moved from or closed; then its calls are refused with `bad_argument`.
template <class Policy>
class basic_reader : public detail::objects<basic_reader<Policy>, Policy, const lezgauri_handle> {
public:
    basic_reader() noexcept = default;
    explicit basic_reader(lezgauri_handle *owned) noexcept : handle_(owned) {}

    // The same segment with the other policy.
    template <class Other>
    explicit basic_reader(basic_reader<Other> &&other) noexcept : handle_(other.release())
    {
    }

    explicit operator bool() const noexcept { return handle_ != nullptr; }
    const lezgauri_handle *get() const noexcept { return handle_.get(); }
    [[nodiscard]] lezgauri_handle *release() noexcept { return handle_.release(); }
    void close() noexcept { handle_.reset(); }

    // lezgauri_reader: another reader of the same segment, for another thread. It may be made while this one is used.
    [[nodiscard]] detail::result_of<Policy, basic_reader> another() const noexcept(Policy::is_noexcept)
    {
        lezgauri_handle *handle = nullptr;
        const std::uint32_t number = lezgauri_reader(get(), &handle);
        return detail::if_ok<Policy>(number, basic_reader(handle));
    }

private:
    std::unique_ptr<lezgauri_handle, detail::close_segment> handle_;
};

// ---- images

// lezgauri_check: refused with the image's first fault.
template <class Policy = default_policy>
detail::result_of<Policy, void> check(const_bytes image) noexcept(Policy::is_noexcept)
{
    lezgauri_fault told;
    const std::uint32_t number = lezgauri_check(image.data(), image.size(), &told);
    if (number != LEZGAURI_OK) {
        return Policy::template refuse<void>(detail::fault_of(number, told));
    }
    return detail::result_of<Policy, void>();
}

// lezgauri_verify: returns the most steps that a run of the client takes.
template <class Policy = default_policy>
detail::result_of<Policy, std::uint64_t> verify(const_bytes image, const_bytes client) noexcept(Policy::is_noexcept)
{
    std::uint64_t bound = 0;
    lezgauri_fault told;
    const std::uint32_t number = lezgauri_verify(image.data(), image.size(), client.data(), client.size(), &bound, &told);
    if (number != LEZGAURI_OK) {
        return Policy::template refuse<std::uint64_t>(detail::fault_of(number, told));
    }
    return bound;
}

// lezgauri_run: runs clients on a copy of an image, which becomes `saved`. Refused with `too_small` if `saved` is shorter than the image,
// and with `bad_argument` if there are reports, but fewer than clients. A list of clients is an array or a container of lezgauri_bytes:
//
//     const lezgauri_bytes clients[] = {lezgauri::const_bytes(first), lezgauri::const_bytes(second)};
template <class Policy = default_policy>
[[nodiscard]] detail::result_of<Policy, ran_all> run(const_bytes image, items<const lezgauri_bytes> clients, const_bytes input,
                                                     mutable_bytes output, mutable_bytes saved,
                                                     items<report> reports = {}) noexcept(Policy::is_noexcept)
{
    if (saved.size() < image.size()) {
        return Policy::template refuse<ran_all>(detail::fault_of(LEZGAURI_TOO_SMALL));
    }
    if (reports.size() > 0 && reports.size() < clients.size()) {
        return Policy::template refuse<ran_all>(detail::fault_of(LEZGAURI_BAD_ARGUMENT));
    }
    ran_all did;
    lezgauri_fault told;
    const std::uint32_t number =
        lezgauri_run(image.data(), image.size(), clients.data(), clients.size(), input.data(), input.size(), output.data(),
                     output.size(), &did.written, saved.data(), reports.size() > 0 ? reports.data() : nullptr, &told);
    return detail::after_run<Policy>(number, told, did);
}

// lezgauri_open: copies an image, checks the copy and opens it.
template <class Policy = default_policy>
[[nodiscard]] detail::result_of<Policy, basic_segment<Policy>> open(const_bytes image) noexcept(Policy::is_noexcept)
{
    lezgauri_handle *handle = nullptr;
    lezgauri_fault told;
    const std::uint32_t number = lezgauri_open(image.data(), image.size(), &handle, &told);
    if (number != LEZGAURI_OK) {
        return Policy::template refuse<basic_segment<Policy>>(detail::fault_of(number, told));
    }
    return basic_segment<Policy>(handle);
}

// lezgauri_open_in: opens the image at the start of the caller's memory, and copies nothing. The segment may grow into the rest of the
// memory, which must outlive it.
template <class Policy = default_policy>
[[nodiscard]] detail::result_of<Policy, basic_segment<Policy>> open_in(mutable_bytes memory, std::size_t len) noexcept(Policy::is_noexcept)
{
    lezgauri_handle *handle = nullptr;
    lezgauri_fault told;
    const std::uint32_t number = lezgauri_open_in(memory.data(), len, memory.size(), &handle, &told);
    if (number != LEZGAURI_OK) {
        return Policy::template refuse<basic_segment<Policy>>(detail::fault_of(number, told));
    }
    return basic_segment<Policy>(handle);
}

template <class Policy = default_policy>
[[nodiscard]] detail::result_of<Policy, basic_segment<Policy>> open_in(mutable_bytes memory) noexcept(Policy::is_noexcept)
{
    return open_in<Policy>(memory, memory.size());
}

// lezgauri_read: opens the image in the caller's memory only for reading. The memory may be mapped read-only, and must outlive the reader.
template <class Policy = default_policy>
[[nodiscard]] detail::result_of<Policy, basic_reader<Policy>> read(const_bytes memory) noexcept(Policy::is_noexcept)
{
    lezgauri_handle *handle = nullptr;
    lezgauri_fault told;
    const std::uint32_t number = lezgauri_read(memory.data(), memory.size(), &handle, &told);
    if (number != LEZGAURI_OK) {
        return Policy::template refuse<basic_reader<Policy>>(detail::fault_of(number, told));
    }
    return basic_reader<Policy>(handle);
}

// lezgauri_create: makes and opens a segment of `size` bytes without objects or types.
template <class Policy = default_policy>
[[nodiscard]] detail::result_of<Policy, basic_segment<Policy>>
create(std::size_t size, allocator_kind allocator = allocator_kind::best_fit,
       index_kind index = index_kind::tree) noexcept(Policy::is_noexcept)
{
    lezgauri_handle *handle = nullptr;
    const std::uint32_t number = lezgauri_create(size, std::uint32_t(allocator), std::uint32_t(index), &handle);
    return detail::if_ok<Policy>(number, basic_segment<Policy>(handle));
}

// lezgauri_create_in: the same at the start of the caller's memory. The segment may grow into the rest of the memory, which must outlive
// it.
template <class Policy = default_policy>
[[nodiscard]] detail::result_of<Policy, basic_segment<Policy>>
create_in(mutable_bytes memory, std::size_t size, allocator_kind allocator = allocator_kind::best_fit,
          index_kind index = index_kind::tree) noexcept(Policy::is_noexcept)
{
    lezgauri_handle *handle = nullptr;
    const std::uint32_t number =
        lezgauri_create_in(memory.data(), memory.size(), size, std::uint32_t(allocator), std::uint32_t(index), &handle);
    return detail::if_ok<Policy>(number, basic_segment<Policy>(handle));
}

// ---- texts of clients

namespace detail {

template <class Policy>
result_of<Policy, converted> after_conversion(std::uint32_t number, const lezgauri_fault &told,
                                              std::size_t needed) noexcept(Policy::is_noexcept)
{
    if (number != LEZGAURI_OK && number != LEZGAURI_TOO_SMALL) {
        return Policy::template refuse<converted>(fault_of(number, told));
    }
    return converted{needed, number == LEZGAURI_TOO_SMALL};
}

} // namespace detail

// lezgauri_assemble: writes the file of the client that a text spells to the start of a buffer.
template <class Policy = default_policy>
[[nodiscard]] detail::result_of<Policy, converted> assemble(const_bytes source, mutable_bytes buffer) noexcept(Policy::is_noexcept)
{
    std::size_t needed = 0;
    lezgauri_fault told;
    const std::uint32_t number = lezgauri_assemble(source.data(), source.size(), buffer.data(), buffer.size(), &needed, &told);
    return detail::after_conversion<Policy>(number, told, needed);
}

// lezgauri_print: writes the canonical text of a client to the start of a buffer.
template <class Policy = default_policy>
[[nodiscard]] detail::result_of<Policy, converted> print(const_bytes client_bytes,
                                                         mutable_bytes buffer) noexcept(Policy::is_noexcept)
{
    std::size_t needed = 0;
    lezgauri_fault told;
    const std::uint32_t number =
        lezgauri_print(client_bytes.data(), client_bytes.size(), buffer.data(), buffer.size(), &needed, &told);
    return detail::after_conversion<Policy>(number, told, needed);
}

// ---- the two namespaces

using segment = basic_segment<default_policy>;
using reader = basic_reader<default_policy>;
using value = basic_value<default_policy, lezgauri_handle>;
using const_value = basic_value<default_policy, const lezgauri_handle>;
using client = basic_client<default_policy>;

namespace results {

using segment = basic_segment<returning>;
using reader = basic_reader<returning>;
using value = basic_value<returning, lezgauri_handle>;
using const_value = basic_value<returning, const lezgauri_handle>;
using client = basic_client<returning>;

template <class Policy = returning>
[[nodiscard]] expected<void> check(const_bytes image) noexcept
{
    return lezgauri::check<Policy>(image);
}

template <class Policy = returning>
[[nodiscard]] expected<std::uint64_t> verify(const_bytes image, const_bytes client_bytes) noexcept
{
    return lezgauri::verify<Policy>(image, client_bytes);
}

template <class Policy = returning>
[[nodiscard]] expected<ran_all> run(const_bytes image, items<const lezgauri_bytes> clients, const_bytes input, mutable_bytes output,
                                    mutable_bytes saved, items<report> reports = {}) noexcept
{
    return lezgauri::run<Policy>(image, clients, input, output, saved, reports);
}

template <class Policy = returning>
[[nodiscard]] expected<segment> open(const_bytes image) noexcept
{
    return lezgauri::open<Policy>(image);
}

template <class Policy = returning>
[[nodiscard]] expected<segment> open_in(mutable_bytes memory, std::size_t len) noexcept
{
    return lezgauri::open_in<Policy>(memory, len);
}

template <class Policy = returning>
[[nodiscard]] expected<segment> open_in(mutable_bytes memory) noexcept
{
    return lezgauri::open_in<Policy>(memory);
}

template <class Policy = returning>
[[nodiscard]] expected<reader> read(const_bytes memory) noexcept
{
    return lezgauri::read<Policy>(memory);
}

template <class Policy = returning>
[[nodiscard]] expected<segment> create(std::size_t size, allocator_kind allocator = allocator_kind::best_fit,
                                       index_kind index = index_kind::tree) noexcept
{
    return lezgauri::create<Policy>(size, allocator, index);
}

template <class Policy = returning>
[[nodiscard]] expected<segment> create_in(mutable_bytes memory, std::size_t size,
                                          allocator_kind allocator = allocator_kind::best_fit,
                                          index_kind index = index_kind::tree) noexcept
{
    return lezgauri::create_in<Policy>(memory, size, allocator, index);
}

template <class Policy = returning>
[[nodiscard]] expected<converted> assemble(const_bytes source, mutable_bytes buffer) noexcept
{
    return lezgauri::assemble<Policy>(source, buffer);
}

template <class Policy = returning>
[[nodiscard]] expected<converted> print(const_bytes client_bytes, mutable_bytes buffer) noexcept
{
    return lezgauri::print<Policy>(client_bytes, buffer);
}

} // namespace results

} // namespace lezgauri

#ifdef __cpp_lib_span
// A std::span may be made of a view that has no name.
template <>
inline constexpr bool std::ranges::enable_borrowed_range<lezgauri::const_bytes> = true;
template <>
inline constexpr bool std::ranges::enable_borrowed_range<lezgauri::mutable_bytes> = true;
#endif

#endif

// ---- files in memory, for POSIX: define LEZGAURI_MAPPED_FILE before this header is included

#if defined(LEZGAURI_MAPPED_FILE) && !defined(LEZGAURI_MAPPED_FILE_HPP)
#define LEZGAURI_MAPPED_FILE_HPP

#include <cerrno>

#include <fcntl.h>
#include <sys/mman.h>
#include <sys/stat.h>
#include <unistd.h>

namespace lezgauri {

enum class file_access {
    read,
    read_write
};

namespace detail {

struct unmap {
    std::size_t len = 0;

    void operator()(std::byte *at) const noexcept { ::munmap(at, len); }
};

class descriptor {
public:
    explicit descriptor(int number) noexcept : number_(number) {}
    descriptor(const descriptor &) = delete;
    descriptor &operator=(const descriptor &) = delete;
    ~descriptor()
    {
        if (number_ >= 0) {
            ::close(number_);
        }
    }

    int number() const noexcept { return number_; }

private:
    int number_;
};

inline std::error_code last_error() noexcept
{
    return {errno, std::generic_category()};
}

} // namespace detail

// Owns a shared mapping of a whole file: what is written to `room` is written to the file. It is empty if it was made without a file,
// moved from or closed.
//
// A segment of `open` is a copy, so runs don't change the file that it was opened from; `save` does. A segment of `open_in(file.room())` is
// the file: runs change it in place. While a call uses the file no other process may write it, except during `open`, which checks its
// copy. If another process makes the file shorter, a call that uses the bytes that are gone ends this process with SIGBUS. If the machine
// stops during a run in place, `save` or `sync`, the file may be half written: to be safe from that, save to a new file and rename it.
template <class Policy>
class basic_mapped_file {
public:
    basic_mapped_file() noexcept = default;

    // Takes a mapping of `len` bytes from mmap.
    basic_mapped_file(void *at, std::size_t len, file_access how) noexcept
        : at_(static_cast<std::byte *>(at), detail::unmap{len}), access_(how)
    {
    }

    explicit operator bool() const noexcept { return at_ != nullptr; }
    const_bytes bytes() const noexcept { return {at_.get(), size()}; }
    std::size_t size() const noexcept { return at_ != nullptr ? at_.get_deleter().len : 0; }
    void close() noexcept { at_.reset(); }

    // The file's bytes, to be written. Empty if the file was mapped to be read, so `save` refuses it with `too_small`.
    mutable_bytes room() noexcept { return access_ == file_access::read_write ? mutable_bytes(at_.get(), size()) : mutable_bytes(); }

    // Waits until all that was written is in the file, on its device. Closing a mapping doesn't wait.
    detail::result_of<Policy, void, std::error_code> sync() noexcept(Policy::is_noexcept)
    {
        if (at_ != nullptr && ::msync(at_.get(), size(), MS_SYNC) != 0) {
            return Policy::template refuse<void>(detail::last_error());
        }
        return detail::result_of<Policy, void, std::error_code>();
    }

private:
    std::unique_ptr<std::byte, detail::unmap> at_;
    file_access access_ = file_access::read;
};

// Maps a whole file. The mapping of an empty file is empty. Throws std::system_error, or returns the error code of the call that failed.
template <class Policy = default_policy>
[[nodiscard]] detail::result_of<Policy, basic_mapped_file<Policy>, std::error_code>
map_file(const char *path, file_access how) noexcept(Policy::is_noexcept)
{
    using file = basic_mapped_file<Policy>;
    const detail::descriptor opened(::open(path, (how == file_access::read ? O_RDONLY : O_RDWR) | O_CLOEXEC));
    struct ::stat about;
    if (opened.number() < 0 || ::fstat(opened.number(), &about) != 0) {
        return Policy::template refuse<file>(detail::last_error());
    }
    if (about.st_size == 0 && S_ISREG(about.st_mode)) {
        return file();
    }
    if (about.st_size < 0 || static_cast<std::uintmax_t>(about.st_size) > PTRDIFF_MAX) {
        return Policy::template refuse<file>(std::make_error_code(std::errc::file_too_large));
    }
    const auto len = static_cast<std::size_t>(about.st_size);
    void *at = ::mmap(nullptr, len, how == file_access::read ? PROT_READ : PROT_READ | PROT_WRITE, MAP_SHARED, opened.number(), 0);
    if (at == MAP_FAILED) {
        return Policy::template refuse<file>(detail::last_error());
    }
    return file(at, len, how);
}

using mapped_file = basic_mapped_file<default_policy>;

namespace results {

using mapped_file = basic_mapped_file<returning>;

template <class Policy = returning>
[[nodiscard]] expected<mapped_file, std::error_code> map_file(const char *path, file_access how) noexcept
{
    return lezgauri::map_file<Policy>(path, how);
}

} // namespace results

} // namespace lezgauri

#endif
