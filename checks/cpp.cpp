// Tests lezgauri.hpp: each function once at least, and each way in which it is refused, with both policies. Prints each wrong result, and
// at the end how many results are wrong.
//
//   cpp IMAGE CLIENT FILE    the image of 784 bytes whose number `x`, at 720, is 41; the client that adds 1 and prints it; and a file
//                            with the same image, which is changed
//
// Link with -Wl,--wrap=malloc,--wrap=realloc: some calls are made, and some requests refused, during the library's requests for memory.
#define LEZGAURI_MAPPED_FILE
#include <lezgauri.hpp>

#include <array>
#include <atomic>
#include <cstdio>
#include <cstdlib>
#include <cstring>
#include <string>
#include <thread>
#include <vector>

namespace lz = lezgauri;

using Bytes = std::vector<unsigned char>;

static std::atomic<int> made;
static std::atomic<int> wrong;

static void expect(const char *what, bool is_right)
{
    made++;
    if (!is_right) {
        wrong++;
        std::printf("%s\n", what);
    }
}

// ---- the library's requests for memory

extern "C" void *__real_malloc(std::size_t size);
extern "C" void *__real_realloc(void *block, std::size_t size);

static std::size_t requests;
static std::size_t refused_request; // counted from 1; 0 if none is refused
static void (*at_first_request)();

static bool may_have()
{
    requests++;
    if (requests == 1 && at_first_request != nullptr) {
        at_first_request();
    }
    return requests != refused_request;
}

extern "C" void *__wrap_malloc(std::size_t size)
{
    return may_have() ? __real_malloc(size) : nullptr;
}

extern "C" void *__wrap_realloc(void *block, std::size_t size)
{
    return may_have() ? __real_realloc(block, size) : nullptr;
}

// ---- files

static Bytes read_file(const char *name)
{
    std::FILE *file = std::fopen(name, "rb");
    if (file == nullptr) {
        std::perror(name);
        std::exit(2);
    }
    Bytes bytes(4096);
    bytes.resize(std::fread(bytes.data(), 1, bytes.size(), file));
    std::fclose(file);
    bytes.shrink_to_fit();
    return bytes;
}

static Bytes image;
static Bytes increment;
static const char *file_name;

enum { X = 720 };

// ---- clients that the verifier refuses

static Bytes client_of(std::initializer_list<unsigned char> types, std::initializer_list<std::array<unsigned char, 8>> code)
{
    Bytes bytes{'S', 'E', 'G', 'C', 1, 0, 0, 0};
    bytes.insert(bytes.end(), {static_cast<unsigned char>(types.size()), 0, 0, 0, 0, 0, 0, 0});
    bytes.insert(bytes.end(), {static_cast<unsigned char>(code.size()), 0, 0, 0});
    for (const unsigned char kind : types) {
        bytes.push_back(kind);
        bytes.insert(bytes.end(), 15, 0);
    }
    for (const auto &instruction : code) {
        bytes.insert(bytes.end(), instruction.begin(), instruction.end());
    }
    return bytes;
}

// CONST r0 1, OUTI r1: register 1 isn't defined.
static const Bytes rejected = client_of({}, {{1, 0, 0, 0, 1, 0, 0, 0}, {12, 0, 1, 0, 0, 0, 0, 0}});

// CONST r0 1, WHILE r0 1000000000, CONST r1 1, END.
static const Bytes too_long = client_of(
    {}, {{1, 0, 0, 0, 1, 0, 0, 0}, {9, 0, 0, 0, 0x00, 0xCA, 0x9A, 0x3B}, {1, 1, 0, 0, 1, 0, 0, 0}, {11, 0, 0, 0, 0, 0, 0, 0}});

// Clients without code. The image's only type is i64.
static const Bytes texts = client_of({2}, {});
static const Bytes numbers_and_texts = client_of({1, 2}, {});
static const Bytes numbers_and_numbers = client_of({1, 1}, {});

// ---- the two policies

template <class Policy>
struct types {
    using segment = lz::basic_segment<Policy>;
    using client = lz::basic_client<Policy>;
    using file = lz::basic_mapped_file<Policy>;
};

// Why a call is refused: a fault or an error code, without a number if it isn't.
template <class Error = lz::fault, class Got>
static Error why(lz::returning, Got call)
{
    const auto got = call();
    return got ? Error{} : got.error();
}

static std::string words(const lz::fault &why)
{
    return lz::fault_text(why).c_str();
}

static std::string words(const std::error_code &why)
{
    return why.message();
}

// The value of a call that is accepted.
template <class Got>
static auto value(lz::returning, Got call)
{
    auto got = call();
    if (!got) {
        std::printf("refused: %s\n", words(got.error()).c_str());
        std::exit(1);
    }
    if constexpr (!std::is_void_v<decltype(*got)>) {
        return std::move(*got);
    }
}

#ifdef __cpp_exceptions
template <class Error = lz::fault, class Got>
static Error why(lz::throwing, Got call)
{
    try {
        static_cast<void>(call());
    } catch (const lz::error &refused) {
        if (refused.what() != words(refused.why())) {
            expect("what of an error", false);
        }
        if constexpr (std::is_same_v<Error, lz::fault>) {
            return refused.why();
        }
    } catch (const std::system_error &failed) {
        if constexpr (std::is_same_v<Error, std::error_code>) {
            return failed.code();
        }
    }
    return Error{};
}

template <class Got>
static auto value(lz::throwing, Got call)
{
    return call();
}
#endif

static lz::fault image_fault(lz::status number, std::uint32_t position = 0)
{
    return {number, {}, position, lz::reason::none};
}

static lz::fault client_fault(lz::status number, std::uint32_t position = 0, lz::reason reason = lz::reason::none,
                              std::uint64_t client = 0)
{
    return {number, client, position, reason};
}

#define VALUE(...) value(Policy{}, [&] { return __VA_ARGS__; })
#define REFUSED(wanted, ...) expect("refused: " #__VA_ARGS__, why(Policy{}, [&] { return __VA_ARGS__; }) == (wanted))

// ---- names and faults

static void names()
{
    static const std::pair<lz::status, std::string_view> statuses[] = {
        {lz::status::ok, "Ok"},
        {lz::status::memory, "Memory"},
        {lz::status::misplaced, "Misplaced"},
        {lz::status::bad_type, "BadType"},
        {lz::status::type_mismatch, "TypeMismatch"},
        {lz::status::bad_size, "BadSize"},
        {lz::status::no_host_room, "NoHostRoom"},
        {lz::status::bad_header, "BadHeader"},
        {lz::status::bad_block, "BadBlock"},
        {lz::status::bad_free, "BadFree"},
        {lz::status::bad_index, "BadIndex"},
        {lz::status::bad_pointer, "BadPointer"},
        {lz::status::double_owner, "DoubleOwner"},
        {lz::status::unowned, "Unowned"},
        {lz::status::bad_value, "BadValue"},
        {lz::status::bad_code, "BadCode"},
        {lz::status::bad_line, "BadLine"},
        {lz::status::rejected, "Rejected"},
        {lz::status::too_long, "TooLong"},
        {lz::status::bad_argument, "BadArgument"},
        {lz::status::output_full, "OutputFull"},
        {lz::status::too_small, "TooSmall"},
        {lz::status::busy, "Busy"},
    };
    for (const auto &[status, wanted] : statuses) {
        expect("name of a status", lz::name(status) == wanted);
        expect("text of a status", lz::text(status) != std::string_view("unknown status"));
    }
    static const std::string_view reasons[] = {"None", "WrongOperand", "OwnerLost", "PutIntoItself", "ChangedInLoop"};
    for (std::uint32_t number = 0; number < std::size(reasons); number++) {
        expect("name of a reason", lz::name(lz::reason(number)) == reasons[number]);
    }
    expect("text of a reason", lz::text(lz::reason::owner_lost) ==
                                   std::string_view("an owned object must not be lost: PUT it into an own, FREEZE it or DROP it"));
    expect("no status", lz::name(lz::status(99)).empty() && lz::name(lz::reason(99)).empty());
    expect("no status: text", lz::text(lz::status(99)) == std::string_view("unknown status"));
    expect("no reason: text", lz::text(lz::reason::none) == std::string_view("unknown reason"));
    expect("version", lz::version() == std::string_view(LEZGAURI_VERSION));
    expect("position", lz::has_position(lz::status::rejected) && !lz::has_position(lz::status::memory));
    expect("text: header", lz::fault_text(image_fault(lz::status::bad_header)).view() == "lezgauri: BadHeader (10)");
    expect("text: client", lz::fault_text(client_fault(lz::status::rejected, 3, lz::reason::owner_lost, 1)).view() ==
                               "lezgauri: Rejected (22), client 1, position 3, reason 2 (OwnerLost)");
    const lz::fault longest{lz::status(UINT32_MAX), UINT64_MAX - 1, UINT32_MAX, lz::reason(UINT32_MAX)};
    const lz::fault_text text(longest);
    expect("text: no names", text.view().size() == std::strlen(text.c_str()) && text.view().size() < 128);
    expect("differ", image_fault(lz::status::busy) != client_fault(lz::status::busy));
}

// ---- views of memory

static void views()
{
    static_assert(std::is_nothrow_move_constructible_v<lz::segment> && std::is_nothrow_move_assignable_v<lz::client>);
    static_assert(!std::is_copy_constructible_v<lz::segment> && !std::is_copy_assignable_v<lz::segment>);
    static_assert(!std::is_copy_constructible_v<lz::client> && !std::is_copy_assignable_v<lz::client>);
    static_assert(!std::is_copy_constructible_v<lz::mapped_file> && std::is_nothrow_move_constructible_v<lz::mapped_file>);
    static_assert(std::is_constructible_v<lz::const_bytes, const Bytes &> && std::is_constructible_v<lz::const_bytes, std::string_view>);
    static_assert(std::is_constructible_v<lz::const_bytes, lz::mutable_bytes>);
    static_assert(!std::is_constructible_v<lz::mutable_bytes, lz::const_bytes>);
    static_assert(!std::is_constructible_v<lz::const_bytes, const char (&)[4]>, "a literal has a byte too many");
    static_assert(!std::is_constructible_v<lz::const_bytes, const char *> && !std::is_constructible_v<lz::const_bytes, std::vector<int>>);
    static_assert(!std::is_constructible_v<lz::mutable_bytes, const Bytes &>, "it can't be written");
    static_assert(!std::is_constructible_v<lz::mutable_bytes, Bytes> && !std::is_constructible_v<lz::mutable_bytes, std::string>,
                  "it is gone when the call returns");
    static_assert(!std::is_constructible_v<lz::mutable_bytes, std::string_view>);
    static_assert(!std::is_constructible_v<lz::mutable_bytes, std::vector<int> &>);
    static_assert(!std::is_constructible_v<lz::items<lz::report>, std::vector<lz::report>>);
    static_assert(!std::is_constructible_v<lz::items<lz::report>, const std::vector<lz::report> &>);

    Bytes bytes{1, 2, 3};
    char letters[4] = "abc";
    unsigned char numbers[2] = {1, 2};
    std::array<std::byte, 5> array{};
    std::string text = "four";
    const lz::const_bytes none;
    expect("no bytes", none.data() == nullptr && none.size() == 0 && none.begin() == none.end() && none.text().empty());
    expect("bytes of a vector", lz::const_bytes(bytes).size() == 3 && lz::const_bytes(bytes).data() == lz::mutable_bytes(bytes).data());
    expect("bytes of an array", lz::const_bytes(numbers).size() == 2 && lz::mutable_bytes(letters).size() == 4);
    expect("bytes of std::array", lz::const_bytes(array).size() == 5 && lz::mutable_bytes(array).size() == 5);
    expect("bytes of a string", lz::const_bytes(text).text() == "four" && lz::mutable_bytes(text).size() == 4);
    expect("bytes at a pointer", lz::const_bytes(letters, 2).text() == "ab" && lz::mutable_bytes(letters, 2).size() == 2);
    const lz::mutable_bytes room(letters, 3);
    expect("bytes of a view", lz::const_bytes(room).text() == "abc" && room.end() - room.begin() == 3);
    const lezgauri_bytes item = lz::const_bytes(bytes);
    expect("as an item", item.bytes == bytes.data() && item.len == 3);
    lz::report reports[2];
    std::vector<lz::report> more(3);
    expect("items", lz::items<lz::report>(reports).size() == 2 && lz::items<lz::report>(more).data() == more.data());
    expect("items at a pointer", lz::items<lz::report>(reports, 1).size() == 1 && lz::items<const lz::report>(more).size() == 3);
    expect("no items", lz::items<lz::report>().size() == 0 && lz::items<lz::report>().data() == nullptr);
#ifdef __cpp_lib_span
    expect("bytes of a span", lz::const_bytes(std::span(bytes)).size() == 3 && lz::mutable_bytes(std::span(bytes)).size() == 3);
    static_assert(!std::is_constructible_v<lz::mutable_bytes, std::span<const char>>);
    expect("a span of bytes", std::span<const std::byte>(lz::const_bytes(bytes)).size() == 3);
    expect("a span of room", std::span<std::byte>(lz::mutable_bytes(bytes)).size() == 3);
    expect("items of a span", lz::items<lz::report>(std::span(reports)).size() == 2);
#endif
}

// ---- calls

template <class Policy>
static typename types<Policy>::segment opened()
{
    return VALUE(lz::open<Policy>(image));
}

// The number `x` of a segment, which is sound.
template <class Policy>
static int x_of(const lz::basic_segment<Policy> &segment)
{
    Bytes saved(VALUE(segment.size()));
    expect("save", VALUE(segment.save(saved)) == saved.size());
    VALUE(lz::check<Policy>(saved));
    return saved[X];
}

template <class Policy>
static void images()
{
    VALUE(lz::check<Policy>(image));
    expect("verify", VALUE(lz::verify<Policy>(image, increment)) == 6);
    const lz::fault header = image_fault(lz::status::bad_header);
    const lz::fault argument = image_fault(lz::status::bad_argument);
    REFUSED(header, lz::check<Policy>({}));
    REFUSED(header, lz::check<Policy>({image.data(), image.size() - 1}));
    REFUSED(argument, lz::check<Policy>({nullptr, 1}));
    REFUSED(argument, lz::check<Policy>({image.data(), SIZE_MAX}));
    REFUSED(header, lz::verify<Policy>(increment, increment));
    REFUSED(header, lz::open<Policy>(increment));
    REFUSED(argument, lz::open<Policy>({nullptr, 1}));
    Bytes changed = image;
    changed[X - 12] ^= 1; // the size of the previous block, in a header
    REFUSED(image_fault(lz::status::bad_block, 704), lz::check<Policy>(changed));
    REFUSED(image_fault(lz::status::bad_block, 704), lz::open<Policy>(changed));
    REFUSED(client_fault(lz::status::bad_code), lz::verify<Policy>(image, {}));
    REFUSED(client_fault(lz::status::bad_code, 95), lz::verify<Policy>(image, {increment.data(), increment.size() - 1}));
    REFUSED(client_fault(lz::status::rejected, 1, lz::reason::wrong_operand), lz::verify<Policy>(image, rejected));
    REFUSED(client_fault(lz::status::too_long), lz::verify<Policy>(image, too_long));
    REFUSED(client_fault(lz::status::type_mismatch), lz::verify<Policy>(image, texts));
    REFUSED(argument, lz::verify<Policy>(image, {nullptr, 1}));
}

template <class Policy>
static void runs()
{
    std::vector<lezgauri_bytes> clients{lz::const_bytes(increment), lz::const_bytes(increment)};
    std::array<lz::report, 2> reports{};
    Bytes saved(image.size());
    char output[6];
    lz::ran_all did = VALUE(lz::run<Policy>(image, clients, {}, output, saved, reports));
    expect("run", !did.is_full && did.written == 6 && std::memcmp(output, "42\n43\n", 6) == 0);
    expect("run: saved", saved[X] == 43 && image[X] == 41 && reports[1].steps == 6 && reports[1].ended == 0);
    did = VALUE(lz::run<Policy>(image, clients, {}, {output, 5}, saved, reports));
    expect("run: output full", did.is_full && did.written == 5 && reports[1].ended == 1);
    did = VALUE(lz::run<Policy>(image, {}, {}, {}, saved));
    expect("run: no clients", !did.is_full && did.written == 0 && saved[X] == 41);
    const lezgauri_bytes one[] = {lz::const_bytes(increment)};
    did = VALUE(lz::run<Policy>(image, one, std::string_view("input"), output, saved, reports));
    expect("run: one client", did.written == 3);
    const lz::fault argument = image_fault(lz::status::bad_argument);
    REFUSED(image_fault(lz::status::too_small), lz::run<Policy>(image, one, {}, output, {saved.data(), saved.size() - 1}));
    REFUSED(argument, lz::run<Policy>(image, clients, {}, output, saved, {reports.data(), 1}));
    REFUSED(argument, lz::run<Policy>(image, one, {}, output, image));
    REFUSED(argument, lz::run<Policy>(image, one, {}, saved, saved));
    REFUSED(argument, lz::run<Policy>(image, {clients.data(), SIZE_MAX}, {}, output, saved));
    REFUSED(image_fault(lz::status::bad_header), lz::run<Policy>({}, one, {}, output, saved));
    clients[1] = lz::const_bytes(rejected);
    REFUSED(client_fault(lz::status::rejected, 1, lz::reason::wrong_operand, 1),
            lz::run<Policy>(image, clients, {}, output, saved, reports));
}

template <class Policy>
static void segments()
{
    auto segment = opened<Policy>();
    expect("open", bool(segment) && segment.get() != nullptr && VALUE(segment.size()) == image.size() && x_of<Policy>(segment) == 41);
    char output[3];
    lz::ran did = VALUE(segment.run_on(increment, {}, output));
    expect("run on", !did.is_full && did.written == 3 && did.report.steps == 6 && std::memcmp(output, "42\n", 3) == 0);
    did = VALUE(segment.run_on(increment, {}, {output, 2}));
    expect("run on: output full", did.is_full && did.written == 2 && did.report.ended == 1 && x_of<Policy>(segment) == 43);
    did = VALUE(segment.run_on(increment));
    expect("run on: no output", did.is_full && did.written == 0 && x_of<Policy>(segment) == 44);
    lz::ran_whole whole = VALUE(segment.run_whole(increment, {}, {output, 2}));
    expect("run whole: output full", whole.is_full && whole.needed == 3 && whole.report.steps == 0 && x_of<Policy>(segment) == 44);
    whole = VALUE(segment.run_whole(increment));
    expect("run whole: no output", whole.is_full && whole.needed == 3);
    whole = VALUE(segment.run_whole(increment, {}, output));
    expect("run whole", !whole.is_full && whole.needed == 3 && whole.report.steps == 6 && x_of<Policy>(segment) == 45);
    const lz::fault no_operand = client_fault(lz::status::rejected, 1, lz::reason::wrong_operand);
    const lz::fault argument = image_fault(lz::status::bad_argument);
    REFUSED(no_operand, segment.run_on(rejected, {}, output));
    REFUSED(no_operand, segment.run_whole(rejected, {}, output));
    REFUSED(client_fault(lz::status::too_long), segment.run_on(too_long, {}, output));
    REFUSED(argument, segment.run_on(increment, {nullptr, 1}, output));
    REFUSED(argument, segment.run_on(increment, {output, 3}, output));
    REFUSED(argument, segment.run_whole(increment, {}, {nullptr, 1}));
    Bytes saved(image.size() + 1);
    REFUSED(image_fault(lz::status::too_small), segment.save({saved.data(), image.size() - 1}));
    REFUSED(argument, segment.save({nullptr, image.size()}));
    expect("save: more room", VALUE(segment.save(saved)) == image.size() && saved[X] == 45);
    expect("refused: as before", x_of<Policy>(segment) == 45);
}

// Segments in the caller's memory, new segments, and their size.
template <class Policy>
static void sizes()
{
    const lz::fault argument = image_fault(lz::status::bad_argument);
    const lz::fault no_size = image_fault(lz::status::bad_size);
    const lz::fault no_room = image_fault(lz::status::no_host_room);
    char output[3];
    Bytes lent = image;
    lent.resize(image.size() + 64);
    REFUSED(image_fault(lz::status::bad_header), lz::open_in<Policy>(lent));
    REFUSED(argument, lz::open_in<Policy>(lent, lent.size() + 1));
    {
        auto segment = VALUE(lz::open_in<Policy>(lent, image.size()));
        const lz::ran did = VALUE(segment.run_on(increment, {}, output));
        expect("open in", did.written == 3 && lent[X] == 42 && x_of<Policy>(segment) == 42);
        const lz::const_bytes bytes = VALUE(segment.image());
        expect("image", static_cast<const void *>(bytes.data()) == lent.data() && bytes.size() == image.size());
        const std::size_t all = VALUE(segment.free_memory()).all;
        REFUSED(no_size, segment.grow(8));
        REFUSED(no_room, segment.grow(80));
        expect("grow", VALUE(segment.grow(64)) == lent.size() && VALUE(segment.size()) == lent.size());
        expect("free memory", VALUE(segment.free_memory()).all == all + 64 && VALUE(segment.free_memory()).largest >= 64);
        VALUE(lz::check<Policy>(lent));
        expect("shrink", VALUE(segment.shrink()) <= image.size());
    }
    auto again = VALUE(lz::open_in<Policy>({lent.data(), image.size()}));
    expect("open in: again", x_of<Policy>(again) == 42);

    auto segment = VALUE(lz::create<Policy>(4096));
    expect("create", VALUE(segment.size()) == 4096 && VALUE(segment.free_memory()).largest == 4096 - 704);
    const lz::const_bytes made_image = VALUE(segment.image());
    expect("create: kinds", made_image.data()[16] == std::byte{1} && made_image.data()[20] == std::byte{1});
    expect("create: shrink", VALUE(segment.shrink()) == 736 && VALUE(segment.grow(1 << 20)) == 736 + (1 << 20));
    REFUSED(no_size, lz::create<Policy>(735));
    REFUSED(argument, lz::create<Policy>(4096, lz::allocator_kind(2)));
    REFUSED(argument, lz::create<Policy>(4096, lz::allocator_kind::seq_fit, lz::index_kind(2)));
    REFUSED(no_room, lz::create_in<Policy>({lent.data(), 735}, 736));
    segment = VALUE(lz::create_in<Policy>(lent, 736, lz::allocator_kind::seq_fit, lz::index_kind::flat));
    expect("create in", lent[16] == 0 && lent[20] == 0 && VALUE(segment.grow(64)) == 800);
}

template <class Policy>
static void clients()
{
    auto segment = opened<Policy>();
    auto other = opened<Policy>();
    Bytes bytes = increment;
    auto client = VALUE(segment.prepare(bytes));
    std::fill(bytes.begin(), bytes.end(), static_cast<unsigned char>(0));
    char output[3];
    requests = 0;
    lz::ran did = VALUE(client(segment, std::string_view("input"), output));
    expect("run client", !did.is_full && did.written == 3 && did.report.steps == 6 && did.report.read == 0);
    expect("run client: no request for memory", requests == 0);
    did = VALUE(client(segment, {}, {output, 2}));
    expect("run client: output full", did.is_full && did.written == 2 && x_of<Policy>(segment) == 43);
    did = VALUE(client(other));
    expect("run client: another segment", did.is_full && x_of<Policy>(other) == 42);
    const lz::fault argument = image_fault(lz::status::bad_argument);
    REFUSED(client_fault(lz::status::rejected, 1, lz::reason::wrong_operand), segment.prepare(rejected));
    REFUSED(client_fault(lz::status::bad_code), segment.prepare({}));
    REFUSED(argument, segment.prepare({nullptr, 1}));
    REFUSED(argument, client(segment, {nullptr, 1}, output));
    REFUSED(argument, client(segment, {}, {nullptr, 1}));

    auto numbers = VALUE(segment.prepare(numbers_and_numbers));
    did = VALUE(segment.run_on(numbers_and_texts));
    expect("types: another client", !did.is_full);
    REFUSED(client_fault(lz::status::type_mismatch, 1), numbers(segment));
    REFUSED(client_fault(lz::status::type_mismatch, 1), segment.prepare(numbers_and_numbers));
    did = VALUE(numbers(other));
    segment.close();
    did = VALUE(client(other, {}, output));
    expect("run client: its segment is closed", x_of<Policy>(other) == 43);
}

// The client is printed, and its text assembled again.
template <class Policy>
static void conversions()
{
    Bytes text(1024);
    lz::converted did = VALUE(lz::print<Policy>(increment, text));
    expect("print", !did.is_full && did.needed <= text.size());
    text.resize(did.needed);
    Bytes file(increment.size());
    did = VALUE(lz::assemble<Policy>(text, {file.data(), file.size() - 1}));
    expect("assemble: too small", did.is_full && did.needed == increment.size() && file == Bytes(file.size()));
    did = VALUE(lz::assemble<Policy>(text, file));
    expect("assemble", !did.is_full && did.needed == increment.size() && file == increment);
    did = VALUE(lz::print<Policy>(increment, {}));
    expect("print: no room", did.is_full && did.needed == text.size());
    const lz::fault argument = image_fault(lz::status::bad_argument);
    REFUSED(image_fault(lz::status::bad_line, 2), lz::assemble<Policy>(std::string_view("type i64\nno line\n"), file));
    REFUSED(client_fault(lz::status::bad_code), lz::print<Policy>(image, text));
    REFUSED(argument, lz::assemble<Policy>({nullptr, 1}, file));
    REFUSED(argument, lz::print<Policy>(increment, increment));
}

// A client adds a second type to the image's.
template <class Policy>
static void type_tables()
{
    auto segment = opened<Policy>();
    lz::type_table table = VALUE(segment.types());
    expect("types", table.size() == 1 && lz::kind_of(table[0]) == lz::kind::i64 && table[0].count == 0);
    const lz::ran did = VALUE(segment.run_on(numbers_and_texts));
    table = VALUE(segment.types());
    std::string kinds;
    for (const lz::type &type : table) {
        kinds += static_cast<char>('0' + type.kind);
    }
    expect("types: another one", !did.is_full && kinds == "12" && table.data() == table.begin());
    segment.close();
    REFUSED(image_fault(lz::status::bad_argument), segment.types());
}

// Handles that are empty refuse each call. Handles that are moved keep what they own.
template <class Policy, class Other>
static void moves()
{
    const lz::fault argument = image_fault(lz::status::bad_argument);
    auto segment = opened<Policy>();
    auto client = VALUE(segment.prepare(increment));
    lezgauri_handle *handle = segment.get();
    lezgauri_client *prepared = client.get();
    char output[3];
    auto moved_segment = std::move(segment);
    auto moved_client = std::move(client);
    expect("moved", moved_segment.get() == handle && moved_client.get() == prepared && bool(moved_segment) && bool(moved_client));
    expect("moved from", !segment && !client && segment.get() == nullptr && client.get() == nullptr);
    REFUSED(argument, segment.size());
    REFUSED(argument, segment.grow(16));
    REFUSED(argument, segment.shrink());
    REFUSED(argument, segment.free_memory());
    REFUSED(argument, segment.image());
    REFUSED(argument, segment.save(output));
    REFUSED(argument, segment.prepare(increment));
    REFUSED(argument, segment.run_on(increment, {}, output));
    REFUSED(argument, segment.run_whole(increment, {}, output));
    REFUSED(argument, client(moved_segment, {}, output));
    REFUSED(argument, moved_client(segment, {}, output));
    expect("moved: as before", x_of<Policy>(moved_segment) == 41);

    // assignment closes what was owned
    segment = opened<Policy>();
    client = VALUE(segment.prepare(numbers_and_numbers));
    segment = std::move(moved_segment);
    client = std::move(moved_client);
    expect("assigned", segment.get() == handle && client.get() == prepared);

    // the other policy, also mixed in one call, and handles of the calls of C
    lz::basic_segment<Other> other_segment(std::move(segment));
    lz::ran did = VALUE(client(other_segment, {}, output));
    expect("both policies", did.written == 3 && x_of<Other>(other_segment) == 42);
    lz::basic_client<Other> other_client(std::move(client));
    expect("the other policy", other_segment.get() == handle && other_client.get() == prepared);
    segment = lz::basic_segment<Policy>(other_segment.release());
    client = lz::basic_client<Policy>(other_client.release());
    did = VALUE(client(segment, {}, output));
    expect("released", !other_segment && !other_client && did.written == 3);
    client.close();
    segment.close();
    segment.close();
    REFUSED(argument, client(segment, {}, output));
    lz::basic_segment<Policy> none;
    lz::basic_client<Policy> no_client(nullptr);
    REFUSED(argument, no_client(none));
}

// ---- files

template <class Policy>
static void files()
{
    const auto fails = [](const char *what, std::error_code got, std::errc wanted) {
        expect(what, got == std::make_error_condition(wanted));
    };
    const std::string folder = std::string(file_name) + ".not/there";
    const std::string empty_name = std::string(file_name) + ".empty";
    std::fclose(std::fopen(empty_name.c_str(), "wb"));
    {
        auto file = VALUE(lz::map_file<Policy>(file_name, lz::file_access::read_write));
        auto segment = VALUE(lz::open<Policy>(file.bytes()));
        auto client = VALUE(segment.prepare(increment));
        expect("map", bool(file) && file.size() == image.size() && file.bytes().data() == file.room().data());
        char output[24];
        const int x = x_of<Policy>(segment);
        const lz::ran did = VALUE(client(segment, {}, output));
        expect("map: run", did.written == 3 && std::to_integer<int>(file.bytes().data()[X]) == x);
        expect("map: save", VALUE(segment.save(file.room())) == file.size() && std::to_integer<int>(file.bytes().data()[X]) == x + 1);
        VALUE(file.sync());
        expect("map: the file", read_file(file_name)[X] == x + 1);
        auto moved = std::move(file);
        expect("map: moved", moved.size() == image.size() && !file && file.size() == 0 && file.room().size() == 0);
        VALUE(file.sync());
        file = std::move(moved);
        file.close();
        REFUSED(image_fault(lz::status::bad_header), lz::check<Policy>(file.bytes()));
    }
    {
        auto file = VALUE(lz::map_file<Policy>(file_name, lz::file_access::read_write));
        auto segment = VALUE(lz::open_in<Policy>(file.room()));
        char output[24];
        const int x = x_of<Policy>(segment);
        const lz::ran did = VALUE(segment.run_on(increment, {}, output));
        expect("map: open in", did.written == 3 && read_file(file_name)[X] == x + 1);
    }
    {
        auto file = VALUE(lz::map_file<Policy>(file_name, lz::file_access::read));
        auto segment = VALUE(lz::open<Policy>(file.bytes()));
        REFUSED(image_fault(lz::status::too_small), segment.save(file.room()));
        VALUE(file.sync());
        file = VALUE(lz::map_file<Policy>(empty_name.c_str(), lz::file_access::read));
        expect("map: an empty file", !file && file.size() == 0);
        typename types<Policy>::file none;
        expect("map: nothing", !none && none.bytes().size() == 0);
    }
    fails("map: no file",
          why<std::error_code>(Policy{}, [&] { return lz::map_file<Policy>(folder.c_str(), lz::file_access::read); }),
          std::errc::no_such_file_or_directory);
    fails("map: a device",
          why<std::error_code>(Policy{}, [] { return lz::map_file<Policy>("/dev/null", lz::file_access::read_write); }),
          std::errc::invalid_argument);
    fails("map: a folder", why<std::error_code>(Policy{}, [] { return lz::map_file<Policy>("/", lz::file_access::read_write); }),
          std::errc::is_a_directory);
    // a mapping of half a page doesn't exist, so msync is refused
    alignas(16) static std::byte page[32];
    lz::basic_mapped_file<Policy> odd(page + 1, 1, lz::file_access::read_write);
    fails("sync: no mapping", why<std::error_code>(Policy{}, [&] { return odd.sync(); }), std::errc::invalid_argument);
    std::remove(empty_name.c_str());
}

// ---- values in place

enum value_type : std::uint32_t {
    NUMBER,
    TEXT,
    NUMBERS,
    LIST,
    MAP,
    OWN,
    PAIR,
    SHARED,
    FLAT_MAP
};

static const lz::type value_types[] = {
    lz::type_of(lz::kind::i64),          lz::type_of(lz::kind::str),         lz::type_of(lz::kind::vec, {NUMBER}),
    lz::type_of(lz::kind::list, {TEXT}), lz::type_of(lz::kind::map, {TEXT}), lz::type_of(lz::kind::own, {TEXT}),
    lz::type_of(lz::kind::structure, {NUMBER, TEXT}), lz::type_of(lz::kind::shared, {TEXT}), lz::type_of(lz::kind::flat_map, {NUMBER}),
};

// Goes through a range to its end, and returns the fault that ended it.
template <class Range>
static lz::fault fault_of_range(Range range)
{
#ifdef __cpp_exceptions
    try {
#endif
        for (const auto &item : range) {
            static_cast<void>(item);
        }
#ifdef __cpp_exceptions
    } catch (const lz::error &refused) {
        expect("a range: why", refused.why() == range.why());
    }
#endif
    return range.why();
}

// A segment with an object of each type.
template <class Policy>
static lz::basic_segment<Policy> filled()
{
    auto segment = VALUE(lz::create<Policy>(1 << 14));
    VALUE(segment.add_types(value_types));
    const auto number = VALUE(segment.construct("number", NUMBER, 3));
    VALUE(number.store(-41));
    const auto numbers = VALUE(segment.construct("numbers", NUMBERS));
    const auto list = VALUE(segment.construct("list", LIST));
    const auto map = VALUE(segment.find_or_construct("map", MAP));
    const auto flat = VALUE(segment.construct("flat", FLAT_MAP));
    for (int i = 0; i < 5; i++) {
        VALUE(VALUE(flat.put(i * 3 % 5 - 2)).store(-100 * (i * 3 % 5)));
        VALUE(VALUE(numbers.push_back()).store(i * i));
        VALUE(VALUE(i % 2 == 0 ? list.push_back() : list.push_front()).assign(std::to_string(i)));
        VALUE(VALUE(map.put(10 * (i * 3 % 5))).assign(std::to_string(i * 3 % 5)));
    }
    const auto pair = VALUE(segment.construct_unique(PAIR));
    VALUE(VALUE(pair.field(0)).store(7));
    VALUE(VALUE(pair.field(1)).assign(std::string_view("seven")));
    const auto own = VALUE(segment.construct("own", OWN));
    VALUE(VALUE(own.put_content()).assign(std::string_view("owned")));
    VALUE(segment.construct("shared", SHARED));
    return segment;
}

// What a segment and a reader of its image have in common.
template <class Policy, class Segment>
static void read_values(const Segment &segment)
{
    std::string names;
    for (const lz::named &object : segment.names()) {
        names += std::string(object.view()) + ' ' + std::to_string(object.type) + ' ' + std::to_string(object.count) + ',';
    }
    expect("names", names == "flat 8 1,list 3 1,map 4 1,number 0 3,numbers 2 1,own 5 1,shared 7 1,");
    expect("named object", VALUE(segment.named_object("number")).count == 3);
    const auto number = VALUE(segment.find("number", NUMBER));
    expect("load", VALUE(number.load()) == -41 && VALUE(number.template as<std::int64_t>()) == -41);
    expect("find: index", VALUE(segment.find("number", NUMBER, 2)).at().at == number.at().at + 16);
    const auto pair = VALUE(segment.find_unique(PAIR));
    expect("field", VALUE(VALUE(pair.field(0)).load()) == 7 && VALUE(VALUE(pair.field(1)).text()) == "seven");
    expect("find unique if", VALUE(segment.find_unique_if(PAIR)).value() == pair && !VALUE(segment.find_unique_if(TEXT)));

    const auto vector = VALUE(segment.find("numbers", NUMBERS));
    const lz::numbers_view numbers = VALUE(vector.template as<lz::numbers_view>());
    std::int64_t sum = 0;
    for (const std::int64_t one : numbers) {
        sum += one;
    }
    expect("numbers", sum == 0 + 1 + 4 + 9 + 16 && numbers.size() == 5 && numbers[3] == 9 && !numbers.empty());
    expect("numbers: iterators", numbers.end() - numbers.begin() == 5 && numbers.begin()[4] == 16 && *(numbers.end() - 1) == 16 &&
                                     numbers.begin() < numbers.end() && numbers.bytes().size() == 40);
    sum = 0;
    for (const auto &item : vector.items()) {
        sum = 100 * sum + VALUE(item.load());
    }
    expect("items of a vector", sum == 1040916 && VALUE(VALUE(vector.item(4)).load()) == 16);

    const auto list = VALUE(segment.find("list", LIST));
    std::string words;
    for (const auto &item : list.items()) {
        words += VALUE(item.text());
    }
    expect("items of a list", words == "31024" && VALUE(list.size()) == 5 && VALUE(VALUE(list.item(1)).text()) == "1");

    const auto map = VALUE(segment.find_if("map", MAP)).value();
    std::string entries;
    for (const auto &entry : map.entries()) {
        entries += std::to_string(entry.key) + '=' + std::string(VALUE(entry.value.template as<std::string_view>())) + ' ';
    }
    expect("entries", entries == "0=0 10=1 20=2 30=3 40=4 ");
    sum = 0;
    for (const std::int64_t key : map.keys()) {
        sum += key;
    }
    expect("keys", sum == 100 && VALUE(map.size()) == 5);
    const auto flat = VALUE(segment.find("flat", FLAT_MAP));
    const lz::pairs_view pairs = VALUE(flat.template as<lz::pairs_view>());
    std::string found;
    for (const auto &[key, one] : pairs) {
        found += std::to_string(key) + '=' + std::to_string(one) + ' ';
    }
    expect("pairs", found == "-2=0 -1=-100 0=-200 1=-300 2=-400 " && pairs.size() == 5 && !pairs.empty());
    expect("pairs: an index", pairs[3] == lz::pairs_view::value_type(1, -300) && pairs.bytes().size() == 80);
    expect("pairs: iterators", pairs.end() - pairs.begin() == 5 && pairs.begin()[4].second == -400 && (*(pairs.end() - 1)).first == 2 &&
                                   pairs.begin() < pairs.end());
    expect("get", VALUE(VALUE(map.get(30)).text()) == "3" && VALUE(map.get_if(30)).value() == VALUE(map.get(30)));
    expect("get if: no such key", !VALUE(map.get_if(31)) && !VALUE(segment.find_if("absent", MAP)));
    const auto own = VALUE(segment.find("own", OWN));
    const auto shared = VALUE(segment.find("shared", SHARED));
    expect("content", VALUE(VALUE(own.content()).text()) == "owned" && VALUE(own.content_if()) && !VALUE(shared.content_if()));

    const lz::fault other = image_fault(lz::status::other_type);
    const lz::fault range = image_fault(lz::status::out_of_range);
    const lz::fault absent = image_fault(lz::status::absent);
    REFUSED(absent, segment.find("absent", NUMBER));
    REFUSED(absent, segment.named_object("absent"));
    REFUSED(absent, segment.find_unique(TEXT));
    REFUSED(absent, map.get(31));
    REFUSED(other, segment.find("number", TEXT));
    REFUSED(other, segment.find_if("number", TEXT));
    REFUSED(range, segment.find("number", NUMBER, 3));
    REFUSED(range, list.item(5));
    REFUSED(range, pair.field(2));
    REFUSED(other, number.text());
    REFUSED(other, number.numbers());
    REFUSED(other, number.pairs());
    REFUSED(other, vector.pairs());
    REFUSED(other, map.pairs());
    REFUSED(other, flat.numbers());
    REFUSED(other, number.size());
    REFUSED(other, list.load());
    REFUSED(other, list.get_if(0));
    REFUSED(other, number.content_if());
    REFUSED(image_fault(lz::status::no_value), shared.content());
    expect("ranges: refused", fault_of_range(number.items()) == other && fault_of_range(list.keys()) == other &&
                                  fault_of_range(list.entries()) == other);
    expect("ranges: to the end", fault_of_range(list.items()) == lz::fault{} && fault_of_range(segment.names()) == lz::fault{});
}

template <class Policy>
static void values()
{
    auto segment = filled<Policy>();
    read_values<Policy>(segment);
    const lz::const_bytes bytes = VALUE(segment.image());
    VALUE(lz::check<Policy>(bytes));
    {
        auto reader = VALUE(lz::read<Policy>(bytes));
        read_values<Policy>(reader);
        auto other = VALUE(reader.another());
        reader.close();
        std::thread thread([&] { read_values<Policy>(other); });
        thread.join();
        static_assert(std::is_same_v<decltype(other.get()), const lezgauri_handle *>);
        const lz::basic_reader<Policy> moved(std::move(other));
        expect("reader: moved", bool(moved) && !other && VALUE(moved.find_if("list", LIST)));
        REFUSED(image_fault(lz::status::bad_argument), other.find("list", LIST));
        REFUSED(image_fault(lz::status::bad_argument), other.another());
    }
    REFUSED(image_fault(lz::status::bad_header), lz::read<Policy>({bytes.data(), 16}));

    // a value that may be changed is one that is read, and not the reverse
    using changed = lz::basic_value<Policy, lezgauri_handle>;
    using read = lz::basic_value<Policy, const lezgauri_handle>;
    static_assert(std::is_convertible_v<changed, read> && !std::is_convertible_v<read, changed>);

    const auto numbers = VALUE(segment.construct("pushed", NUMBERS));
    const std::vector<std::int64_t> several = {5, -6, INT64_MAX};
    std::size_t pushed = 7;
    VALUE(numbers.push_numbers(several, &pushed));
    expect("push numbers: how many", pushed == 3);
    const std::int64_t more[] = {INT64_MIN, 8};
    VALUE(numbers.push_numbers(more));
    VALUE(numbers.push_numbers({more, 1}, &pushed));
    VALUE(numbers.push_numbers({}));
    const lz::numbers_view there = VALUE(numbers.numbers());
    expect("push numbers", pushed == 1 && std::vector<std::int64_t>(there.begin(), there.end()) ==
                                              std::vector<std::int64_t>{5, -6, INT64_MAX, INT64_MIN, 8, INT64_MIN});
    // the segment has 16 KiB
    const std::vector<std::int64_t> many(4096, 9);
    REFUSED(image_fault(lz::status::bad_alloc), numbers.push_numbers(many, &pushed));
    expect("push numbers: out of memory", pushed > 500 && pushed < many.size() && VALUE(numbers.size()) == 6 + pushed);
    REFUSED(image_fault(lz::status::bad_alloc), numbers.push_numbers(several, &pushed));
    expect("push numbers: no room", pushed == 0);
    REFUSED(image_fault(lz::status::other_type), VALUE(segment.find("list", LIST)).push_numbers(several, &pushed));
    VALUE(segment.destroy("pushed", NUMBERS));

    const auto table = VALUE(segment.construct("put", FLAT_MAP));
    const std::vector<lz::pair> pairs = {{5, 50}, {-6, 60}, {5, 70}};
    std::size_t put = 7;
    VALUE(table.put_numbers(pairs, &put));
    expect("put numbers: how many", put == 3 && VALUE(table.size()) == 2);
    VALUE(table.put_numbers({}));
    const lz::pair other[] = {{8, INT64_MIN}};
    VALUE(table.put_numbers(other));
    expect("put numbers", VALUE(VALUE(table.get(5)).load()) == 70 && VALUE(VALUE(table.get(-6)).load()) == 60 &&
                              VALUE(VALUE(table.get(8)).load()) == INT64_MIN);
    std::vector<lz::pair> keys;
    for (std::int64_t key = 0; key < 4096; key++) {
        keys.push_back({key, -key});
    }
    REFUSED(image_fault(lz::status::bad_alloc), table.put_numbers(keys, &put));
    expect("put numbers: out of memory", put > 100 && put < keys.size() && VALUE(table.size()) >= put);
    REFUSED(image_fault(lz::status::other_type), VALUE(segment.find("list", LIST)).put_numbers(pairs, &put));
    expect("put numbers, other type: how many", put == 0);
    VALUE(segment.destroy("put", FLAT_MAP));
    const auto list = VALUE(segment.find("list", LIST));
    const read seen = list;
    VALUE(list.pop_back());
    VALUE(list.pop_front());
    expect("pop", VALUE(seen.size()) == 3 && VALUE(VALUE(seen.item(0)).text()) == "1");
    const auto first = VALUE(list.item(0));
    VALUE(first.append(std::string_view(" and more")));
    expect("append", VALUE(first.text()) == "1 and more");
    VALUE(first.assign(std::string_view("one")));
    VALUE(first.shrink_to_fit());
    expect("assign", VALUE(first.text()) == "one");
    const auto map = VALUE(segment.find("map", MAP));
    expect("remove", VALUE(map.remove(30)) && !VALUE(map.remove(30)) && !VALUE(map.get_if(30)));
    const auto own = VALUE(segment.find("own", OWN));
    const auto shared = VALUE(segment.find("shared", SHARED));
    const auto second = VALUE(segment.construct("second", SHARED));
    VALUE(own.freeze(shared));
    VALUE(second.share(shared));
    expect("freeze, share", !VALUE(own.content_if()) && VALUE(VALUE(second.content()).text()) == "owned" &&
                                VALUE(second.content()) == VALUE(shared.content()));
    VALUE(shared.clear());
    expect("clear", !VALUE(shared.content_if()) && VALUE(VALUE(second.content()).text()) == "owned");
    expect("destroy", VALUE(segment.destroy("second", SHARED)) && !VALUE(segment.destroy("second", SHARED)));
    expect("destroy unique", VALUE(segment.destroy_unique(PAIR)) && !VALUE(segment.destroy_unique(PAIR)));
    const auto pair = VALUE(segment.find_or_construct_unique(PAIR));
    expect("find or construct unique", VALUE(VALUE(pair.field(0)).load()) == 0);
    const auto anonymous = VALUE(segment.construct_anonymous(TEXT));
    VALUE(anonymous.assign(std::string_view("no name")));
    REFUSED(image_fault(lz::status::unowned, anonymous.at().at - 16), lz::check<Policy>(bytes));
    VALUE(segment.destroy_anonymous(anonymous.at()));
    VALUE(segment.upgrade());
    VALUE(lz::check<Policy>(bytes));

    REFUSED(image_fault(lz::status::already_exists), segment.construct("list", LIST));
    REFUSED(image_fault(lz::status::already_exists), segment.construct_unique(PAIR));
    REFUSED(image_fault(lz::status::out_of_range), segment.construct("no name", LIST));
    REFUSED(image_fault(lz::status::bad_alloc), segment.construct("large", NUMBER, 65535));
    REFUSED(image_fault(lz::status::bad_alloc), first.append(Bytes(1 << 15)));
    REFUSED(image_fault(lz::status::no_value), own.freeze(shared));
    REFUSED(image_fault(lz::status::other_type), first.store(1));
    REFUSED(image_fault(lz::status::bad_argument), first.assign(bytes));
    REFUSED(image_fault(lz::status::type_mismatch, 0), segment.add_types({value_types + 1, 1}));
    REFUSED(image_fault(lz::status::bad_argument), changed().load());
    VALUE(lz::check<Policy>(bytes));
}

// Compares a range with the entries i and i * i.
template <class Policy, class Range>
static void has_squares(Range range, std::int64_t size)
{
    std::int64_t next = 0;
    for (const auto &entry : range) {
        expect("squares: an entry", entry.key == next && VALUE(entry.value.load()) == next * next);
        next++;
    }
    expect("squares: to the end", next == size && range.why() == lz::fault{} && range.begin() == range.end());
}

// The entries of a reader are found many at a time: maps have fewer than one call finds, as many, and more.
template <class Policy>
static void many_entries()
{
    static const lz::type types[] = {lz::type_of(lz::kind::i64), lz::type_of(lz::kind::map, {0}), lz::type_of(lz::kind::flat_map, {0})};
    for (const int size : {0, 1, 31, 32, 33, 64, 65}) {
        auto segment = VALUE(lz::create<Policy>(1 << 14));
        VALUE(segment.add_types(types));
        for (const std::uint32_t type : {1u, 2u}) {
            const auto map = VALUE(segment.construct_unique(type));
            for (std::int64_t key = 0; key < size; key++) {
                VALUE(VALUE(map.put(key)).store(key * key));
            }
            has_squares<Policy>(map.entries(), size);
            const auto reader = VALUE(lz::read<Policy>(VALUE(segment.image())));
            has_squares<Policy>(VALUE(reader.find_unique(type)).entries(), size);
        }
    }
}

// ---- refused memory

// Refuses each request for memory of a call in turn: the call is refused with `memory`, or doesn't need it.
template <class Policy, class Call>
static void each_request(const char *what, Call call)
{
    requests = 0;
    expect(what, why(Policy{}, call) == lz::fault{});
    const std::size_t all = requests;
    std::size_t refused = 0;
    for (std::size_t request = 1; request <= all; request++) {
        requests = 0;
        refused_request = request;
        const lz::fault got = why(Policy{}, call);
        refused_request = 0;
        refused += got.number == lz::status::memory;
        expect(what, got.number == lz::status::memory || got == lz::fault{});
    }
    expect(what, refused > 0);
}

template <class Policy>
static void memory()
{
    auto segment = opened<Policy>();
    const lezgauri_bytes one[] = {lz::const_bytes(increment)};
    static unsigned char saved[4096];
    static char output[64];
    each_request<Policy>("memory of check", [] { return lz::check<Policy>(image); });
    each_request<Policy>("memory of verify", [] { return lz::verify<Policy>(image, increment); });
    each_request<Policy>("memory of run", [&] { return lz::run<Policy>(image, one, {}, output, saved); });
    each_request<Policy>("memory of open", [] { return lz::open<Policy>(image); });
    Bytes lent = image;
    each_request<Policy>("memory of open in", [&] { return lz::open_in<Policy>(lent); });
    each_request<Policy>("memory of create", [] { return lz::create<Policy>(4096); });
    each_request<Policy>("memory of grow", [&] { return segment.grow(4096); });
    each_request<Policy>("memory of prepare", [&] { return segment.prepare(increment); });
    each_request<Policy>("memory of run on", [&] { return segment.run_on(increment, {}, output); });
    each_request<Policy>("memory of run whole", [&] { return segment.run_whole(increment, {}, output); });
}

// ---- segments and clients that two calls use at once

template <class Policy>
struct shared {
    static inline lz::basic_segment<Policy> segment;
    static inline lz::basic_client<Policy> client;

    static void use()
    {
        const lz::fault busy = image_fault(lz::status::busy);
        static unsigned char saved[4096];
        char output[24];
        REFUSED(busy, segment.run_on(increment, {}, output));
        REFUSED(busy, segment.run_whole(increment, {}, output));
        REFUSED(busy, segment.prepare(increment));
        REFUSED(busy, segment.save(saved));
        REFUSED(busy, segment.grow(16));
        REFUSED(busy, segment.shrink());
        REFUSED(busy, segment.free_memory());
        REFUSED(busy, segment.image());
        REFUSED(busy, client(segment, {}, output));
        expect("size of a busy segment", VALUE(segment.size()) == image.size());
    }
};

template <class Policy>
static void busy()
{
    using both = shared<Policy>;
    both::segment = opened<Policy>();
    both::client = VALUE(both::segment.prepare(increment));
    char output[24];
    requests = 0;
    at_first_request = both::use;
    const lz::ran did = VALUE(both::segment.run_on(increment, {}, output));
    at_first_request = nullptr;
    expect("busy", did.written == 3 && requests > 0 && x_of<Policy>(both::segment) == 42);

    // two threads run one client, each on its own segment: each run is refused as busy, or has counted
    constexpr int runs = 500;
    std::atomic<int> others{0};
    std::array<int, 2> counted{};
    std::array<lz::basic_segment<Policy>, 2> own{opened<Policy>(), opened<Policy>()};
    const auto count = [&](std::size_t which) {
        char printed[24];
        for (int i = 0; i < runs; i++) {
            const lz::status number = why(Policy{}, [&] { return both::client(own[which], {}, printed); }).number;
            counted[which] += number == lz::status::ok;
            others += number != lz::status::ok && number != lz::status::busy;
        }
    };
    std::thread first(count, 0);
    std::thread second(count, 1);
    first.join();
    second.join();
    for (std::size_t which = 0; which < 2; which++) {
        Bytes saved(image.size());
        VALUE(own[which].save(saved));
        expect("two threads with a client", others == 0 && saved[X] + 256 * saved[X + 1] == 41 + counted[which]);
    }
    both::client.close();
    both::segment.close();
}

// ---- each namespace

static void results_namespace()
{
    namespace quiet = lezgauri::results;
    static_assert(noexcept(quiet::check({})) && noexcept(quiet::open({})));
    static_assert(std::is_same_v<quiet::segment, lz::basic_segment<lz::returning>>);
    Bytes saved(image.size());
    const lezgauri_bytes one[] = {lz::const_bytes(increment)};
    char output[3];
    expect("results: check", bool(quiet::check(image)) && quiet::check({}).error().number == lz::status::bad_header);
    expect("results: verify", *quiet::verify(image, increment) == 6);
    expect("results: run", quiet::run(image, one, {}, output, saved)->written == 3);
    lz::expected<quiet::segment> segment = quiet::open(image);
    lz::expected<quiet::client> client = segment->prepare(increment);
    static_assert(noexcept((*client)(*segment)) && noexcept(segment->save(saved)));
    expect("results: run client", (*client)(*segment, {}, output).value().written == 3);
    Bytes lent(1600);
    static_assert(noexcept(quiet::create(736)) && noexcept(segment->grow(16)) && noexcept(segment->image()));
    expect("results: create", quiet::create(736)->size().value() == 736 && !quiet::create(735));
    expect("results: create in", quiet::create_in(lent, 1600)->size().value() == 1600);
    expect("results: open in", bool(quiet::open_in(lent)) && !quiet::open_in(lent, 800));
    expect("results: refused", !segment->prepare({}) && !segment->prepare({}).has_value());
    char text[1024];
    static_assert(noexcept(segment->types()) && noexcept(quiet::assemble({}, {})) && noexcept(quiet::print({}, {})));
    expect("results: print", quiet::print(increment, text)->needed > 0 && quiet::assemble({}, {})->needed == 20);
    const lz::expected<quiet::mapped_file, std::error_code> file = quiet::map_file(file_name, lz::file_access::read);
    expect("results: map", file.has_value() && file->size() == image.size());
}

// `result` is compiled for each standard, also if `expected` is std::expected.
static void own_result()
{
    using number = lz::result<std::size_t, lz::fault>;
    using nothing = lz::result<void, lz::fault>;
    const lz::fault busy = image_fault(lz::status::busy);
    number seven(7);
    const number same = seven;
    expect("result", bool(seven) && *seven == 7 && *same == 7 && *number(7) == 7);
    expect("result: value", seven.value() == 7 && same.value() == 7 && number(7).value() == 7);
    expect("result: failure", !number::failure(busy) && number::failure(busy).error() == busy);
    lz::result<lz::ran, lz::fault> did(lz::ran{3, false, {}});
    const auto as_const = did;
    expect("result: members", did->written == 3 && as_const->written == 3);
    *nothing();
    nothing().value();
    expect("result of nothing", bool(nothing()) && !nothing::failure(busy).has_value() && nothing::failure(busy).error() == busy);
#ifdef __cpp_exceptions
    const lz::throwing throwing;
    expect("result: no value", why(throwing, [&] { return number::failure(busy).value(); }) == busy);
    expect("result: no value", why(throwing, [&] { nothing::failure(busy).value(); }) == busy);
    const std::error_code code = std::make_error_code(std::errc::not_supported);
    expect("result: no file",
           why<std::error_code>(throwing, [&] { return lz::result<int, std::error_code>::failure(code).value(); }) == code);
#endif
}

#ifdef __cpp_exceptions
// An exception closes what the functions that it leaves own.
static void exceptions()
{
    static_assert(std::is_same_v<lz::segment, lz::basic_segment<lz::throwing>> && std::is_base_of_v<std::exception, lz::error>);
    static_assert(std::is_nothrow_copy_constructible_v<lz::error>);
    try {
        lz::segment segment = lz::open(image);
        lz::client client = segment.prepare(increment);
        const lz::mapped_file file = lz::map_file(file_name, lz::file_access::read);
        lz::check(file.bytes());
        expect("lezgauri: verify", lz::verify(image, increment) == 6);
        const lz::segment moved = std::move(segment);
        static_cast<void>(client(segment));
        expect("lezgauri: not refused", false);
    } catch (const std::exception &refused) {
        expect("lezgauri: refused", std::string_view(refused.what()) == "lezgauri: BadArgument (100)");
    }
}
#endif

template <class Policy, class Other>
static void all()
{
    images<Policy>();
    runs<Policy>();
    segments<Policy>();
    sizes<Policy>();
    clients<Policy>();
    conversions<Policy>();
    type_tables<Policy>();
    values<Policy>();
    many_entries<Policy>();
    moves<Policy, Other>();
    files<Policy>();
    memory<Policy>();
    busy<Policy>();
}

int main(int argc, char **argv)
{
    if (argc != 4) {
        std::fprintf(stderr, "usage: cpp IMAGE CLIENT FILE\n");
        return 2;
    }
    image = read_file(argv[1]);
    increment = read_file(argv[2]);
    file_name = argv[3];
    names();
    views();
    all<lz::returning, lz::default_policy>();
    results_namespace();
    own_result();
#ifdef __cpp_exceptions
    all<lz::throwing, lz::returning>();
    exceptions();
#endif
    std::printf("%d calls and results, %d wrong\n", made.load(), wrong.load());
    return wrong > 0;
}
