// Random sequences of calls on a segment of Lezgauri and on one of Boost.Interprocess side by side, in one process.
//
//   boost COUNT [SEED]     COUNT sequences for sequential fit with a flat index, and COUNT for best fit with a tree
//   index
//
// Both segments get the same named arrays of numbers, strings, vectors, lists and maps, and the same changes of them.
// After each call both must agree on what was refused and why, and at the end of a sequence on all names and values.
// When everything is destroyed, the free memory of each is what it was at first. Both grow and shrink as they are asked
// to.
//
// The layouts of blocks differ, so out-of-memory doesn't come at the same call. If one segment refuses for lack of
// memory, the change is taken back from the other; and Lezgauri may refuse only if its largest free block is too small
// for what was asked.
//
// Prints how many calls were made and refused, and each difference. g++ -O1 -std=c++17 boost.cpp liblezgauri.a; needs
// libboost-dev.
#include <lezgauri.h>

#include <boost/interprocess/allocators/allocator.hpp>
#include <boost/interprocess/containers/flat_map.hpp>
#include <boost/interprocess/containers/list.hpp>
#include <boost/interprocess/containers/map.hpp>
#include <boost/interprocess/containers/string.hpp>
#include <boost/interprocess/containers/vector.hpp>
#include <boost/interprocess/indexes/flat_map_index.hpp>
#include <boost/interprocess/indexes/map_index.hpp>
#include <boost/interprocess/managed_external_buffer.hpp>
#include <boost/interprocess/mem_algo/rbtree_best_fit.hpp>
#include <boost/interprocess/mem_algo/simple_seq_fit.hpp>

#include <cstdint>
#include <cstdio>
#include <cstdlib>
#include <cstring>
#include <string>
#include <vector>

namespace bi = boost::interprocess;

enum { NUMBER, STRING, NUMBERS, LIST, MAP, FLAT_MAP, TYPES, NAMES = 12, ROOM = 1 << 18, MOST_CALLS = 300 };

static const lezgauri_type types[TYPES] = {
    {LEZGAURI_KIND_I64, 0, {0}, {0}},      {LEZGAURI_KIND_STR, 0, {0}, {0}},
    {LEZGAURI_KIND_VEC, 1, {NUMBER}, {0}}, {LEZGAURI_KIND_LIST, 1, {NUMBER}, {0}},
    {LEZGAURI_KIND_MAP, 1, {NUMBER}, {0}}, {LEZGAURI_KIND_FLAT_MAP, 1, {NUMBER}, {0}},
};

static uint64_t state;
static unsigned long long calls, refused, out_of_memory[2], differences;

static uint32_t any(uint32_t limit) {
    state = state * 6364136223846793005u + 1442695040888963407u;
    return (uint32_t)((state >> 33) % limit);
}

static std::string name_of(uint32_t number) { return std::string(number == 7 ? 61 : 0, 'n') + std::to_string(number); }

static void expect(bool is_right, const char* what, unsigned long long one = 0, unsigned long long two = 0) {
    if (!is_right && ++differences <= 20) std::printf("%s: %llu and %llu\n", what, one, two);
}

// The segment of Lezgauri.
struct Ours {
    lezgauri_handle* handle = nullptr;
    size_t first_free = 0;

    Ours(size_t size, uint32_t allocator, uint32_t index) {
        expect(lezgauri_create(size, allocator, index, &handle) == LEZGAURI_OK, "create");
        expect(lezgauri_add_types(handle, types, TYPES, nullptr) == LEZGAURI_OK, "types");
        first_free = free_memory().first;
    }
    ~Ours() { lezgauri_close(handle); }
    Ours(const Ours&) = delete;

    std::pair<size_t, size_t> free_memory() const {
        size_t all = 0, largest = 0;
        expect(lezgauri_free_memory(handle, &all, &largest) == LEZGAURI_OK, "free memory");
        return {all, largest};
    }
    void need_sound() const {
        lezgauri_bytes image;
        lezgauri_image(handle, &image);
        expect(lezgauri_check(image.bytes, image.len, nullptr) == LEZGAURI_OK, "the image isn't sound");
    }
};

// The segment of Boost, with the same kinds of allocator and index.
template <class Fit, template <class> class Index>
struct Theirs {
    using Segment = bi::basic_managed_external_buffer<char, Fit, Index>;
    using Manager = typename Segment::segment_manager;
    template <class T>
    using Allocator = bi::allocator<T, Manager>;
    using String = bi::basic_string<char, std::char_traits<char>, Allocator<char>>;
    using Vector = bi::vector<int64_t, Allocator<int64_t>>;
    using List = bi::list<int64_t, Allocator<int64_t>>;
    using Map = bi::map<int64_t, int64_t, std::less<int64_t>, Allocator<std::pair<const int64_t, int64_t>>>;
    using FlatMap = bi::flat_map<int64_t, int64_t, std::less<int64_t>, Allocator<std::pair<int64_t, int64_t>>>;

    alignas(4096) static inline char memory[2 * ROOM];
    Segment segment;
    size_t first_free;

    explicit Theirs(size_t size) : segment(bi::create_only, memory, size) { first_free = segment.get_free_memory(); }
    Manager* manager() { return segment.get_segment_manager(); }

    // Constructs an object; false if it can't be allocated.
    bool construct(const char* name, int type, uint32_t count) {
        try {
            switch (type) {
                case NUMBER:
                    segment.template construct<int64_t>(name)[count](0);
                    break;
                case STRING:
                    segment.template construct<String>(name)(Allocator<char>(manager()));
                    break;
                case NUMBERS:
                    segment.template construct<Vector>(name)(Allocator<int64_t>(manager()));
                    break;
                case LIST:
                    segment.template construct<List>(name)(Allocator<int64_t>(manager()));
                    break;
                case MAP:
                    segment.template construct<Map>(name)(std::less<int64_t>(),
                                                          Allocator<std::pair<const int64_t, int64_t>>(manager()));
                    break;
                default:
                    segment.template construct<FlatMap>(name)(std::less<int64_t>(),
                                                              Allocator<std::pair<int64_t, int64_t>>(manager()));
            }
            return true;
        } catch (const bi::interprocess_exception&) {
            return false;
        }
    }
    template <class T>
    T* find(const char* name) {
        return segment.template find<T>(name).first;
    }
    // The number of an object's values; 0 if there is no such object.
    size_t count(const char* name, int type) {
        switch (type) {
            case NUMBER:
                return segment.template find<int64_t>(name).second;
            case STRING:
                return segment.template find<String>(name).second;
            case NUMBERS:
                return segment.template find<Vector>(name).second;
            case LIST:
                return segment.template find<List>(name).second;
            case MAP:
                return segment.template find<Map>(name).second;
            default:
                return segment.template find<FlatMap>(name).second;
        }
    }
    bool destroy(const char* name, int type) {
        switch (type) {
            case NUMBER:
                return segment.template destroy<int64_t>(name);
            case STRING:
                return segment.template destroy<String>(name);
            case NUMBERS:
                return segment.template destroy<Vector>(name);
            case LIST:
                return segment.template destroy<List>(name);
            case MAP:
                return segment.template destroy<Map>(name);
            default:
                return segment.template destroy<FlatMap>(name);
        }
    }
};

// Both segments, and the object that the next call is about.
template <class Peer>
struct Pair {
    Ours ours;
    Peer theirs;
    std::string held;
    const char* name = nullptr;
    int type = 0;
    lezgauri_place place{};

    Pair(size_t size, size_t theirs_size, uint32_t allocator, uint32_t index)
        : ours(size, allocator, index), theirs(theirs_size) {}

    // Each name has one type.
    void take(uint32_t number) {
        held = name_of(number);
        name = held.c_str();
        type = (int)(number % TYPES);
    }

    void choose() { take(any(NAMES)); }

    // Lezgauri refuses only what is larger than its largest free block; growing containers ask for up to twice as much
    // again.
    void note_out_of_memory(int who, size_t least) {
        out_of_memory[who]++;
        if (who == 0)
            expect(ours.free_memory().second < least, "out of memory too early", ours.free_memory().second, least);
    }

    void construct() {
        uint32_t count = type == NUMBER ? 1 + any(60) : 1;
        bool was_there = theirs.count(name, type) > 0;
        uint32_t status = lezgauri_construct(ours.handle, name, (uint32_t)type, count, &place);
        if (was_there) {
            expect(status == LEZGAURI_ALREADY_EXISTS, "construct an object that exists", status);
            refused++;
            return;
        }
        bool made = theirs.construct(name, type, count);
        if (status == LEZGAURI_BAD_ALLOC)
            note_out_of_memory(0, 8 * count + 4096);
        else
            expect(status == LEZGAURI_OK, "construct", status);
        if (!made) out_of_memory[1]++;
        if (status == LEZGAURI_OK && !made) lezgauri_destroy(ours.handle, name, (uint32_t)type);
        if (status != LEZGAURI_OK && made) theirs.destroy(name, type);
    }

    void destroy() {
        bool gone = theirs.destroy(name, type);
        uint32_t status = lezgauri_destroy(ours.handle, name, (uint32_t)type);
        expect(status == (gone ? +LEZGAURI_OK : +LEZGAURI_ABSENT), "destroy", status, gone);
        refused += !gone;
    }

    // Makes the same change in both; one that fails in one of them for lack of memory is taken back from the other.
    template <class Change>
    bool boost_makes(Change change) {
        try {
            change();
            return true;
        } catch (const bi::interprocess_exception&) {
            out_of_memory[1]++;
            return false;
        } catch (const std::exception&) {
            out_of_memory[1]++;
            return false;
        }
    }

    void change() {
        bool is_there = theirs.count(name, type) > 0;
        uint32_t status = lezgauri_find(ours.handle, name, (uint32_t)type, &place);
        expect(status == (is_there ? LEZGAURI_OK : LEZGAURI_ABSENT), "find", status, is_there);
        if (!is_there) {
            refused++;
            return;
        }
        int64_t key = (int64_t)any(40) - 5, number = (int64_t)any(1000);
        lezgauri_place inner;
        switch (type) {
            case NUMBER: {
                size_t count = theirs.count(name, type);
                uint32_t index = any(70);
                status = lezgauri_find_item(ours.handle, name, NUMBER, index, &inner);
                expect(status == (index < count ? LEZGAURI_OK : LEZGAURI_OUT_OF_RANGE), "find an item", status, count);
                if (index < count) {
                    lezgauri_store(ours.handle, inner, number);
                    theirs.template find<int64_t>(name)[index] = number;
                }
                break;
            }
            case STRING: {
                auto* it = theirs.template find<typename Peer::String>(name);
                std::string old(it->begin(), it->end()), added(any(200), (char)('a' + any(26)));
                bool assigns = any(3) == 0;
                status = assigns ? lezgauri_assign(ours.handle, place, added.data(), added.size())
                                 : lezgauri_append(ours.handle, place, added.data(), added.size());
                bool made = boost_makes(
                    [&] { assigns ? it->assign(added.begin(), added.end()) : it->append(added.begin(), added.end()); });
                if (status != LEZGAURI_OK) note_out_of_memory(0, 4 * (old.size() + added.size()) + 4096);
                // Boost may have changed a text although it refuses to assign another
                if (!made || status != LEZGAURI_OK) it->assign(old.begin(), old.end());
                if (!made && status == LEZGAURI_OK &&
                    lezgauri_assign(ours.handle, place, old.data(), old.size()) != LEZGAURI_OK)
                    expect(false, "an old text has no room");
                break;
            }
            case NUMBERS: {
                auto* it = theirs.template find<typename Peer::Vector>(name);
                if (any(4) == 0) {
                    status = lezgauri_pop_back(ours.handle, place);
                    expect(status == (it->empty() ? LEZGAURI_NO_VALUE : LEZGAURI_OK), "pop", status);
                    if (!it->empty()) it->pop_back();
                } else if (any(8) == 0) {
                    expect(lezgauri_shrink_to_fit(ours.handle, place) == LEZGAURI_OK, "shrink a vector");
                    boost_makes([&] { it->shrink_to_fit(); });
                } else if (any(4) == 0) {
                    std::vector<int64_t> several(any(40), number);
                    size_t pushed = several.size() + 1, made = 0;
                    status = lezgauri_push_numbers(ours.handle, place, several.data(), several.size(), &pushed);
                    boost_makes([&] {
                        for (; made < several.size(); made++) it->push_back(several[made]);
                    });
                    if (status == LEZGAURI_OK) {
                        expect(pushed == several.size(), "numbers that are pushed", pushed, several.size());
                    } else {
                        expect(status == LEZGAURI_BAD_ALLOC && pushed < several.size(), "push several numbers", status);
                        note_out_of_memory(0, 32 * (it->size() + 1) + 4096);
                    }
                    for (; made > pushed; made--) it->pop_back();
                    for (; pushed > made; pushed--) lezgauri_pop_back(ours.handle, place);
                } else {
                    status = lezgauri_push_back(ours.handle, place, &inner);
                    bool made = boost_makes([&] { it->push_back(number); });
                    if (status == LEZGAURI_OK)
                        lezgauri_store(ours.handle, inner, number);
                    else
                        note_out_of_memory(0, 32 * it->size() + 4096);
                    if (made && status != LEZGAURI_OK) it->pop_back();
                    if (!made && status == LEZGAURI_OK) lezgauri_pop_back(ours.handle, place);
                }
                break;
            }
            case LIST: {
                auto* it = theirs.template find<typename Peer::List>(name);
                bool front = any(2) == 0;
                if (any(3) == 0) {
                    status = front ? lezgauri_pop_front(ours.handle, place) : lezgauri_pop_back(ours.handle, place);
                    expect(status == (it->empty() ? LEZGAURI_NO_VALUE : LEZGAURI_OK), "pop", status);
                    if (!it->empty()) front ? it->pop_front() : it->pop_back();
                } else {
                    status = front ? lezgauri_push_front(ours.handle, place, &inner)
                                   : lezgauri_push_back(ours.handle, place, &inner);
                    bool made = boost_makes([&] { front ? it->push_front(number) : it->push_back(number); });
                    if (status == LEZGAURI_OK)
                        lezgauri_store(ours.handle, inner, number);
                    else
                        note_out_of_memory(0, 64);
                    if (made && status != LEZGAURI_OK) front ? it->pop_front() : it->pop_back();
                    if (!made && status == LEZGAURI_OK)
                        front ? lezgauri_pop_front(ours.handle, place) : lezgauri_pop_back(ours.handle, place);
                }
                break;
            }
            case MAP:
                change_map(theirs.template find<typename Peer::Map>(name), key, number);
                break;
            default:
                change_map(theirs.template find<typename Peer::FlatMap>(name), key, number);
        }
    }

    template <class Map>
    void change_map(Map* it, int64_t key, int64_t number) {
        lezgauri_place inner;
        if (any(3) == 0) {
            uint32_t status = lezgauri_remove(ours.handle, place, key);
            size_t gone = it->erase(key);
            expect(status == (gone ? LEZGAURI_OK : LEZGAURI_ABSENT), "remove a key", status, gone);
            return;
        }
        bool was_there = it->find(key) != it->end();
        uint32_t status = lezgauri_put(ours.handle, place, key, &inner);
        bool made = boost_makes([&] { (*it)[key] = number; });
        if (status == LEZGAURI_OK)
            lezgauri_store(ours.handle, inner, number);
        else
            note_out_of_memory(0, 64 * it->size() + 4096);
        if (made && status != LEZGAURI_OK) it->erase(key);
        if (!made && status == LEZGAURI_OK) {
            expect(!was_there, "Boost refuses a key that is there");
            lezgauri_remove(ours.handle, place, key);
        }
    }

    // An anonymous object is allocated and freed in both.
    void allocate() {
        uint32_t status = lezgauri_construct_anonymous(ours.handle, NUMBER, &place);
        if (status == LEZGAURI_OK)
            expect(lezgauri_destroy_anonymous(ours.handle, place) == LEZGAURI_OK, "destroy anonymous");
        else
            note_out_of_memory(0, 32);
        void* block = theirs.manager()->allocate(8, std::nothrow);
        if (block)
            theirs.manager()->deallocate(block);
        else
            out_of_memory[1]++;
    }

    void grow(size_t size) {
        size_t before, after;
        lezgauri_size(ours.handle, &before);
        if (before + size > 2 * ROOM || theirs.segment.get_size() + size > 2 * ROOM) return;
        expect(lezgauri_grow(ours.handle, size, &after) == LEZGAURI_OK && after == before + size, "grow");
        size_t theirs_before = theirs.segment.get_size();
        theirs.manager()->grow(size);
        expect(theirs.manager()->get_size() == theirs_before + size, "Boost grows to another size");
        ours.first_free += size;
        theirs.first_free += size;
    }

    // All names and values agree.
    void compare() {
        for (uint32_t number = 0; number < NAMES; number++) {
            take(number);
            size_t count = theirs.count(name, type);
            uint32_t status = lezgauri_find(ours.handle, name, (uint32_t)type, &place);
            expect(status == (count > 0 ? LEZGAURI_OK : LEZGAURI_ABSENT), "an object", status, count);
            if (count > 0) compare_value(count);
        }
        ours.need_sound();
        expect(theirs.segment.check_sanity(), "Boost's segment isn't sane");
    }

    void expect_number(lezgauri_place at, int64_t wanted) {
        int64_t number = 0;
        expect(lezgauri_load(ours.handle, at, &number) == LEZGAURI_OK && number == wanted, "a number",
               (unsigned long long)number, (unsigned long long)wanted);
    }

    template <class List>
    void compare_items(const List* it) {
        uint32_t index = 0, len = 0;
        lezgauri_len(ours.handle, place, &len);
        expect(len == it->size(), "a length", len, it->size());
        for (int64_t wanted : *it) {
            lezgauri_place item;
            expect(lezgauri_item(ours.handle, place, index++, &item) == LEZGAURI_OK, "an item");
            expect_number(item, wanted);
        }
    }

    // in batches whose size depends on the map's
    template <class Map>
    void compare_entries(const Map* it) {
        lezgauri_entry entries[7];
        size_t room = 1 + it->size() % 7, used = 0, count = 0;
        const int64_t* after = nullptr;
        for (const auto& wanted : *it) {
            if (used == count) {
                expect(lezgauri_next_entries(ours.handle, place, after, entries, room, &count) == LEZGAURI_OK && count > 0,
                       "a batch");
                used = 0;
            }
            expect(entries[used].key == wanted.first, "a key of a batch");
            expect_number(entries[used].value, wanted.second);
            after = &entries[used++].key;
        }
        expect(used == count, "one more entry in a batch", used, count);
        expect(lezgauri_next_entries(ours.handle, place, after, entries, room, &count) == LEZGAURI_OK && count == 0,
               "one more batch");
    }

    // in place: 8 bytes for each key and for each number
    template <class Map>
    void compare_pairs(const Map* it) {
        lezgauri_bytes pairs = {nullptr, 0};
        expect(lezgauri_pairs(ours.handle, place, &pairs) == LEZGAURI_OK && pairs.len == 16 * it->size(), "pairs", pairs.len,
               16 * it->size());
        const uint8_t* at = pairs.bytes;
        for (const auto& wanted : *it) {
            int64_t pair[2];
            memcpy(pair, at, sizeof pair);
            expect(pair[0] == wanted.first && pair[1] == wanted.second, "a pair");
            at += sizeof pair;
        }
    }

    template <class Map>
    void compare_keys(const Map* it) {
        int64_t key = 0;
        const int64_t* after = nullptr;
        for (const auto& entry : *it) {
            lezgauri_place value;
            expect(lezgauri_next_key(ours.handle, place, after, &key) == LEZGAURI_OK && key == entry.first, "a key");
            after = &key;
            expect(lezgauri_get(ours.handle, place, key, &value) == LEZGAURI_OK, "a value");
            expect_number(value, entry.second);
        }
        expect(lezgauri_next_key(ours.handle, place, after, &key) == LEZGAURI_NO_VALUE, "one more key");
        compare_entries(it);
    }

    void compare_value(size_t count) {
        lezgauri_bytes text;
        switch (type) {
            case NUMBER:
                for (uint32_t i = 0; i < count; i++) {
                    lezgauri_find_item(ours.handle, name, NUMBER, i, &place);
                    expect_number(place, theirs.template find<int64_t>(name)[i]);
                }
                expect(lezgauri_find_item(ours.handle, name, NUMBER, (uint32_t)count, &place) == LEZGAURI_OUT_OF_RANGE,
                       "one more");
                break;
            case STRING: {
                auto* it = theirs.template find<typename Peer::String>(name);
                lezgauri_text(ours.handle, place, &text);
                expect(std::string(it->begin(), it->end()) == std::string((const char*)text.bytes, text.len), "a text");
                break;
            }
            case NUMBERS:
                compare_items(theirs.template find<typename Peer::Vector>(name));
                break;
            case LIST:
                compare_items(theirs.template find<typename Peer::List>(name));
                break;
            case MAP:
                compare_keys(theirs.template find<typename Peer::Map>(name));
                break;
            default:
                compare_keys(theirs.template find<typename Peer::FlatMap>(name));
                compare_pairs(theirs.template find<typename Peer::FlatMap>(name));
        }
    }

    // Without objects, all memory is free again, and both segments shrink.
    void finish() {
        for (uint32_t number = 0; number < NAMES; number++) {
            take(number);
            destroy();
        }
        auto [all, largest] = ours.free_memory();
        expect(all == ours.first_free, "free memory of Lezgauri at the end and at first", all, ours.first_free);
        expect(largest == all, "free memory in one block", largest, all);
        theirs.manager()->shrink_to_fit_indexes();
        size_t free = theirs.segment.get_free_memory();
        expect(free == theirs.first_free, "free memory of Boost at the end and at first", free, theirs.first_free);
        size_t size = 0;
        expect(lezgauri_shrink(ours.handle, &size) == LEZGAURI_OK && size == 736, "shrunk size", size, 736);
        ours.need_sound();
    }

    void run() {
        for (uint32_t i = any(MOST_CALLS); i > 0; i--) {
            choose();
            calls++;
            switch (any(12)) {
                case 0:
                case 1:
                    construct();
                    break;
                case 2:
                    destroy();
                    break;
                case 3:
                    allocate();
                    break;
                case 4:
                    if (any(10) == 0) grow(16 * (16 + any(100)));
                    break;
                default:
                    change();
            }
        }
        compare();
        finish();
    }
};

int main(int argc, char** argv) {
    using Seq = Theirs<bi::simple_seq_fit<bi::null_mutex_family, bi::offset_ptr<void>>, bi::flat_map_index>;
    using Best = Theirs<bi::rbtree_best_fit<bi::null_mutex_family, bi::offset_ptr<void>>, bi::map_index>;
    int count = argc > 1 ? std::atoi(argv[1]) : 1000;
    state = argc > 2 ? std::strtoull(argv[2], nullptr, 10) : 1;
    for (int i = 0; i < count; i++) {
        size_t size = any(2) ? 4096 + 16 * any(256) : +ROOM;
        // in a larger segment of Boost, it is Lezgauri that is out of memory first
        size_t theirs_size = any(2) ? size : +ROOM;
        Pair<Seq>(size, theirs_size, LEZGAURI_SEQ_FIT, LEZGAURI_FLAT_INDEX).run();
        Pair<Best>(size, theirs_size, LEZGAURI_BEST_FIT, LEZGAURI_TREE_INDEX).run();
    }
    std::printf(
        "%d sequences, %llu calls, %llu refused by both; out of memory: Lezgauri %llu, Boost %llu; %llu differences\n",
        2 * count, calls, refused, out_of_memory[0], out_of_memory[1], differences);
    return differences > 0;
}
