// The works of growth.py with Boost.Interprocess, on a segment in a file.
//   growth_peer build STRUCTURE CONFIG SIZE FILE BYTES             CONFIG: seq+flat, best+tree
//   growth_peer count WORK CONFIG SIZE TURNS FILE
// STRUCTURE is what the segment has: map, flat_map, list, names, blocks, or gaps, which is blocks of which every second one is freed.
// Under callgrind (--instr-atstart=no) only the operations are counted. `build` alone writes the file.
// g++ -O2 -std=c++17 growth_peer.cpp -o growth_peer -lpthread -lrt
#include <boost/interprocess/managed_external_buffer.hpp>
#include <boost/interprocess/mem_algo/rbtree_best_fit.hpp>
#include <boost/interprocess/mem_algo/simple_seq_fit.hpp>
#include <boost/interprocess/indexes/flat_map_index.hpp>
#include <boost/interprocess/indexes/map_index.hpp>
#include <boost/interprocess/containers/list.hpp>
#include <boost/interprocess/containers/map.hpp>
#include <boost/interprocess/containers/flat_map.hpp>
#include <boost/interprocess/allocators/allocator.hpp>
#include <boost/interprocess/offset_ptr.hpp>
#include <valgrind/callgrind.h>
#include <fcntl.h>
#include <sys/mman.h>
#include <unistd.h>
#include <cstdint>
#include <cstdio>
#include <cstdlib>
#include <iterator>
#include <string>
namespace bi = boost::interprocess;

template <class Algo, template <class> class Index>
using Buffer = bi::basic_managed_external_buffer<char, Algo, Index>;
using SeqAlgo = bi::simple_seq_fit<bi::null_mutex_family, bi::offset_ptr<void>>;
using BestAlgo = bi::rbtree_best_fit<bi::null_mutex_family, bi::offset_ptr<void>>;

// The room after a segment, into which it can grow.
static const size_t EXTRA = 4096;

static void need(bool right, const char* what) { if (!right) { std::fprintf(stderr, "%s failed\n", what); std::exit(1); } }
static void start() { CALLGRIND_START_INSTRUMENTATION; }
static void stop() { CALLGRIND_STOP_INSTRUMENTATION; }

// As in the clients: x(2x + 1) modulo 2^64 with an odd multiple of j.
static int64_t key(uint64_t j) { uint64_t x = j * 1640531527u, y = x * x; return (int64_t)(y + y + x); }
static const char* name_of(int64_t number) { static char name[32]; std::snprintf(name, sizeof name, "n#%lld", (long long)number); return name; }
static const int64_t FIRST_NAME = 10000000;

template <class Segment> struct Work {
    using Manager = typename Segment::segment_manager;
    using Map = bi::map<int64_t, int64_t, std::less<int64_t>, bi::allocator<std::pair<const int64_t, int64_t>, Manager>>;
    using FlatMap = bi::flat_map<int64_t, int64_t, std::less<int64_t>, bi::allocator<std::pair<int64_t, int64_t>, Manager>>;
    using List = bi::list<int64_t, bi::allocator<int64_t, Manager>>;
    using Block = bi::offset_ptr<char>;

    Segment& s;
    Manager* manager = s.get_segment_manager();

    template <class T> T& find(const char* name) {
        T* found = s.template find<T>(name).first;
        need(found, name);
        return *found;
    }

    void build(const std::string& what, int64_t size) {
        if (what == "map") {
            Map& m = *s.template construct<Map>("m")(std::less<int64_t>(), manager);
            for (int64_t j = 0; j < size; j++) m[key(j)] = j;
        } else if (what == "flat_map") {   // with room for the entries that a work adds, so that none of them moves the buffer
            FlatMap& m = *s.template construct<FlatMap>("m")(std::less<int64_t>(), manager);
            m.reserve(size + 1000);
            for (int64_t j = 0; j < size; j++) m.emplace_hint(m.end(), 2 * j, j);
        } else if (what == "list") {
            List& l = *s.template construct<List>("l")(manager);
            for (int64_t j = 0; j < size; j++) l.push_back(j);
        } else if (what == "names") {
            s.reserve_named_objects(size + 1000);
            int64_t stride = std::is_same<Segment, Buffer<SeqAlgo, bi::flat_map_index>>::value ? 1 : 7919 % size;
            for (int64_t i = 0, j = 0; i < size; i++) {
                j += stride;
                if (j >= size) j -= size;
                s.template construct<int64_t>(name_of(FIRST_NAME + 2 * j))(j);
            }
        } else if (what == "blocks" || what == "gaps") {
            Block* blocks = s.template construct<Block>("blocks")[size]();
            for (int64_t j = 0; j < size; j++) { blocks[j] = static_cast<char*>(s.allocate(8)); *(int64_t*)blocks[j].get() = j; }
            // downwards: so sequential fit finds the place of each block at the front of its list
            for (int64_t j = size - 2; what == "gaps" && j >= 0; j -= 2) { s.deallocate(blocks[j].get()); blocks[j] = nullptr; }
        } else {
            need(false, what.c_str());
        }
    }

    // Repeats an operation: `turns` times, on indices that are `stride` apart.
    uint64_t count(const std::string& what, int64_t size, int64_t turns) {
        uint64_t sum = 0;
        const int64_t stride = size / turns;
        if (what == "map_put" || what == "map_get" || what == "map_next") {
            Map& m = find<Map>("m");
            auto next = m.begin();
            start();
            if (what == "map_put") for (int64_t i = 0; i < turns; i++) m[key(size + i)] = i;
            if (what == "map_get") for (int64_t i = 0; i < turns; i++) sum += m.find(key(i * stride))->second;
            if (what == "map_next") for (int64_t i = 0; i < turns; i++) { ++next; sum += next->first; }
        } else if (what == "flat_map_put" || what == "flat_map_get" || what == "flat_map_next") {
            FlatMap& m = find<FlatMap>("m");
            const size_t room = m.capacity();
            auto next = m.begin();
            start();
            if (what == "flat_map_put") for (int64_t i = 0; i < turns; i++) m[2 * i * stride + 1] = i;
            if (what == "flat_map_get") for (int64_t i = 0; i < turns; i++) sum += m.find(2 * i * stride)->second;
            if (what == "flat_map_next") for (int64_t i = 0; i < turns; i++) { ++next; sum += next->first; }
            stop();
            need(m.capacity() == room, "the buffer's room");
        } else if (what == "list_push_pop" || what == "list_at") {
            List& l = find<List>("l");
            start();
            if (what == "list_push_pop") {
                for (int64_t i = 0; i < turns; i++) l.push_back(i);
                for (int64_t i = 0; i < turns; i++) l.pop_front();
            }
            if (what == "list_at") for (int64_t i = 0; i < turns; i++) sum += *std::next(l.begin(), i * stride);
        } else if (what == "name_construct") {
            start();
            for (int64_t i = 0; i < turns; i++) s.template construct<int64_t>(name_of(FIRST_NAME + 2 * i * stride + 1))(i);
        } else if (what == "name_find") {
            start();
            for (int64_t i = 0; i < turns; i++) sum += *s.template find<int64_t>(name_of(FIRST_NAME + 2 * i * stride)).first;
        } else if (what == "name_destroy") {
            start();
            for (int64_t i = 0; i < turns; i++) sum += s.template destroy<int64_t>(name_of(FIRST_NAME + 2 * i * stride));
            stop();
            need((int64_t)sum == turns, "destroy");
        } else if (what == "new_drop" || what == "new_drop_large") {
            const size_t bytes = what == "new_drop" ? 8 : 128;
            start();
            for (int64_t i = 0; i < turns; i++) { void* p = s.allocate(bytes); *(volatile int64_t*)p = 0; s.deallocate(p); }
        } else if (what == "free") {
            Block* blocks = s.template find<Block>("blocks").first;
            const int64_t even = stride / 2 * 2;
            start();
            for (int64_t i = 0; i < turns; i++) s.deallocate(blocks[1 + i * even].get());
        } else if (what == "map_kill" || what == "list_kill") {
            start();
            sum = what == "map_kill" ? s.template destroy<Map>("m") : s.template destroy<List>("l");
            stop();
            need(sum == 1, "destroy");
        } else if (what == "grow") {
            start();
            s.grow(EXTRA);
        } else if (what == "shrink") {
            start();
            manager->shrink_to_fit();
        } else {
            need(false, what.c_str());
        }
        stop();
        return sum;
    }
};

static char* map_file(const char* name, size_t bytes, bool shared) {
    int file = open(name, shared ? O_RDWR | O_CREAT | O_TRUNC : O_RDONLY, 0600);
    need(file >= 0 && (!shared || ftruncate(file, bytes + EXTRA) == 0), name);
    if (!shared) bytes = lseek(file, 0, SEEK_END) - EXTRA;
    void* memory = mmap(nullptr, bytes + EXTRA, PROT_READ | PROT_WRITE, shared ? MAP_SHARED : MAP_PRIVATE, file, 0);
    need(memory != MAP_FAILED, "mmap");
    close(file);
    return static_cast<char*>(memory);
}

template <class Segment> void perform(char** words, bool builds) {
    const std::string what = words[2];
    const int64_t size = std::atoll(words[4]);
    if (builds) {
        const size_t bytes = std::atoll(words[6]);
        Segment s(bi::create_only, map_file(words[5], bytes, true), bytes);
        Work<Segment>{s}.build(what, size);
    } else {
        char* memory = map_file(words[6], 0, false);
        int file = open(words[6], O_RDONLY);
        const size_t bytes = lseek(file, 0, SEEK_END) - EXTRA;
        close(file);
        Segment s(bi::open_only, memory, bytes);
        std::printf("%llu\n", (unsigned long long)Work<Segment>{s}.count(what, size, std::atoll(words[5])));
    }
}

int main(int argc, char** argv) {
    need(argc == 7, "growth_peer build|count ..");
    const bool builds = std::string(argv[1]) == "build";
    if (std::string(argv[3]) == "seq+flat") perform<Buffer<SeqAlgo, bi::flat_map_index>>(argv, builds);
    else perform<Buffer<BestAlgo, bi::map_index>>(argv, builds);
}
