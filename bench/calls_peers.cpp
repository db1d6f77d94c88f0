// What a program would use instead of the calls of lezgauri.h on values: Boost.Interprocess, LMDB and SQLite.
//   calls_peers WORK TIMES FILE      WORK: a name in the list at the end; FILE: the environment of LMDB
// Each table has the keys 0 to 99, and is in memory. Nothing is committed, except by lmdb-open.
// g++ -O2 -std=c++17 calls_peers.cpp -o calls_peers -llmdb -lsqlite3
#include "measure.h"

#include <boost/interprocess/allocators/allocator.hpp>
#include <boost/interprocess/containers/flat_map.hpp>
#include <boost/interprocess/containers/map.hpp>
#include <boost/interprocess/containers/string.hpp>
#include <boost/interprocess/containers/vector.hpp>
#include <boost/interprocess/indexes/map_index.hpp>
#include <boost/interprocess/managed_external_buffer.hpp>
#include <boost/interprocess/mem_algo/rbtree_best_fit.hpp>
#include <lmdb.h>
#include <sqlite3.h>
#include <cstdint>
#include <functional>
#include <optional>

enum { KEYS = 100, KEY = 50, NEW_KEY = 1000, CAPACITY = 100 };
static const char TEXT[] = "sixteen bytes...";

namespace boosts {
namespace bi = boost::interprocess;
using Best = bi::rbtree_best_fit<bi::null_mutex_family, bi::offset_ptr<void>>;
using Segment = bi::basic_managed_external_buffer<char, Best, bi::map_index>;
using Manager = Segment::segment_manager;
using Map = bi::map<int64_t, int64_t, std::less<int64_t>, bi::allocator<std::pair<const int64_t, int64_t>, Manager>>;
using Pair = std::pair<int64_t, int64_t>;
using FlatMap = bi::flat_map<int64_t, int64_t, std::less<int64_t>, bi::allocator<Pair, Manager>>;
using Vector = bi::vector<int64_t, bi::allocator<int64_t, Manager>>;
using String = bi::basic_string<char, std::char_traits<char>, bi::allocator<char, Manager>>;

alignas(4096) static char memory[1 << 16];
static std::optional<Segment> segment;
static Map* map;
static Map::iterator at;
static FlatMap* flat;
static Pair pairs[CAPACITY];
static Vector *numbers, *grown;
static String* string;
static volatile int64_t seen;

static void start() {
    segment.emplace(bi::create_only, memory, sizeof memory);
    Manager* manager = segment->get_segment_manager();
    segment->construct<int64_t>("x")(41);
    map = segment->construct<Map>("map")(std::less<int64_t>(), manager);
    numbers = segment->construct<Vector>("numbers")(manager);
    grown = segment->construct<Vector>("grown")(manager);
    string = segment->construct<String>("string")(manager);
    flat = segment->construct<FlatMap>("flat")(std::less<int64_t>(), manager);
    for (int i = 0; i < CAPACITY; i++) pairs[i] = {i, i};
    for (int i = 0; i < KEYS; i++) map->emplace(i, i);
    at = map->find(KEY);
    numbers->reserve(CAPACITY);
}
static void find() { seen = *segment->find<int64_t>("x").first; }
static void get() { seen = map->find(KEY)->second; }
static void put_remove() {
    map->emplace(NEW_KEY, 0);
    map->erase(NEW_KEY);
}
static void next() { seen = std::next(at)->first; }
static void push_pop() {
    numbers->push_back(0);
    numbers->pop_back();
}
static const int64_t given[CAPACITY] = {};
// without its buffer, as lezgauri_clear leaves a vector
static void clear() {
    grown->clear();
    grown->shrink_to_fit();
}
static void insert_clear() {
    grown->insert(grown->end(), std::begin(given), std::end(given));
    clear();
}
static void push_each_clear() {
    for (int64_t number : given) grown->push_back(number);
    clear();
}
static void clear_flat() {
    flat->clear();
    flat->shrink_to_fit();
}
static void insert_ordered_clear() {
    flat->insert(boost::container::ordered_unique_range, std::begin(pairs), std::end(pairs));
    clear_flat();
}
static void hint_each_clear() {
    for (const Pair& it : pairs) flat->emplace_hint(flat->cend(), it.first, it.second);
    clear_flat();
}
static void assign() { string->assign(TEXT, sizeof TEXT - 1); }
static void construct_destroy() {
    segment->construct<int64_t>("y")(0);
    segment->destroy<int64_t>("y");
}
}  // namespace boosts

namespace lmdb {
static MDB_env* env;
static MDB_txn* txn;
static MDB_dbi dbi;
static const char* file;

static void succeed(int status) { need(status == MDB_SUCCESS, mdb_strerror(status)); }
static MDB_val bytes(int64_t& of) { return {sizeof of, &of}; }
static void open() {
    succeed(mdb_env_create(&env));
    succeed(mdb_env_open(env, file, MDB_NOSUBDIR, 0600));
}
static void begin(unsigned flags) {
    succeed(mdb_txn_begin(env, nullptr, flags, &txn));
    succeed(mdb_dbi_open(txn, nullptr, MDB_INTEGERKEY | (flags ? 0 : MDB_CREATE), &dbi));
}
static void put(int64_t key) {
    MDB_val name = bytes(key), value = name;
    succeed(mdb_put(txn, dbi, &name, &value, 0));
}
static void start(const char* in) {
    file = in;
    open();
    begin(0);
    for (int i = 0; i < KEYS; i++) put(i);
}
static void get() {
    int64_t key = KEY;
    MDB_val name = bytes(key), value;
    succeed(mdb_get(txn, dbi, &name, &value));
}
// in a transaction that isn't committed here
static void put_remove() {
    put(NEW_KEY);
    int64_t key = NEW_KEY;
    MDB_val name = bytes(key);
    succeed(mdb_del(txn, dbi, &name, nullptr));
}
// begins at the first key, and again after the last
static void next() {
    static MDB_cursor* cursor;
    MDB_val name, value;
    if (!cursor) succeed(mdb_cursor_open(txn, dbi, &cursor));
    if (mdb_cursor_get(cursor, &name, &value, MDB_NEXT) == MDB_NOTFOUND) succeed(mdb_cursor_get(cursor, &name, &value, MDB_FIRST));
}
static void read_close() {
    if (txn) succeed(mdb_txn_commit(txn));
    mdb_env_close(env);
    open();
    begin(MDB_RDONLY);
    mdb_txn_abort(txn);
    txn = nullptr;
}
}  // namespace lmdb

namespace sqlite {
static sqlite3* db;
static sqlite3_stmt *select, *insert, *remove;
static const char* const TABLE = "CREATE TABLE t(key INTEGER PRIMARY KEY, value INTEGER NOT NULL); BEGIN";

static void succeed(int status) { need(status == SQLITE_OK, sqlite3_errstr(status)); }
static sqlite3_stmt* prepared(const char* text) {
    sqlite3_stmt* made;
    succeed(sqlite3_prepare_v2(db, text, -1, &made, nullptr));
    return made;
}
static void step(sqlite3_stmt* statement, int key, int status) {
    succeed(sqlite3_bind_int64(statement, 1, key));
    need(sqlite3_step(statement) == status, "step");
    succeed(sqlite3_reset(statement));
}
static void start() {
    succeed(sqlite3_open(":memory:", &db));
    succeed(sqlite3_exec(db, TABLE, nullptr, nullptr, nullptr));
    select = prepared("SELECT value FROM t WHERE key = ?1");
    insert = prepared("INSERT INTO t VALUES(?1, 0)");
    remove = prepared("DELETE FROM t WHERE key = ?1");
    for (int i = 0; i < KEYS; i++) step(insert, i, SQLITE_DONE);
}
static void get() { step(select, KEY, SQLITE_ROW); }
static void put_remove() {
    step(insert, NEW_KEY, SQLITE_DONE);
    step(remove, NEW_KEY, SQLITE_DONE);
}
}  // namespace sqlite

static const work WORKS[] = {
    {"boost-find", boosts::find},
    {"boost-get", boosts::get},
    {"boost-put, erase", boosts::put_remove},
    {"boost-next", boosts::next},
    {"boost-push, pop", boosts::push_pop},
    {"boost-insert, clear", boosts::insert_clear},
    {"boost-push 100, clear", boosts::push_each_clear},
    {"boost-insert ordered, clear", boosts::insert_ordered_clear},
    {"boost-emplace_hint 100, clear", boosts::hint_each_clear},
    {"boost-assign", boosts::assign},
    {"boost-construct, destroy", boosts::construct_destroy},
    {"lmdb-get", lmdb::get},
    {"lmdb-put, del", lmdb::put_remove},
    {"lmdb-next", lmdb::next},
    {"lmdb-open, close", lmdb::read_close},
    {"sqlite-get", sqlite::get},
    {"sqlite-insert, delete", sqlite::put_remove},
};

int main(int count, char** words) {
    need(count == 4, "calls_peers WORK TIMES FILE");
    boosts::start();
    lmdb::start(words[3]);
    sqlite::start();
    MEASURE(WORKS, words[1], atol(words[2]));
}
