// The works of table.h with Boost.Interprocess, LMDB, SQLite and FlatBuffers.
// g++ -O2 -std=c++17 table_peers.cpp -o table_peers -llmdb -lsqlite3 -lpthread -lrt
// It includes what `flatc --cpp --gen-mutable table.fbs` makes.
#include "table.h"
#include "table_generated.h"

#include <boost/interprocess/allocators/allocator.hpp>
#include <boost/interprocess/containers/flat_map.hpp>
#include <boost/interprocess/containers/map.hpp>
#include <boost/interprocess/managed_mapped_file.hpp>
#include <lmdb.h>
#include <sqlite3.h>
#include <functional>
#include <memory>

namespace boosts {
namespace bi = boost::interprocess;
using Manager = bi::managed_mapped_file::segment_manager;
using Tree = bi::map<int64_t, int64_t, std::less<int64_t>, bi::allocator<std::pair<const int64_t, int64_t>, Manager>>;
using Flat = bi::flat_map<int64_t, int64_t, std::less<int64_t>, bi::allocator<std::pair<int64_t, int64_t>, Manager>>;

static std::unique_ptr<bi::managed_mapped_file> segment;

// sorted entries are put at the end, without a search
static void put(Tree& map, const entry& it) { map.emplace(it.key, it.value); }
static void put(Flat& map, const entry& it) { map.emplace_hint(map.cend(), it.key, it.value); }

template <class Map> struct Boost {
    static inline Map* map;

    static void build(const char* file, const entry* entries) {
        unlink(file);
        bi::managed_mapped_file made(bi::create_only, file, FILE_LEN);
        map = made.construct<Map>("table")(std::less<int64_t>(), made.get_segment_manager());
        for (int i = 0; i < KEYS; i++) put(*map, entries[i]);
    }
    // a lookup by name would take the lock, which is in the file
    static void open(const char* file, int writing) {
        segment = writing ? std::make_unique<bi::managed_mapped_file>(bi::open_only, file)
                          : std::make_unique<bi::managed_mapped_file>(bi::open_read_only, file);
        map = writing ? segment->find<Map>("table").first : segment->find_no_lock<Map>("table").first;
        need(map != nullptr, "find");
    }
    static int64_t look_up(const int64_t* keys, long count) {
        int64_t sum = 0;
        for (long i = 0; i < count; i++) {
            auto found = map->find(keys[i]);
            need(found != map->end(), "find");
            sum += found->second;
        }
        return sum;
    }
    static void update(const int64_t* keys, long count, int) {
        for (long i = 0; i < count; i++) {
            auto found = map->find(keys[i]);
            need(found != map->end(), "find");
            found->second = i;
        }
    }
    static int64_t sum(long count) {
        int64_t sum = 0;
        auto it = map->begin();
        for (long i = 0; i < count; i++, ++it) sum += it->second;
        return sum;
    }
};

// tests the allocator's free blocks, under the lock of the file
static void check() { need(segment->check_sanity(), "check_sanity"); }
static void close() { segment.reset(); }
}  // namespace boosts

namespace lmdb {
static MDB_env* env;
static MDB_txn* txn;
static MDB_dbi dbi;

// as much as one transaction that changes all pages needs
static const size_t MOST = size_t(256) << 20;

static void succeed(int status) { need(status == MDB_SUCCESS, mdb_strerror(status)); }

// LMDB compares keys of 8 bytes as numbers without a sign
static uint64_t unsigned_key(int64_t key) { return uint64_t(key) ^ uint64_t(1) << 63; }

static void begin(bool writing) {
    succeed(mdb_txn_begin(env, nullptr, writing ? 0 : MDB_RDONLY, &txn));
    succeed(mdb_dbi_open(txn, nullptr, MDB_INTEGERKEY | (writing ? MDB_CREATE : 0), &dbi));
}
static void open_env(const char* file, unsigned flags) {
    succeed(mdb_env_create(&env));
    succeed(mdb_env_set_mapsize(env, MOST));
    succeed(mdb_env_open(env, file, MDB_NOSUBDIR | flags, 0600));
}
static void put(int64_t key, int64_t number) {
    uint64_t sortable = unsigned_key(key);
    MDB_val name{sizeof sortable, &sortable}, value{sizeof number, &number};
    succeed(mdb_put(txn, dbi, &name, &value, 0));
}
static void build(const char* file, const entry* entries) {
    unlink(file);
    open_env(file, 0);
    begin(true);
    for (int i = 0; i < KEYS; i++) put(entries[i].key, entries[i].value);
    succeed(mdb_txn_commit(txn));
    mdb_env_close(env);
}
static void open(const char* file, int writing) {
    open_env(file, writing ? 0 : MDB_RDONLY);
    begin(false);
}
static int64_t number_of(const MDB_val& value) {
    int64_t number;
    memcpy(&number, value.mv_data, sizeof number);
    return number;
}
static int64_t look_up(const int64_t* keys, long count) {
    int64_t sum = 0;
    for (long i = 0; i < count; i++) {
        uint64_t sortable = unsigned_key(keys[i]);
        MDB_val name{sizeof sortable, &sortable}, value;
        succeed(mdb_get(txn, dbi, &name, &value));
        sum += number_of(value);
    }
    return sum;
}
static void update(const int64_t* keys, long count, int singly) {
    mdb_txn_abort(txn);
    for (long i = 0; i < count; i++) {
        if (singly || i == 0) succeed(mdb_txn_begin(env, nullptr, 0, &txn));
        put(keys[i], i);
        if (singly || i + 1 == count) succeed(mdb_txn_commit(txn));
    }
    succeed(mdb_txn_begin(env, nullptr, MDB_RDONLY, &txn));
}
static int64_t sum(long count) {
    MDB_cursor* cursor;
    MDB_val name, value;
    int64_t sum = 0;
    succeed(mdb_cursor_open(txn, dbi, &cursor));
    for (long i = 0; i < count; i++) {
        succeed(mdb_cursor_get(cursor, &name, &value, MDB_NEXT));
        sum += number_of(value);
    }
    mdb_cursor_close(cursor);
    return sum;
}
static void close() {
    mdb_txn_abort(txn);
    mdb_env_close(env);
}
}  // namespace lmdb

namespace sqlite {
static sqlite3* db;
static sqlite3_stmt *select, *change;

static void succeed(int status) { need(status == SQLITE_OK, sqlite3_errstr(status)); }
static void run(const char* text) { succeed(sqlite3_exec(db, text, nullptr, nullptr, nullptr)); }

static sqlite3_stmt* prepared(const char* text) {
    sqlite3_stmt* made;
    succeed(sqlite3_prepare_v3(db, text, -1, SQLITE_PREPARE_PERSISTENT, &made, nullptr));
    return made;
}
// the cache has room for the whole table
static void open_db(const char* file, int flags) {
    succeed(sqlite3_open_v2(file, &db, flags | SQLITE_OPEN_NOMUTEX, nullptr));
    run("PRAGMA cache_size = -131072; PRAGMA synchronous = NORMAL");
}
static void step(sqlite3_stmt* statement, int64_t first, int64_t second) {
    succeed(sqlite3_bind_int64(statement, 1, first));
    succeed(sqlite3_bind_int64(statement, 2, second));
    need(sqlite3_step(statement) == SQLITE_DONE, "step");
    succeed(sqlite3_reset(statement));
}
static void build(const char* file, const entry* entries) {
    unlink(file);
    open_db(file, SQLITE_OPEN_READWRITE | SQLITE_OPEN_CREATE);
    run("PRAGMA journal_mode = WAL; CREATE TABLE t(key INTEGER PRIMARY KEY, value INTEGER NOT NULL); BEGIN");
    sqlite3_stmt* insert = prepared("INSERT INTO t VALUES(?1, ?2)");
    for (int i = 0; i < KEYS; i++) step(insert, entries[i].key, entries[i].value);
    run("COMMIT");
    succeed(sqlite3_finalize(insert));
    succeed(sqlite3_close(db));
}
static void open(const char* file, int writing) {
    open_db(file, writing ? SQLITE_OPEN_READWRITE : SQLITE_OPEN_READONLY);
    select = prepared("SELECT value FROM t WHERE key = ?1");
    change = writing ? prepared("UPDATE t SET value = ?2 WHERE key = ?1") : nullptr;
}
static int64_t look_up(const int64_t* keys, long count) {
    int64_t sum = 0;
    run("BEGIN");
    for (long i = 0; i < count; i++) {
        succeed(sqlite3_bind_int64(select, 1, keys[i]));
        need(sqlite3_step(select) == SQLITE_ROW, "step");
        sum += sqlite3_column_int64(select, 0);
        succeed(sqlite3_reset(select));
    }
    run("COMMIT");
    return sum;
}
static void update(const int64_t* keys, long count, int singly) {
    if (!singly) run("BEGIN");
    for (long i = 0; i < count; i++) step(change, keys[i], i);
    if (!singly) run("COMMIT");
}
static int64_t sum(long count) {
    int64_t sum = 0;
    sqlite3_stmt* values = prepared("SELECT value FROM t ORDER BY key");
    for (long i = 0; i < count; i++) {
        need(sqlite3_step(values) == SQLITE_ROW, "step");
        sum += sqlite3_column_int64(values, 0);
    }
    succeed(sqlite3_finalize(values));
    return sum;
}
static void check() {
    sqlite3_stmt* checking = prepared("PRAGMA integrity_check");
    need(sqlite3_step(checking) == SQLITE_ROW, "step");
    need(strcmp(reinterpret_cast<const char*>(sqlite3_column_text(checking, 0)), "ok") == 0, "integrity_check");
    succeed(sqlite3_finalize(checking));
}
static void close() {
    sqlite3_finalize(select);
    sqlite3_finalize(change);
    succeed(sqlite3_close(db));
}
}  // namespace sqlite

namespace buffers {
static uint8_t* memory;
static size_t len;
static Pairs* root;

static void build(const char* file, const entry* entries) {
    flatbuffers::FlatBufferBuilder builder(FILE_LEN);
    const Pair* pairs = reinterpret_cast<const Pair*>(entries);
    static_assert(sizeof(Pair) == sizeof(entry), "two numbers of 8 bytes");
    builder.Finish(CreatePairs(builder, builder.CreateVectorOfStructs(pairs, KEYS)));
    FILE* made = fopen(file, "wb");
    need(made && fwrite(builder.GetBufferPointer(), 1, builder.GetSize(), made) == builder.GetSize(), file);
    fclose(made);
}
static void check() {
    flatbuffers::Verifier verifier(memory, len);
    need(VerifyPairsBuffer(verifier), "verify");
}
static void open(const char* file, int writing) {
    memory = map_file(file, writing, &len);
    check();
    root = flatbuffers::GetMutableRoot<Pairs>(memory);
}
static int64_t look_up(const int64_t* keys, long count) {
    int64_t sum = 0;
    for (long i = 0; i < count; i++) {
        const Pair* found = root->pairs()->LookupByKey(keys[i]);
        need(found != nullptr, "lookup");
        sum += found->value();
    }
    return sum;
}
static void update(const int64_t* keys, long count, int) {
    for (long i = 0; i < count; i++) {
        Pair* found = root->mutable_pairs()->MutableLookupByKey(keys[i]);
        need(found != nullptr, "lookup");
        found->mutate_value(i);
    }
}
static int64_t sum(long count) {
    int64_t sum = 0;
    for (long i = 0; i < count; i++) sum += root->pairs()->Get(unsigned(i))->value();
    return sum;
}
static void close() { munmap(memory, len); }
}  // namespace buffers

template <class Map> static table boost_table(const char* name, int sorted) {
    using B = boosts::Boost<Map>;
    return {name, sorted, B::build, B::open, B::look_up, B::update, B::sum, nullptr, nullptr, boosts::check, nullptr, boosts::close};
}

static const table TABLES[] = {
    boost_table<boosts::Tree>("boost-tree", 0),
    boost_table<boosts::Flat>("boost-flat", 1),
    {"lmdb", 0, lmdb::build, lmdb::open, lmdb::look_up, lmdb::update, lmdb::sum, nullptr, nullptr, nullptr, nullptr, lmdb::close},
    {"sqlite", 0, sqlite::build, sqlite::open, sqlite::look_up, sqlite::update, sqlite::sum, nullptr, nullptr, sqlite::check, nullptr, sqlite::close},
    {"flatbuffers", 1, buffers::build, buffers::open, buffers::look_up, buffers::update, buffers::sum, nullptr, nullptr, buffers::check, nullptr, buffers::close},
};

int main(int count, char** words) { return table_main(TABLES, sizeof TABLES / sizeof *TABLES, count, words); }
