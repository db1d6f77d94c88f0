/* What a host would use instead of clients and the calls of C: statements of SQLite, and functions of Lua.
 *   clients WORK TIMES      WORK: a name in the list at the end
 * cc -O2 clients.c -o clients -lsqlite3 -llua5.4 */
#include "measure.h"

#include <lauxlib.h>
#include <lua.h>
#include <lualib.h>
#include <sqlite3.h>

/* The database has two pages: 4096 bytes. */
static const char *const TABLE =
    "PRAGMA page_size = 2048;"
    "CREATE TABLE t(k TEXT PRIMARY KEY, v INTEGER) WITHOUT ROWID;"
    "INSERT INTO t VALUES('x', 41);";
static const char *const SELECT = "SELECT v FROM t WHERE k = 'x'";
static const char *const UPDATE = "UPDATE t SET v = v + 1 WHERE k = 'x' RETURNING v";

/* The same work as examples/increment.text: looks up a number by its name, adds 1, stores it, and returns it as text. */
static const char *const CODE =
    "local t = {x = 41}\n"
    "local out\n"
    "return function() local n = t.x if n then n = n + 1 t.x = n out = tostring(n) .. '\\n' end return out end\n";

static sqlite3 *db;
static sqlite3_stmt *statement;
static unsigned char *saved; /* the bytes of the database, as it is at first */
static sqlite3_int64 saved_len;
static lua_State *lua; /* with the function of CODE, and above it an empty function */

static void sqlite_step(void)
{
    need(sqlite3_step(statement) == SQLITE_ROW && sqlite3_column_int64(statement, 0) == 41, "step");
    sqlite3_reset(statement);
}

static void sqlite_prepare(void)
{
    sqlite3_finalize(statement);
    need(sqlite3_prepare_v2(db, SELECT, -1, &statement, NULL) == SQLITE_OK, "prepare");
}

static int count_row(void *rows, int columns, char **values, char **names)
{
    (void)columns, (void)values, (void)names;
    ++*(int *)rows;
    return 0;
}

/* Runs a statement that returns one row. */
static void exec(sqlite3 *on, const char *text)
{
    int rows = 0;
    need(sqlite3_exec(on, text, count_row, &rows, NULL) == SQLITE_OK && rows == 1, text);
}

static void sqlite_select(void)
{
    exec(db, SELECT);
}

static void sqlite_update(void)
{
    exec(db, UPDATE);
}

static void sqlite_check(void)
{
    exec(db, "PRAGMA integrity_check");
}

static void save(sqlite3 *of)
{
    sqlite3_int64 len;
    unsigned char *bytes = sqlite3_serialize(of, "main", &len, 0);
    need(bytes != NULL && len == saved_len, "serialize");
    sqlite3_free(bytes);
}

static void sqlite_save(void)
{
    save(db);
}

/* Opens a copy of the saved bytes. */
static sqlite3 *open_copy(void)
{
    sqlite3 *made;
    need(sqlite3_open(":memory:", &made) == SQLITE_OK, "open");
    unsigned char *copy = sqlite3_malloc64((sqlite3_uint64)saved_len);
    need(copy != NULL, "malloc");
    memcpy(copy, saved, (size_t)saved_len);
    int status = sqlite3_deserialize(made, "main", copy, saved_len, saved_len, SQLITE_DESERIALIZE_FREEONCLOSE);
    need(status == SQLITE_OK, "deserialize");
    return made;
}

static void sqlite_open(void)
{
    sqlite3_close(open_copy());
}

static void sqlite_run(void)
{
    sqlite3 *made = open_copy();
    exec(made, UPDATE);
    save(made);
    sqlite3_close(made);
}

static void lua_load_code(void)
{
    need(luaL_loadstring(lua, CODE) == LUA_OK, "load");
    lua_pop(lua, 1);
}

static void call_at(int index)
{
    lua_pushvalue(lua, index);
    need(lua_pcall(lua, 0, 0, 0) == LUA_OK, "pcall");
}

static void lua_call_code(void)
{
    call_at(1);
}

static void lua_call_empty(void)
{
    call_at(2);
}

static void lua_do_code(void)
{
    need(luaL_dostring(lua, CODE) == LUA_OK, "dostring");
    need(lua_pcall(lua, 0, 0, 0) == LUA_OK, "pcall");
}

static const work WORKS[] = {
    {"sqlite-prepare", sqlite_prepare}, /* and finalizes */
    {"sqlite-step", sqlite_step},
    {"sqlite-select", sqlite_select}, /* prepares, runs and finalizes, like the next */
    {"sqlite-update", sqlite_update},
    {"sqlite-check", sqlite_check},
    {"sqlite-open", sqlite_open}, /* and closes */
    {"sqlite-save", sqlite_save},
    {"sqlite-run", sqlite_run}, /* opens, updates, saves and closes */
    {"lua-load", lua_load_code},
    {"lua-call", lua_call_code},
    {"lua-do", lua_do_code}, /* loads and calls */
    {"lua-empty", lua_call_empty},
};

int main(int count, char **words)
{
    need(count == 3, "clients WORK TIMES");
    need(sqlite3_open(":memory:", &db) == SQLITE_OK && sqlite3_exec(db, TABLE, NULL, NULL, NULL) == SQLITE_OK, "open");
    need(sqlite3_prepare_v2(db, SELECT, -1, &statement, NULL) == SQLITE_OK, "prepare");
    saved = sqlite3_serialize(db, "main", &saved_len, 0);
    need(saved != NULL && saved_len == 4096, "serialize");
    lua = luaL_newstate();
    need(lua != NULL, "newstate");
    luaL_openlibs(lua);
    need(luaL_dostring(lua, CODE) == LUA_OK && luaL_dostring(lua, "return function() end") == LUA_OK, "dostring");
    MEASURE(WORKS, words[1], atol(words[2]));
    lua_close(lua);
    sqlite3_free(saved);
    sqlite3_finalize(statement);
    sqlite3_close(db);
    return 0;
}
