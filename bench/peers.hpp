// The indexes that are measured side by side, each behind put, get and remove.
#pragma once
#include "../bindings/c/month_board.h"
#include "../tests/twin/twin.hpp"

#include <absl/container/flat_hash_map.h>
#include <lmdb.h>
#include <sqlite3.h>
#include <tkrzw_dbm_hash.h>
#include <tkrzw_file_mmap.h>

#include <cstdint>
#include <cstdio>
#include <cstdlib>
#include <filesystem>
#include <memory>
#include <optional>
#include <random>
#include <string>
#include <unordered_map>
#include <vector>

using word = std::uint64_t;
using Words = std::vector<word>;
using Bytes = std::vector<std::uint8_t>;

// The twin's print, which answers how many bytes it has written, its merge and its listing of one block. They are
// compiled apart (twin_apart.cpp): beside the twin's other calls the compiler would arrange those in another way.
word twin_print(const word *words, std::size_t length, word year, std::uint8_t *buffer, std::size_t room);
twin::Answer twin_merge(word *words, std::size_t length, word key);
twin::Answer twin_list_block(const word *words, std::size_t length, word index, word *list, std::size_t room, word &next);

constexpr std::uint32_t all = 0xffffffff;
// The cabinet: 4 MiB of words, D = 12, S = 4,032.
constexpr word cabinet_depth = 12, cabinet_segments = 4032;
constexpr std::size_t cabinet_words = 524288;

inline void must(bool good, const char *what) {
    if (good) return;
    std::fprintf(stderr, "bench: %s failed\n", what);
    std::exit(2);
}

// A random key that every peer takes: not 0, and below 2^63.
inline word random_key(std::mt19937_64 &random) { return random() >> 1 | 1; }

// A file name that no peer has used yet.
inline std::string scratch(const std::string &name) {
    static int made = 0;
    const char *folder = std::getenv("BENCH_SCRATCH");
    std::filesystem::path path = std::filesystem::path(folder ? folder : "/tmp") / (std::to_string(made++) + name);
    std::filesystem::remove_all(path);
    return path.string();
}

// Our index, through its C interface.
class Ours {
  public:
    static constexpr const char *name = "ours";
    explicit Ours(word depth = cabinet_depth, word segments = cabinet_segments)
        : words((std::size_t(2) << depth) + 128 * segments) {
        page_index_format(words.data(), words.size(), depth, segments, all);
    }
    std::uint32_t put(word key, word value) {
        page_index_reply r = page_index_put(words.data(), words.size(), key, value, all);
        stores = r.stores;
        return r.code;
    }
    std::optional<word> get(word key) const {
        page_index_reply r = page_index_get(words.data(), words.size(), key);
        return r.code == PAGE_INDEX_DONE ? std::optional<word>(r.value) : std::nullopt;
    }
    void remove(word key) { page_index_remove(words.data(), words.size(), key, all); }
    word list(Words &out) const { return page_index_list(words.data(), words.size(), out.data(), out.size()).value; }
    // Lists the block at this index, which becomes the next one, or 0 behind the last.
    word list_block(word &index, Words &out) const {
        return page_index_list_block(words.data(), words.size(), index, out.data(), out.size(), &index).value;
    }
    void mend() { page_index_mend(words.data(), words.size(), all); }
    std::uint32_t merge(word key) {
        page_index_reply r = page_index_merge(words.data(), words.size(), key, all);
        stores = r.stores;
        return r.code;
    }
    word print(word year, Bytes &out) const { return month_board_print(words.data(), words.size(), year, out.data(), out.size()).value; }
    std::size_t bytes() const { return 8 * words.size(); }

    Words words;
    std::uint32_t stores = 0;
};

// The twin: the same scheme and stores, by hand in C++. Its calls are kept out of line, as the library's are.
class Twin {
  public:
    static constexpr const char *name = "twin";
    explicit Twin(word depth = cabinet_depth, word segments = cabinet_segments)
        : words((std::size_t(2) << depth) + 128 * segments) {
        index().format(depth, segments, all);
    }
    std::uint32_t put(word key, word value) {
        twin::Answer r = put_call(words.data(), words.size(), key, value);
        stores = r.stores;
        return r.code;
    }
    std::optional<word> get(word key) const {
        twin::Answer r = get_call(const_cast<word *>(words.data()), words.size(), key);
        return r.code == twin::done ? std::optional<word>(r.value) : std::nullopt;
    }
    void remove(word key) { remove_call(words.data(), words.size(), key); }
    word list(Words &out) const { return list_call(const_cast<word *>(words.data()), words.size(), out.data(), out.size()).value; }
    word list_block(word &index, Words &out) const {
        return twin_list_block(words.data(), words.size(), index, out.data(), out.size(), index).value;
    }
    void mend() { mend_call(words.data(), words.size()); }
    std::uint32_t merge(word key) {
        twin::Answer r = twin_merge(words.data(), words.size(), key);
        stores = r.stores;
        return r.code;
    }
    word print(word year, Bytes &out) const { return twin_print(words.data(), words.size(), year, out.data(), out.size()); }
    std::size_t bytes() const { return 8 * words.size(); }

    [[gnu::noinline]] static twin::Answer put_call(word *w, std::size_t n, word key, word value) {
        return twin::Index<>(w, n).put(key, value, all);
    }
    [[gnu::noinline]] static twin::Answer get_call(word *w, std::size_t n, word key) { return twin::Index<>(w, n).get(key); }
    [[gnu::noinline]] static twin::Answer remove_call(word *w, std::size_t n, word key) {
        return twin::Index<>(w, n).remove(key, all);
    }
    [[gnu::noinline]] static twin::Answer list_call(word *w, std::size_t n, word *out, std::size_t room) {
        return twin::Index<>(w, n).list(out, room);
    }
    [[gnu::noinline]] static twin::Answer mend_call(word *w, std::size_t n) { return twin::Index<>(w, n).mend(all); }

    Words words;
    std::uint32_t stores = 0;

  private:
    twin::Index<> index() { return twin::Index<>(words.data(), words.size()); }
};

// A hash map in memory, which a power cut empties.
template <class Map>
class InMemory {
  public:
    std::uint32_t put(word key, word value) {
        map[key] = value;
        return 0;
    }
    std::optional<word> get(word key) const {
        auto at = map.find(key);
        return at == map.end() ? std::nullopt : std::optional<word>(at->second);
    }
    void remove(word key) { map.erase(key); }

  private:
    Map map;
};

class Abseil : public InMemory<absl::flat_hash_map<word, word>> {
  public:
    static constexpr const char *name = "flat_hash_map";
};

class Standard : public InMemory<std::unordered_map<word, word>> {
  public:
    static constexpr const char *name = "unordered_map";
};

// The bureau's old index: a linear-probing table, copied to one of twice the size when it is half full.
class Linear {
  public:
    static constexpr const char *name = "linear";
    Linear() : slots(1024) {}
    std::uint32_t put(word key, word value) {
        if (2 * (used + 1) > slots.size()) grow();
        Slot &slot = at(slots, key);
        used += slot.key != key;
        slot = {key, value};
        return 0;
    }
    std::optional<word> get(word key) const {
        const Slot &slot = at(const_cast<std::vector<Slot> &>(slots), key);
        return slot.key == key && slot.there ? std::optional<word>(slot.value) : std::nullopt;
    }
    // A removed key keeps its slot.
    void remove(word key) {
        Slot &slot = at(slots, key);
        if (slot.key == key) slot.there = false;
    }
    std::size_t capacity() const { return slots.size(); }

  private:
    struct Slot {
        word key = 0, value = 0;
        bool there = true;
        Slot() = default;
        Slot(word k, word v) : key(k), value(v) {}
    };
    static Slot &at(std::vector<Slot> &table, word key) {
        std::size_t mask = table.size() - 1, i = key * 0x9e3779b97f4a7c15 >> 20 & mask;
        while (table[i].key != 0 && table[i].key != key) i = (i + 1) & mask;
        return table[i];
    }
    void grow() {
        std::vector<Slot> larger(2 * slots.size());
        used = 0;
        for (const Slot &slot : slots)
            if (slot.key != 0 && slot.there) at(larger, slot.key) = slot, used++;
        slots.swap(larger);
    }
    std::vector<Slot> slots;
    std::size_t used = 0;
};

// LMDB on a memory-mapped file; each put is a transaction, left to the system to write back.
class Lmdb {
  public:
    static constexpr const char *name = "lmdb";
    Lmdb() {
        must(mdb_env_create(&env) == 0, "mdb_env_create");
        must(mdb_env_set_mapsize(env, std::size_t(1) << 30) == 0, "mdb_env_set_mapsize");
        must(mdb_env_open(env, scratch("lmdb").c_str(), MDB_NOSUBDIR | MDB_WRITEMAP | MDB_NOSYNC | MDB_NOLOCK, 0600) == 0, "mdb_env_open");
        MDB_txn *txn = begin(0);
        must(mdb_dbi_open(txn, nullptr, MDB_INTEGERKEY, &dbi) == 0, "mdb_dbi_open");
        must(mdb_txn_commit(txn) == 0, "mdb_txn_commit");
        must(mdb_txn_begin(env, nullptr, MDB_RDONLY, &reader) == 0, "mdb_txn_begin");
        mdb_txn_reset(reader);
    }
    ~Lmdb() {
        mdb_txn_abort(reader);
        mdb_env_close(env);
    }
    std::uint32_t put(word key, word value) {
        MDB_txn *txn = begin(0);
        MDB_val k{sizeof key, &key}, v{sizeof value, &value};
        must(mdb_put(txn, dbi, &k, &v, 0) == 0, "mdb_put");
        must(mdb_txn_commit(txn) == 0, "mdb_txn_commit");
        return 0;
    }
    std::optional<word> get(word key) const {
        must(mdb_txn_renew(reader) == 0, "mdb_txn_renew");
        MDB_val k{sizeof key, &key}, v;
        std::optional<word> found;
        if (mdb_get(reader, dbi, &k, &v) == 0) found = *static_cast<word *>(v.mv_data);
        mdb_txn_reset(reader);
        return found;
    }
    void remove(word key) {
        MDB_txn *txn = begin(0);
        MDB_val k{sizeof key, &key};
        mdb_del(txn, dbi, &k, nullptr);
        must(mdb_txn_commit(txn) == 0, "mdb_txn_commit");
    }

  private:
    MDB_txn *begin(unsigned flags) {
        MDB_txn *txn;
        must(mdb_txn_begin(env, nullptr, flags, &txn) == 0, "mdb_txn_begin");
        return txn;
    }
    MDB_env *env = nullptr;
    MDB_dbi dbi = 0;
    MDB_txn *reader = nullptr;
};

// Tkrzw's file hash database on a memory-mapped file.
class Tkrzw {
  public:
    static constexpr const char *name = "tkrzw";
    Tkrzw() : dbm(std::make_unique<tkrzw::MemoryMapParallelFile>()) {
        tkrzw::HashDBM::TuningParameters tuning;
        tuning.num_buckets = 300000;
        must(dbm.OpenAdvanced(scratch("index.tkh"), true, tkrzw::File::OPEN_TRUNCATE, tuning).IsOK(), "HashDBM::Open");
    }
    ~Tkrzw() { dbm.Close(); }
    std::uint32_t put(word key, word value) {
        must(dbm.Set(text(key), text(value)).IsOK(), "HashDBM::Set");
        return 0;
    }
    std::optional<word> get(word key) const {
        std::string value;
        if (!dbm.Get(text(key), &value).IsOK()) return std::nullopt;
        return *reinterpret_cast<const word *>(value.data());
    }
    void remove(word key) { dbm.Remove(text(key)); }

  private:
    static std::string_view text(const word &w) { return {reinterpret_cast<const char *>(&w), sizeof w}; }
    mutable tkrzw::HashDBM dbm;
};

// SQLite with synchronous off; each put is a transaction of its own.
class Sqlite {
  public:
    static constexpr const char *name = "sqlite";
    Sqlite() {
        must(sqlite3_open(scratch("index.sqlite").c_str(), &db) == SQLITE_OK, "sqlite3_open");
        run("pragma synchronous = off");
        run("pragma journal_mode = wal");
        run("create table pages (key integer primary key, value integer)");
        insert = prepare("insert or replace into pages values (?, ?)");
        select = prepare("select value from pages where key = ?");
        erase = prepare("delete from pages where key = ?");
    }
    ~Sqlite() {
        for (sqlite3_stmt *s : {insert, select, erase}) sqlite3_finalize(s);
        sqlite3_close(db);
    }
    std::uint32_t put(word key, word value) {
        bind(insert, key);
        sqlite3_bind_int64(insert, 2, sqlite3_int64(value));
        must(sqlite3_step(insert) == SQLITE_DONE, "insert");
        sqlite3_reset(insert);
        return 0;
    }
    std::optional<word> get(word key) const {
        bind(select, key);
        std::optional<word> found;
        if (sqlite3_step(select) == SQLITE_ROW) found = word(sqlite3_column_int64(select, 0));
        sqlite3_reset(select);
        return found;
    }
    void remove(word key) {
        bind(erase, key);
        sqlite3_step(erase);
        sqlite3_reset(erase);
    }

  private:
    static void bind(sqlite3_stmt *s, word key) { sqlite3_bind_int64(s, 1, sqlite3_int64(key)); }
    void run(const char *sql) { must(sqlite3_exec(db, sql, nullptr, nullptr, nullptr) == SQLITE_OK, sql); }
    sqlite3_stmt *prepare(const char *sql) {
        sqlite3_stmt *s;
        must(sqlite3_prepare_v2(db, sql, -1, &s, nullptr) == SQLITE_OK, sql);
        return s;
    }
    sqlite3 *db = nullptr;
    sqlite3_stmt *insert = nullptr, *select = nullptr, *erase = nullptr;
};
