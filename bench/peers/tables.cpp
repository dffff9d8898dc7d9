// Two split-ordered hash tables of the field, over objects {K,V} of boxed terms: liburcu's cds_lfht and oneTBB's
// concurrent_unordered_map. Prints nanoseconds an operation, or bytes an object: lines of PEER OPERATION FIGURE.
#include <algorithm>
#include <chrono>
#include <cstdint>
#include <cstdio>
#include <cstdlib>
#include <cstring>
#include <string>
#include <unistd.h>
#include <utility>
#include <vector>

#include <tbb/concurrent_unordered_map.h>
#include <urcu.h>
#include <urcu/rculfhash.h>

using Integer = __int128;

struct Term {
    uint64_t kind;
    Integer value;
};

// FNV-1a over the encoding of an integer: the byte 1, then sixteen bytes, high byte first.
static uint32_t fnv(Integer value) {
    uint32_t hash = (2166136261u ^ 1u) * 16777619u;
    for (int shift = 120; shift >= 0; shift -= 8) {
        hash = (hash ^ static_cast<uint8_t>(static_cast<unsigned __int128>(value) >> shift)) * 16777619u;
    }
    return hash;
}

static Term *object(Integer key, Integer value) {
    auto *terms = static_cast<Term *>(malloc(2 * sizeof(Term)));
    terms[0] = {0, key};
    terms[1] = {0, value};
    return terms;
}

// Each number below `count` once, in an order that jumps about, the same as the store's and the other peers'.
static std::vector<Integer> shuffled(uint64_t count, uint64_t seed) {
    uint64_t mask = 1;
    while (mask < count) mask *= 2;
    mask -= 1;
    uint64_t odd = seed * 0xD6E8FEB86659FD92ull | 1;
    std::vector<Integer> keys;
    for (uint64_t i = 0; i <= mask; i++) {
        uint64_t a = i * odd & mask;
        uint64_t b = (a ^ a >> 9) * (0x85EBCA6Bull ^ seed * 0x2C1B3C6Cull) & mask;
        uint64_t c = (b ^ b >> 7) * (odd ^ 0x9E3779B8ull) & mask;
        uint64_t d = (c ^ c >> 11) * (0xC2B2AE35ull ^ seed * 0x165667B0ull) & mask;
        uint64_t key = d ^ d >> 8;
        if (key < count) keys.push_back(static_cast<Integer>(key));
    }
    return keys;
}

// The least nanoseconds an operation of several turns, in the order of the phases.
static std::vector<std::pair<const char *, double>> best;

template <class Work> static void timed(const char *operation, size_t count, Work work) {
    auto start = std::chrono::steady_clock::now();
    work();
    std::chrono::duration<double, std::nano> spent = std::chrono::steady_clock::now() - start;
    double each = spent.count() / static_cast<double>(count);
    for (auto &known : best) {
        if (known.first == operation) {
            known.second = std::min(known.second, each);
            return;
        }
    }
    best.emplace_back(operation, each);
}

// Bytes in memory: each library has an allocator of its own.
static size_t in_use() {
    size_t pages = 0;
    FILE *statm = fopen("/proc/self/statm", "r");
    if (!statm || fscanf(statm, "%*u %zu", &pages) != 1) abort();
    fclose(statm);
    return pages * 4096;
}

struct Entry {
    cds_lfht_node node;
    Term key;
    Term *object;
};

static int has_key(cds_lfht_node *node, const void *key) {
    return caa_container_of(node, Entry, node)->key.value == *static_cast<const Integer *>(key);
}

static Entry *find(cds_lfht *table, Integer key) {
    cds_lfht_iter at;
    cds_lfht_lookup(table, fnv(key), has_key, &key, &at);
    auto *node = cds_lfht_iter_get_node(&at);
    return node ? caa_container_of(node, Entry, node) : nullptr;
}

using Keys = std::vector<Integer>;

// Small tables are made again and again, and each figure is the least.
static size_t repeats(size_t count) { return std::max<size_t>(1, 300000 / count); }

struct Lfht {
    static constexpr const char *name = "cds_lfht";
    cds_lfht *table = cds_lfht_new(2, 1, 0, CDS_LFHT_AUTO_RESIZE | CDS_LFHT_ACCOUNTING, nullptr);

    void insert(Integer key) {
        auto *entry = static_cast<Entry *>(malloc(sizeof(Entry)));
        cds_lfht_node_init(&entry->node);
        entry->key = {0, key};
        entry->object = object(key, 1);
        rcu_read_lock();
        cds_lfht_add_replace(table, fnv(key), has_key, &key, &entry->node);
        rcu_read_unlock();
    }

    Term *get(Integer key) {
        rcu_read_lock();
        Entry *entry = find(table, key);
        rcu_read_unlock();
        return entry ? entry->object : nullptr;
    }

    void remove(Integer key) {
        rcu_read_lock();
        Entry *entry = find(table, key);
        cds_lfht_del(table, &entry->node);
        rcu_read_unlock();
        free(entry->object); // one thread: nobody reads what went; its node would wait for a grace period, and stays
    }

    void end() { cds_lfht_destroy(table, nullptr); }
};

struct Hash {
    size_t operator()(Integer key) const { return fnv(key); }
};

struct Tbb {
    static constexpr const char *name = "oneTBB";
    tbb::concurrent_unordered_map<Integer, Term *, Hash> table;

    void insert(Integer key) { table.emplace(key, object(key, 1)); }

    Term *get(Integer key) {
        auto at = table.find(key);
        return at == table.end() ? nullptr : at->second;
    }

    void remove(Integer key) {
        auto at = table.find(key);
        free(at->second);
        table.unsafe_erase(at);
    }

    void end() {}
};

template <class Table> static void times(size_t count) {
    std::vector<Keys> orders;
    for (uint64_t seed = 1; seed <= 5; seed++) orders.push_back(shuffled(count, seed));
    for (size_t turn = 0; turn < repeats(count); turn++) {
        Table table;
        Integer sum = 0, past = static_cast<Integer>(count);
        timed("insert", count, [&] { for (Integer key : orders[0]) table.insert(key); });
        timed("hit", count, [&] { for (Integer key : orders[1]) sum += table.get(key)[1].value; });
        timed("miss", count, [&] { for (Integer key : orders[2]) sum += table.get(key + past) != nullptr; });
        timed("counter", count, [&] { for (Integer key : orders[3]) table.get(key)[1].value += 1; });
        timed("delete", count, [&] { for (Integer key : orders[4]) table.remove(key); });
        if (sum != past) abort();
        table.end();
    }
    for (auto &known : best) printf("%s %s %.1f\n", Table::name, known.first, known.second);
}

// The longest of this many insertions into one table.
template <class Table> static void longest(size_t count) {
    Table table;
    double most = 0;
    for (Integer key : shuffled(count, 1)) {
        auto start = std::chrono::steady_clock::now();
        table.insert(key);
        std::chrono::duration<double, std::nano> spent = std::chrono::steady_clock::now() - start;
        most = std::max(most, spent.count());
    }
    printf("%s longest %.0f\n", Table::name, most);
}

// As many tables as make about 300,000 objects, so that the pages of a small one do not blur it.
template <class Table> static void bytes(size_t count) {
    Keys keys = shuffled(count, 1);
    size_t before = in_use();
    auto *tables = new std::vector<Table>(repeats(count));
    for (auto &table : *tables) {
        for (Integer key : keys) table.insert(key);
    }
    double each = static_cast<double>(in_use() - before) / static_cast<double>(count * tables->size());
    printf("%s bytes %.1f\n", Table::name, each);
}

int main(int argc, char **argv) {
    std::string part = argc > 1 ? argv[1] : "";
    size_t count = argc > 2 ? strtoull(argv[2], nullptr, 10) : 1000000;
    rcu_register_thread();
    if (part == "cds_lfht") {
        times<Lfht>(count);
    } else if (part == "cds_lfht-bytes") {
        bytes<Lfht>(count);
    } else if (part == "oneTBB") {
        times<Tbb>(count);
    } else if (part == "oneTBB-longest") {
        longest<Tbb>(count);
    } else if (part == "oneTBB-bytes") {
        bytes<Tbb>(count);
    } else {
        fprintf(stderr, "tables cds_lfht|cds_lfht-bytes|oneTBB|oneTBB-bytes|oneTBB-longest [COUNT]\n");
        return 2;
    }
    fflush(stdout);
    _exit(0); // what the tables hold goes with the process
}
