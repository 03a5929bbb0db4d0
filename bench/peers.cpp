// Maps that a user could pick instead, from 16-byte addresses to 8-bit labels, beside the product.
//   peers time N ROUNDS    rows of a Markdown table
//   peers list N FILE      the addresses for the Rust program: held ones with their label, others with "-"
#include <algorithm>
#include <cstdio>
#include <cstdlib>
#include <cstring>
#include <memory>
#include <string>
#include <unordered_map>
#include <vector>

#if __has_include(<sparsehash/sparse_hash_map>)
#define WITH_SPARSEHASH
#include <sparsehash/dense_hash_map>
#include <sparsehash/sparse_hash_map>
#endif
#ifdef WITH_ABSL
#include <absl/container/flat_hash_map.h>
#endif

#include "common.h"
#include "heap.h"

// ---- addresses ----

struct Address {
    unsigned char byte[16];
    bool operator==(const Address &other) const { return memcmp(byte, other.byte, sizeof byte) == 0; }
    template <typename H> friend H AbslHashValue(H h, const Address &a)
    {
        return H::combine_contiguous(std::move(h), a.byte, sizeof a.byte);
    }
};

__extension__ typedef unsigned __int128 Wide;

// One wide multiplication: the cheapest hash that mixes all bits. absl brings its own.
struct Hash {
    size_t operator()(const Address &a) const
    {
        uint64_t x, y;
        memcpy(&x, a.byte, 8);
        memcpy(&y, a.byte + 8, 8);
        Wide product = (Wide)(x ^ 0x9e3779b97f4a7c15u) * (y ^ 0xc2b2ae3d27d4eb4fu);
        return (uint64_t)(product >> 64) ^ (uint64_t)product;
    }
};

static Address address_of(Key k)
{
    Address a;
    for (unsigned i = 0; i < 8; i++) {
        a.byte[i] = (unsigned char)(k.high >> (56 - 8 * i));
        a.byte[8 + i] = (unsigned char)(k.low >> (56 - 8 * i));
    }
    return a;
}

// The same addresses as the product and as the maps take them; the label is the one found, or -1.
struct Entries {
    std::vector<Key> keys;
    std::vector<Address> addresses;
    std::vector<int> labels;
    void add(Key k, int label)
    {
        keys.push_back(k);
        addresses.push_back(address_of(k));
        labels.push_back(label);
    }
};

struct Workload {
    Entries held;     // in the order of insertion
    Entries shuffled; // the same for finding: nodes that were allocated in turn must not be met in turn
    Entries others;
};

static Workload workload(unsigned n)
{
    Workload w;
    for (unsigned i = 0; i < n; i++) {
        w.held.add(random_key(128), i & 255);
        w.others.add(random_key(128), -1);
    }
    std::vector<unsigned> order(n);
    for (unsigned i = 0; i < n; i++) order[i] = i;
    for (unsigned i = n; i > 1; i--) std::swap(order[i - 1], order[random_bits() % i]);
    for (unsigned i : order) w.shuffled.add(w.held.keys[i], w.held.labels[i]);
    return w;
}

// ---- the structures ----

enum { CHUNK = 64 };

class Structure {
public:
    virtual ~Structure() {}
    virtual std::string name() const = 0;
    virtual void empty() = 0;
    virtual void fill(const Entries &e) = 0;
    virtual void find(const Entries &e, size_t at, int found[CHUNK]) const = 0;
    virtual HeapBytes bytes(const Entries &e) = 0;
};

template <typename Map> void prepare(Map &) {}

template <typename Map> class Peer : public Structure {
    std::string title;
    std::unique_ptr<Map> map;

public:
    explicit Peer(const char *title) : title(title) {}
    std::string name() const override { return title; }
    void empty() override
    {
        map.reset(new Map);
        prepare(*map);
    }
    void fill(const Entries &e) override
    {
        for (size_t i = 0; i < e.addresses.size(); i++) map->insert({ e.addresses[i], (uint8_t)e.labels[i] });
    }
    void find(const Entries &e, size_t at, int found[CHUNK]) const override
    {
        for (size_t i = 0; i < CHUNK; i++) {
            auto place = map->find(e.addresses[at + i]);
            found[i] = place == map->end() ? -1 : place->second;
        }
    }
    HeapBytes bytes(const Entries &e) override
    {
        map.reset();
        start_counting();
        empty();
        fill(e);
        return stop_counting();
    }
};

class Product : public Structure {
    Settings settings;
    std::vector<uint8_t> table;

public:
    explicit Product(Settings s) : settings(s), table(shelfegret_size(s).number) {}
    std::string name() const override
    {
        return "product, bii " + std::to_string(settings.bii) + ", sib " + std::to_string(settings.sib) + ", nob " +
               std::to_string(settings.nob) + ", sio " + std::to_string(settings.sio);
    }
    void empty() override {}
    void fill(const Entries &e) override
    {
        shelfegret_make(settings, table.data(), table.size());
        for (size_t i = 0; i < e.keys.size(); i++) {
            Answer a = shelfegret_enter(settings, table.data(), table.size(), e.keys[i], (uint64_t)e.labels[i]);
            if (a.word != SHELFEGRET_ADDED) fail("the product's table is too small");
        }
    }
    void find(const Entries &e, size_t at, int found[CHUNK]) const override
    {
        for (size_t i = 0; i < CHUNK; i++) {
            Answer a = shelfegret_find(settings, table.data(), table.size(), e.keys[at + i]);
            found[i] = a.word == SHELFEGRET_HELD ? (int)a.label : -1;
        }
    }
    HeapBytes bytes(const Entries &) override { return { table.size(), table.size() }; }
};

#ifdef WITH_SPARSEHASH
using Dense = google::dense_hash_map<Address, uint8_t, Hash>;
using Sparse = google::sparse_hash_map<Address, uint8_t, Hash>;
static void prepare(Dense &map) // it needs a key that never comes
{
    Address never;
    memset(never.byte, 0xff, sizeof never.byte);
    map.set_empty_key(never);
}
#endif

// As roomy as the program's table; then what `memory find N BII` gives for short and for long lists.
static const struct {
    unsigned n;
    Settings settings[3];
} tables[] = {
    { 800, { { 128, 8, 4, 80, 3, 8, 97, 31 }, { 128, 8, 1, 570, 1, 8, 97, 31 }, { 128, 6, 7, 372, 1, 8, 31, 31 } } },
    { 10000,
      { { 128, 12, 4, 640, 3, 8, 97, 31 }, { 128, 12, 1, 6380, 1, 8, 97, 31 }, { 128, 9, 15, 2570, 1, 8, 97, 31 } } },
    { 100000,
      { { 128, 15, 4, 8192, 3, 8, 97, 31 }, { 128, 15, 2, 42955, 1, 8, 97, 31 },
        { 128, 12, 19, 12810, 2, 8, 97, 31 } } },
};

using Structures = std::vector<std::unique_ptr<Structure>>;

static Structures structures(unsigned n)
{
    Structures all;
    for (auto &t : tables)
        if (t.n == n)
            for (Settings s : t.settings) all.emplace_back(new Product(s));
    if (all.empty()) fail("no table for this n");
    all.emplace_back(new Peer<std::unordered_map<Address, uint8_t, Hash>>("std::unordered_map"));
#ifdef WITH_SPARSEHASH
    all.emplace_back(new Peer<Sparse>("google::sparse_hash_map"));
    all.emplace_back(new Peer<Dense>("google::dense_hash_map"));
#endif
#ifdef WITH_ABSL
    all.emplace_back(new Peer<absl::flat_hash_map<Address, uint8_t>>("absl::flat_hash_map"));
#endif
    return all;
}

// ---- timing ----

using Times = std::vector<std::vector<double>>; // of each structure

static double time_chunk(const Structure &structure, const Entries &e)
{
    size_t at = random_bits() % (e.keys.size() - CHUNK + 1);
    int found[CHUNK];
    double start = wall_clock();
    structure.find(e, at, found);
    double ns = (wall_clock() - start) / CHUNK;
    if (!std::equal(found, found + CHUNK, e.labels.begin() + (long)at)) fail("a structure answers wrongly");
    return ns;
}

// The structures take turns, each long enough to have the caches to itself.
static Times time_find(const Structures &all, const Entries &e, unsigned rounds)
{
    enum { TURNS = 8 };
    Times times(all.size());
    for (unsigned turn = 0; turn < TURNS; turn++)
        for (size_t i = 0; i < all.size(); i++)
            for (unsigned r = 0; r < rounds / TURNS; r++) times[i].push_back(time_chunk(*all[i], e));
    return times;
}

static Times time_fill(const Structures &all, const Entries &e, unsigned rounds)
{
    Times times(all.size());
    for (unsigned r = 0; r < rounds; r++)
        for (size_t i = 0; i < all.size(); i++) {
            all[i]->empty();
            double start = processor_clock();
            all[i]->fill(e);
            times[i].push_back((processor_clock() - start) / (double)e.keys.size());
        }
    return times;
}

static double middle(std::vector<double> &values)
{
    return median(values.data(), values.size());
}

static void print_rows(unsigned n, unsigned rounds)
{
    Workload w = workload(n);
    Structures all = structures(n);
    Times fill = time_fill(all, w.held, std::max(5u, rounds * CHUNK / n));
    Times hit = time_find(all, w.shuffled, rounds);
    Times miss = time_find(all, w.others, rounds);
    for (size_t i = 0; i < all.size(); i++) {
        HeapBytes bytes = all[i]->bytes(w.held);
        printf("| %u | %s | %.0f | %.0f | %.0f | %.1f | %.1f |\n", n, all[i]->name().c_str(), middle(hit[i]),
               middle(miss[i]), middle(fill[i]), (double)bytes.in_use / n, (double)bytes.peak / n);
    }
}

static void write_entries(FILE *file, const Entries &e)
{
    for (size_t i = 0; i < e.keys.size(); i++) {
        char text[48];
        size_t length = shelfegret_write_text(e.keys[i], (uint8_t *)text, sizeof text).number;
        std::string label = e.labels[i] < 0 ? "-" : std::to_string(e.labels[i]);
        fprintf(file, "%.*s %s\n", (int)length, text, label.c_str());
    }
}

static void list(unsigned n, const char *path)
{
    FILE *file = fopen(path, "w");
    if (!file) fail("cannot write the list");
    Workload w = workload(n);
    write_entries(file, w.held);
    write_entries(file, w.others);
    fclose(file);
}

int main(int argc, char **argv)
{
    if (argc == 4 && strcmp(argv[1], "time") == 0) print_rows((unsigned)atoi(argv[2]), (unsigned)atoi(argv[3]));
    else if (argc == 4 && strcmp(argv[1], "list") == 0) list((unsigned)atoi(argv[2]), argv[3]);
    else fail("peers time N ROUNDS | peers list N FILE");
    return 0;
}
