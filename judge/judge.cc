// Google's LevelDB as a judge: the tables of its databases pass our check and read as LevelDB reads them, and damaged copies never
// read as something else.
#include <dirent.h>
#include <stdarg.h>
#include <stdio.h>
#include <stdlib.h>
#include <string.h>

#include <algorithm>
#include <map>
#include <memory>
#include <set>
#include <string>
#include <vector>

#include <leveldb/cache.h>
#include <leveldb/comparator.h>
#include <leveldb/db.h>
#include <leveldb/env.h>
#include <leveldb/filter_policy.h>
#include <leveldb/iterator.h>
#include <leveldb/table.h>
#include <leveldb/table_builder.h>
#include <leveldb/write_batch.h>

#include "salevoni.h"

using leveldb::Slice;
using leveldb::Status;
using std::string;
using std::vector;

// ---- what goes wrong is said, a few times, and counted

static long faults = 0;

static void fault(const char *form, ...) {
    if (faults++ < 20) {
        va_list args;
        va_start(args, form);
        fprintf(stderr, "judge: ");
        vfprintf(stderr, form, args);
        fprintf(stderr, "\n");
        va_end(args);
    }
}

static void must(const Status &s, const char *what) {
    if (!s.ok()) {
        fprintf(stderr, "judge: %s: %s\n", what, s.ToString().c_str());
        exit(1);
    }
}

static uint64_t state; // set anew by each part

static uint64_t any() {
    uint64_t z = (state += 0x9e3779b97f4a7c15);
    z = (z ^ (z >> 30)) * 0xbf58476d1ce4e5b9;
    z = (z ^ (z >> 27)) * 0x94d049bb133111eb;
    return z ^ (z >> 31);
}

static size_t upto(size_t n) { return any() % (n + 1); }

static string bytes(size_t n) {
    string s(n, 0);
    for (char &c : s) c = (char)any();
    return s;
}

// ---- keys

static string tagged(const string &word, uint64_t edition, int kind) {
    uint64_t tag = edition * 256 + kind;
    string s = word;
    for (int i = 0; i < 8; i++) s += (char)(tag >> (8 * i));
    return s;
}

static uint64_t tag_of(const Slice &key) {
    uint64_t tag = 0;
    for (int i = 0; i < 8; i++) tag |= (uint64_t)(uint8_t)key[key.size() - 8 + i] << (8 * i);
    return tag;
}

static Slice word_of(const Slice &key) { return Slice(key.data(), key.size() - 8); }

// LevelDB's order of internal keys and its index keys, which it does not export: words by bytes, then tags, larger first.
class ByTag : public leveldb::Comparator {
  public:
    int Compare(const Slice &a, const Slice &b) const override {
        int c = word_of(a).compare(word_of(b));
        return c ? c : tag_of(a) > tag_of(b) ? -1 : tag_of(a) < tag_of(b);
    }
    const char *Name() const override { return "leveldb.InternalKeyComparator"; }
    void FindShortestSeparator(string *start, const Slice &limit) const override {
        string s = word_of(*start).ToString();
        leveldb::BytewiseComparator()->FindShortestSeparator(&s, word_of(limit));
        give(start, s);
    }
    void FindShortSuccessor(string *key) const override {
        string s = word_of(*key).ToString();
        leveldb::BytewiseComparator()->FindShortSuccessor(&s);
        give(key, s);
    }

  private:
    static void give(string *key, const string &s) {
        Slice word = word_of(*key);
        if (s.size() < word.size() && word.compare(s) < 0) *key = tagged(s, SALEVONI_EDITION_MAX, 1);
    }
};

static const ByTag by_tag;

// A Bloom policy that is given internal keys.
class OfWords : public leveldb::FilterPolicy {
  public:
    explicit OfWords(int bits) : policy(leveldb::NewBloomFilterPolicy(bits)) {}
    const char *Name() const override { return policy->Name(); }
    void CreateFilter(const Slice *keys, int n, string *dst) const override {
        vector<Slice> words;
        for (int i = 0; i < n; i++) words.push_back(word_of(keys[i]));
        policy->CreateFilter(words.data(), n, dst);
    }
    bool KeyMayMatch(const Slice &key, const Slice &filter) const override { return policy->KeyMayMatch(word_of(key), filter); }

  private:
    std::unique_ptr<const leveldb::FilterPolicy> policy;
};

// ---- files

class InMemory : public leveldb::RandomAccessFile {
  public:
    explicit InMemory(const string &s) : s(s) {}
    Status Read(uint64_t at, size_t n, Slice *result, char *) const override {
        if (at > s.size()) return Status::IOError("past the end");
        *result = Slice(s.data() + at, std::min(n, (size_t)(s.size() - at)));
        return Status::OK();
    }

  private:
    const string &s;
};

class ToMemory : public leveldb::WritableFile {
  public:
    string s;
    Status Append(const Slice &d) override {
        s.append(d.data(), d.size());
        return Status::OK();
    }
    Status Close() override { return Status::OK(); }
    Status Flush() override { return Status::OK(); }
    Status Sync() override { return Status::OK(); }
};

static string folder;

static vector<string> names(const string &dir) {
    vector<string> found;
    leveldb::Env::Default()->GetChildren(dir, &found);
    vector<string> tables;
    for (const string &n : found)
        if (n.size() > 4 && (n.substr(n.size() - 4) == ".ldb" || n.substr(n.size() - 4) == ".sst")) tables.push_back(n);
    std::sort(tables.begin(), tables.end());
    return tables;
}

static vector<string> tables_in(const string &dir) {
    vector<string> tables;
    for (const string &n : names(dir)) {
        string s;
        must(leveldb::ReadFileToString(leveldb::Env::Default(), dir + "/" + n, &s), "read");
        tables.push_back(s);
    }
    return tables;
}

// ---- readings

typedef std::pair<string, string> Pair;

static const uint8_t *at(const string &s) { return (const uint8_t *)s.data(); }

static uint32_t check(const string &t) { return salevoni_check(at(t), t.size()); }

static Pair pair_of(const string &t, const uint8_t *key, const salevoni_entry &e) {
    return Pair(string((const char *)key, e.key_len), t.substr(e.value_at, e.value_len));
}

// Our walk: a seek to the least point, then steps.
static vector<Pair> walk(const string &t) {
    vector<Pair> found;
    uint8_t key[SALEVONI_KEY_MAX], least = 0;
    salevoni_entry e = salevoni_seek(at(t), t.size(), &least, 1, SALEVONI_EDITION_MAX, key, sizeof key);
    while (e.answer == SALEVONI_OK) {
        found.push_back(pair_of(t, key, e));
        e = salevoni_step(at(t), t.size(), e.index, e.entry, key, sizeof key);
    }
    if (e.answer != SALEVONI_NONE) fault("a walk ended with %u", e.answer);
    return found;
}

struct Judged {
    InMemory file;
    leveldb::Table *table = nullptr;
    leveldb::Iterator *it = nullptr;
    Judged(const string &t) : file(t) {
        leveldb::Options o;
        o.comparator = &by_tag;
        o.paranoid_checks = true;
        Status s = leveldb::Table::Open(o, &file, t.size(), &table);
        if (!s.ok()) {
            fault("LevelDB does not open a table: %s", s.ToString().c_str());
            return;
        }
        leveldb::ReadOptions r;
        r.verify_checksums = true;
        it = table->NewIterator(r);
    }
    ~Judged() {
        delete it;
        delete table;
    }
};

static long tables_read = 0, entries_read = 0, seeks_made = 0, lookups_made = 0, bytes_read = 0;

static string near_word(const vector<Pair> &all) {
    string w = all.empty() ? "" : word_of(all[upto(all.size() - 1)].first).ToString();
    switch (upto(5)) {
    case 0: break;
    case 1: w += (char)0; break;
    case 2:
        if (w.size() > 1) w.pop_back();
        break;
    case 3:
        if (!w.empty()) w[upto(w.size() - 1)]++;
        break;
    case 4: w += (char)any(); break;
    default: w = bytes(1 + upto(4));
    }
    if (w.empty()) w = "m";
    return w.substr(0, SALEVONI_WORD_MAX);
}

// A table that passes is read by both: a walk, seeks and lookups.
static vector<Pair> same_reading(const string &t, int seeks) {
    vector<Pair> ours = walk(t), theirs;
    Judged judged(t);
    if (!judged.it) return ours;
    leveldb::Iterator *it = judged.it;
    for (it->SeekToFirst(); it->Valid(); it->Next()) theirs.push_back(Pair(it->key().ToString(), it->value().ToString()));
    if (!it->status().ok()) fault("LevelDB's walk: %s", it->status().ToString().c_str());
    if (ours != theirs) fault("the walks differ: %zu and %zu entries", ours.size(), theirs.size());
    tables_read++;
    entries_read += ours.size();
    bytes_read += t.size();
    // Numbers at random for the seeks are apart from those for contents, as how many tables a database has can vary.
    uint64_t kept = state;
    state = t.size();
    for (int i = 0; i < seeks; i++) {
        string word = near_word(ours);
        uint64_t edition = upto(3) ? upto(20000) : upto(1) ? SALEVONI_EDITION_MAX : 0;
        if (upto(1) && !ours.empty()) {
            const string &k = ours[upto(ours.size() - 1)].first;
            word = word_of(k).ToString();
            edition = tag_of(k) / 256 + upto(2);
            edition -= std::min<uint64_t>(edition, 1);
            edition = std::min(edition, SALEVONI_EDITION_MAX);
        }
        uint8_t key[SALEVONI_KEY_MAX];
        it->Seek(tagged(word, edition, 1));
        salevoni_entry e = salevoni_seek(at(t), t.size(), (const uint8_t *)word.data(), word.size(), edition, key, sizeof key);
        bool found = e.answer == SALEVONI_OK;
        if (found != it->Valid() || (!found && e.answer != SALEVONI_NONE))
            fault("a seek answers %u", e.answer);
        else if (found && pair_of(t, key, e) != Pair(it->key().ToString(), it->value().ToString()))
            fault("a seek finds another entry");
        seeks_made++;
        e = salevoni_lookup(at(t), t.size(), (const uint8_t *)word.data(), word.size(), edition, key, sizeof key);
        uint32_t answer = !it->Valid() || word_of(it->key()) != Slice(word) ? SALEVONI_NONE
                          : tag_of(it->key()) % 256                         ? SALEVONI_OK
                                                                            : SALEVONI_DELETED;
        if (e.answer != answer)
            fault("a lookup answers %u, not %u", e.answer, answer);
        else if (answer != SALEVONI_NONE && pair_of(t, key, e) != Pair(it->key().ToString(), it->value().ToString()))
            fault("a lookup finds another entry");
        lookups_made++;
    }
    state = kept;
    return ours;
}

// ---- databases

// Words that share their starts, at times long ones; values at times long.
static string some_word() {
    static const char letters[] = {0, 1, 'a', 'b', (char)0xfe, (char)0xff};
    string w;
    switch (upto(7)) {
    case 0: return bytes(1 + upto(upto(20) ? 20 : 1023));
    case 1: w = "entry/"; break;
    case 2: w = string(upto(30), 'w'); break;
    }
    for (size_t n = 1 + upto(4); n > 0; n--) w += letters[upto(5)];
    return w;
}

static string some_value() { return upto(30) ? bytes(upto(120)) : upto(8) ? bytes(upto(2000)) : string(upto(32768), 'v'); }

struct Setting {
    int bits, interval;
    size_t block;
};

// What each word is at a sequence number, by LevelDB itself.
typedef std::map<string, string> View;

static View view_of(leveldb::DB *db, const leveldb::Snapshot *at) {
    leveldb::ReadOptions r;
    r.snapshot = at;
    r.verify_checksums = true;
    View v;
    std::unique_ptr<leveldb::Iterator> it(db->NewIterator(r));
    for (it->SeekToFirst(); it->Valid(); it->Next()) v[it->key().ToString()] = it->value().ToString();
    must(it->status(), "walk of a database");
    return v;
}

static long databases = 0, views = 0, words_viewed = 0;

// The newest version over all tables, no newer than a number, of every word that was ever written: the same view.
static void same_view(const vector<string> &tables, const View &view, const std::set<string> &words, uint64_t edition) {
    for (const string &w : words) {
        bool live = false;
        uint64_t newest = 0;
        string value;
        for (const string &t : tables) {
            uint8_t key[SALEVONI_KEY_MAX];
            salevoni_entry e = salevoni_lookup(at(t), t.size(), (const uint8_t *)w.data(), w.size(), edition, key, sizeof key);
            if (e.answer == SALEVONI_NONE) continue;
            if (e.answer != SALEVONI_OK && e.answer != SALEVONI_DELETED) {
                fault("a lookup in a database's table answers %u", e.answer);
                continue;
            }
            Pair p = pair_of(t, key, e);
            uint64_t seq = tag_of(p.first) / 256;
            if (seq >= newest) {
                newest = seq;
                live = e.answer == SALEVONI_OK;
                value = p.second;
            }
        }
        auto v = view.find(w);
        if (live != (v != view.end()) || (live && value != v->second)) fault("a word is not what the database says it is");
        words_viewed++;
    }
    views++;
}

static std::map<uint32_t, long> refused;
static vector<string> samples, large; // tables for the damage, at every byte and at some

static void judge_tables(const vector<string> &tables, int seeks) {
    for (const string &t : tables) {
        uint32_t c = check(t);
        if (c) {
            fault("a table of LevelDB's, %zu bytes, is refused with %u", t.size(), c);
            continue;
        }
        same_reading(t, seeks);
        if (t.size() < 8000 && samples.size() < 12)
            samples.push_back(t);
        else if (t.size() < 200000 && large.size() < 40)
            large.push_back(t);
    }
}

static leveldb::Options options_for(const Setting &s, const leveldb::FilterPolicy *policy) {
    leveldb::Options o;
    o.create_if_missing = true;
    o.compression = leveldb::kNoCompression;
    o.write_buffer_size = 64 << 10;
    o.max_file_size = 1 << 20;
    o.block_size = s.block;
    o.block_restart_interval = s.interval;
    o.filter_policy = policy;
    return o;
}

static void database(const Setting &s, int ops) {
    state = databases;
    std::unique_ptr<const leveldb::FilterPolicy> policy(s.bits ? leveldb::NewBloomFilterPolicy(s.bits) : nullptr);
    leveldb::Options o = options_for(s, policy.get());
    string dir = folder + "/db" + std::to_string(databases++);
    leveldb::DB *db;
    must(leveldb::DB::Open(o, dir, &db), "open");
    std::set<string> words;
    vector<string> known;
    uint64_t sequence = 0;
    auto write = [&](int n) {
        for (int i = 0; i < n;) {
            leveldb::WriteBatch batch;
            for (size_t many = 1 + (upto(5) ? 0 : upto(9)); many > 0; many--, i++) {
                string w = !known.empty() && upto(2) ? known[upto(known.size() - 1)] : some_word();
                if (words.insert(w).second) known.push_back(w);
                if (upto(4))
                    batch.Put(w, some_value());
                else
                    batch.Delete(w);
                sequence++;
            }
            must(db->Write(leveldb::WriteOptions(), &batch), "write");
        }
    };
    // Writes alone: what is not yet in a table is when the database is opened again.
    write(ops);
    delete db;
    judge_tables(tables_in(dir), 20);
    must(leveldb::DB::Open(o, dir, &db), "open");
    View v = view_of(db, nullptr);
    delete db;
    vector<string> tables = tables_in(dir);
    judge_tables(tables, 20);
    same_view(tables, v, words, sequence);
    same_view(tables, v, words, SALEVONI_EDITION_MAX);
    // Versions that snapshots keep stand through a compaction.
    must(leveldb::DB::Open(o, dir, &db), "open");
    vector<std::pair<uint64_t, View>> kept;
    for (int i = 0; i < 3; i++) {
        write(ops / 4);
        const leveldb::Snapshot *snapshot = db->GetSnapshot(); // held until the database is closed
        kept.push_back(std::make_pair(sequence, view_of(db, snapshot)));
    }
    write(ops / 4);
    db->CompactRange(nullptr, nullptr);
    kept.push_back(std::make_pair(sequence, view_of(db, nullptr)));
    delete db;
    tables = tables_in(dir);
    judge_tables(tables, 40);
    for (auto &k : kept) same_view(tables, k.second, words, k.first);
    // Compacted without snapshots: one version of each word.
    must(leveldb::DB::Open(o, dir, &db), "open");
    db->CompactRange(nullptr, nullptr);
    v = view_of(db, nullptr);
    delete db;
    tables = tables_in(dir);
    judge_tables(tables, 40);
    same_view(tables, v, words, SALEVONI_EDITION_MAX);
    must(leveldb::DestroyDB(dir, o), "destroy");
}

// Tables by LevelDB's own builder, at block sizes that a database does not take.
static string table_of(const Setting &s, const vector<Pair> &all) {
    leveldb::Options o;
    std::unique_ptr<const leveldb::FilterPolicy> policy(s.bits ? new OfWords(s.bits) : nullptr);
    o.comparator = &by_tag;
    o.compression = leveldb::kNoCompression;
    o.block_size = s.block;
    o.block_restart_interval = s.interval;
    o.filter_policy = policy.get();
    ToMemory file;
    leveldb::TableBuilder builder(o, &file);
    for (const Pair &p : all) builder.Add(p.first, p.second);
    must(builder.Finish(), "finish");
    return file.s;
}

static vector<Pair> rising(size_t n, bool small, uint64_t top) {
    struct Less {
        bool operator()(const string &a, const string &b) const { return by_tag.Compare(a, b) < 0; }
    };
    std::map<string, string, Less> all;
    vector<string> words;
    std::set<std::pair<string, uint64_t>> taken;
    for (size_t i = 0; i < n; i++) {
        string w = !words.empty() && upto(1) ? words[upto(words.size() - 1)] : some_word();
        if (small && w.size() > 40) w.resize(40);
        uint64_t edition = upto(1) ? upto(20) : upto(6) ? upto(20000) : top - upto(2);
        if (!taken.insert(std::make_pair(w, edition)).second) continue;
        words.push_back(w);
        all[tagged(w, edition, upto(5) ? 1 : 0)] = small ? bytes(upto(12)) : some_value();
    }
    return vector<Pair>(all.begin(), all.end());
}

static void own_builder(int rounds) {
    state = 1000;
    static const int bits[] = {0, 0, 1, 5, 10, 16, 44, 64}, intervals[] = {1, 2, 3, 16, 64, 1024};
    static const size_t blocks[] = {1, 8, 20, 64, 256, 1024, 4096, 65536};
    for (int i = 0; i < rounds; i++) {
        Setting s = {bits[upto(7)], intervals[upto(5)], blocks[upto(7)]};
        vector<Pair> all = rising(i == 0 ? 0 : 1 + upto(upto(9) ? 40 : 600), i % 2, SALEVONI_EDITION_MAX);
        string t = table_of(s, all);
        uint32_t c = check(t);
        if (c)
            fault("a table of LevelDB's builder, block size %zu, %d bits, interval %d, is refused with %u", s.block, s.bits, s.interval, c);
        else if (same_reading(t, 10) != all)
            fault("a table of LevelDB's builder reads otherwise than it was written");
        if (!c && t.size() < 3000 && samples.size() < 40) samples.push_back(t);
    }
}

// ---- files that are refused

static void refusal(const char *what, uint32_t number, const leveldb::Options &o, int n, const string &key, const string &value) {
    string dir = folder + "/refused";
    leveldb::DB *db;
    must(leveldb::DB::Open(o, dir, &db), "open");
    for (int i = 0; i < n; i++) must(db->Put(leveldb::WriteOptions(), n > 1 ? key + std::to_string(i) : key, value), "put");
    db->CompactRange(nullptr, nullptr);
    delete db;
    vector<string> tables = tables_in(dir);
    if (tables.size() != 1) fault("%s: %zu tables", what, tables.size());
    for (const string &t : tables) {
        uint32_t c = check(t);
        if (c != number)
            fault("%s: answer %u, not %u", what, c, number);
        else if (c)
            refused[c]++;
        else
            same_reading(t, 20);
    }
    must(leveldb::DestroyDB(dir, o), "destroy");
}

static void refusals() {
    leveldb::Options plain = options_for({0, 16, 4096}, nullptr), snappy = plain, large = plain;
    snappy.compression = leveldb::kSnappyCompression;
    large.write_buffer_size = 64 << 20;
    large.max_file_size = 64 << 20;
    refusal("snappy", 9, snappy, 40, "word", string(300, 'a'));
    refusal("an empty word", 10, plain, 1, "", "x");
    refusal("a word of 1,025 bytes", 10, plain, 1, string(1025, 'w'), "x");
    refusal("a value of 32,769 bytes", 10, plain, 1, "w", string(32769, 'v'));
    refusal("over 16,777,216 bytes", 7, large, 540, "w", string(32000, 'v'));
    refusal("a word of 1,024 bytes", 0, plain, 1, string(1024, 'w'), "x");
    refusal("a value of 32,768 bytes", 0, plain, 1, "w", string(32768, 'v'));
    refusal("just below 16,777,216 bytes", 0, large, 520, "w", string(32000, 'v'));
}

// ---- damage

static long damaged = 0, passed = 0, cut = 0;

static void damage_with(const string &t, const string &changed, const vector<Pair> &all, bool shorter) {
    if (changed == t) return;
    (shorter ? cut : damaged)++;
    if (check(changed)) return;
    passed++;
    if (walk(changed) != all) fault("a damaged table passes and reads otherwise");
    // What is neither under a checksum nor read are the zeros of the footer, and there a number can go on into them.
    if (changed.size() != t.size() || changed.compare(0, t.size() - 48, t, 0, t.size() - 48))
        fault("a table damaged before its footer passes");
}

static void damage() {
    state = 2000;
    for (const string &t : samples) {
        vector<Pair> all = walk(t);
        for (size_t i = 0; i < t.size(); i++) {
            string c = t;
            c[i] ^= (char)(1 << upto(7));
            damage_with(t, c, all, false);
            if (t.size() < 1500) {
                c[i] = (char)any();
                damage_with(t, c, all, false);
                c[upto(t.size() - 1)] ^= (char)(1 + upto(254));
                damage_with(t, c, all, false);
            }
        }
        string foot = t.substr(t.size() - 48);
        for (size_t n = 0; n < t.size(); n++) {
            damage_with(t, t.substr(0, n), all, true);
            // and with the footer moved up to where the cut is
            if (n + 48 < t.size()) damage_with(t, t.substr(0, n) + foot, all, true);
        }
    }
    for (const string &t : large) {
        vector<Pair> all = walk(t);
        for (int i = 0; i < 200; i++) {
            string c = t;
            size_t from = upto(3) ? 0 : t.size() - std::min<size_t>(t.size(), 3000); // at times near the end, where index and footer are
            for (size_t n = 1 + (upto(2) ? 0 : upto(9)); n > 0; n--)
                c[from + upto(t.size() - 1 - from)] ^= (char)(upto(1) ? 1 << upto(7) : 1 + upto(254));
            damage_with(t, c, all, false);
            damage_with(t, t.substr(0, upto(t.size() - 1)), all, true);
        }
    }
}

// ---- tables of ours

struct Runs {
    vector<uint8_t> bytes[3];
    vector<uint32_t> numbers[4];
    salevoni_runs lent;
    explicit Runs(size_t room) {
        for (auto &b : bytes) b.resize(room);
        for (auto &n : numbers) n.resize(room / 4 + 1);
        lent = {bytes[0].data(),   room,
                bytes[1].data(),   room,
                bytes[2].data(),   room,
                numbers[0].data(), numbers[0].size(),
                numbers[1].data(), numbers[1].size(),
                numbers[2].data(), numbers[2].size(),
                numbers[3].data(), numbers[3].size()};
    }
};

static string our_table(Runs &runs, const Setting &s, const vector<Pair> &all) {
    salevoni_built b = salevoni_start(s.block, s.interval, s.bits > 0, s.bits, SALEVONI_RUNS(runs.lent));
    for (const Pair &p : all) {
        if (b.answer) break;
        Slice word = word_of(p.first);
        b = salevoni_add(b.state, SALEVONI_RUNS(runs.lent), (const uint8_t *)word.data(), word.size(), tag_of(p.first) / 256,
                         tag_of(p.first) % 256, at(p.second), p.second.size());
    }
    if (!b.answer) b = salevoni_finish(b.state, SALEVONI_RUNS(runs.lent));
    if (b.answer) fault("our builder answers %u", b.answer);
    return string((const char *)runs.lent.out, b.size);
}

static long ours_read = 0, repaired = 0, words_got = 0;

// LevelDB takes our tables into a database, and the database shows the newest version of each word.
static void repair(const vector<string> &tables, const vector<Pair> &all, int bits) {
    std::unique_ptr<const leveldb::FilterPolicy> policy(bits ? leveldb::NewBloomFilterPolicy(bits) : nullptr);
    leveldb::Options o = options_for({bits, 16, 4096}, policy.get());
    o.paranoid_checks = true;
    leveldb::Env *env = leveldb::Env::Default();
    string dir = folder + "/ours" + std::to_string(repaired);
    must(env->CreateDir(dir), "folder");
    for (size_t i = 0; i < tables.size(); i++)
        must(leveldb::WriteStringToFile(env, tables[i], dir + "/00000" + std::to_string(i + 3) + ".ldb"), "write");
    must(leveldb::RepairDB(dir, o), "repair");
    vector<string> left = tables_in(dir), given = tables;
    std::sort(left.begin(), left.end());
    std::sort(given.begin(), given.end());
    if (left != given) fault("LevelDB repairs a table of ours");
    leveldb::DB *db;
    o.create_if_missing = false;
    must(leveldb::DB::Open(o, dir, &db), "open of our tables");
    View expected;
    std::set<string> words;
    for (const Pair &p : all) // of one word the newest comes first
        if (words.insert(word_of(p.first).ToString()).second && tag_of(p.first) % 256) expected[word_of(p.first).ToString()] = p.second;
    if (view_of(db, nullptr) != expected) fault("a database of our tables shows another view");
    leveldb::ReadOptions r;
    r.verify_checksums = true;
    for (const string &w : words) {
        string value;
        Status s = db->Get(r, w, &value);
        auto e = expected.find(w);
        if (e == expected.end() ? !s.IsNotFound() : !s.ok() || value != e->second)
            fault("a database of our tables says %s of a word", s.ToString().c_str());
        string other = w + "!";
        if (!words.count(other) && !db->Get(r, other, &value).IsNotFound()) fault("a database of our tables finds an absent word");
        words_got++;
    }
    delete db;
    must(leveldb::DestroyDB(dir, o), "destroy");
    repaired++;
}

static void ours(int rounds) {
    state = 3000;
    static const int bits[] = {0, 0, 1, 5, 10, 16, 44, 64}, intervals[] = {1, 2, 3, 16, 64, 1024};
    static const size_t blocks[] = {8, 20, 64, 256, 1024, 4096, 65536};
    Runs runs(4 << 20);
    for (int i = 0; i < rounds; i++) {
        Setting s = {bits[upto(7)], intervals[upto(5)], blocks[upto(6)]};
        // A database whose last number is the largest of all drops every entry when it compacts: those tables have none of it.
        bool whole = i % 20 == 1;
        vector<Pair> all = rising(i == 0 ? 0 : 1 + upto(upto(9) ? 40 : 600), i % 2, SALEVONI_EDITION_MAX - whole), some[3];
        string t = our_table(runs, s, all);
        uint32_t c = check(t);
        if (c) fault("our check refuses our table with %u", c);
        if (same_reading(t, 10) != all) fault("a table of ours reads otherwise than it was written");
        ours_read++;
        if (whole) {
            repair({t}, all, s.bits);
            // all versions of a word in one table: LevelDB expects that a file with a larger number has the newer ones
            for (const Pair &p : all) some[std::hash<string>()(word_of(p.first).ToString()) % 3].push_back(p);
            vector<string> tables;
            for (auto &part : some)
                if (!part.empty()) tables.push_back(our_table(runs, s, part));
            if (!tables.empty()) repair(tables, all, s.bits ? s.bits : 10);
        }
    }
}

int main(int, char **args) {
    folder = args[1];
    static const int bits[] = {0, 10, 1, 20, 0, 10, 5, 64}, intervals[] = {16, 1, 2, 128};
    static const size_t blocks[] = {1024, 4096, 1500, 16384, 65536};
    for (int i = 0; i < 40; i++) database({bits[i % 8], intervals[i % 4], blocks[i % 5]}, 400 + 100 * (i % 8));
    printf("judge: %ld databases, %ld views of %ld words\n", databases, views, words_viewed);
    own_builder(4000);
    refusals();
    printf("judge: %ld tables of LevelDB's (%ld MB) pass and read alike: %ld entries, %ld seeks, %ld lookups\n", tables_read,
           bytes_read >> 20, entries_read, seeks_made, lookups_made);
    printf("judge: refused as they have to be:");
    for (auto &r : refused) printf(" %ld with %u", r.second, r.first);
    printf("\n");
    damage();
    printf("judge: %ld damaged and %ld cut copies of %zu tables; the %ld that pass read as before\n", damaged, cut,
           samples.size() + large.size(), passed);
    tables_read = entries_read = seeks_made = lookups_made = bytes_read = 0;
    ours(2000);
    printf("judge: %ld tables of ours (%ld MB) read alike by LevelDB: %ld entries, %ld seeks; %ld databases made of them, %ld words got\n",
           ours_read, bytes_read >> 20, entries_read, seeks_made, repaired, words_got);
    if (faults) printf("judge: %ld faults\n", faults);
    return faults > 0;
}
