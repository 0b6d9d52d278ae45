// The same work as the driver's, by LevelDB: building by its table builder into memory, the other calls by a database that holds the
// same entries in one table. Prints a name, what was done, and a number, as the driver does.
#include <leveldb/cache.h>
#include <leveldb/db.h>
#include <leveldb/env.h>
#include <leveldb/filter_policy.h>
#include <leveldb/table_builder.h>

#include <chrono>
#include <cstdio>
#include <cstdlib>
#include <functional>
#include <memory>
#include <string>
#include <vector>

namespace {
const size_t kEntries = 100000, kAsked = 200000, kRuns = 5;

std::string word(size_t n) {
    char s[32];
    snprintf(s, sizeof s, "word%012zu", n);
    return s;
}

uint64_t state = 8;
uint64_t next() {
    state ^= state << 13;
    state ^= state >> 7;
    state ^= state << 17;
    return state;
}

double best(const std::function<void()>& f) {
    double least = 1e9;
    for (size_t i = 0; i < kRuns; i++) {
        auto start = std::chrono::steady_clock::now();
        f();
        std::chrono::duration<double> took = std::chrono::steady_clock::now() - start;
        if (took.count() < least) least = took.count();
    }
    return least;
}

void check(const leveldb::Status& s) {
    if (!s.ok()) {
        fprintf(stderr, "leveldb: %s\n", s.ToString().c_str());
        exit(1);
    }
}

class Memory : public leveldb::WritableFile {
  public:
    std::string bytes;
    leveldb::Status Append(const leveldb::Slice& s) override {
        bytes.append(s.data(), s.size());
        return leveldb::Status::OK();
    }
    leveldb::Status Close() override { return leveldb::Status::OK(); }
    leveldb::Status Flush() override { return leveldb::Status::OK(); }
    leveldb::Status Sync() override { return leveldb::Status::OK(); }
};
}  // namespace

int main(int argc, char** argv) {
    if (argc != 2) return 2;
    std::unique_ptr<const leveldb::FilterPolicy> filter(leveldb::NewBloomFilterPolicy(10));
    std::unique_ptr<leveldb::Cache> cache(leveldb::NewLRUCache(64 << 20));
    leveldb::Options o;
    o.create_if_missing = true;
    o.compression = leveldb::kNoCompression;
    o.filter_policy = filter.get();
    o.block_cache = cache.get();
    o.max_file_size = 64 << 20;
    o.write_buffer_size = 64 << 20;

    std::vector<std::string> words, values;
    for (size_t i = 0; i < kEntries; i++) {
        words.push_back(word(2 * i));
        std::string v;
        for (int k = 0; k < 64; k++) v.push_back(static_cast<char>(next()));
        values.push_back(v);
    }
    size_t size = 0;
    double t = best([&] {
        Memory file;
        leveldb::TableBuilder b(o, &file);
        for (size_t i = 0; i < kEntries; i++) b.Add(words[i] + std::string("\1\1\0\0\0\0\0\0", 8), values[i]);
        check(b.Finish());
        size = file.bytes.size();
    });
    printf("leveldb\tbuilding\t%.1f\tMB/s\n", size / 1e6 / t);

    leveldb::DB* raw;
    check(leveldb::DB::Open(o, argv[1], &raw));
    std::unique_ptr<leveldb::DB> db(raw);
    for (size_t i = 0; i < kEntries; i++) check(db->Put(leveldb::WriteOptions(), words[i], values[i]));
    db->CompactRange(nullptr, nullptr);

    leveldb::ReadOptions whole;
    whole.verify_checksums = true;
    whole.fill_cache = false;
    t = best([&] {
        std::unique_ptr<leveldb::Iterator> it(db->NewIterator(whole));
        size_t n = 0;
        for (it->SeekToFirst(); it->Valid(); it->Next()) n++;
        check(it->status());
        if (n != kEntries) exit(1);
    });
    printf("leveldb\twalk with checksums\t%.1f\tMB/s\n", size / 1e6 / t);

    // lookups that all hit, that all miss, and that do so by turns; seeks of those that miss
    const char* kinds[] = {"there", "absent", "half there"};
    for (size_t kind = 0; kind < 3; kind++) {
        auto misses = [kind](size_t i) { return kind == 2 ? i % 2 : kind; };
        std::vector<std::string> asked;
        for (size_t i = 0; i < kAsked; i++) asked.push_back(word(2 * (next() % kEntries) + misses(i)));
        std::string v;
        t = best([&] {
            for (size_t i = 0; i < kAsked; i++)
                if (db->Get(leveldb::ReadOptions(), asked[i], &v).ok() == (misses(i) == 1)) exit(1);
        });
        printf("leveldb\tlookup, %s\t%.0f\tns\n", kinds[kind], t * 1e9 / kAsked);
        if (kind != 1) continue;
        std::unique_ptr<leveldb::Iterator> it(db->NewIterator(leveldb::ReadOptions()));
        t = best([&] {
            for (const std::string& w : asked) it->Seek(w);
        });
        printf("leveldb\tseek\t%.0f\tns\n", t * 1e9 / kAsked);
    }
}
