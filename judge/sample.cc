// sample FOLDER FILE: a small database in FOLDER, and its one table copied to FILE. A snapshot keeps the older version of a word.
#include <leveldb/db.h>
#include <leveldb/env.h>
#include <leveldb/filter_policy.h>

#include <cstdio>
#include <memory>
#include <string>
#include <vector>

static void done(const leveldb::Status &s) {
    if (s.ok()) return;
    fprintf(stderr, "sample: %s\n", s.ToString().c_str());
    exit(1);
}

int main(int n, char **args) {
    if (n != 3) return 2;
    const std::string folder = args[1];
    std::unique_ptr<const leveldb::FilterPolicy> filter(leveldb::NewBloomFilterPolicy(10));
    leveldb::Options o;
    o.create_if_missing = true;
    o.compression = leveldb::kNoCompression;
    o.filter_policy = filter.get();
    leveldb::DB *open;
    done(leveldb::DB::Open(o, folder, &open));
    std::unique_ptr<leveldb::DB> db(open);
    const leveldb::WriteOptions w;
    done(db->Put(w, "abend", "dots 1"));
    done(db->Put(w, "braille", "dots 12"));
    done(db->Put(w, "licht", ""));
    const leveldb::Snapshot *before = db->GetSnapshot();
    done(db->Put(w, "abend", "dots 1, 12"));
    done(db->Delete(w, "braille"));
    done(db->Put(w, "zw\xc3\xb6lf", "dots 1356"));
    db->CompactRange(nullptr, nullptr);
    db->ReleaseSnapshot(before);
    db.reset();
    std::vector<std::string> names;
    done(o.env->GetChildren(folder, &names));
    int tables = 0;
    for (const std::string &name : names) {
        if (name.size() < 4 || name.substr(name.size() - 4) != ".ldb") continue;
        std::string bytes;
        done(leveldb::ReadFileToString(o.env, folder + "/" + name, &bytes));
        done(leveldb::WriteStringToFile(o.env, bytes, args[2]));
        tables++;
    }
    return tables == 1 ? 0 : 1;
}
