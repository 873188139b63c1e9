// Other stores, and the bare calls of the system, measured as this project's store is.
//
//   peers list                       the systems that this program was built with, one a line
//   peers append SYSTEM DIR JOBS     appends the operations of so many jobs, each durable before the next, and
//                                    prints of each what it was and how many nanoseconds it took
//   peers make SYSTEM DIR JOBS       makes a store of these operations in DIR, without a sync for each
//   peers pauses SYSTEM DIR JOBS CYCLES
//                                    keeps so many jobs that go on, and then in each cycle another one, its end, its removal and an
//                                    Epoch, each durable before the next; prints how many nanoseconds each took, and on standard
//                                    error what the system tells of its own work meanwhile
//   peers open SYSTEM DIR HOW        opens it and reads all its operations, and prints how many there are and how
//                                    many nanoseconds that took; HOW is `look` where each value is only looked at, and
//                                    `keep` where a copy of each is kept in memory, as a restart needs them
//   peers evict PATH..               makes the system forget what it holds of these files in memory
//
// An operation is a key of 8 bytes, its number, and a value of as many bytes as the frame has that rm_bench appends. In a cycle the
// job and its end have keys of their own, the removal deletes both at once, and the Epoch takes the last one's place: so what a system
// keeps stays the same, as what is left of the operations of a store does.
// The two systems without a library are the calls of an append alone, over a file that was filled before: `raw` writes,
// syncs, writes one byte and syncs; `raw-one-sync` writes and syncs once.
#include <fcntl.h>
#include <sys/stat.h>
#include <unistd.h>

#include <atomic>
#include <chrono>
#include <cstdarg>
#include <cstdint>
#include <cstdio>
#include <cstdlib>
#include <cstring>
#include <memory>
#include <string>
#include <vector>

#ifdef WITH_LEVELDB
#include <leveldb/db.h>
#include <leveldb/env.h>
#include <leveldb/write_batch.h>
#endif
#ifdef WITH_ROCKSDB
#include <rocksdb/db.h>
#include <rocksdb/listener.h>
#include <rocksdb/write_batch.h>
#endif
#ifdef WITH_SQLITE
#include <sqlite3.h>
#endif
#ifdef WITH_LMDB
#include <lmdb.h>
#endif

namespace {

[[noreturn]] void Stop(const std::string& why) {
  std::fprintf(stderr, "peers: %s\n", why.c_str());
  std::exit(1);
}

void Check(bool holds, const char* what) {
  if (!holds) Stop(what);
}

// The file of a disk, and the pieces in which it is filled.
constexpr off_t kFileSize = 4194304;
constexpr size_t kPiece = 16384;

// The operations of a job's life, with the sizes of their frames in rm_bench.
struct Step {
  const char* word;
  size_t size;
};

constexpr Step kSteps[] = {{"app", 121}, {"attempt", 55}, {"attempt-end", 276}, {"app-end", 16}};

std::string KeyOf(uint64_t number) {
  std::string key(8, '\0');
  for (int i = 7; i >= 0; --i, number >>= 8) key[i] = static_cast<char>(number & 0xff);
  return key;
}

// As much of a text as an operation has; the number keeps two values from being the same.
std::string ValueOf(uint64_t number, size_t size) {
  static const std::string kText =
      "Application application_1410901177871_0001 failed twice due to AM Container for "
      "appattempt_1410901177871_0001_000002 exited with exitCode: 137. Failing this attempt. "
      "Diagnostics: Container killed on request. Exit code is 137. Killed by external signal. "
      "Killed by external signal.";
  std::string value = KeyOf(number) + kText;
  value.resize(size, '.');
  return value;
}

// A store of operations in a folder.
class System {
 public:
  virtual ~System() = default;
  virtual void Open(const std::string& dir) = 0;
  virtual void Append(uint64_t number, const std::string& value, bool durable) = 0;
  // Keeps a value under a number, in place of what there was, and makes it durable.
  virtual void Put(uint64_t number, const std::string& value) = 0;
  // Takes away two numbers at once, and makes that durable.
  virtual void Remove(uint64_t first, uint64_t second) = 0;
  // What the system tells of the work that it did on its own since it was opened.
  virtual std::string Work() const { return "-"; }
  // Reads every operation, and answers how many there are.
  virtual uint64_t ReadAll() = 0;
  virtual void Sync() {}
};

// What is read is looked at, so that no system leaves it where it is, and kept if that is asked for.
bool g_keeps = false;
uint64_t g_sum = 0;
std::vector<std::string> g_kept;

[[maybe_unused]] void Take(const char* data, size_t size) {
  for (size_t i = 0; i < size; i += 64) g_sum += static_cast<unsigned char>(data[i]);
  if (g_keeps) g_kept.emplace_back(data, size);
}

class Raw : public System {
 public:
  explicit Raw(bool twice) : twice_(twice) {}
  ~Raw() override {
    if (fd_ >= 0) close(fd_);
  }
  void Open(const std::string& dir) override {
    fd_ = open((dir + "/raw").c_str(), O_RDWR | O_CREAT | O_CLOEXEC, 0666);
    Check(fd_ >= 0, "open");
    std::vector<char> zeros(kPiece, 0);
    for (off_t at = 0; at < kFileSize; at += kPiece) {
      Check(pwrite(fd_, zeros.data(), zeros.size(), at) == static_cast<ssize_t>(zeros.size()), "fill");
    }
    Check(fsync(fd_) == 0, "fsync");
  }
  void Append(uint64_t, const std::string& value, bool) override {
    // A length of 4 bytes, the value, and a gate.
    char body[1029] = {0};
    std::memcpy(body + 4, value.data(), value.size());
    size_t size = value.size() + 5;
    Check(pwrite(fd_, body, size, at_ + 1) == static_cast<ssize_t>(size), "pwrite");
    Check(fdatasync(fd_) == 0, "fdatasync");
    if (twice_) {
      char gate = 1;
      Check(pwrite(fd_, &gate, 1, at_) == 1, "pwrite");
      Check(fdatasync(fd_) == 0, "fdatasync");
    }
    at_ += size;
  }
  void Put(uint64_t, const std::string&) override { Stop("the bare calls keep nothing"); }
  void Remove(uint64_t, uint64_t) override { Stop("the bare calls keep nothing"); }
  uint64_t ReadAll() override { Stop("the bare calls have nothing to open"); }

 private:
  bool twice_;
  int fd_ = -1;
  off_t at_ = 0;
};

#ifdef WITH_LEVELDB
// Counts what LevelDB writes into its log of its own work.
class LevelDbLog : public leveldb::Logger {
 public:
  void Logv(const char* format, std::va_list) override {
    if (std::strncmp(format, "Level-0 table", 13) == 0 && std::strstr(format, "started")) ++flushes;
    if (std::strncmp(format, "Compacting", 10) == 0) ++compactions;
  }
  std::atomic<int> flushes{0}, compactions{0};
};

class LevelDb : public System {
 public:
  void Open(const std::string& dir) override {
    leveldb::Options options;
    options.create_if_missing = true;
    options.info_log = &log_;
    leveldb::DB* db = nullptr;
    Check(leveldb::DB::Open(options, dir, &db).ok(), "leveldb open");
    db_.reset(db);
  }
  void Append(uint64_t number, const std::string& value, bool durable) override {
    leveldb::WriteOptions options;
    options.sync = durable;
    Check(db_->Put(options, KeyOf(number), value).ok(), "leveldb put");
  }
  void Put(uint64_t number, const std::string& value) override { Append(number, value, true); }
  void Remove(uint64_t first, uint64_t second) override {
    leveldb::WriteBatch batch;
    batch.Delete(KeyOf(first));
    batch.Delete(KeyOf(second));
    leveldb::WriteOptions options;
    options.sync = true;
    Check(db_->Write(options, &batch).ok(), "leveldb write");
  }
  std::string Work() const override {
    return std::to_string(log_.flushes) + " flushes, " + std::to_string(log_.compactions) + " compactions";
  }
  uint64_t ReadAll() override {
    uint64_t many = 0;
    std::unique_ptr<leveldb::Iterator> it(db_->NewIterator(leveldb::ReadOptions()));
    for (it->SeekToFirst(); it->Valid(); it->Next(), ++many) Take(it->value().data(), it->value().size());
    return many;
  }

 private:
  LevelDbLog log_;
  std::unique_ptr<leveldb::DB> db_;
};
#endif

#ifdef WITH_ROCKSDB
// Counts what RocksDB tells of its own work.
class RocksDbWork : public rocksdb::EventListener {
 public:
  void OnFlushCompleted(rocksdb::DB*, const rocksdb::FlushJobInfo&) override { ++flushes; }
  void OnCompactionCompleted(rocksdb::DB*, const rocksdb::CompactionJobInfo&) override { ++compactions; }
  std::atomic<int> flushes{0}, compactions{0};
};

class RocksDb : public System {
 public:
  void Open(const std::string& dir) override {
    rocksdb::Options options;
    options.create_if_missing = true;
    options.listeners.push_back(work_);
    rocksdb::DB* db = nullptr;
    Check(rocksdb::DB::Open(options, dir, &db).ok(), "rocksdb open");
    db_.reset(db);
  }
  void Append(uint64_t number, const std::string& value, bool durable) override {
    rocksdb::WriteOptions options;
    options.sync = durable;
    Check(db_->Put(options, KeyOf(number), value).ok(), "rocksdb put");
  }
  void Put(uint64_t number, const std::string& value) override { Append(number, value, true); }
  void Remove(uint64_t first, uint64_t second) override {
    rocksdb::WriteBatch batch;
    batch.Delete(KeyOf(first));
    batch.Delete(KeyOf(second));
    rocksdb::WriteOptions options;
    options.sync = true;
    Check(db_->Write(options, &batch).ok(), "rocksdb write");
  }
  std::string Work() const override {
    return std::to_string(work_->flushes) + " flushes, " + std::to_string(work_->compactions) + " compactions";
  }
  uint64_t ReadAll() override {
    uint64_t many = 0;
    std::unique_ptr<rocksdb::Iterator> it(db_->NewIterator(rocksdb::ReadOptions()));
    for (it->SeekToFirst(); it->Valid(); it->Next(), ++many) Take(it->value().data(), it->value().size());
    return many;
  }

 private:
  std::shared_ptr<RocksDbWork> work_ = std::make_shared<RocksDbWork>();
  std::unique_ptr<rocksdb::DB> db_;
};
#endif

#ifdef WITH_SQLITE
class Sqlite : public System {
 public:
  ~Sqlite() override {
    sqlite3_finalize(insert_);
    sqlite3_finalize(replace_);
    sqlite3_finalize(remove_);
    sqlite3_close(db_);
  }
  void Open(const std::string& dir) override {
    Check(sqlite3_open((dir + "/ops.sqlite").c_str(), &db_) == SQLITE_OK, "sqlite open");
    Do("PRAGMA journal_mode=WAL");
    Do("PRAGMA synchronous=FULL");
    Do("CREATE TABLE IF NOT EXISTS ops (number INTEGER PRIMARY KEY, op BLOB NOT NULL)");
    Prepare("INSERT INTO ops VALUES (?, ?)", &insert_);
    Prepare("INSERT OR REPLACE INTO ops VALUES (?, ?)", &replace_);
    Prepare("DELETE FROM ops WHERE number IN (?, ?)", &remove_);
    // What sqlite3_wal_autocheckpoint does by itself, counted.
    sqlite3_wal_hook(db_, Checkpoint, this);
  }
  void Append(uint64_t number, const std::string& value, bool durable) override {
    if (!durable && !batch_) {
      Do("BEGIN");
      batch_ = true;
    }
    Keep(insert_, number, value);
  }
  void Put(uint64_t number, const std::string& value) override { Keep(replace_, number, value); }
  void Remove(uint64_t first, uint64_t second) override {
    sqlite3_bind_int64(remove_, 1, static_cast<sqlite3_int64>(first));
    sqlite3_bind_int64(remove_, 2, static_cast<sqlite3_int64>(second));
    Check(sqlite3_step(remove_) == SQLITE_DONE, "sqlite delete");
    sqlite3_reset(remove_);
  }
  std::string Work() const override { return std::to_string(checkpoints_) + " checkpoints"; }
  void Sync() override {
    if (batch_) Do("COMMIT");
    batch_ = false;
  }
  uint64_t ReadAll() override {
    sqlite3_stmt* all = nullptr;
    Check(sqlite3_prepare_v2(db_, "SELECT op FROM ops ORDER BY number", -1, &all, nullptr) == SQLITE_OK, "sqlite");
    uint64_t many = 0;
    for (; sqlite3_step(all) == SQLITE_ROW; ++many) {
      Take(static_cast<const char*>(sqlite3_column_blob(all, 0)), sqlite3_column_bytes(all, 0));
    }
    sqlite3_finalize(all);
    return many;
  }

 private:
  // The pages after which the log is copied into the database, as sqlite3.h has it by itself.
  static constexpr int kMostPages = 1000;
  static int Checkpoint(void* self, sqlite3* db, const char* name, int pages) {
    if (pages < kMostPages) return SQLITE_OK;
    ++static_cast<Sqlite*>(self)->checkpoints_;
    return sqlite3_wal_checkpoint(db, name);
  }
  void Do(const char* what) { Check(sqlite3_exec(db_, what, nullptr, nullptr, nullptr) == SQLITE_OK, what); }
  void Prepare(const char* what, sqlite3_stmt** statement) {
    Check(sqlite3_prepare_v2(db_, what, -1, statement, nullptr) == SQLITE_OK, what);
  }
  void Keep(sqlite3_stmt* statement, uint64_t number, const std::string& value) {
    sqlite3_bind_int64(statement, 1, static_cast<sqlite3_int64>(number));
    sqlite3_bind_blob(statement, 2, value.data(), static_cast<int>(value.size()), SQLITE_STATIC);
    Check(sqlite3_step(statement) == SQLITE_DONE, "sqlite insert");
    sqlite3_reset(statement);
  }
  sqlite3* db_ = nullptr;
  sqlite3_stmt* insert_ = nullptr;
  sqlite3_stmt* replace_ = nullptr;
  sqlite3_stmt* remove_ = nullptr;
  bool batch_ = false;
  int checkpoints_ = 0;
};
#endif

#ifdef WITH_LMDB
class Lmdb : public System {
 public:
  ~Lmdb() override { mdb_env_close(env_); }
  void Open(const std::string& dir) override {
    Check(mdb_env_create(&env_) == 0, "lmdb");
    Check(mdb_env_set_mapsize(env_, 64 << 20) == 0, "lmdb");
    Check(mdb_env_open(env_, dir.c_str(), 0, 0666) == 0, "lmdb open");
    MDB_txn* txn = nullptr;
    Check(mdb_txn_begin(env_, nullptr, 0, &txn) == 0, "lmdb");
    Check(mdb_dbi_open(txn, nullptr, 0, &dbi_) == 0, "lmdb");
    Check(mdb_txn_commit(txn) == 0, "lmdb");
  }
  void Append(uint64_t number, const std::string& value, bool durable) override {
    if (!txn_) Check(mdb_txn_begin(env_, nullptr, 0, &txn_) == 0, "lmdb");
    Keep(number, value, MDB_APPEND);
    if (durable) Sync();
  }
  void Put(uint64_t number, const std::string& value) override {
    Check(mdb_txn_begin(env_, nullptr, 0, &txn_) == 0, "lmdb");
    Keep(number, value, 0);
    Sync();
  }
  void Remove(uint64_t first, uint64_t second) override {
    Check(mdb_txn_begin(env_, nullptr, 0, &txn_) == 0, "lmdb");
    for (uint64_t number : {first, second}) {
      std::string key = KeyOf(number);
      MDB_val k{key.size(), key.data()};
      Check(mdb_del(txn_, dbi_, &k, nullptr) == 0, "lmdb delete");
    }
    Sync();
  }
  void Sync() override {
    if (txn_) Check(mdb_txn_commit(txn_) == 0, "lmdb commit");
    txn_ = nullptr;
  }
  uint64_t ReadAll() override {
    MDB_txn* txn = nullptr;
    MDB_cursor* cursor = nullptr;
    Check(mdb_txn_begin(env_, nullptr, MDB_RDONLY, &txn) == 0, "lmdb");
    Check(mdb_cursor_open(txn, dbi_, &cursor) == 0, "lmdb");
    MDB_val k, v;
    uint64_t many = 0;
    for (; mdb_cursor_get(cursor, &k, &v, MDB_NEXT) == 0; ++many) Take(static_cast<const char*>(v.mv_data), v.mv_size);
    mdb_cursor_close(cursor);
    mdb_txn_abort(txn);
    return many;
  }

 private:
  void Keep(uint64_t number, const std::string& value, unsigned flags) {
    std::string key = KeyOf(number);
    MDB_val k{key.size(), key.data()};
    MDB_val v{value.size(), const_cast<char*>(value.data())};
    Check(mdb_put(txn_, dbi_, &k, &v, flags) == 0, "lmdb put");
  }
  MDB_env* env_ = nullptr;
  MDB_dbi dbi_ = 0;
  MDB_txn* txn_ = nullptr;
};
#endif

std::unique_ptr<System> SystemOf(const std::string& name) {
  if (name == "raw") return std::make_unique<Raw>(true);
  if (name == "raw-one-sync") return std::make_unique<Raw>(false);
#ifdef WITH_LEVELDB
  if (name == "leveldb") return std::make_unique<LevelDb>();
#endif
#ifdef WITH_ROCKSDB
  if (name == "rocksdb") return std::make_unique<RocksDb>();
#endif
#ifdef WITH_SQLITE
  if (name == "sqlite") return std::make_unique<Sqlite>();
#endif
#ifdef WITH_LMDB
  if (name == "lmdb") return std::make_unique<Lmdb>();
#endif
  Stop("no system " + name);
}

void List() {
#ifdef WITH_LEVELDB
  std::printf("leveldb %d.%d\n", leveldb::kMajorVersion, leveldb::kMinorVersion);
#endif
#ifdef WITH_ROCKSDB
  std::printf("rocksdb %d.%d.%d\n", ROCKSDB_MAJOR, ROCKSDB_MINOR, ROCKSDB_PATCH);
#endif
#ifdef WITH_SQLITE
  std::printf("sqlite %s\n", sqlite3_libversion());
#endif
#ifdef WITH_LMDB
  std::printf("lmdb %d.%d.%d\n", MDB_VERSION_MAJOR, MDB_VERSION_MINOR, MDB_VERSION_PATCH);
#endif
}

using Clock = std::chrono::steady_clock;

long long NanosSince(Clock::time_point since) {
  return std::chrono::duration_cast<std::chrono::nanoseconds>(Clock::now() - since).count();
}

void Append(const std::string& name, const std::string& dir, uint64_t jobs) {
  struct Time {
    const char* word;
    long long nanos;
  };
  std::vector<Time> times;
  times.reserve(jobs * 4);
  std::unique_ptr<System> system = SystemOf(name);
  system->Open(dir);
  uint64_t number = 0;
  for (uint64_t job = 0; job < jobs; ++job) {
    for (const Step& step : kSteps) {
      std::string value = ValueOf(++number, step.size);
      Clock::time_point since = Clock::now();
      system->Append(number, value, true);
      times.push_back({step.word, NanosSince(since)});
    }
  }
  for (const Time& time : times) std::printf("%s %lld\n", time.word, time.nanos);
}

// The numbers of the Epoch, of a job and of its end.
constexpr uint64_t kEpoch = 1;
constexpr uint64_t JobOf(uint64_t job) { return 2 * job + 2; }
constexpr uint64_t EndOf(uint64_t job) { return 2 * job + 3; }

// The sizes of the frames of a job, of its end and of an Epoch in rm_bench.
constexpr size_t kJobSize = 121, kEndSize = 16, kEpochSize = 13;

void Pauses(const std::string& name, const std::string& dir, uint64_t live, uint64_t cycles) {
  std::unique_ptr<System> system = SystemOf(name);
  system->Open(dir);
  for (uint64_t job = 0; job < live; ++job) system->Put(JobOf(job), ValueOf(job, kJobSize));
  std::vector<long long> times;
  times.reserve(cycles * 4);
  auto timed = [&times](auto work) {
    Clock::time_point since = Clock::now();
    work();
    times.push_back(NanosSince(since));
  };
  for (uint64_t cycle = 0; cycle < cycles; ++cycle) {
    const uint64_t job = live + cycle;
    const std::string value = ValueOf(job, kJobSize), end = ValueOf(job, kEndSize), epoch = ValueOf(cycle, kEpochSize);
    timed([&] { system->Put(JobOf(job), value); });
    timed([&] { system->Put(EndOf(job), end); });
    timed([&] { system->Remove(JobOf(job), EndOf(job)); });
    timed([&] { system->Put(kEpoch, epoch); });
  }
  for (long long time : times) std::printf("%lld\n", time);
  std::fprintf(stderr, "%s\n", system->Work().c_str());
}

void Make(const std::string& name, const std::string& dir, uint64_t jobs) {
  std::unique_ptr<System> system = SystemOf(name);
  system->Open(dir);
  uint64_t number = 0;
  for (uint64_t job = 0; job < jobs; ++job) {
    for (const Step& step : kSteps) {
      ++number;
      system->Append(number, ValueOf(number, step.size), false);
    }
  }
  system->Sync();
}

void Open(const std::string& name, const std::string& dir) {
  Clock::time_point since = Clock::now();
  std::unique_ptr<System> system = SystemOf(name);
  system->Open(dir);
  uint64_t many = system->ReadAll();
  std::printf("%llu %lld\n", static_cast<unsigned long long>(many), NanosSince(since));
  Check(g_sum != 0 || many == 0, "nothing was read");
}

void Evict(const char* path) {
  int fd = open(path, O_RDONLY | O_CLOEXEC);
  Check(fd >= 0, path);
  Check(fsync(fd) == 0, "fsync");
  posix_fadvise(fd, 0, 0, POSIX_FADV_DONTNEED);
  close(fd);
}

}  // namespace

int main(int argc, char** argv) {
  std::string word = argc > 1 ? argv[1] : "";
  if (word == "list") {
    List();
  } else if (word == "append" && argc == 5) {
    Append(argv[2], argv[3], std::strtoull(argv[4], nullptr, 10));
  } else if (word == "make" && argc == 5) {
    Make(argv[2], argv[3], std::strtoull(argv[4], nullptr, 10));
  } else if (word == "pauses" && argc == 6) {
    Pauses(argv[2], argv[3], std::strtoull(argv[4], nullptr, 10), std::strtoull(argv[5], nullptr, 10));
  } else if (word == "open" && argc == 5) {
    g_keeps = std::strcmp(argv[4], "keep") == 0;
    Open(argv[2], argv[3]);
  } else if (word == "evict") {
    for (int i = 2; i < argc; ++i) Evict(argv[i]);
  } else {
    Stop("list | append SYSTEM DIR JOBS | make SYSTEM DIR JOBS | pauses SYSTEM DIR JOBS CYCLES | open SYSTEM DIR look|keep | evict PATH..");
  }
  return 0;
}
