/* One store at the work of `load N`, for bench/peers: a queue of at most eight values of 1 to 500 bytes, under rising keys. Each round puts a
   value at its end, and takes the first one away where eight stand before it; every third round is rolled back.
     peer FILE load N      makes the rounds; prints how many were committed
     peer FILE read N      puts a value of 100 bytes, and reads it N times, each time anew
   `load 0` opens the store, and closes it.
   Built with one of -DSQLITE (-DWAL for a write-ahead log), -DLMDB, -DTDB; or with -DFLOOR, which keeps nothing: where a round is committed it makes
   WRITES writes of BYTES bytes each and SYNCS syncs, as they were counted of another program. */
#include <fcntl.h>
#include <stdio.h>
#include <stdlib.h>
#include <string.h>

enum { KEPT = 8, LONGEST = 500, READ = 100 };

static void fail(const char *what) {
  fprintf(stderr, "peer: %s\n", what);
  exit(1);
}

/* what each store has to do: keys rise, and a call outside of a transaction is one by itself */
static void store_open(const char *file);
static void store_begin(void);
static void store_put(unsigned key, const void *bytes, unsigned size);
static void store_delete(unsigned key);
static void store_end(int commit);
static unsigned store_read(unsigned key, void *into, unsigned most);
static void store_close(void);

/* a number in four bytes, the high one first, so that keys stand by number */
static inline void key_bytes(unsigned key, unsigned char into[4]) {
  for (int k = 0; k < 4; k++) into[k] = key >> (8 * (3 - k));
}

#ifdef SQLITE
#include <sqlite3.h>
static sqlite3 *base;
static sqlite3_stmt *put, *delete, *get;
static sqlite3_stmt *begin, *commit_it, *roll_back;
static void ok(int code, int wanted) { if (code != wanted) fail(sqlite3_errmsg(base)); }
static sqlite3_stmt *made(const char *text) {
  sqlite3_stmt *it;
  ok(sqlite3_prepare_v2(base, text, -1, &it, NULL), SQLITE_OK);
  return it;
}
static void run(sqlite3_stmt *it) { ok(sqlite3_step(it), SQLITE_DONE); ok(sqlite3_reset(it), SQLITE_OK); }
static void store_open(const char *file) {
  ok(sqlite3_open(file, &base), SQLITE_OK);
#ifdef WAL
  ok(sqlite3_exec(base, "pragma journal_mode=wal; pragma synchronous=full", NULL, NULL, NULL), SQLITE_OK);
#else
  ok(sqlite3_exec(base, "pragma journal_mode=persist; pragma synchronous=full", NULL, NULL, NULL), SQLITE_OK);
#endif
  ok(sqlite3_exec(base, "create table if not exists load (key integer primary key, bytes blob)", NULL, NULL, NULL), SQLITE_OK);
  put = made("insert into load values (?, ?)");
  delete = made("delete from load where key = ?");
  get = made("select bytes from load where key = ?");
  begin = made("begin immediate"), commit_it = made("commit"), roll_back = made("rollback");
}
static void store_begin(void) { run(begin); }
static void store_put(unsigned key, const void *bytes, unsigned size) {
  sqlite3_bind_int64(put, 1, key);
  sqlite3_bind_blob(put, 2, bytes, size, SQLITE_STATIC);
  run(put);
}
static void store_delete(unsigned key) { sqlite3_bind_int64(delete, 1, key); run(delete); }
static void store_end(int commit) { run(commit ? commit_it : roll_back); }
static unsigned store_read(unsigned key, void *into, unsigned most) {
  sqlite3_bind_int64(get, 1, key);
  unsigned size = 0;
  if (sqlite3_step(get) == SQLITE_ROW) {
    size = sqlite3_column_bytes(get, 0);
    size = size < most ? size : most;
    memcpy(into, sqlite3_column_blob(get, 0), size);
  }
  sqlite3_reset(get);
  return size;
}
static void store_close(void) {
  sqlite3_stmt *all[] = {put, delete, get, begin, commit_it, roll_back};
  for (unsigned k = 0; k < sizeof all / sizeof *all; k++) sqlite3_finalize(all[k]);
  sqlite3_close(base);
}
#endif

#ifdef LMDB
#include <lmdb.h>
static MDB_env *base;
static MDB_dbi table;
static MDB_txn *now;
static void ok(int code) { if (code) fail(mdb_strerror(code)); }
static void store_open(const char *file) {
  MDB_txn *txn;
  ok(mdb_env_create(&base));
  ok(mdb_env_set_mapsize(base, 64 << 20));
  ok(mdb_env_open(base, file, MDB_NOSUBDIR, 0644));
  ok(mdb_txn_begin(base, NULL, 0, &txn));
  ok(mdb_dbi_open(txn, NULL, 0, &table));
  ok(mdb_txn_commit(txn));
}
static void store_begin(void) { ok(mdb_txn_begin(base, NULL, 0, &now)); }
static void store_put(unsigned key, const void *bytes, unsigned size) {
  unsigned char name[4];
  key_bytes(key, name);
  MDB_val k = {4, name}, v = {size, (void *)bytes};
  ok(mdb_put(now, table, &k, &v, 0));
}
static void store_delete(unsigned key) {
  unsigned char name[4];
  key_bytes(key, name);
  MDB_val k = {4, name};
  ok(mdb_del(now, table, &k, NULL));
}
static void store_end(int commit) {
  if (commit) ok(mdb_txn_commit(now)); else mdb_txn_abort(now);
}
static unsigned store_read(unsigned key, void *into, unsigned most) {
  unsigned char name[4];
  key_bytes(key, name);
  MDB_txn *txn;
  MDB_val k = {4, name}, v = {0, NULL};
  ok(mdb_txn_begin(base, NULL, MDB_RDONLY, &txn));
  unsigned size = 0;
  if (!mdb_get(txn, table, &k, &v)) {
    size = v.mv_size < most ? v.mv_size : most;
    memcpy(into, v.mv_data, size);
  }
  mdb_txn_abort(txn);
  return size;
}
static void store_close(void) { mdb_env_close(base); }
#endif

#ifdef TDB
#include <sys/stat.h>
#include <stdint.h>
#include <signal.h>
#include <stdbool.h>
#include <sys/types.h>
#include <tdb.h>
static TDB_CONTEXT *base;
static void ok(int code) { if (code) fail(tdb_errorstr(base)); }
static void store_open(const char *file) {
  base = tdb_open(file, 0, 0, O_RDWR | O_CREAT, 0644);
  if (!base) fail("tdb_open");
}
static void store_begin(void) { ok(tdb_transaction_start(base)); }
static void store_put(unsigned key, const void *bytes, unsigned size) {
  unsigned char name[4];
  key_bytes(key, name);
  TDB_DATA k = {name, 4}, v = {(unsigned char *)bytes, size};
  ok(tdb_store(base, k, v, TDB_INSERT));
}
static void store_delete(unsigned key) {
  unsigned char name[4];
  key_bytes(key, name);
  TDB_DATA k = {name, 4};
  ok(tdb_delete(base, k));
}
static void store_end(int commit) { ok(commit ? tdb_transaction_commit(base) : tdb_transaction_cancel(base)); }
static unsigned store_read(unsigned key, void *into, unsigned most) {
  unsigned char name[4];
  key_bytes(key, name);
  TDB_DATA k = {name, 4};
  TDB_DATA v = tdb_fetch(base, k);
  unsigned size = v.dsize < most ? v.dsize : most;
  if (v.dptr) memcpy(into, v.dptr, size); else size = 0;
  free(v.dptr);
  return size;
}
static void store_close(void) { tdb_close(base); }
#endif

#ifdef FLOOR
#include <unistd.h>
static int file;
static unsigned char part[BYTES];
static void store_open(const char *name) {
  file = open(name, O_RDWR | O_CREAT, 0644);
  if (file < 0) fail("open");
}
static void store_begin(void) {}
static void store_put(unsigned key, const void *bytes, unsigned size) { (void)key, (void)bytes, (void)size; }
static void store_delete(unsigned key) { (void)key; }
static void store_end(int commit) {
  for (int k = 0; commit && (k < WRITES || k < SYNCS); k++) {
    if (k < WRITES && pwrite(file, part, BYTES, 64 + k * BYTES) != BYTES) fail("pwrite");
    if (k < SYNCS && fdatasync(file)) fail("fdatasync");
  }
}
static unsigned store_read(unsigned key, void *into, unsigned most) {
  (void)key;
  ssize_t size = pread(file, into, most, 64);
  return size < 0 ? 0 : size;
}
static void store_close(void) { close(file); }
#endif

int main(int count, char **words) {
  static unsigned char bytes[LONGEST];
  if (count != 4) fail("usage: peer FILE load N | read N");
  unsigned rounds = strtoul(words[3], NULL, 10);
  store_open(words[1]);
  if (!strcmp(words[2], "load")) {
    /* the keys that stand there, in order: at most eight, and the one that is put */
    unsigned kept[KEPT + 1], size = 0, committed = 0;
    for (unsigned round = 1; round <= rounds; round++) {
      unsigned most = 1 + 37 * round % 500;
      int commit = round % 3 != 0;
      memset(bytes, round % 256, most);
      store_begin();
      store_put(round, bytes, most);
      if (size == KEPT) store_delete(kept[0]);
      store_end(commit);
      if (commit) {
        if (size == KEPT) memmove(kept, kept + 1, --size * sizeof *kept);
        kept[size++] = round;
        committed++;
      }
    }
    printf("%u\n", committed);
  } else {
    store_begin();
    store_put(1, bytes, READ);
    store_end(1);
    for (unsigned k = 0; k < rounds; k++)
      if (store_read(1, bytes, READ) != READ) fail("a value is gone");
    printf("%u\n", rounds);
  }
  store_close();
  return 0;
}
