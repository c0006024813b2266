/* The statements of the records, in C over SQLite: main KIND COUNT PATH runs so many submissions, arrivals or deposits
   over a new database at this path (:memory: for none), with the statements prepared once. */
#include <sqlite3.h>
#include <stdio.h>
#include <stdlib.h>
#include <string.h>

static sqlite3 *db;

static void stop(const char *what) {
  fprintf(stderr, "%s: %s\n", what, sqlite3_errmsg(db));
  exit(1);
}

static void run(const char *sql) {
  if (sqlite3_exec(db, sql, NULL, NULL, NULL) != SQLITE_OK) stop(sql);
}

static sqlite3_stmt *prepared(const char *sql) {
  sqlite3_stmt *made;
  if (sqlite3_prepare_v3(db, sql, -1, SQLITE_PREPARE_PERSISTENT, &made, NULL) != SQLITE_OK) stop(sql);
  return made;
}

static void number(sqlite3_stmt *to, int at, sqlite3_int64 value) {
  if (sqlite3_bind_int64(to, at, value) != SQLITE_OK) stop("a number");
}

static void blob(sqlite3_stmt *to, int at, const char *bytes, int len) {
  if (sqlite3_bind_blob(to, at, bytes, len, SQLITE_STATIC) != SQLITE_OK) stop("bytes");
}

/* Runs a statement, which answers so many rows. */
static void step(sqlite3_stmt *it, int rows) {
  for (; rows; rows--)
    if (sqlite3_step(it) != SQLITE_ROW) stop("no row");
  if (sqlite3_step(it) != SQLITE_DONE) stop("not done");
  sqlite3_reset(it);
}

static const char PARTNER[] = "ZZALPHA          ";
static const char SET[] = "ST*850*0001~BEG*00*SA*PO-1**20250102~PO1*1*10*EA*5~SE*4*0001~";

/* An order under this number, in a group of the same number, as a station or the hub gets it. */
static int order(char *to, unsigned number) {
  return sprintf(to,
                 "ISA*00*          *00*          *ZZ*ALPHA          *ZZ*BETA           *250102*0930*U*00401*%09u*0*P*:~"
                 "GS*PO*ALPHA*BETA*20250102*0930*%09u*X*004010~%sGE*1*%09u~IEA*1*%09u~",
                 number, number, SET, number, number);
}

/* Its reply, under the same numbers. */
static int reply(char *to, unsigned number) {
  return sprintf(to,
                 "ISA*00*          *00*          *ZZ*BETA           *ZZ*ALPHA          *250102*0931*U*00401*%09u*0*P*:~"
                 "GS*FA*BETA*ALPHA*20250102*0931*%u*X*004010~ST*997*0001~AK1*PO*%09u~AK2*850*0001~AK5*A~AK9*A*1*1*1~"
                 "SE*6*0001~GE*1*%u~IEA*1*%09u~",
                 number, number, number, number, number);
}

static sqlite3_stmt *begin, *commit, *count;

static void submissions(unsigned events) {
  sqlite3_stmt *out = prepared("INSERT INTO outbound (icn, seq, partner, bytes) VALUES (?1, ?2, ?3, ?4)");
  sqlite3_stmt *set = prepared("INSERT INTO outset (at, icn, grp, place, gcn, fate, functional, number) "
                               "VALUES (?1, ?2, ?3, ?4, ?5, ?6, ?7, ?8)");
  count = prepared("UPDATE numbers SET icn = ?1, gcn = ?2, seq = ?3");
  for (unsigned i = 1; i <= events; i++) {
    char bytes[400];
    int len = order(bytes, i);
    step(begin, 0);
    number(count, 1, i), number(count, 2, i), number(count, 3, i);
    step(count, 0);
    number(out, 1, i), number(out, 2, i), blob(out, 3, PARTNER, 17), blob(out, 4, bytes, len);
    step(out, 0);
    number(set, 1, i), number(set, 2, i), number(set, 3, 1), number(set, 4, 1), number(set, 5, i), number(set, 6, 0);
    blob(set, 7, "PO", 2), blob(set, 8, "0001", 4);
    step(set, 0);
    step(commit, 0);
  }
}

static void arrivals(unsigned events) {
  sqlite3_stmt *find = prepared("SELECT bytes, reply FROM inbound WHERE icn = ?1 AND partner = ?2");
  sqlite3_stmt *in = prepared("INSERT INTO inbound (seq, icn, partner, reply, bytes) VALUES (?1, ?2, ?3, ?4, ?5)");
  sqlite3_stmt *post = prepared("INSERT INTO posting (at, icn, grp, place, partner, functional, setid, number, bytes) "
                                "VALUES (?1, ?2, ?3, ?4, ?5, ?6, ?7, ?8, ?9)");
  count = prepared("UPDATE numbers SET icn = ?1, gcn = ?2, seq = ?3");
  for (unsigned i = 1; i <= events; i++) {
    char bytes[400], answer[400];
    int len = order(bytes, i), answered = reply(answer, i);
    number(find, 1, i), blob(find, 2, PARTNER, 17);
    step(find, 0);
    step(begin, 0);
    number(count, 1, i), number(count, 2, i), number(count, 3, i);
    step(count, 0);
    number(in, 1, i), number(in, 2, i), blob(in, 3, PARTNER, 17), blob(in, 4, answer, answered), blob(in, 5, bytes, len);
    step(in, 0);
    number(post, 1, i), number(post, 2, i), number(post, 3, 1), number(post, 4, 1), blob(post, 5, PARTNER, 17);
    blob(post, 6, "PO", 2), blob(post, 7, "850", 3), blob(post, 8, "0001", 4), blob(post, 9, SET, sizeof SET - 1);
    step(post, 0);
    step(commit, 0);
  }
}

static void deposits(unsigned events) {
  sqlite3_stmt *find = prepared("SELECT item, node, refusal FROM decision WHERE bytes = ?1");
  sqlite3_stmt *decide = prepared("INSERT INTO decision (item, node, refusal, bytes) VALUES (?1, ?2, NULL, ?3)");
  sqlite3_stmt *put = prepared("INSERT INTO mailbox (item, node) VALUES (?1, ?2)");
  count = prepared("UPDATE hubnumber SET icn = ?1, item = ?2");
  for (unsigned i = 1; i <= events; i++) {
    char bytes[400];
    int len = order(bytes, i);
    blob(find, 1, bytes, len);
    step(find, 0);
    step(begin, 0);
    number(decide, 1, i), number(decide, 2, 1), blob(decide, 3, bytes, len);
    step(decide, 0);
    number(put, 1, i), number(put, 2, 1);
    step(put, 0);
    number(count, 1, 0), number(count, 2, i);
    step(count, 0);
    step(commit, 0);
  }
}

static const char STATION[] =
    "CREATE TABLE numbers (one INTEGER PRIMARY KEY, version INTEGER NOT NULL, icn INTEGER NOT NULL, gcn INTEGER NOT NULL, "
    "seq INTEGER NOT NULL) STRICT;"
    "CREATE TABLE agreement (at INTEGER PRIMARY KEY, partner BLOB NOT NULL, functional BLOB NOT NULL, "
    "setid BLOB NOT NULL, UNIQUE (partner, functional, setid)) STRICT;"
    "CREATE TABLE outbound (icn INTEGER PRIMARY KEY, seq INTEGER NOT NULL, partner BLOB NOT NULL, bytes BLOB NOT NULL) "
    "STRICT;"
    "CREATE TABLE outset (at INTEGER PRIMARY KEY, icn INTEGER NOT NULL REFERENCES outbound (icn), grp INTEGER NOT NULL, "
    "place INTEGER NOT NULL, gcn INTEGER NOT NULL, functional BLOB NOT NULL, number BLOB NOT NULL, "
    "fate INTEGER NOT NULL, UNIQUE (icn, grp, place)) STRICT;"
    "CREATE TABLE inbound (seq INTEGER PRIMARY KEY, partner BLOB NOT NULL, icn INTEGER NOT NULL, reply BLOB, "
    "bytes BLOB NOT NULL, UNIQUE (partner, icn)) STRICT;"
    "CREATE TABLE posting (at INTEGER PRIMARY KEY, partner BLOB NOT NULL, icn INTEGER NOT NULL, grp INTEGER NOT NULL, "
    "place INTEGER NOT NULL, functional BLOB NOT NULL, setid BLOB NOT NULL, number BLOB NOT NULL, bytes BLOB NOT NULL, "
    "UNIQUE (partner, icn, grp, place), FOREIGN KEY (partner, icn) REFERENCES inbound (partner, icn)) STRICT;"
    "CREATE INDEX outset_group ON outset (gcn);"
    "CREATE INDEX outset_fate ON outset (fate);"
    "INSERT INTO numbers (one, version, icn, gcn, seq) VALUES (1, 1, 0, 0, 0);";

static const char HUB[] =
    "CREATE TABLE directory (at INTEGER PRIMARY KEY, party BLOB NOT NULL UNIQUE, node INTEGER NOT NULL) STRICT;"
    "CREATE TABLE decision (item INTEGER PRIMARY KEY, node INTEGER, refusal BLOB, bytes BLOB NOT NULL UNIQUE) STRICT;"
    "CREATE TABLE mailbox (item INTEGER PRIMARY KEY REFERENCES decision (item), node INTEGER NOT NULL) STRICT;"
    "CREATE TABLE hubnumber (one INTEGER PRIMARY KEY, version INTEGER NOT NULL, icn INTEGER NOT NULL, "
    "item INTEGER NOT NULL) STRICT;"
    "INSERT INTO hubnumber (one, version, icn, item) VALUES (1, 1, 0, 0);";

int main(int words, char **word) {
  if (words != 4 || sqlite3_open(word[3], &db) != SQLITE_OK) return 2;
  unsigned events = (unsigned)atoi(word[2]);
  run("PRAGMA journal_mode = wal; PRAGMA synchronous = 2; PRAGMA foreign_keys = on;");
  begin = prepared("BEGIN"), commit = prepared("COMMIT");
  if (!strcmp(word[1], "submission")) run(STATION), submissions(events);
  else if (!strcmp(word[1], "arrival")) run(STATION), arrivals(events);
  else if (!strcmp(word[1], "deposit")) run(HUB), deposits(events);
  else return 2;
  return 0;
}
