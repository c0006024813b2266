/* A station's turn in C over SQLite: main DIR takes each file of DIR/in that holds one order, as a turn of the program does,
   with the same commits and file calls, and without any test of what it reads: the arrival is committed, its reply and the
   word that the item was taken are put, the file is removed; then each hundred of accepted sets is handed over. DIR/records.db
   is made anew. */
#define main records_main
#include "../records/main.c"
#undef main
#include <dirent.h>
#include <fcntl.h>
#include <sys/stat.h>
#include <unistd.h>

static char path[2][4200];
static const char *dir;

static void check(int done, const char *what) {
  if (done < 0) perror(what), exit(1);
}

/* Waits until the names of a folder are on the disk. */
static void sync_folder(const char *folder) {
  int at = open(folder, O_RDONLY | O_CLOEXEC);
  check(at, folder), check(fsync(at), folder), close(at);
}

/* Writes a file, and waits until its bytes are on the disk. */
static void write_synced(const char *file, const char *bytes, int len) {
  int at = open(file, O_WRONLY | O_CREAT | O_TRUNC | O_CLOEXEC, 0666);
  check(at, file);
  if (len) check((int)write(at, bytes, len), file);
  check(fsync(at), file), close(at);
}

static void rename_synced(const char *folder, const char *name) {
  sprintf(path[0], "%s/%s/.%s", dir, folder, name), sprintf(path[1], "%s/%s/%s", dir, folder, name);
  check(rename(path[0], path[1]), path[1]);
  sprintf(path[0], "%s/%s", dir, folder), sync_folder(path[0]);
}

static void draft(const char *folder, const char *name, const char *bytes, int len) {
  sprintf(path[0], "%s/%s/.%s", dir, folder, name), write_synced(path[0], bytes, len);
}

static void put(const char *folder, const char *name, const char *bytes, int len) {
  draft(folder, name, bytes, len), rename_synced(folder, name);
}

static sqlite3_stmt *find, *in, *post;

static void arrive(unsigned i, const char *bytes, int len) {
  char answer[400], name[80];
  int answered = reply(answer, i);
  number(find, 1, i), blob(find, 2, PARTNER, 17);
  step(find, 0);
  step(begin, 0);
  number(count, 1, i), number(count, 2, i), number(count, 3, i);
  step(count, 0);
  number(in, 1, i), number(in, 2, i), blob(in, 3, PARTNER, 17), blob(in, 4, answer, answered), blob(in, 5, bytes, len);
  step(in, 0);
  number(post, 1, i), number(post, 2, i), number(post, 3, 1), number(post, 4, 1), blob(post, 5, PARTNER, 17);
  blob(post, 6, "PO", 2), blob(post, 7, "850", 3), blob(post, 8, "0001", 4), blob(post, 9, SET, sizeof SET - 1);
  step(post, 0);
  step(commit, 0);
  sprintf(name, "sent-%09u.edi", i), put("out", name, answer, answered);
  printf("%s/out/%s: %09u from ZZ/BETA to ZZ/ALPHA\n", dir, name, i), fflush(stdout);
}

static void take(const char *name) {
  char bytes[4096], word[300];
  struct stat found;
  sprintf(path[0], "%s/in/%s", dir, name);
  check(stat(path[0], &found), path[0]);
  int at = open(path[0], O_RDONLY | O_CLOEXEC);
  check(at, path[0]);
  int len = (int)read(at, bytes, sizeof bytes);
  check(len, path[0]), close(at);
  printf("%s: %.9s from ZZ/ALPHA to ZZ/BETA\n", path[0], bytes + 90), fflush(stdout);
  arrive((unsigned)atoi(bytes + 90), bytes, len);
  sprintf(word, "taken-%.9s", name + 5), put("out", word, "", 0);
  sprintf(path[0], "%s/in/%s", dir, name), check(unlink(path[0]), path[0]);
}

/* Hands over the sets that were accepted as these. */
static void hand_over(unsigned from, unsigned to) {
  char name[80];
  for (unsigned i = from; i < to; i++)
    sprintf(name, "ZZALPHA-%09u-01-001.850", i + 1), draft("posted", name, SET, sizeof SET - 1);
  int len = sprintf(name, "%u %u\n", from, to);
  sprintf(path[0], "%s/.handed", dir), sprintf(path[1], "%s/handed", dir);
  write_synced(path[0], name, len), check(rename(path[0], path[1]), path[1]), sync_folder(dir);
  for (unsigned i = from; i < to; i++) {
    sprintf(name, "ZZALPHA-%09u-01-001.850", i + 1), rename_synced("posted", name);
    printf("%s/posted/%s: 850 0001 from ZZ/ALPHA\n", dir, name), fflush(stdout);
  }
}

static int is_whole(const struct dirent *it) { return it->d_name[0] != '.'; }

int main(int words, char **word) {
  if (words != 2) return 2;
  dir = word[1];
  sprintf(path[0], "%s/records.db", dir);
  if (sqlite3_open(path[0], &db) != SQLITE_OK) return 2;
  run("PRAGMA journal_mode = wal; PRAGMA synchronous = 2; PRAGMA foreign_keys = on;");
  run(STATION);
  begin = prepared("BEGIN"), commit = prepared("COMMIT");
  find = prepared("SELECT bytes, reply FROM inbound WHERE icn = ?1 AND partner = ?2");
  in = prepared("INSERT INTO inbound (seq, icn, partner, reply, bytes) VALUES (?1, ?2, ?3, ?4, ?5)");
  post = prepared("INSERT INTO posting (at, icn, grp, place, partner, functional, setid, number, bytes) "
                  "VALUES (?1, ?2, ?3, ?4, ?5, ?6, ?7, ?8, ?9)");
  count = prepared("UPDATE numbers SET icn = ?1, gcn = ?2, seq = ?3");
  sprintf(path[0], "%s/in", dir);
  struct dirent **names;
  int files = scandir(path[0], &names, is_whole, alphasort);
  check(files, path[0]);
  for (int i = 0; i < files; i++) take(names[i]->d_name);
  for (unsigned i = 0; i < (unsigned)files; i += 100) hand_over(i, i + 100 < (unsigned)files ? i + 100 : (unsigned)files);
  return 0;
}
