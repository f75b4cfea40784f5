/* A folder that LevelDB and the library write in turns: recovered FOLDER [SEED]. LevelDB leaves
   tables, which are not compressed, and logs that it did not flush: one where it was closed, up to
   two where its process was killed. The library reads all that LevelDB wrote, and LevelDB what the
   library wrote. With a bit of a log flipped the folder is refused. Needs libleveldb-dev. */
#define _GNU_SOURCE
#include <dirent.h>
#include <leveldb/c.h>
#include <sys/stat.h>
#include <sys/wait.h>
#include <unistd.h>

#include "check.h"

enum { KEYS = 400, TURNS = 12, ROOM = 4096 };

/* What each key has: 0 for nothing. */
static int wanted[KEYS];
static unsigned seed = 1;

static unsigned drawn(void) { return (seed = seed * 1103515245u + 12345u) >> 8; }

static size_t key_of(int number, char *text) { return (size_t)sprintf(text, "%06d", number); }

/* Values of 8 to 607 bytes. */
static size_t value_of(int content, char *text) {
  size_t more = (size_t)content % 600;
  sprintf(text, "%08d", content);
  memset(text + 8, 'a' + content % 26, more);
  return 8 + more;
}

static leveldb_t *opened_by_leveldb(const char *folder, size_t buffer) {
  char *error = NULL;
  leveldb_options_t *options = leveldb_options_create();
  leveldb_options_set_create_if_missing(options, 1);
  leveldb_options_set_compression(options, leveldb_no_compression);
  leveldb_options_set_write_buffer_size(options, buffer);
  leveldb_t *db = leveldb_open(options, folder, &error);
  DONE(error);
  leveldb_options_destroy(options);
  return db;
}

/* Writes of LevelDB in batches of 1 to 9, and what the keys have behind them. With NULL they are
   another process's. */
static void write_by_leveldb(leveldb_t *db, int batches) {
  char key[16], value[700], *error = NULL;
  leveldb_writeoptions_t *options = leveldb_writeoptions_create();
  leveldb_writebatch_t *batch = leveldb_writebatch_create();
  for (int i = 0; i < batches; i++) {
    for (unsigned left = 1 + drawn() % 9; left > 0; left--) {
      int number = (int)(drawn() % KEYS), content = 1 + (int)(drawn() % 99999);
      wanted[number] = drawn() % 5 ? content : 0;
      size_t klen = key_of(number, key);
      if (wanted[number])
        leveldb_writebatch_put(batch, key, klen, value, value_of(content, value));
      else
        leveldb_writebatch_delete(batch, key, klen);
    }
    if (db) leveldb_write(db, options, batch, &error);
    DONE(error);
    leveldb_writebatch_clear(batch);
  }
  leveldb_writebatch_destroy(batch);
  leveldb_writeoptions_destroy(options);
}

/* The same by the library. */
static void write_by_tiswenor(tiswenor_t *db, int writes) {
  char key[16], value[700], *error = NULL;
  tiswenor_writebatch_t *batch = tiswenor_writebatch_create();
  for (int i = 0; i < writes; i++) {
    int number = (int)(drawn() % KEYS), content = 1 + (int)(drawn() % 99999);
    wanted[number] = drawn() % 5 ? content : 0;
    size_t klen = key_of(number, key);
    if (wanted[number])
      tiswenor_writebatch_put(batch, key, klen, value, value_of(content, value));
    else
      tiswenor_writebatch_delete(batch, key, klen);
  }
  tiswenor_write(db, NULL, batch, &error);
  DONE(error);
  tiswenor_writebatch_destroy(batch);
}

/* The next key that has a value, from this number on; KEYS for none. */
static int next_from(int number) {
  while (number < KEYS && !wanted[number]) number++;
  return number;
}

static void is_pair(int number, const char *k, size_t klen, const char *v, size_t vlen) {
  char key[16], value[700];
  CHECK(number < KEYS);
  CHECK(klen == key_of(number, key) && !memcmp(k, key, klen));
  CHECK(vlen == value_of(wanted[number], value) && !memcmp(v, value, vlen));
}

static void leveldb_has_all(leveldb_t *db) {
  leveldb_readoptions_t *options = leveldb_readoptions_create();
  leveldb_iterator_t *iterator = leveldb_create_iterator(db, options);
  int number = next_from(0);
  for (leveldb_iter_seek_to_first(iterator); leveldb_iter_valid(iterator);
       leveldb_iter_next(iterator), number = next_from(number + 1)) {
    size_t klen, vlen;
    const char *k = leveldb_iter_key(iterator, &klen), *v = leveldb_iter_value(iterator, &vlen);
    is_pair(number, k, klen, v, vlen);
  }
  CHECK(number == KEYS);
  leveldb_iter_destroy(iterator);
  leveldb_readoptions_destroy(options);
}

static void tiswenor_has_all(tiswenor_t *db) {
  char *error = NULL;
  tiswenor_iterator_t *iterator = tiswenor_create_iterator(db, NULL);
  int number = next_from(0);
  for (tiswenor_iter_seek_to_first(iterator); tiswenor_iter_valid(iterator);
       tiswenor_iter_next(iterator), number = next_from(number + 1)) {
    size_t klen, vlen;
    const char *k = tiswenor_iter_key(iterator, &klen), *v = tiswenor_iter_value(iterator, &vlen);
    is_pair(number, k, klen, v, vlen);
  }
  tiswenor_iter_get_error(iterator, &error);
  DONE(error);
  CHECK(number == KEYS);
  tiswenor_iter_destroy(iterator);
}

/* The path of the newest log that is not empty. */
static void newest_log(const char *folder, char *path) {
  long newest = -1;
  struct dirent *file;
  DIR *files = opendir(folder);
  CHECK(files);
  while ((file = readdir(files))) {
    char one[ROOM], *end;
    struct stat told;
    long number = strtol(file->d_name, &end, 10);
    if (end == file->d_name || strcmp(end, ".log")) continue;
    snprintf(one, sizeof one, "%s/%s", folder, file->d_name);
    CHECK(!stat(one, &told));
    if (number < newest || !told.st_size) continue;
    newest = number;
    strcpy(path, one);
  }
  closedir(files);
  CHECK(newest >= 0);
}

/* How many bytes the first record of a log has behind its header. */
static unsigned first_length(const char *path) {
  unsigned char header[7];
  FILE *file = fopen(path, "rb");
  CHECK(file && fread(header, 1, sizeof header, file) == sizeof header);
  fclose(file);
  return header[4] | (unsigned)header[5] << 8;
}

static void flip(const char *path, long at) {
  FILE *file = fopen(path, "r+b");
  CHECK(file && !fseek(file, at, SEEK_SET));
  int byte = fgetc(file);
  CHECK(byte != EOF && !fseek(file, at, SEEK_SET) && fputc(byte ^ 1, file) != EOF);
  CHECK(!fclose(file));
}

/* A bit of the newest log is another: behind the header of its first record. */
static void damaged_log_is_refused(const char *folder) {
  char path[ROOM], *error = NULL;
  newest_log(folder, path);
  long at = 7 + (long)(drawn() % first_length(path));
  tiswenor_options_t *options = tiswenor_options_create();
  flip(path, at);
  CHECK(!tiswenor_open(options, folder, &error));
  flip(path, at);
  CHECK(error && strstr(error, ": in ") && strstr(error, ".log"));
  FAILED(error, 19);
  tiswenor_options_destroy(options);
}

/* A process of its own, as what LevelDB has started does not go on behind `fork`: it writes so, and
   ends without a word to LevelDB. So what came in is in tables, and in up to two logs. */
static void killed_leveldb(const char *folder, size_t buffer, int batches) {
  char words[3][24];
  sprintf(words[0], "%zu", buffer);
  sprintf(words[1], "%d", batches);
  sprintf(words[2], "%u", seed);
  pid_t child = fork();
  CHECK(child >= 0);
  if (!child) {
    execl("/proc/self/exe", "recovered", folder, words[0], words[1], words[2], NULL);
    _exit(1);
  }
  int status;
  CHECK(waitpid(child, &status, 0) == child && WIFEXITED(status) && !WEXITSTATUS(status));
  write_by_leveldb(NULL, batches);
}

static void turn(const char *folder) {
  size_t buffer = 65536u << drawn() % 3;
  int batches = 1 + (int)(drawn() % 300);
  if (drawn() % 2) {
    leveldb_t *db = opened_by_leveldb(folder, buffer);
    leveldb_has_all(db);
    write_by_leveldb(db, batches);
    leveldb_close(db);
  } else {
    killed_leveldb(folder, buffer, batches);
  }
  damaged_log_is_refused(folder);
  tiswenor_t *db = opened(folder, 2, 1);
  tiswenor_has_all(db);
  write_by_tiswenor(db, 1 + (int)(drawn() % 100));
  tiswenor_has_all(db);
  tiswenor_close(db);
}

int main(int count, char **words) {
  CHECK(count > 1);
  if (count == 5) {
    seed = (unsigned)strtoul(words[4], NULL, 10);
    write_by_leveldb(opened_by_leveldb(words[1], strtoul(words[2], NULL, 10)), atoi(words[3]));
    _exit(0);
  }
  char folder[ROOM / 2];
  snprintf(folder, sizeof folder, "%s/db", words[1]);
  if (count > 2) seed = (unsigned)strtoul(words[2], NULL, 10);
  for (int i = 0; i < TURNS; i++) turn(folder);
  leveldb_t *db = opened_by_leveldb(folder, 65536);
  leveldb_has_all(db);
  leveldb_close(db);
  puts("recovered: ok");
  return 0;
}
