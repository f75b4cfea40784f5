/* A database of sorted keys in LevelDB's files, for C. The calls have the shape of leveldb/c.h:

     tiswenor_options_t *options = tiswenor_options_create();
     tiswenor_options_set_create_if_missing(options, 1);
     char *error = NULL;
     tiswenor_t *db = tiswenor_open(options, "/tmp/fruit", &error);
     tiswenor_put(db, NULL, "apple", 5, "red", 3, &error);

   Keys and values are any bytes; a key has at least one. Every write is on the disk when its call
   returns. The keys ascend byte by byte, a proper prefix first.

   Errors. A call that can fail takes `char **errptr`. On entry *errptr is NULL, or a text that this
   library made. Where the call is done, *errptr stays as it is. Where it is not, that text is freed
   and *errptr is a new one, to be freed by tiswenor_free: a number, a blank, and a name, as
   "52 Locked", and perhaps ": " and more for people.

   Threads. Any thread may make any call on a database or a snapshot; a call waits while all
   channels are taken. A batch, an iterator and options are for one thread at a time. A process that
   was forked cannot use its parent's databases: each call answers "251 Closed".

   What is NULL. Options, and read and write options, may be NULL: then all are as not set. */
#ifndef TISWENOR_H
#define TISWENOR_H

#include <stddef.h>
#include <stdint.h>

#ifdef __cplusplus
extern "C" {
#endif

typedef struct tiswenor_t tiswenor_t;
typedef struct tiswenor_iterator_t tiswenor_iterator_t;
typedef struct tiswenor_options_t tiswenor_options_t;
typedef struct tiswenor_readoptions_t tiswenor_readoptions_t;
typedef struct tiswenor_snapshot_t tiswenor_snapshot_t;
typedef struct tiswenor_writebatch_t tiswenor_writebatch_t;
typedef struct tiswenor_writeoptions_t tiswenor_writeoptions_t;

/* Numbers of errors. Those from 1 to 99 are the server's refusals, listed in docs/FORMATS.md; these
   are the protocol's (200 to 204) and the library's own (250 to 255). */
enum {
  tiswenor_out_of_memory = 1,
  tiswenor_device = 9, /* a call of the system failed */
  tiswenor_too_large = 39,
  tiswenor_locked = 52,
  tiswenor_malformed = 200,
  tiswenor_bad_opening = 201,
  tiswenor_no_database = 202, /* there is none, and create_if_missing is not set */
  tiswenor_is_there = 203,    /* there is one, and error_if_exists is set */
  tiswenor_unanswered = 204,  /* no memory for the answer: whether it was done is not known */
  tiswenor_no_server = 250,   /* the server could not be started */
  tiswenor_closed = 251,      /* in a process that was forked */
  tiswenor_bad_answer = 254,  /* an answer in none of the protocol's forms */
  tiswenor_ended = 255        /* the server ended: whether the call was done is not known */
};

/* The number of an error's text; 0 for NULL. */
int tiswenor_error_number(const char *error);

/* The call of the system that an error's text tells of, as "open", the path of its file, and what
   the system answered, as "Permission denied (os error 13)": parts of the text, with their lengths.
   All are NULL and 0 where it tells of none. */
typedef struct {
  const char *call;
  size_t call_length;
  const char *file;
  size_t file_length;
  const char *reason;
  size_t reason_length;
} tiswenor_cause_t;

void tiswenor_error_cause(const char *error, tiswenor_cause_t *cause);

/* Databases */

/* Opens the database in a folder. NULL where it is refused. */
tiswenor_t *tiswenor_open(const tiswenor_options_t *options, const char *name, char **errptr);

/* Waits for the server's end. All other calls have returned, and all iterators and snapshots of the
   database are destroyed and released. */
void tiswenor_close(tiswenor_t *db);

/* Each write makes a table: many of them belong into one batch. */
void tiswenor_put(tiswenor_t *db, const tiswenor_writeoptions_t *options, const char *key,
                  size_t keylen, const char *val, size_t vallen, char **errptr);
void tiswenor_delete(tiswenor_t *db, const tiswenor_writeoptions_t *options, const char *key,
                     size_t keylen, char **errptr);

/* The writes of a batch come in together or not at all. An empty batch changes nothing. */
void tiswenor_write(tiswenor_t *db, const tiswenor_writeoptions_t *options,
                    tiswenor_writebatch_t *batch, char **errptr);

/* The value, to be freed by tiswenor_free; NULL where the key has none, or for an error. */
char *tiswenor_get(tiswenor_t *db, const tiswenor_readoptions_t *options, const char *key,
                   size_t keylen, size_t *vallen, char **errptr);

/* The values of `count` keys, all of one state of the database: values[i] is to be freed by
   tiswenor_free, or NULL where keys[i] has no value. For an error all are NULL. The keys have at
   most 8 MiB together, the values 16 MiB. */
void tiswenor_get_many(tiswenor_t *db, const tiswenor_readoptions_t *options, size_t count,
                       const char *const *keys, const size_t *keylens, char **values,
                       size_t *vallens, char **errptr);

/* The database as it is now; NULL for an error. Until its release its tables stay on the disk. */
const tiswenor_snapshot_t *tiswenor_create_snapshot(tiswenor_t *db, char **errptr);
void tiswenor_release_snapshot(tiswenor_t *db, const tiswenor_snapshot_t *snapshot);

/* Compacts what is due: returns once the server finds nothing to compact. Other calls go on beside
   it. */
void tiswenor_compact(tiswenor_t *db, char **errptr);

/* Compacts the keys from `start_key` to `limit_key`, both included, due or not, from level 0 down
   to the deepest level that has some of them: deletions with nothing below them go, but where a
   snapshot needs them. NULL is no bound. Other calls go on beside it; tiswenor_collect then removes
   the tables that were. */
void tiswenor_compact_range(tiswenor_t *db, const char *start_key, size_t start_key_len,
                            const char *limit_key, size_t limit_key_len, char **errptr);

/* Removes the files of tables that are not needed any more, and answers their number. */
uint64_t tiswenor_collect(tiswenor_t *db, char **errptr);

/* The last sequence is the number of the newest write. The bytes of a level are those of its
   tables together. */
enum { tiswenor_levels = 7 };
typedef struct {
  uint64_t last_sequence;
  uint64_t files[tiswenor_levels];
  uint64_t bytes[tiswenor_levels];
} tiswenor_statistics_t;

void tiswenor_statistics(tiswenor_t *db, tiswenor_statistics_t *statistics, char **errptr);

/* Sums over the levels: the tables, their bytes, and the mean bytes of one, rounded down; 0 where
   there is none. */
uint64_t tiswenor_statistics_tables(const tiswenor_statistics_t *statistics);
uint64_t tiswenor_statistics_bytes(const tiswenor_statistics_t *statistics);
uint64_t tiswenor_statistics_mean(const tiswenor_statistics_t *statistics);

/* The regular files that are in the database's folder, by their names, as the line `folder` of
   `lsm levels` counts them. Bytes are sizes of files, as the system tells them. Tables that are not
   needed any more are among them until tiswenor_collect removes them.

     tiswenor_folder_t folder;
     tiswenor_folder(db, &folder, &error);
     printf("%llu bytes on the disk\n", (unsigned long long)folder.bytes); */
typedef struct {
  uint64_t tables;      /* N.ldb and N.sst */
  uint64_t manifests;   /* MANIFEST-N */
  uint64_t others;      /* of all other names */
  uint64_t bytes;       /* of all files together */
  uint64_t table_bytes; /* of the tables together */
  uint64_t least_table; /* bytes of the smallest table; 0 where there is none */
} tiswenor_folder_t;

/* Counts by calls of the system, and asks the server nothing. What other calls make and remove
   meanwhile may be counted or not; a file that goes before its size is asked is left out.

   The folder is the one that was opened, at the path that it had then, wherever the process works
   now. Where it is not there any more, also where another one has its path, or the system does not
   list it or tell a size, this is "9 Device: NAME: No such file or directory", with the system's
   reason at the end, and all is 0. */
void tiswenor_folder(tiswenor_t *db, tiswenor_folder_t *folder, char **errptr);

/* "leveldb.num-files-at-levelN" or "leveldb.stats": a text to be freed by tiswenor_free. NULL for
   another name, or for an error. */
char *tiswenor_property_value(tiswenor_t *db, const char *propname);

/* Iterators: the pairs of the database as it is now, or of a snapshot. A new one is not valid
   before it is sent somewhere. To go backward costs some more requests: the server reads forward.
 */

tiswenor_iterator_t *tiswenor_create_iterator(tiswenor_t *db,
                                              const tiswenor_readoptions_t *options);
void tiswenor_iter_destroy(tiswenor_iterator_t *iterator);
/* Whether it stands at a pair. If not, it is at the end or has an error. */
uint8_t tiswenor_iter_valid(const tiswenor_iterator_t *iterator);
void tiswenor_iter_seek_to_first(tiswenor_iterator_t *iterator);
/* To the first pair whose key is k or greater. */
void tiswenor_iter_seek(tiswenor_iterator_t *iterator, const char *k, size_t klen);
void tiswenor_iter_seek_to_last(tiswenor_iterator_t *iterator);
/* It is valid. At the last, or the first, pair it is not valid any more. */
void tiswenor_iter_next(tiswenor_iterator_t *iterator);
void tiswenor_iter_prev(tiswenor_iterator_t *iterator);
/* It is valid. The bytes stay until the next call on the iterator. */
const char *tiswenor_iter_key(const tiswenor_iterator_t *iterator, size_t *klen);
const char *tiswenor_iter_value(const tiswenor_iterator_t *iterator, size_t *vlen);
void tiswenor_iter_get_error(const tiswenor_iterator_t *iterator, char **errptr);

/* Batches: writes in any order. Of several of one key the last one counts. The server takes at most
   65,536 of them, and 4 MiB. Where memory is refused, the batch's write answers 1. */

tiswenor_writebatch_t *tiswenor_writebatch_create(void);
void tiswenor_writebatch_destroy(tiswenor_writebatch_t *batch);
void tiswenor_writebatch_clear(tiswenor_writebatch_t *batch);
void tiswenor_writebatch_put(tiswenor_writebatch_t *batch, const char *key, size_t klen,
                             const char *val, size_t vlen);
void tiswenor_writebatch_delete(tiswenor_writebatch_t *batch, const char *key, size_t klen);
void tiswenor_writebatch_append(tiswenor_writebatch_t *destination,
                                const tiswenor_writebatch_t *source);
void tiswenor_writebatch_iterate(const tiswenor_writebatch_t *batch, void *state,
                                 void (*put)(void *, const char *k, size_t klen, const char *v,
                                             size_t vlen),
                                 void (*deleted)(void *, const char *k, size_t klen));

/* Options */

tiswenor_options_t *tiswenor_options_create(void);
void tiswenor_options_destroy(tiswenor_options_t *options);
/* Makes a database, and its folder, where there is none. */
void tiswenor_options_set_create_if_missing(tiswenor_options_t *options, uint8_t to);
void tiswenor_options_set_error_if_exists(tiswenor_options_t *options, uint8_t to);
/* How many threads of the server compact, 0 to 16; 1 if not set. */
void tiswenor_options_set_workers(tiswenor_options_t *options, int workers);
/* How many calls are served at the same time, 1 to 62; 4 if not set. Each has its own cache. */
void tiswenor_options_set_channels(tiswenor_options_t *options, int channels);
/* The server's program, whose text has to stay. Else the environment variable TISWENOR_SERVER names
   it, or it is `lsm_server` on PATH. The library with the server inside has no use for it. */
void tiswenor_options_set_server(tiswenor_options_t *options, const char *program);

tiswenor_readoptions_t *tiswenor_readoptions_create(void);
void tiswenor_readoptions_destroy(tiswenor_readoptions_t *options);
/* What is read is the snapshot's, or, with NULL, what is there now. */
void tiswenor_readoptions_set_snapshot(tiswenor_readoptions_t *options,
                                       const tiswenor_snapshot_t *snapshot);

tiswenor_writeoptions_t *tiswenor_writeoptions_create(void);
void tiswenor_writeoptions_destroy(tiswenor_writeoptions_t *options);
/* Has no effect: each write is synced. */
void tiswenor_writeoptions_set_sync(tiswenor_writeoptions_t *options, uint8_t to);

void tiswenor_free(void *ptr);

/* The version of this header, and that of the library. As those of leveldb/c.h they are at least 1:
   a new minor one has more calls, a new major one may have others. */
enum { tiswenor_major = 1, tiswenor_minor = 1 };
int tiswenor_major_version(void);
int tiswenor_minor_version(void);

#ifdef __cplusplus
}
#endif
#endif
