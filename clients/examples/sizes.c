/* How many bytes the folder of first.c has on the disk, and how many of them are data. */
#include <stdio.h>
#include <tiswenor.h>

int main(void) {
  char *error = NULL;
  tiswenor_statistics_t statistics;
  tiswenor_folder_t folder;
  tiswenor_t *db = tiswenor_open(NULL, "/tmp/fruit", &error);
  if (!error) tiswenor_statistics(db, &statistics, &error);
  if (!error) tiswenor_folder(db, &folder, &error);
  if (!error)
    printf("%llu bytes on the disk, %llu of data\n", (unsigned long long)folder.bytes,
           (unsigned long long)tiswenor_statistics_bytes(&statistics));
  if (error) fprintf(stderr, "%s\n", error);
  int status = error ? 1 : 0;
  tiswenor_free(error);
  tiswenor_close(db);
  return status;
}
