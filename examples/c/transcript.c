/*
 * Prints the transcript of the record in the file that the command line names.
 *
 * To build it and run it on examples/girder.bin, or on the file that is named: examples/c/run [FILE]
 */
#include <stdio.h>
#include <stdlib.h>

#include "mosvitar.h"

/* One byte more than a record may have, so that a longer one is seen to be too long. */
static uint8_t record[65537];

int main(int argc, char **argv) {
  if (argc != 2) {
    fprintf(stderr, "usage: %s FILE\n", argv[0]);
    return 2;
  }
  FILE *file = fopen(argv[1], "rb");
  if (file == NULL) {
    perror(argv[1]);
    return 1;
  }
  size_t record_len = fread(record, 1, sizeof record, file);
  if (ferror(file)) {
    perror(argv[1]);
    fclose(file);
    return 1;
  }
  fclose(file);

  /* First the length, then the lines. */
  size_t n = mosvitar_transcript(record, record_len, NULL, 0);
  uint8_t *lines = malloc(n);
  if (lines == NULL && n > 0) {
    fprintf(stderr, "no memory for %zu bytes\n", n);
    return 1;
  }
  mosvitar_transcript(record, record_len, lines, n);
  size_t printed = fwrite(lines, 1, n, stdout);
  free(lines);
  return printed == n && fflush(stdout) == 0 ? 0 : 1;
}
