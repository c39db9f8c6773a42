/* Times the codec of Apache Qpid Proton, and makes the inputs that both codecs read.
 *
 *   proton_bench decode FILE TIMES   decodes the values of FILE, one behind the other, so often
 *   proton_bench encode FILE TIMES   encodes them, so often
 *   proton_bench map OUT             writes the encoding of a map of about 1 MB
 *   proton_bench repeat FILE OUT N   writes the bytes of FILE again and again, N bytes at most
 *   proton_bench frames FILE OUT N   writes frames, N bytes at most, each a performative of FILE in turn and 1,024 bytes of payload
 *
 * The first two print the nanoseconds that it took and a count of what was done. */
#include <proton/codec.h>
#include <stdint.h>
#include <stdio.h>
#include <stdlib.h>
#include <string.h>
#include <time.h>

static void stop(const char *why) {
  fprintf(stderr, "proton_bench: %s\n", why);
  exit(1);
}

static char *contents(const char *path, size_t *size) {
  FILE *file = fopen(path, "rb");
  if (!file) stop("no such file");
  fseek(file, 0, SEEK_END);
  *size = (size_t)ftell(file);
  rewind(file);
  char *bytes = malloc(*size + 1);
  if (!bytes || fread(bytes, 1, *size, file) != *size) stop("not read");
  fclose(file);
  return bytes;
}

static uint64_t now(void) {
  struct timespec t;
  clock_gettime(CLOCK_MONOTONIC, &t);
  return (uint64_t)t.tv_sec * 1000000000u + (uint64_t)t.tv_nsec;
}

static size_t decoded(pn_data_t *data, const char *bytes, size_t size) {
  ssize_t used = pn_data_decode(data, bytes, size);
  if (used <= 0) stop("not decoded");
  return (size_t)used;
}

static void decode_all(const char *bytes, size_t size, uint64_t times) {
  pn_data_t *data = pn_data(16);
  uint64_t done = 0, start = now();
  for (uint64_t i = 0; i < times; i++) {
    for (size_t at = 0; at < size; done++) {
      pn_data_clear(data);
      at += decoded(data, bytes + at, size - at);
    }
  }
  printf("%lu %lu\n", (unsigned long)(now() - start), (unsigned long)done);
  pn_data_free(data);
}

static void encode_all(const char *bytes, size_t size, uint64_t times) {
  size_t count = 0, room = 0;
  pn_data_t **values = NULL;
  for (size_t at = 0; at < size; count++) {
    if (count == room) {
      room = room * 2 + 16;
      values = realloc(values, room * sizeof *values);
      if (!values) stop("no memory");
    }
    values[count] = pn_data(1);
    at += decoded(values[count], bytes + at, size - at);
  }
  size_t most = 2 * size + 1024;
  char *out = malloc(most);
  if (!out) stop("no memory");
  uint64_t done = 0, start = now();
  for (uint64_t i = 0; i < times; i++) {
    for (size_t j = 0; j < count; j++) {
      ssize_t written = pn_data_encode(values[j], out, most);
      if (written <= 0) stop("not encoded");
      done += (uint64_t)written;
    }
  }
  printf("%lu %lu\n", (unsigned long)(now() - start), (unsigned long)done);
}

static void put_text(pn_data_t *data, const char *text, size_t size) {
  pn_data_put_string(data, pn_bytes(size, text));
}

/* A third of the values are ints, a third strings, a third lists of an int, a string, a boolean and a ulong. */
static void make_map(const char *path) {
  static const char letters[] = "The quick brown fox jumps over the lazy dog, and then it rests.";
  enum { PAIRS = 18000 };
  pn_data_t *data = pn_data(16);
  pn_data_put_map(data);
  pn_data_enter(data);
  for (int i = 0; i < PAIRS; i++) {
    char key[32];
    int size = snprintf(key, sizeof key, "property-%06d", i);
    put_text(data, key, (size_t)size);
    if (i % 3 == 0) {
      pn_data_put_int(data, i * 7919 - 70000000);
    } else if (i % 3 == 1) {
      put_text(data, letters, 40 + (size_t)(i % 24));
    } else {
      pn_data_put_list(data);
      pn_data_enter(data);
      pn_data_put_int(data, i % 100);
      put_text(data, letters, 30 + (size_t)(i % 32));
      pn_data_put_bool(data, i % 2 == 0);
      pn_data_put_ulong(data, (uint64_t)i << 20);
      pn_data_exit(data);
    }
  }
  pn_data_exit(data);
  size_t most = 4 << 20;
  char *out = malloc(most);
  ssize_t written = pn_data_encode(data, out, most);
  FILE *file = fopen(path, "wb");
  if (written <= 0 || !file || fwrite(out, 1, (size_t)written, file) != (size_t)written) stop("not written");
  fclose(file);
}

static void repeat(const char *from, const char *path, size_t most) {
  size_t size;
  char *bytes = contents(from, &size);
  FILE *file = fopen(path, "wb");
  if (!size || !file) stop("not written");
  for (size_t at = 0; at + size <= most; at += size) fwrite(bytes, 1, size, file);
  fclose(file);
}

static void make_frames(const char *from, const char *path, size_t most) {
  size_t size, at = 0;
  char *bytes = contents(from, &size), payload[1024];
  FILE *file = fopen(path, "wb");
  pn_data_t *data = pn_data(16);
  if (!size || !file) stop("not written");
  memset(payload, 0x5a, sizeof payload);
  for (size_t written = 0;;) {
    pn_data_clear(data);
    size_t used = decoded(data, bytes + at, size - at), all = 8 + used + sizeof payload;
    if (written + all > most) break;
    written += all;
    unsigned char head[8] = {all >> 24, all >> 16 & 255, all >> 8 & 255, all & 255, 2, 0, 0, 1};
    fwrite(head, 1, sizeof head, file);
    fwrite(bytes + at, 1, used, file);
    fwrite(payload, 1, sizeof payload, file);
    at = at + used < size ? at + used : 0;
  }
  fclose(file);
}

int main(int argc, char **argv) {
  if (argc == 3 && !strcmp(argv[1], "map")) {
    make_map(argv[2]);
    return 0;
  }
  if (argc == 5 && !strcmp(argv[1], "repeat")) {
    repeat(argv[2], argv[3], strtoull(argv[4], NULL, 10));
    return 0;
  }
  if (argc == 5 && !strcmp(argv[1], "frames")) {
    make_frames(argv[2], argv[3], strtoull(argv[4], NULL, 10));
    return 0;
  }
  if (argc != 4) stop("usage: decode|encode FILE TIMES, map OUT, repeat FILE OUT N, frames FILE OUT N");
  size_t size;
  char *bytes = contents(argv[2], &size);
  uint64_t times = strtoull(argv[3], NULL, 10);
  if (!strcmp(argv[1], "decode")) decode_all(bytes, size, times);
  else if (!strcmp(argv[1], "encode")) encode_all(bytes, size, times);
  else stop("no such work");
  return 0;
}
