/* What the tests of the library share. */
#include "../dtool.h"
#include <stdio.h>
#include <stdlib.h>
#include <string.h>

#define WORDS 16384
static uint64_t table[WORDS];

/* The bytes of a file, in memory of just that size. */
static inline uint8_t *load(const char *file, size_t *len)
{
	FILE *stream = fopen(file, "rb");
	if (!stream || fseek(stream, 0, SEEK_END)) {
		perror(file);
		exit(2);
	}
	*len = ftell(stream);
	rewind(stream);
	uint8_t *blob = malloc(*len ? *len : 1);
	if (!blob || fread(blob, 1, *len, stream) != *len) {
		perror(file);
		exit(2);
	}
	fclose(stream);
	return blob;
}
