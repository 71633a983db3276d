/*
 * Damages blobs that lie before a page that can't be read, and walks through all of those that the library accepts: `damaged RUNS BLOB..`. A
 * call that reads behind the blob ends the program by a signal. Each answer is the same with a table of one word and with one of 512.
 */
#define _DEFAULT_SOURCE
#include "common.h"
#include <sys/mman.h>
#include <unistd.h>

static const uint8_t *blob;
static size_t len;
static unsigned long walked;
static uint8_t sum;

static void read_span(struct dtool_span span)
{
	for (size_t i = 0; i < span.len; i++)
		sum ^= blob[span.at + i];
}

static void walk(size_t node)
{
	struct dtool_fault fault;
	struct dtool_property property;
	struct dtool_region region;
	struct dtool_route route;
	size_t child;

	walked++;
	read_span(dtool_name(blob, len, node));
	for (uint64_t i = 0; dtool_property(blob, len, node, i, &property); i++) {
		read_span(property.name);
		read_span(property.value);
	}
	dtool_region(blob, len, node, 0, &region, &fault);
	dtool_route(blob, len, node, 0, &route, &fault);
	dtool_specifier_route(blob, len, node, "clocks", 6, "clock", 5, 0, &route, &fault);
	for (bool some = dtool_first_child(blob, len, node, &child); some; some = dtool_next_sibling(blob, len, child, &child))
		walk(child);
}

static void damage(uint8_t *bytes)
{
	for (int n = rand() % 3; n >= 0; n--) {
		size_t at = rand() % 4 ? rand() % len : rand() % 64 % len;
		bytes[at] = rand() % 3 ? rand() : bytes[at] ^ 1 << rand() % 8;
	}
}

int main(int argc, char **argv)
{
	unsigned long runs = argc > 2 ? strtoul(argv[1], NULL, 10) : 0, accepted = 0, refused = 0;
	size_t page = sysconf(_SC_PAGESIZE);

	srand(7);
	for (int i = 2; i < argc; i++) {
		uint8_t *whole = load(argv[i], &len);
		size_t room = (len + page - 1) / page * page;
		uint8_t *base = mmap(NULL, room + page, PROT_READ | PROT_WRITE, MAP_PRIVATE | MAP_ANONYMOUS, -1, 0);
		if (base == MAP_FAILED || mprotect(base + room, page, PROT_NONE)) {
			perror("mmap");
			return 2;
		}
		uint8_t *bytes = base + room - len;
		blob = bytes;
		for (unsigned long run = 0; run < runs; run++) {
			struct dtool_fault fault, other;
			uint64_t word = run;
			memcpy(bytes, whole, len);
			damage(bytes);
			bool is_blob = dtool_check(blob, len, table, 512, &fault);
			if (dtool_check(blob, len, &word, 1, &other) != is_blob || (!is_blob && fault.number != other.number)) {
				printf("%s: run %lu: another answer with another table\n", argv[i], run);
				return 1;
			}
			if (is_blob) {
				accepted++;
				walk(dtool_root(blob, len));
			} else {
				refused++;
			}
		}
		munmap(base, room + page);
		free(whole);
	}
	printf("accepted %lu refused %lu nodes %lu sum %u\n", accepted, refused, walked, sum);
	return 0;
}
