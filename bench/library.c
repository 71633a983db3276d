/*
 * What bench/library.py measures: `library BLOB CALL COUNT` makes a call COUNT times, each time for the next node (or phandle) of the blob;
 * `library BLOB stack` prints how many bytes of the stack each call takes, by painting one.
 */
#include "../c/dtool.h"
#include <libfdt.h>
#include <stdio.h>
#include <stdlib.h>
#include <string.h>
#include <ucontext.h>

#define MOST 65536

static uint8_t *blob, *edited;
static size_t len, base, room, last;
static char *paths[MOST];
static size_t nodes[MOST];
static uint32_t phandles[MOST];
static int count, numbered;
static uint64_t table[16384];
static volatile size_t sink;

enum call { NONE, CHECK, CHECK_4K, NODE_AT, PARENT, BY_PHANDLE, VALUE, PROPERTY, NAME, PATH, ROOT, REGION, ROUTE, FDT_CHECK, FDT_NODE_AT,
	    FDT_PARENT, FDT_BY_PHANDLE, FDT_VALUE, FDT_PATH, FDT_NAME, CALLS };

static const char *const calls[CALLS] = {
	"none", "check-128k", "check-4k", "node_at", "parent", "by_phandle", "value", "property", "name", "path", "root", "region", "route",
	"fdt_check_full", "fdt_path_offset", "fdt_parent_offset", "fdt_node_offset_by_phandle", "fdt_getprop", "fdt_get_path", "fdt_get_name",
};

static size_t make(enum call call, int i)
{
	struct dtool_fault fault;
	struct dtool_span span;
	struct dtool_property property;
	struct dtool_region region;
	struct dtool_route route;
	static char text[20000];
	size_t found = 0;
	int n = i % count, size;

	switch (call) {
	case CHECK: return dtool_check(blob, len, table, 16384, &fault);
	case CHECK_4K: return dtool_check(blob, len, table, 512, &fault);
	case NODE_AT: return dtool_node_at(blob, len, paths[n], strlen(paths[n]), &found, &fault) + found;
	case PARENT: return dtool_parent(blob, len, nodes[n], &found) + found;
	case BY_PHANDLE: return dtool_by_phandle(blob, len, phandles[i % numbered], &found) + found;
	case VALUE: return dtool_value(blob, len, nodes[n], "compatible", 10, &span);
	case PROPERTY: return dtool_property(blob, len, nodes[n], 0, &property);
	case NAME: return dtool_name(blob, len, nodes[n]).at;
	case PATH: return dtool_path(blob, len, nodes[n], text, sizeof text);
	case ROOT: return dtool_root(blob, len);
	case REGION: return dtool_region(blob, len, nodes[n], 0, &region, &fault);
	case ROUTE: return dtool_route(blob, len, nodes[n], 0, &route, &fault);
	case FDT_CHECK: return fdt_check_full(blob, len);
	case FDT_NODE_AT: return fdt_path_offset(blob, paths[n]);
	case FDT_PARENT: return fdt_parent_offset(blob, nodes[n] - base);
	case FDT_BY_PHANDLE: return fdt_node_offset_by_phandle(blob, phandles[i % numbered]);
	case FDT_VALUE: return fdt_getprop(blob, nodes[n] - base, "compatible", &size) != NULL;
	case FDT_PATH: return fdt_get_path(blob, nodes[n] - base, text, sizeof text);
	case FDT_NAME: return fdt_get_name(blob, nodes[n] - base, &size) != NULL;
	default: return 0;
	}
}

static uint8_t painted[1 << 20] __attribute__((aligned(64)));
static ucontext_t whole, part;
static const char *measured;

static void measure(void)
{
	struct dtool_fault fault;
	struct dtool_span span;
	struct dtool_region region;
	struct dtool_route route;
	static char text[20000];
	size_t found;

	switch (measured[0]) {
	case 'c': dtool_check(blob, len, table, 512, &fault); break;
	case 'n': dtool_node_at(blob, len, paths[count - 1], strlen(paths[count - 1]), &found, &fault); break;
	case 'b': dtool_by_phandle(blob, len, phandles[numbered - 1], &found); break;
	case 'p': dtool_parent(blob, len, nodes[count - 1], &found); break;
	case 'v': dtool_value(blob, len, nodes[0], "compatible", 10, &span); break;
	case 't': dtool_path(blob, len, nodes[count - 1], text, sizeof text); break;
	case 'r':
		for (size_t n = 0; n < count; n++)
			dtool_region(blob, len, nodes[n], 0, &region, &fault);
		break;
	case 'd':
		for (size_t n = 0; n < count; n++)
			dtool_dma_region(blob, len, nodes[n], 0, 0, 1, 0, &region, &fault);
		break;
	case 'i':
		for (size_t n = 0; n < count; n++)
			dtool_route(blob, len, nodes[n], 0, &route, &fault);
		break;
	case 'k':
		for (size_t n = 0; n < count; n++)
			dtool_specifier_route(blob, len, nodes[n], "clocks", 6, "clock", 5, 0, &route, &fault);
		break;
	case 'o': dtool_open_into(blob, len, edited, room, &fault); break;
	case 's': dtool_set_prop(edited, room, last, "phandle", 7, (const uint8_t *)"\0\0\xff\xff", 4, &fault); break;
	case 'a': dtool_add_node(edited, room, last, "child", 5, &found, &fault); break;
	case 'w': dtool_patch_cell(edited, room, dtool_root(edited, room), "#address-cells", 14, 0, 2, &fault); break;
	}
}

static void stack(void)
{
	static const char *const stacks[] = {
		"check", "node_at", "by_phandle", "parent", "value", "text of the path", "region", "dma_region", "interrupt's route",
		"kind's specifier", "open_into", "set_prop", "add_node",
		"write of a cell",
	};
	struct dtool_fault fault;

	room = len + 4096;
	edited = calloc(room, 1);
	dtool_open_into(blob, len, edited, room, &fault);
	dtool_node_at(edited, room, paths[count - 1], strlen(paths[count - 1]), &last, &fault);
	for (volatile size_t i = 0; i < 2 * sizeof stacks / sizeof *stacks; i++) {
		volatile size_t at = 0;
		measured = stacks[i % (sizeof stacks / sizeof *stacks)];
		memset(painted, 0x5a, sizeof painted);
		getcontext(&part);
		part.uc_stack.ss_sp = painted;
		part.uc_stack.ss_size = sizeof painted;
		part.uc_link = &whole;
		makecontext(&part, measure, 0);
		swapcontext(&whole, &part);
		while (at < sizeof painted && painted[at] == 0x5a)
			at++;
		/* The first round is for the linker, which takes some stack of its own at a first call. */
		if (i >= sizeof stacks / sizeof *stacks)
			printf("%-20s %6zu bytes of stack\n", measured, sizeof painted - at);
	}
}

int main(int argc, char **argv)
{
	FILE *stream = argc > 2 ? fopen(argv[1], "rb") : NULL;
	char path[20000];
	int depth = 0;

	if (!stream || fseek(stream, 0, SEEK_END))
		return 2;
	len = ftell(stream);
	rewind(stream);
	blob = malloc(len);
	if (fread(blob, 1, len, stream) != len)
		return 2;
	base = fdt_off_dt_struct(blob);
	for (int offset = 0; offset >= 0 && depth >= 0 && count < MOST; offset = fdt_next_node(blob, offset, &depth)) {
		uint32_t number = fdt_get_phandle(blob, offset);
		fdt_get_path(blob, offset, path, sizeof path);
		nodes[count] = base + offset;
		paths[count++] = strdup(path);
		if (number)
			phandles[numbered++] = number;
	}
	if (!strcmp(argv[2], "size"))
		printf("%zu %d %d\n", len, count, numbered);
	else if (!strcmp(argv[2], "stack"))
		stack();
	else {
		int call = 0, times = atoi(argv[3]);
		while (call < CALLS && strcmp(argv[2], calls[call]))
			call++;
		for (int i = 0; i < times; i++)
			sink += make(call, i);
	}
	return 0;
}
