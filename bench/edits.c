/*
 * Edits a blob by path, by the library or by libfdt: `edits dtool|libfdt set|add|patch|none STEPS BLOB`. bench/edits.py counts what it takes.
 * `set` sets properties, half of them new or longer than before; `add` adds nodes; `patch` writes the first cell of `compatible`, where a node has it.
 */
#include "../c/tests/common.h"
#include <libfdt.h>

#define PATCHED "compatible"

static char paths[4096][256];
static size_t count;
static bool sets, patches;

/* The paths of the blob's nodes, to edit in turn. */
static void list(const uint8_t *blob, size_t len, size_t node)
{
	struct dtool_span span;
	size_t child;
	if (count == sizeof paths / sizeof *paths || !dtool_path(blob, len, node, paths[count], sizeof *paths))
		return;
	count += !patches || (dtool_value(blob, len, node, PATCHED, strlen(PATCHED), &span) && span.len >= 4);
	for (bool is = dtool_first_child(blob, len, node, &child); is; is = dtool_next_sibling(blob, len, child, &child))
		list(blob, len, child);
}

static bool step_by_dtool(uint8_t *buffer, size_t room, const char *path, unsigned long step)
{
	struct dtool_fault fault;
	uint8_t value[24] = { step };
	size_t node, child;
	char name[40];
	if (!dtool_node_at(buffer, room, path, strlen(path), &node, &fault))
		return false;
	if (patches)
		return dtool_patch_cell(buffer, room, node, PATCHED, strlen(PATCHED), 0, step, &fault);
	if (sets) {
		const char *key = step % 2 ? "status" : "new-property";
		return dtool_set_prop(buffer, room, node, key, strlen(key), value, 4 + step % 20, &fault);
	}
	snprintf(name, sizeof name, "new@%lx", step);
	return dtool_add_node(buffer, room, node, name, strlen(name), &child, &fault);
}

static bool step_by_libfdt(uint8_t *buffer, const char *path, unsigned long step)
{
	uint8_t value[24] = { step };
	char name[40];
	int node = fdt_path_offset(buffer, path);
	if (patches) {
		fdt32_t cell = cpu_to_fdt32(step);
		return !fdt_setprop_inplace_namelen_partial(buffer, node, PATCHED, strlen(PATCHED), 0, &cell, sizeof cell);
	}
	if (sets)
		return !fdt_setprop(buffer, node, step % 2 ? "status" : "new-property", value, 4 + step % 20);
	snprintf(name, sizeof name, "new@%lx", step);
	return fdt_add_subnode(buffer, node, name) >= 0;
}

int main(int argc, char **argv)
{
	struct dtool_fault fault;
	size_t len;
	if (argc != 5)
		return 2;
	bool own = !strcmp(argv[1], "dtool");
	sets = !strcmp(argv[2], "set");
	patches = !strcmp(argv[2], "patch");
	unsigned long steps = strcmp(argv[2], "none") ? strtoul(argv[3], NULL, 10) : 0;
	uint8_t *blob = load(argv[4], &len);
	size_t room = len + 200 * strtoul(argv[3], NULL, 10) + 1000;
	uint8_t *buffer = calloc(room, 1);
	if (!dtool_check(blob, len, table, WORDS, &fault))
		return 1;
	list(blob, len, dtool_root(blob, len));
	if (own ? !dtool_open_into(blob, len, buffer, room, &fault) : fdt_open_into(blob, buffer, room))
		return 1;
	for (unsigned long step = 0; step < steps; step++) {
		const char *path = paths[step * 7919 % count];
		if (own ? !step_by_dtool(buffer, room, path, step) : !step_by_libfdt(buffer, path, step))
			return 1;
	}
	return 0;
}
