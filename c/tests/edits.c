/*
 * Edits some blobs by the library and by libfdt, in the same random steps: `edits STEPS BLOB..`. The bytes are checked anew behind each step, and
 * the two trees are compared behind the last one, whatever the order of siblings and properties: libfdt puts new ones first. Ends with a line of
 * counts. The status is 1 where something differs.
 */
#include "common.h"
#include <libfdt.h>

static unsigned long set, added, patched, refused, differences;
static const char *file;
static uint8_t *own, *other;
static size_t room;
static uint32_t state;

static uint32_t any(uint32_t below)
{
	state = state * 1664525 + 1013904223;
	return (state >> 8) % below;
}

static void want(bool fact, const char *what)
{
	if (!fact && differences++ < 20)
		printf("%s: not: %s\n", file, what);
}

/* A node that a walk from the root down comes to. */
static size_t any_node(void)
{
	size_t node = dtool_root(own, room), next;
	for (;;) {
		if (!any(4) || !dtool_first_child(own, room, node, &next))
			return node;
		node = next;
		while (any(4) && dtool_next_sibling(own, room, node, &next))
			node = next;
	}
}

static void step(unsigned long number)
{
	static const char *const names[] = { "reg", "status", "compatible", "a", "interrupts", "tus", "patible" };
	struct dtool_fault fault;
	char path[20000], name[40];
	uint8_t value[64];
	size_t node = any_node(), child, len = any(sizeof value);

	want(dtool_path(own, room, node, path, sizeof path), "a path");
	int offset = fdt_path_offset(other, path);
	if (any(3)) {
		if (any(3))
			snprintf(name, sizeof name, "%s", names[any(sizeof names / sizeof *names)]);
		else
			snprintf(name, sizeof name, "new-%u", any(50));
		for (size_t i = 0; i < len; i++)
			value[i] = any(256);
		set++;
		want(dtool_set_prop(own, room, node, name, strlen(name), value, len, &fault), "a property set");
		want(!fdt_setprop(other, offset, name, value, len), "a property set by libfdt");
		struct dtool_span span;
		want(dtool_value(own, room, node, name, strlen(name), &span) && span.len == len && !memcmp(own + span.at, value, len), "its value");
	} else {
		snprintf(name, sizeof name, "new@%lx", any(10) ? number : 0);
		bool there = dtool_child(own, room, node, name, strlen(name), &child);
		added++;
		bool done = dtool_add_node(own, room, node, name, strlen(name), &child, &fault);
		want(done != there, "a node added unless it is there");
		want(done || fault.number == DTOOL_DUPLICATE, "the fault of one that is there");
		int result = fdt_add_subnode(other, offset, name);
		want(done == (result >= 0), "a node added by libfdt");
		if (done) {
			size_t found;
			want(dtool_child(own, room, node, name, strlen(name), &found) && found == child, "the node that was answered");
		}
	}
	want(dtool_check(own, room, table, WORDS, &fault), "a blob");
}

/* A cell of one of a node's properties, at any offset that it has and beyond. A phandle stays what it is. */
static void patch(void)
{
	struct dtool_fault fault;
	struct dtool_property property;
	char path[20000], name[40];
	size_t node = any_node();
	if (!dtool_property(own, room, node, any(4), &property) || property.name.len >= sizeof name)
		return;
	snprintf(name, sizeof name, "%s", (const char *)own + property.name.at);
	if (!strcmp(name, "phandle"))
		return;
	size_t offset = any(property.value.len + 2);
	uint32_t number = any(0xffffff), cell = cpu_to_fdt32(number);
	bool fits = offset + 4 <= property.value.len;
	uint8_t *before = malloc(room);
	memcpy(before, own, room);
	patched += fits;
	want(dtool_path(own, room, node, path, sizeof path), "a path");
	want(dtool_patch_cell(own, room, node, name, strlen(name), offset, number, &fault) == fits, "a cell patched where there is one");
	want(fits || fault.number == DTOOL_LIMIT, "the fault of one that isn't there");
	if (fits) {
		want(!fdt_setprop_inplace_namelen_partial(other, fdt_path_offset(other, path), name, strlen(name), offset, &cell, 4), "a cell patched by libfdt");
		memcpy(before + property.value.at + offset, &cell, 4);
	}
	want(!memcmp(before, own, room), "no other byte");
	free(before);
}

static void compare_below(size_t node)
{
	char path[20000];
	size_t child;
	struct dtool_property property;
	want(dtool_path(own, room, node, path, sizeof path), "a path");
	int offset = fdt_path_offset(other, path), size;
	for (uint64_t index = 0; dtool_property(own, room, node, index, &property); index++) {
		const void *value = fdt_getprop(other, offset, (const char *)own + property.name.at, &size);
		want(value && (size_t)size == property.value.len && !memcmp(own + property.value.at, value, size), "the value that libfdt has");
	}
	for (bool is = dtool_first_child(own, room, node, &child); is; is = dtool_next_sibling(own, room, child, &child))
		compare_below(child);
}

static void compare(void)
{
	struct dtool_counts counts = dtool_count(own, room);
	size_t nodes = 0, properties = 0;
	for (int at = 0; at >= 0; at = fdt_next_node(other, at, NULL)) {
		nodes++;
		for (int p = fdt_first_property_offset(other, at); p >= 0; p = fdt_next_property_offset(other, p))
			properties++;
	}
	want(counts.nodes == nodes && counts.properties == properties, "as many nodes and properties");
	compare_below(dtool_root(own, room));
}

/* Calls that are refused change nothing. */
static void refuse(const uint8_t *blob, size_t len)
{
	struct dtool_fault fault;
	uint32_t total = fdt_totalsize(own);
	uint8_t *before = malloc(room);
	size_t root = dtool_root(own, room), child;
	memcpy(before, own, room);
	refused++;
	want(!dtool_set_prop(own, total, root, "one-more-name", 13, before, 4, &fault) && fault.number == DTOOL_LIMIT, "no room for a property");
	want(!dtool_add_node(own, total + 11, root, "one-more", 8, &child, &fault) && fault.number == DTOOL_LIMIT, "no room for a node");
	want(!dtool_set_prop(own, room, root, "a/b", 3, before, 4, &fault) && fault.number == DTOOL_BAD_NAME, "a property's name");
	want(!dtool_add_node(own, room, root, "a/b", 3, &child, &fault) && fault.number == DTOOL_BAD_NAME, "a node's name");
	want(!dtool_set_prop(own, room, root, "phandle", 7, before, 3, &fault) && fault.number == DTOOL_BLOB_PHANDLE, "a phandle");
	want(!dtool_patch_cell(own, room, root, "a/b", 3, 0, 1, &fault) && fault.number == DTOOL_BAD_NAME, "a patched property's name");
	want(!dtool_patch_cell(own, room, root, "not-there", 9, 0, 1, &fault) && fault.number == DTOOL_LIMIT, "no property to be patched");
	size_t numbered;
	if (dtool_by_phandle(own, room, 1, &numbered))
		want(!dtool_patch_cell(own, room, numbered, "phandle", 7, 0, 0, &fault) && fault.number == DTOOL_BLOB_PHANDLE, "a phandle of 0");
	want(!memcmp(before, own, room), "the same bytes");
	memset(before, 1, room);
	want(!dtool_open_into(blob, len, before, 40, &fault) && fault.number == DTOOL_LIMIT && before[0] == 1, "no room for a blob");
	free(before);
}

int main(int argc, char **argv)
{
	unsigned long steps = argc > 1 ? strtoul(argv[1], NULL, 10) : 0;
	for (int i = 2; i < argc; i++) {
		struct dtool_fault fault;
		size_t len;
		file = argv[i];
		uint8_t *blob = load(file, &len);
		room = len + 200 * steps + 1000;
		own = malloc(room);
		other = malloc(room);
		state = i;
		if (!dtool_check(blob, len, table, WORDS, &fault) || !dtool_open_into(blob, len, own, room, &fault) || fdt_open_into(blob, other, room)) {
			printf("%s: no blob\n", file);
			return 1;
		}
		for (unsigned long number = 0; number < steps; number++) {
			step(number);
			patch();
		}
		compare();
		refuse(blob, len);
		free(blob);
		free(own);
		free(other);
	}
	printf("set %lu added %lu patched %lu refused %lu differences %lu\n", set, added, patched, refused, differences);
	return differences != 0;
}
