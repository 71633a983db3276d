/*
 * Asks the library and libfdt the same questions about each node and each property of some blobs: `compare BLOB..`. Prints what differs, and
 * ends with a line of counts. The status is 1 where something differs.
 */
#include "common.h"
#include <libfdt.h>

static unsigned long nodes, properties, phandles, differences;
static const char *file;
static const uint8_t *blob;
static size_t len;
static char path[20000];

#define WANT(fact)                                                                          \
	do {                                                                                \
		if (!(fact) && differences++ < 20)                                          \
			printf("%s: %s: not: %s\n", file, *path ? path : "/", #fact);     \
	} while (0)

static bool is(struct dtool_span span, const void *bytes, int wanted)
{
	return span.len == (size_t)wanted && span.at + span.len <= len && !memcmp(blob + span.at, bytes, span.len);
}

static void compare_properties(int offset, size_t node)
{
	struct dtool_property property;
	struct dtool_span value;
	uint64_t index = 0;
	for (int at = fdt_first_property_offset(blob, offset); at >= 0; at = fdt_next_property_offset(blob, at)) {
		const char *name;
		int size;
		const void *wanted = fdt_getprop_by_offset(blob, at, &name, &size);
		properties++;
		WANT(dtool_value(blob, len, node, name, strlen(name), &value) && is(value, wanted, size));
		WANT(dtool_property(blob, len, node, index++, &property));
		WANT(is(property.name, name, strlen(name)) && !blob[property.name.at + property.name.len]);
		WANT(is(property.value, wanted, size) && blob + property.value.at == (const uint8_t *)wanted);
	}
	WANT(!dtool_property(blob, len, node, index, &property));
	WANT(!dtool_value(blob, len, node, "no-such-property", 16, &value));
}

static void compare_node(int offset)
{
	size_t base = fdt_off_dt_struct(blob), node = base + offset, found;
	struct dtool_fault fault;
	char text[20000];
	int wanted, size;

	nodes++;
	if (fdt_get_path(blob, offset, path, sizeof path))
		WANT(!"a path");
	WANT(dtool_is_node(blob, len, node) && !dtool_is_node(blob, len, node + 1));
	WANT(dtool_node_at(blob, len, path, strlen(path), &found, &fault) && found == node);
	WANT(dtool_path(blob, len, node, text, sizeof text) && !strcmp(text, path));
	WANT(!dtool_path(blob, len, node, text, strlen(path)));
	wanted = fdt_parent_offset(blob, offset);
	WANT(dtool_parent(blob, len, node, &found) ? wanted >= 0 && found == base + wanted : wanted < 0);
	wanted = fdt_first_subnode(blob, offset);
	WANT(dtool_first_child(blob, len, node, &found) ? wanted >= 0 && found == base + wanted : wanted < 0);
	wanted = offset ? fdt_next_subnode(blob, offset) : -1;
	WANT(dtool_next_sibling(blob, len, node, &found) ? wanted >= 0 && found == base + wanted : wanted < 0);
	const char *name = fdt_get_name(blob, offset, &size);
	WANT(is(dtool_name(blob, len, node), name, size));
	wanted = fdt_parent_offset(blob, offset);
	if (wanted >= 0)
		WANT(dtool_child(blob, len, base + wanted, name, size, &found) && found == node);
	compare_properties(offset, node);
	if (fdt_getprop(blob, offset, "phandle", NULL)) {
		uint32_t number = fdt_get_phandle(blob, offset);
		phandles++;
		WANT(dtool_by_phandle(blob, len, number, &found));
		WANT(found == base + fdt_node_offset_by_phandle(blob, number));
	}
}

static void compare(void)
{
	struct dtool_fault fault;
	struct dtool_reservation pair;
	unsigned long before_nodes = nodes, before_properties = properties;
	int depth = 0, count = fdt_num_mem_rsv(blob);

	*path = 0;
	if (!dtool_check(blob, len, table, WORDS, &fault)) {
		WANT(!"accepted");
		return;
	}
	WANT(dtool_root(blob, len) == fdt_off_dt_struct(blob));
	WANT(dtool_boot_cpu(blob, len) == fdt_boot_cpuid_phys(blob));
	for (int offset = 0; offset >= 0 && depth >= 0; offset = fdt_next_node(blob, offset, &depth))
		compare_node(offset);
	struct dtool_counts counts = dtool_count(blob, len);
	WANT(counts.nodes == nodes - before_nodes && counts.properties == properties - before_properties);
	WANT(counts.reservations == (size_t)count);
	for (int i = 0; i < count; i++) {
		uint64_t address, size;
		WANT(!fdt_get_mem_rsv(blob, i, &address, &size));
		WANT(dtool_reservation(blob, len, i, &pair) && pair.address == address && pair.size == size);
	}
	WANT(!dtool_reservation(blob, len, count, &pair));
}

int main(int argc, char **argv)
{
	for (int i = 1; i < argc; i++) {
		file = argv[i];
		uint8_t *bytes = load(file, &len);
		blob = bytes;
		compare();
		free(bytes);
	}
	printf("blobs %d nodes %lu properties %lu phandles %lu differences %lu\n", argc - 1, nodes, properties, phandles, differences);
	return differences != 0;
}
