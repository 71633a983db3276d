/* Prints the lines of `dtool regs BLOB` or `dtool irqs BLOB`, by the library: `lines regs|irqs BLOB`. */
#include "common.h"

static uint8_t *blob;
static size_t len;

static void put_number(uint64_t high, uint64_t low)
{
	if (high)
		printf("0x%llx%016llx", (unsigned long long)high, (unsigned long long)low);
	else
		printf("0x%llx", (unsigned long long)low);
}

static void put_path(size_t node)
{
	char path[20000];
	fputs(dtool_path(blob, len, node, path, sizeof path) ? path : "no room", stdout);
}

static bool put_region(size_t node, uint64_t index, struct dtool_fault *fault)
{
	struct dtool_region region;
	if (!dtool_region(blob, len, node, index, &region, fault))
		return false;
	put_path(node);
	printf(" %llu ", (unsigned long long)index);
	put_number(region.address_high, region.address_low);
	putchar(' ');
	put_number(region.size_high, region.size_low);
	puts(region.whole ? " whole" : " cut");
	return true;
}

static bool put_route(size_t node, uint64_t index, struct dtool_fault *fault)
{
	struct dtool_route route;
	if (!dtool_route(blob, len, node, index, &route, fault))
		return false;
	put_path(node);
	printf(" %llu ", (unsigned long long)index);
	put_path(route.controller);
	for (size_t i = 0; i < route.len; i++)
		printf(" 0x%x", route.cells[i]);
	printf(" hops %zu\n", route.hops);
	return true;
}

static bool has(size_t node, const char *name)
{
	struct dtool_span value;
	return dtool_value(blob, len, node, name, strlen(name), &value);
}

static void put_node(size_t node, bool regs)
{
	struct dtool_fault fault;
	for (uint64_t index = 0;; index++) {
		if (regs ? put_region(node, index, &fault) : put_route(node, index, &fault))
			continue;
		if (fault.number == (regs ? DTOOL_NO_REG : DTOOL_NO_INTERRUPTS))
			return;
		put_path(node);
		printf(" %llu fault %u %s\n", (unsigned long long)index, fault.number, dtool_fault_name(fault.number));
		if (!regs || fault.number == DTOOL_BAD_CELLS)
			return;
	}
}

static void walk(size_t node, bool regs)
{
	size_t child;
	if (regs ? has(node, "reg") : has(node, "interrupts") || has(node, "interrupts-extended"))
		put_node(node, regs);
	for (bool some = dtool_first_child(blob, len, node, &child); some; some = dtool_next_sibling(blob, len, child, &child))
		walk(child, regs);
}

int main(int argc, char **argv)
{
	struct dtool_fault fault;
	if (argc != 3)
		return 2;
	blob = load(argv[2], &len);
	if (!dtool_check(blob, len, table, WORDS, &fault)) {
		printf("fault %u %s\n", fault.number, dtool_fault_name(fault.number));
		return 1;
	}
	walk(dtool_root(blob, len), !strcmp(argv[1], "regs"));
	return 0;
}
