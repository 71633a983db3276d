/*
 * dtool.h: flattened devicetree blobs, checked once and then asked, and edited in a buffer.
 *
 * Each call is proved to answer what the flattened format says of these bytes (docs/PROMISES.md, "The library for C"). No call takes memory,
 * keeps a pointer, or has any state, so any number of threads may ask one blob.
 *
 * Every call but dtool_check has two conditions, which no call checks:
 *
 *   CHECKED  dtool_check accepted these bytes, all `len` of them, and none has changed since.
 *   NODE     A `node` that you pass is one that a call on these bytes gave you. Ask dtool_is_node about any other number.
 *
 * The edits at the end have a third:
 *
 *   EDITABLE dtool_open_into wrote the blob into this buffer, of all `room` bytes, and nothing but these edits has changed them since.
 *
 * Such a buffer is CHECKED as well: ask it, with `room` for `len`. An edit moves nodes: those that it says keep their numbers.
 *
 * A call that breaks one of them has undefined behaviour, as in C. So has a null pointer, even where a length is 0, and an output that overlaps
 * an input or another output. `table` is aligned as uint64_t is; nothing else has to be aligned. A file may be longer than its blob.
 *
 * A node is the offset of its first token in the blob: libfdt's offset plus fdt_off_dt_struct(blob). A call that returns false wrote `*fault`
 * where it has one, and no other output; a call that returns true wrote no fault.
 */
#ifndef DTOOL_H
#define DTOOL_H

#include <stdbool.h>
#include <stddef.h>
#include <stdint.h>

#ifdef __cplusplus
extern "C" {
#endif

/* Why a call has no answer. docs/faults.md has an entry for each. */
enum dtool_fault_number {
	DTOOL_LIMIT = 2,
	DTOOL_SHORT_HEADER = 40,
	DTOOL_BAD_MAGIC = 41,
	DTOOL_BAD_TOTAL = 42,
	DTOOL_BAD_VERSION = 43,
	DTOOL_MISALIGNED = 44,
	DTOOL_BLOCK_OUTSIDE = 45,
	DTOOL_NO_RESERVATION_END = 46,
	DTOOL_BAD_TAG = 47,
	DTOOL_STRUCTURE_CUT = 48,
	DTOOL_BAD_NAME = 49,
	DTOOL_BAD_NAME_OFFSET = 50,
	DTOOL_BAD_NESTING = 51,
	DTOOL_LATE_PROPERTY = 52,
	DTOOL_DUPLICATE = 53,
	DTOOL_BAD_END = 54,
	DTOOL_BLOB_PHANDLE = 55,
	DTOOL_NO_NODE = 70,
	DTOOL_NO_REG = 71,
	DTOOL_BAD_CELLS = 72,
	DTOOL_NOT_MAPPED = 73,
	DTOOL_NO_RANGES = 74,
	DTOOL_PCI_BUS = 75,
	DTOOL_OVERFLOW = 76,
	DTOOL_NO_INTERRUPTS = 80,
	DTOOL_NO_PARENT = 81,
	DTOOL_LOOP = 82,
	DTOOL_BAD_MAP = 83,
	DTOOL_NO_MAP_ENTRY = 84,
	DTOOL_NO_UNIT_ADDRESS = 85,
	DTOOL_UNKNOWN_PHANDLE = 86,
};

struct dtool_fault {
	uint32_t number;	/* an enum dtool_fault_number */
	bool has_place;
	size_t place;		/* the offset in the blob of the token that is wrong, where has_place is true */
};

/* Bytes of the blob: blob + at, and how many. */
struct dtool_span {
	size_t at, len;
};

struct dtool_property {
	struct dtool_span name, value;
};

struct dtool_counts {
	size_t nodes, properties, reservations;
};

struct dtool_reservation {
	uint64_t address, size;
};

/* A region as the CPU sees it. Its numbers have 128 bits: address_high and size_high are 0 where 64 are enough. */
struct dtool_region {
	uint64_t address_low, address_high, size_low, size_high;
	bool whole;		/* all of it is mapped to one place; else only its first byte is promised */
};

/* Where an interrupt, or another specifier, arrives: the first `len` of the cells, behind `hops` maps. */
struct dtool_route {
	size_t controller;	/* a node */
	uint32_t cells[8];
	size_t len, hops;
};

/*
 * Whether the bytes are a blob of version 17 (Devicetree Specification v0.4, chapter 5) within dtool's limits: 16 MiB, 65,536 nodes, 64 names in
 * a path. Else *fault is its first fault. `table` is at least one word; its values don't matter. Of 16,384 words (128 KiB) no more are used;
 * with fewer the tokens of a large blob are read more often, and 512 do for a board. Linear in `len`.
 */
bool dtool_check(const uint8_t *blob, size_t len, uint64_t *table, size_t words, struct dtool_fault *fault);

/* The root. Constant. */
size_t dtool_root(const uint8_t *blob, size_t len);

/* Whether a number is a node. Walks up to it. */
bool dtool_is_node(const uint8_t *blob, size_t len, size_t node);

/*
 * The node of a path: `/`, or each name behind a slash, with its unit address (`/soc/serial@30860000`). path_len excludes a NUL.
 * Faults: BAD_NAME where the text is no path's, NO_NODE where its path is no node's. Walks over earlier siblings on the way.
 */
bool dtool_node_at(const uint8_t *blob, size_t len, const char *path, size_t path_len, size_t *node, struct dtool_fault *fault);

/* The node above a node; false for the root. Walks from the root up to the node. */
bool dtool_parent(const uint8_t *blob, size_t len, size_t node, size_t *parent);

/* The child of a node by its whole name; false where it has none of that name. Walks over earlier children. */
bool dtool_child(const uint8_t *blob, size_t len, size_t node, const char *name, size_t name_len, size_t *child);

/* The first child of a node, and the sibling behind a node; false where there is none. They walk over properties, and over what is below. */
bool dtool_first_child(const uint8_t *blob, size_t len, size_t node, size_t *child);
bool dtool_next_sibling(const uint8_t *blob, size_t len, size_t node, size_t *sibling);

/* The node whose phandle is a number; false where none is. Walks up to it. */
bool dtool_by_phandle(const uint8_t *blob, size_t len, uint32_t number, size_t *node);

/* Where the name of a node lies; a NUL is behind it. The root's is empty. Constant. */
struct dtool_span dtool_name(const uint8_t *blob, size_t len, size_t node);

/*
 * Writes the path of a node with a NUL behind it; false where `room` bytes are too few, and then `out` may hold a part of it. A path has at
 * most 64 names of at most 255 bytes: 16,385 bytes are enough. Walks up to the node.
 */
bool dtool_path(const uint8_t *blob, size_t len, size_t node, char *out, size_t room);

/* Where the value of a property lies; false where the node has no property of that name. Walks over the node's earlier properties. */
bool dtool_value(const uint8_t *blob, size_t len, size_t node, const char *name, size_t name_len, struct dtool_span *value);

/* Where the property of a number, counted from 0, lies; a NUL is behind its name. False where the node has no more. */
bool dtool_property(const uint8_t *blob, size_t len, size_t node, uint64_t index, struct dtool_property *property);

/* How many nodes, properties and memory reservations there are. Linear in `len`. */
struct dtool_counts dtool_count(const uint8_t *blob, size_t len);

/* The memory reservation of a number, counted from 0; false where there are no more. */
bool dtool_reservation(const uint8_t *blob, size_t len, uint64_t index, struct dtool_reservation *reservation);

/* The header's boot_cpuid_phys. Constant. */
uint32_t dtool_boot_cpu(const uint8_t *blob, size_t len);

/*
 * The address at which the CPU reaches an entry of a node's `reg` (Devicetree Specification v0.4, 2.3). Faults: NO_REG (the node has no entry
 * of that index), BAD_CELLS, NOT_MAPPED, NO_RANGES, PCI_BUS, OVERFLOW.
 */
bool dtool_region(const uint8_t *blob, size_t len, size_t node, uint64_t index, struct dtool_region *region, struct dtool_fault *fault);

/* What a device reaches by DMA at an address of its bus, by `dma-ranges`. Faults: those of dtool_region. */
bool dtool_dma_region(const uint8_t *blob, size_t len, size_t node, uint64_t address_low, uint64_t address_high, uint64_t size_low,
		      uint64_t size_high, struct dtool_region *region, struct dtool_fault *fault);

/*
 * Where an interrupt of a node arrives (2.4). Faults: NO_INTERRUPTS (the node has none of that index), BAD_CELLS, NO_PARENT, LOOP, BAD_MAP,
 * NO_MAP_ENTRY, NO_UNIT_ADDRESS, UNKNOWN_PHANDLE.
 */
bool dtool_route(const uint8_t *blob, size_t len, size_t node, uint64_t index, struct dtool_route *route, struct dtool_fault *fault);

/* Where an entry of another list of specifiers arrives (2.5): property "clocks" and kind "clock", "led-gpios" and "gpio". Faults: as above. */
bool dtool_specifier_route(const uint8_t *blob, size_t len, size_t node, const char *property, size_t property_len, const char *kind,
			   size_t kind_len, uint64_t index, struct dtool_route *route, struct dtool_fault *fault);

/*
 * The same of the one entry that begins at a byte of the list (of interrupts-extended for an interrupt), whatever is before it. The two calls
 * above read each entry before the one that they are asked for, so none may be empty (phandle 0); these two let a caller go on behind an empty
 * entry, as Linux does. Faults: as above, of this entry alone; NO_INTERRUPTS where no cell begins at that byte.
 */
bool dtool_interrupt_at(const uint8_t *blob, size_t len, size_t node, uint64_t at, struct dtool_route *route, struct dtool_fault *fault);
bool dtool_specifier_at(const uint8_t *blob, size_t len, size_t node, const char *property, size_t property_len, const char *kind,
			size_t kind_len, uint64_t at, struct dtool_route *route, struct dtool_fault *fault);

/*
 * Copies a blob to the front of a buffer, its blocks one behind the other, where it can be edited. It reads as before. Fault: LIMIT where that
 * is longer than `room` or than 16 MiB. A refused call changes no byte of the buffer.
 */
bool dtool_open_into(const uint8_t *blob, size_t len, uint8_t *buffer, size_t room, struct dtool_fault *fault);

/*
 * Sets a property of a node: one that is there keeps its place, a new one goes last. The node, and each one with a smaller number, keep their
 * numbers. Faults: BAD_NAME (the name is none), BLOB_PHANDLE (a `phandle` that isn't a number from 1 to 0xfffffffe, or is another node's), LIMIT
 * (the blob would be longer than `room` or than 16 MiB). A refused call changes no byte of the buffer. `value` doesn't overlap it.
 */
bool dtool_set_prop(uint8_t *buffer, size_t room, size_t node, const char *name, size_t name_len, const uint8_t *value, size_t value_len,
		    struct dtool_fault *fault);

/*
 * Adds a child at the end of a node's children, and gives it. Each node with a number below the child's keeps its number. Faults: BAD_NAME,
 * DUPLICATE (the node has a child of that name), LIMIT (as above, or more than 64 names in a path, or 65,536 nodes). A refused call changes no
 * byte of the buffer.
 */
bool dtool_add_node(uint8_t *buffer, size_t room, size_t parent, const char *name, size_t name_len, size_t *node, struct dtool_fault *fault);

/*
 * Writes a number into a property's value, the highest byte first, at an offset of the value. No other byte changes, and each node keeps its
 * number. Faults: BAD_NAME, LIMIT (the node has no such property, or its value no four bytes at that offset), BLOB_PHANDLE (as above). A refused
 * call changes no byte of the buffer.
 */
bool dtool_patch_cell(uint8_t *buffer, size_t room, size_t node, const char *name, size_t name_len, size_t offset, uint32_t value,
		      struct dtool_fault *fault);

/* The name of a fault, as `dtool` prints it; "Unknown" for a number that no call gives. */
static inline const char *dtool_fault_name(uint32_t number)
{
	switch (number) {
	case DTOOL_LIMIT: return "Limit";
	case DTOOL_SHORT_HEADER: return "ShortHeader";
	case DTOOL_BAD_MAGIC: return "BadMagic";
	case DTOOL_BAD_TOTAL: return "BadTotal";
	case DTOOL_BAD_VERSION: return "BadVersion";
	case DTOOL_MISALIGNED: return "Misaligned";
	case DTOOL_BLOCK_OUTSIDE: return "BlockOutside";
	case DTOOL_NO_RESERVATION_END: return "NoReservationEnd";
	case DTOOL_BAD_TAG: return "BadTag";
	case DTOOL_STRUCTURE_CUT: return "StructureCut";
	case DTOOL_BAD_NAME: return "BadName";
	case DTOOL_BAD_NAME_OFFSET: return "BadNameOffset";
	case DTOOL_BAD_NESTING: return "BadNesting";
	case DTOOL_LATE_PROPERTY: return "LateProperty";
	case DTOOL_DUPLICATE: return "Duplicate";
	case DTOOL_BAD_END: return "BadEnd";
	case DTOOL_BLOB_PHANDLE: return "BlobPhandle";
	case DTOOL_NO_NODE: return "NoNode";
	case DTOOL_NO_REG: return "NoReg";
	case DTOOL_BAD_CELLS: return "BadCells";
	case DTOOL_NOT_MAPPED: return "NotMapped";
	case DTOOL_NO_RANGES: return "NoRanges";
	case DTOOL_PCI_BUS: return "PciBus";
	case DTOOL_OVERFLOW: return "Overflow";
	case DTOOL_NO_INTERRUPTS: return "NoInterrupts";
	case DTOOL_NO_PARENT: return "NoParent";
	case DTOOL_LOOP: return "Loop";
	case DTOOL_BAD_MAP: return "BadMap";
	case DTOOL_NO_MAP_ENTRY: return "NoMapEntry";
	case DTOOL_NO_UNIT_ADDRESS: return "NoUnitAddress";
	case DTOOL_UNKNOWN_PHANDLE: return "UnknownPhandle";
	default: return "Unknown";
	}
}

#ifdef __cplusplus
}
#endif

#endif
