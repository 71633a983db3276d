/*
 * Linked with -nostdlib -ffreestanding: the library needs three functions, which are here, and no start-up code. Checks the blob that the
 * assembler puts into the program (BLOB), and ends with the status 42 where the region of BLOB's /soc/uart is the one that it should be.
 */
#include "../dtool.h"

#define PATH "/soc/uart@1000"
#define ADDRESS 0x40001000

void *memcpy(void *to, const void *from, size_t n)
{
	for (size_t i = 0; i < n; i++)
		((char *)to)[i] = ((const char *)from)[i];
	return to;
}

void *memmove(void *to, const void *from, size_t n)
{
	if ((uintptr_t)to <= (uintptr_t)from)
		return memcpy(to, from, n);
	while (n--)
		((char *)to)[n] = ((const char *)from)[n];
	return to;
}

void *memset(void *to, int byte, size_t n)
{
	for (size_t i = 0; i < n; i++)
		((char *)to)[i] = byte;
	return to;
}

extern const uint8_t blob[], blob_end[];
__asm__(".section .rodata\n.balign 8\n.globl blob\nblob: .incbin \"" BLOB "\"\n.globl blob_end\nblob_end:\n.text\n");

static int answer(void)
{
	static uint64_t table[512];
	size_t len = blob_end - blob, node;
	struct dtool_fault fault;
	struct dtool_region region;

	if (!dtool_check(blob, len, table, 512, &fault) || !dtool_node_at(blob, len, PATH, sizeof PATH - 1, &node, &fault) ||
	    !dtool_region(blob, len, node, 0, &region, &fault))
		return fault.number;
	return region.address_low == ADDRESS && !region.address_high && region.whole ? 42 : 1;
}

#ifdef __x86_64__
__attribute__((force_align_arg_pointer))
#endif
void _start(void)
{
	long status = answer();
#ifdef __x86_64__
	__asm__ volatile("syscall" : : "a"(60), "D"(status));
#else
	register long number __asm__("x8") = 93;
	register long first __asm__("x0") = status;
	__asm__ volatile("svc 0" : : "r"(number), "r"(first));
#endif
	__builtin_unreachable();
}
