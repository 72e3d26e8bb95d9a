/* context 128 range 1 256: FNV-1a of all bytes, by a pointer that walks to the end */
#include "nat.h"
u64 prog(const u8 *ctx, u64 len)
{
	u64 hash = 0xcbf29ce484222325ull;
	for (const u8 *p = ctx, *end = ctx + len; p < end; p++)
		hash = (hash ^ *p) * 0x100000001b3ull;
	return hash;
}
