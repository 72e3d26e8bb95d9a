/* context 64 range 4 256: the sum of the words, by four bytes where the packet lies at a multiple of four, else by bytes */
#include "nat.h"
u64 prog(const u8 *ctx, u64 len)
{
	u64 sum = 0, i;
	if (((u64)ctx & 3) == 0) {
		for (i = 0; i + 4 <= len; i += 4)
			sum += *(const u32 *)(ctx + i);
		return sum;
	}
	for (i = 0; i + 4 <= len; i += 4)
		sum += ctx[i] | ctx[i + 1] << 8 | ctx[i + 2] << 16 | (u64)ctx[i + 3] << 24;
	return sum;
}
