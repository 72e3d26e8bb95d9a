/* context 96 range 1 256: the last byte that isn't 0, or 300 */
#include "nat.h"
u64 prog(const u8 *ctx, u64 len)
{
	for (const u8 *p = ctx + len - 1; p >= ctx; p--)
		if (*p)
			return *p;
	return 300;
}
