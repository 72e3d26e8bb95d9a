/* context 160 range 38 256: how many option lengths are above what a port leaves */
#include "nat.h"
u64 prog(const u8 *ctx, u64 len)
{
	u16 port;
	u64 at = 38, n = 0;
	u32 left;
	if (len < 38)
		return 0;
	port = ntohs(*(const u16 *)(ctx + 36));
	left = port;
	while (at + 1 < len) {
		u32 take = left;
		if (ctx[at + 1] > take) {
			n += take;
			at += 2;
			left = port;
		} else {
			left = take - ctx[at + 1];
			at += 2 + ctx[at + 1];
		}
	}
	return n;
}
