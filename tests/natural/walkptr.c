/* context 100 range 1 256: the internet checksum of all bytes, by pointers */
#include "nat.h"
u64 prog(const u8 *ctx, u64 len)
{
	const u8 *p = ctx, *end = ctx + len;
	u32 sum = 0;
	while (p + 1 < end) {
		sum += p[0] << 8 | p[1];
		p += 2;
	}
	if (p < end)
		sum += *p << 8;
	while (sum >> 16)
		sum = (sum & 0xffff) + (sum >> 16);
	return (u16)~sum;
}
