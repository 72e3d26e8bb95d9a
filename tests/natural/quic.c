/* context 64 range 7 256: a long header of QUIC: its version, and the lengths of both connection ids */
#include "nat.h"
static const u8 *behind_id(const u8 *p, const u8 *end, u8 *size)
{
	if (p >= end)
		return 0;
	*size = *p++;
	if (*size > 20 || p + *size > end)
		return 0;
	return p + *size;
}
u64 prog(const u8 *ctx, u64 len)
{
	const u8 *p = ctx, *end = ctx + len;
	u8 to = 0, from = 0;
	u32 version;
	if (len < 7 || !(p[0] & 0x80))
		return 0;
	version = (u32)p[1] << 24 | p[2] << 16 | p[3] << 8 | p[4];
	p = behind_id(p + 5, end, &to);
	if (!p)
		return 1;
	p = behind_id(p, end, &from);
	if (!p)
		return 2;
	return (u64)version << 16 | to << 8 | from;
}
