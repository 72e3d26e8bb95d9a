/* context 200 range 1 512: FNV-1a of the host name in a ClientHello of TLS, or 0 */
#include "nat.h"
struct reader { const u8 *p; u64 at, end; };
INLINE u32 take(struct reader *r, int count)
{
	u32 value = 0;
	if (r->at + count > r->end) {
		r->at = r->end + 1;
		return 0;
	}
	while (count--)
		value = value << 8 | r->p[r->at++];
	return value;
}
u64 prog(const u8 *ctx, u64 len)
{
	struct reader r = { ctx, 0, len };
	u64 extensions;
	if (take(&r, 1) != 22)
		return 0;
	r.at += 4;
	if (take(&r, 1) != 1)
		return 0;
	r.at += 3 + 2 + 32;
	r.at += take(&r, 1);
	r.at += take(&r, 2);
	r.at += take(&r, 1);
	extensions = take(&r, 2);
	if (r.at + extensions < r.end)
		r.end = r.at + extensions;
	while (r.at + 4 <= r.end) {
		u32 type = take(&r, 2), size = take(&r, 2);
		if (type == 0) {
			u64 hash = 0xcbf29ce484222325ull;
			u32 count;
			r.at += 3;
			count = take(&r, 2);
			for (u32 i = 0; i < count && r.at < r.end; i++)
				hash = (hash ^ r.p[r.at++]) * 0x100000001b3ull;
			return hash;
		}
		r.at += size;
	}
	return 0;
}
