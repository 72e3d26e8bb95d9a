/* The rate class of an IPv4 packet, from 0 to 7, by a hash of its addresses and ports, so that all packets of one flow
 * fall into one class. Context: struct context.
 */
#include "filter.h"

u64 filter(const struct context *context, u64 size)
{
	const u8 *packet = context->packet;
	u32 hash = 2166136261u;

	if (word_at(packet, 12) != 0x0800)
		return 0;
	TIMES(i, 12) {
		hash ^= packet[26 + i];
		hash *= 16777619u;
	}
	hash ^= hash >> 16;
	return hash & 7;
}
