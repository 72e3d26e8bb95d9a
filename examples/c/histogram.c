/* How many different values the bytes of a packet's room have in their upper four bits, from 1 to 16, and in the next byte the count
 * of the most frequent. Context: struct context.
 */
#include "filter.h"

u64 filter(const struct context *context, u64 size)
{
	volatile u8 counts[16] = { 0, 0, 0, 0, 0, 0, 0, 0, 0, 0, 0, 0, 0, 0, 0, 0 };
	u64 different = 0, most = 0;

	TIMES(i, sizeof context->packet) {
		u64 kind = context->packet[i] >> 4;

		CELL(counts, kind) = CELL(counts, kind) + 1;
	}
	TIMES(k, 16) {
		u64 found = CELL(counts, k);

		if (found != 0)
			different += 1;
		if (found > most)
			most = found;
	}
	return most << 8 | different;
}
