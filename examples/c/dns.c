/* Whether a UDP payload asks the DNS for a name that ends in the label "test": the number of the query's labels,
 * or 0. Context: struct context, whose packet is the payload of UDP (the DNS message itself).
 */
#include "filter.h"

u64 filter(const struct context *context, u64 size)
{
	const u8 *message = context->packet;
	u64 at = 12, labels = 0, last = 0;

	if (context->length < 17 || message[2] & 0x80 || word_at(message, 4) != 1)
		return 0;
	TIMES(turn, 24) {
		u64 count;

		HIDE(at);
		if (at > sizeof context->packet - 5)
			return 0;
		count = message[at];
		if (count == 0)
			return last == 0x74657374 ? labels : 0;
		if (count > 63)
			return 0;
		last = 0;
		if (count == 4)
			last = (u64)message[at + 1] << 24 | (u64)message[at + 2] << 16 | (u64)message[at + 3] << 8 | message[at + 4];
		at += 1 + count;
		labels += 1;
	}
	return 0;
}
