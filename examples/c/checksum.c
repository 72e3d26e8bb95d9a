/* Whether the checksum of an IPv4 header is right: 1 yes, 0 no. Context: struct context, whose packet begins with the
 * IPv4 header.
 */
#include "filter.h"

u64 filter(const struct context *context, u64 size)
{
	const u8 *header = context->packet;
	u64 words = (header[0] & 15) * 2, sum = 0;

	if (words < 10 || words * 2 > context->length)
		return 0;
	TIMES(i, 30) {
		if (i >= words)
			break;
		sum += word_at(header, 2 * i);
	}
	sum = (sum & 0xffff) + (sum >> 16);
	sum = (sum & 0xffff) + (sum >> 16);
	return sum == 0xffff;
}
