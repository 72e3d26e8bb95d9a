/* Whether a packet is IPv4 with TCP to port 443: 1 yes, 0 no. Context: struct context, 128 bytes. */
#include "filter.h"

u64 filter(const struct context *context, u64 size)
{
	const u8 *packet = context->packet;
	u64 header, port;

	if (context->length < 38 || word_at(packet, 12) != 0x0800)
		return 0;
	if (packet[14] >> 4 != 4 || packet[23] != 6)
		return 0;
	if (word_at(packet, 20) & 0x1fff)
		return 0; /* not the first fragment */
	header = HEADER_LENGTH(packet[14]);
	if (header < 20 || 14 + header + 4 > context->length)
		return 0;
	port = word_at(packet + 14 + header, 2);
	return port == 443;
}
