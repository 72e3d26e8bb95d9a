/* Which HTTP method a TCP payload begins with: 1 GET, 2 POST, 3 HEAD, 4 PUT, 5 DELETE, 0 none. Context: struct context,
 * whose packet is the payload.
 */
#include "filter.h"

static u64 method_of(u64 word);

u64 filter(const struct context *context, u64 size)
{
	u64 word = 0;

	if (context->length < 8)
		return 0;
	TIMES(i, 8)
		word = word << 8 | context->packet[i];
	return method_of(word);
}

static __attribute__((noinline)) u64 method_of(u64 word)
{
	if (word >> 32 == 0x47455420)
		return 1;
	if (word >> 24 == 0x504f535420)
		return 2;
	if (word >> 24 == 0x4845414420)
		return 3;
	if (word >> 32 == 0x50555420)
		return 4;
	if (word >> 8 == 0x44454c45544520)
		return 5;
	return 0;
}
