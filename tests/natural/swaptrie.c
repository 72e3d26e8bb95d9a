/* context 192 range 192 192: the host's table in front of the packet: a binary trie of 32 nodes, by the address at byte 30 of the packet */
#include "nat.h"
struct node { u8 left, right; u16 value; };
struct table { struct node nodes[32]; u8 packet[64]; };
u64 prog(const u8 *ctx, u64 len)
{
	const struct table *table = (const void *)ctx;
	u32 to = ntohl(*(const u32 *)(table->packet + 30));
	u32 at = 0, best = 0;
	for (int bit = 31; bit >= 0; bit--) {
		const struct node *node = &table->nodes[at];
		if (node->value)
			best = node->value;
		at = to >> bit & 1 ? node->right : node->left;
		if (at == 0 || at >= 32)
			break;
	}
	return best;
}
